import json
from wsgiref.simple_server import make_server

def greeting(environ, start_response):
    question = json.loads(environ["wsgi.input"].read(int(environ["CONTENT_LENGTH"])))
    visitor = question.get("fields", {}).get("visitor")
    message = f"GOOD MORNING, {visitor}" if visitor else "WHO ARE YOU?"
    content = json.dumps({"message": message}).encode()
    start_response("200 OK", [("Content-Length", str(len(content)))])
    return [content]

make_server("127.0.0.1", 8080, greeting).serve_forever()
