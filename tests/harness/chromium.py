"""Drives Chromium over the pipe of its DevTools protocol. python3's own library and nothing else."""
import base64
import contextlib
import json
import os
import shutil
import signal
import subprocess
import tempfile
import threading
import time

from harness.case import Difference, NotHere

NAMES = ("chromium", "chromium-browser", "google-chrome")
WORDS = ("--headless=new", "--no-sandbox", "--disable-gpu", "--no-first-run")
SHIFT, ALT, CTRL = 8, 1, 2
# A call's answer, and what a page is waited for, in seconds.
PATIENCE = 60


def installed() -> str:
    for name in NAMES:
        if found := shutil.which(name):
            return found
    raise NotHere("Chromium isn't installed: apt-get install chromium")


class Chromium:
    """A browser with one page. `sent` has the payloads of the frames that the page sent."""

    def __init__(self, url, size="1200,900"):
        self.profile = tempfile.TemporaryDirectory(ignore_cleanup_errors=True)
        to_read, self.to = os.pipe()
        self.back, to_write = os.pipe()

        def begin():
            os.dup2(to_read, 3)
            os.dup2(to_write, 4)

        self.process = subprocess.Popen(
            [installed(), *WORDS, f"--window-size={size}", f"--user-data-dir={self.profile.name}",
             "--remote-debugging-pipe", "about:blank"],
            preexec_fn=begin, pass_fds=(3, 4, to_read, to_write), start_new_session=True,
            stdin=subprocess.DEVNULL, stdout=subprocess.DEVNULL, stderr=subprocess.DEVNULL,
        )
        os.close(to_read)
        os.close(to_write)
        self.last, self.session, self.answers, self.events = 0, None, {}, []
        self.changed = threading.Condition()
        threading.Thread(target=self.listen, daemon=True).start()
        targets = self.call("Target.getTargets")["targetInfos"]
        page = next(it["targetId"] for it in targets if it["type"] == "page")
        self.session = self.call("Target.attachToTarget", targetId=page, flatten=True)["sessionId"]
        for domain in ("Page", "Runtime", "Log", "Network"):
            self.call(domain + ".enable")
        self.call("Page.navigate", url=url)

    def __enter__(self):
        return self

    def __exit__(self, *_):
        with contextlib.suppress(ProcessLookupError):
            os.killpg(self.process.pid, signal.SIGKILL)
        self.process.wait()
        self.profile.cleanup()

    def listen(self):
        rest = b""
        while data := os.read(self.back, 65536):
            *whole, rest = (rest + data).split(b"\0")
            with self.changed:
                for message in map(json.loads, whole):
                    if "id" in message:
                        self.answers[message["id"]] = message
                    else:
                        self.events.append(message)
                self.changed.notify_all()

    def call(self, method, **given):
        self.last += 1
        number, message = self.last, {"id": self.last, "method": method, "params": given}
        if self.session:
            message["sessionId"] = self.session
        os.write(self.to, json.dumps(message).encode() + b"\0")
        with self.changed:
            if not self.changed.wait_for(lambda: number in self.answers, PATIENCE):
                raise Difference(f"an answer to {method}", "none")
            answer = self.answers.pop(number)
        if "error" in answer:
            raise Difference(f"{method} is done", answer["error"])
        return answer["result"]

    def value(self, script):
        """The value of an expression in the page."""
        answer = self.call("Runtime.evaluate", expression=script, returnByValue=True)
        if "exceptionDetails" in answer:
            raise Difference("a value", answer["exceptionDetails"])
        return answer["result"].get("value")

    def until(self, what, holds):
        end = time.monotonic() + PATIENCE
        while time.monotonic() < end:
            if found := holds():
                return found
            time.sleep(0.05)
        raise Difference(what, "\n".join(self.rows()))

    # ---- the page

    def rows(self):
        """The text of each row of the document."""
        return self.value("[...document.querySelectorAll('#screen div')].map(it => it.textContent)")

    def cursor(self):
        """The row and the column of the cursor, from 0."""
        return self.value("""(() => {
          const it = document.querySelector('#screen .cursor'), row = it.closest('#screen > div');
          const before = document.createRange();
          before.setStart(row, 0);
          before.setEndBefore(it);
          return [[...row.parentNode.children].indexOf(row), [...before.toString()].length];
        })()""")

    def status(self):
        """The status row."""
        return self.rows()[-1]

    def state(self):
        """What the page says of its connection, or of the last key."""
        return self.value("document.getElementById('state')?.textContent ?? ''")

    def says(self, text):
        self.until(f"the page says {text}", lambda: text in self.state())

    def announces(self, text):
        said = "document.getElementById('said').textContent"
        self.until(f"the page announces {text}", lambda: text in self.value(said))

    def nodes(self):
        """The accessibility tree: the role, the name and the value of each node that isn't ignored."""
        self.call("Accessibility.enable")
        nodes = self.call("Accessibility.getFullAXTree")["nodes"]
        part = lambda node, name: node.get(name, {}).get("value", "")
        return [
            (part(it, "role"), part(it, "name"), str(part(it, "value")))
            for it in nodes if not it["ignored"]
        ]

    def shows(self, text):
        self.until(f"a page with {text}", lambda: any(text in it for it in self.rows()))

    def sent(self):
        """The payloads of the binary messages that the page sent."""
        frames = [
            it["params"]["response"]
            for it in list(self.events) if it["method"] == "Network.webSocketFrameSent"
        ]
        return [base64.b64decode(it["payloadData"]) for it in frames if it["opcode"] == 2]

    def complaints(self):
        """What the browser logged as errors: exceptions, and violations of the policy."""
        return [
            it["params"] for it in list(self.events)
            if it["method"] == "Runtime.exceptionThrown"
            or it["method"] == "Log.entryAdded" and it["params"]["entry"]["source"] == "security"
        ]

    # ---- the operator

    def key(self, key, code=None, text=None, modifiers=0, **more):
        given = {"key": key, "code": code or key, "modifiers": modifiers, **more}
        down = {"type": "keyDown", "text": text} if text else {"type": "rawKeyDown"}
        self.call("Input.dispatchKeyEvent", **given, **down)
        self.call("Input.dispatchKeyEvent", **given, type="keyUp")

    def types(self, text):
        for letter in text:
            self.key(letter, text=letter)

    def place(self, row, column):
        """Where a cell of the screen is."""
        return self.value(f"""(() => {{
          const rows = document.querySelectorAll('#screen div');
          const box = document.getElementById('screen').getBoundingClientRect();
          const columns = [...rows[0].textContent].length;
          return [box.left + box.width * ({column} + 0.5) / columns,
            box.top + box.height * ({row} + 0.5) / rows.length];
        }})()""")

    def mouse(self, kind, x, y):
        self.call("Input.dispatchMouseEvent", type=kind, x=x, y=y, button="left", clickCount=1)

    def click(self, row, column):
        """Clicks a cell of the screen."""
        for kind in ("mousePressed", "mouseReleased"):
            self.mouse(kind, *self.place(row, column))

    def drags(self, start, end):
        """Drags the mouse from one cell to another."""
        self.mouse("mousePressed", *self.place(*start))
        self.mouse("mouseMoved", *self.place(*end))
        self.mouse("mouseReleased", *self.place(*end))

    def presses(self, button):
        """Presses a button of the page."""
        self.value(
            "[...document.querySelectorAll('button')]"
            f".find(it => it.textContent === '{button}').click()"
        )

    def copies(self):
        """What Ctrl-C copies."""
        self.value("""copied = undefined;
          document.addEventListener('copy', it => copied = it.clipboardData.getData('text'))""")
        self.key("c", "KeyC", modifiers=CTRL, commands=["copy"])
        return self.value("copied")

    def pastes(self, text):
        self.value(f"""(() => {{
          const data = new DataTransfer();
          data.setData('text', {json.dumps(text)});
          document.dispatchEvent(new ClipboardEvent('paste',
            {{ clipboardData: data, bubbles: true, cancelable: true }}));
        }})()""")
