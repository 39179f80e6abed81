"""Values that the probe prints by Debug."""
import re

TOKEN = re.compile(r'"(?:[^"\\]|\\.)*"|[\w.:-]+|[{}()\[\],]')


class Reader:
    """Reads a value: a word, or a name with its parts, by their names or numbers."""

    def __init__(self, text: str) -> None:
        self.tokens = TOKEN.findall(text)

    def parts(self, end: str) -> dict:
        found = {}
        while self.tokens[0] != end:
            named = self.tokens[0].endswith(":") and self.tokens[0] != "::"
            name = self.tokens.pop(0)[:-1] if named else str(len(found))
            found[name] = self.value()
            if self.tokens[0] == ",":
                self.tokens.pop(0)
        self.tokens.pop(0)
        return found

    def value(self) -> tuple[str, dict]:
        name = "" if self.tokens[0] == "[" else self.tokens.pop(0)
        end = {"{": "}", "(": ")", "[": "]"}.get(self.tokens[0] if self.tokens else "")
        if not end:
            return name, {}
        self.tokens.pop(0)
        return name, self.parts(end)


def plain(value: tuple[str, dict]):
    """A value without the names of types: what is in it, if that is one; None for `None`."""
    name, parts = value
    if name == "None":
        return None
    if name == "Lu":
        letters = [int(letter) for letter, _ in parts["letters"][1].values()]
        return bytes(letters[: int(parts["size"][0])]).decode()
    found = {part: plain(it) for part, it in parts.items()}
    if not found:
        return name.strip('"')
    return next(iter(found.values())) if len(found) == 1 else found


def variant(text: str) -> tuple[str, dict]:
    """The name of an enum's variant, and what is in its parts."""
    name, parts = Reader(text).value()
    return name, {part: plain(it) for part, it in parts.items()}
