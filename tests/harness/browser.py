"""A browser's end of a WebSocket (RFC 6455), and requests (RFC 9112): what a page sends, and what it
gets. python3's own library and nothing else."""
import base64
import contextlib
import hashlib
import os
import socket
import struct
from collections.abc import Iterator

from harness.case import Difference
from harness.hosts import LOCALHOST, PATIENCE

GUID = b"258EAFA5-E914-47DA-95CA-C5AB0DC85B11"
TEXT, BINARY, CLOSE, PING, PONG = 1, 2, 8, 9, 10


def requested(port, head, pause=None) -> tuple[int, dict[str, str], bytes]:
    """The response to these bytes, up to its end: status, fields and body."""
    with socket.create_connection((LOCALHOST, port), PATIENCE) as it:
        it.sendall(head)
        data = b""
        with contextlib.suppress(ConnectionResetError):
            while piece := it.recv(65536):
                data += piece
    lines, _, body = data.partition(b"\r\n\r\n")
    status, *fields = lines.decode().split("\r\n")
    named = (it.partition(": ") for it in fields)
    return int(status.split()[1]), {name.lower(): value for name, _, value in named}, body


def get(port, target="/", method="GET", **fields):
    """A request's head. A field of None is left out; one may be a list of values."""
    fields = {"Host": f"{LOCALHOST}:{port}", **{k.replace("_", "-"): v for k, v in fields.items()}}
    lines = [
        f"{name}: {it}"
        for name, values in fields.items() if values is not None
        for it in (values if isinstance(values, list) else [values])
    ]
    return "\r\n".join([f"{method} {target} HTTP/1.1", *lines, "", ""]).encode()


def handshake(port, key="dGhlIHNhbXBsZSBub25jZQ==", **fields):
    """The head of a handshake, section 4.1."""
    return get(
        port,
        "/terminal",
        **{
            "Origin": f"http://{LOCALHOST}:{port}",
            "Upgrade": "websocket",
            "Connection": "keep-alive, Upgrade",
            "Sec-WebSocket-Version": "13",
            "Sec-WebSocket-Key": key,
            **fields,
        },
    )


def frame(opcode, payload=b"", final=True, mask=b"\x37\xfa\x21\x3d"):
    """A frame of a client, section 5.2; without a mask if that is empty."""
    size = len(payload)
    head = bytes([0x80 * final | opcode])
    bit = 0x80 if mask else 0
    if size < 126:
        head += bytes([bit | size])
    elif size < 65536:
        head += bytes([bit | 126]) + struct.pack(">H", size)
    else:
        head += bytes([bit | 127]) + struct.pack(">Q", size)
    masked = bytes(it ^ mask[place % 4] for place, it in enumerate(payload)) if mask else payload
    return head + mask + masked


class Page:
    """A page's WebSocket, after the handshake."""

    def __init__(self, port, source=LOCALHOST, **fields):
        self.socket = socket.create_connection((LOCALHOST, port), PATIENCE, (source, 0))
        key = base64.b64encode(os.urandom(16)).decode()
        self.socket.sendall(handshake(port, key, **fields))
        self.rest = b""
        while b"\r\n\r\n" not in self.rest:
            self.rest += self.more()
        head, _, self.rest = self.rest.partition(b"\r\n\r\n")
        accept = base64.b64encode(hashlib.sha1(key.encode() + GUID).digest()).decode()
        if not head.startswith(b"HTTP/1.1 101 ") or accept not in head.decode():
            raise Difference("the handshake is accepted", head.decode())

    def more(self):
        data = self.socket.recv(65536)
        if not data:
            raise Difference("more of the stream", "its end")
        return data

    def take(self, count):
        while len(self.rest) < count:
            self.rest += self.more()
        data, self.rest = self.rest[:count], self.rest[count:]
        return data

    def send(self, opcode, payload=b"", **how):
        self.socket.sendall(frame(opcode, payload, **how))

    def keys(self, data):
        self.send(BINARY, data)

    def receive(self) -> tuple[int, bytes]:
        """The next frame: a server's is whole, and has no mask (section 5.1)."""
        first, size = self.take(2)
        if first & 0x70 or not first & 0x80 or size & 0x80:
            raise Difference("a whole frame without a mask", f"{first:02X} {size:02X}")
        if size == 126:
            [size] = struct.unpack(">H", self.take(2))
        elif size == 127:
            [size] = struct.unpack(">Q", self.take(8))
        return first & 15, self.take(size)

    def messages(self) -> Iterator[tuple[int, bytes]]:
        """The frames up to the close, with pings answered."""
        while True:
            opcode, payload = self.receive()
            if opcode == PING:
                self.send(PONG, payload)
            else:
                yield opcode, payload
            if opcode == CLOSE:
                return

    def ending(self) -> tuple[str, int]:
        """The last text, and the code of the close frame that ends the stream."""
        messages = list(self.messages())
        texts = [payload.decode() for opcode, payload in messages if opcode == TEXT]
        return (texts or [""])[-1], int.from_bytes(messages[-1][1][:2], "big")

    def closing(self) -> int:
        """The code of the close frame, after whatever was sent before it."""
        return self.ending()[1]

    def told(self, word) -> str:
        """The words after this one in the text that begins with it."""
        for opcode, payload in self.messages():
            if opcode == TEXT and payload.decode().partition(" ")[0] == word:
                return payload.decode().partition(" ")[2]
        raise Difference(f"a text {word}", "the end")

    def close(self):
        self.socket.close()
