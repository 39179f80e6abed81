"""A network between a client and a server, which can be slow, be cut, and keeps what passed."""
import contextlib
import socket
import struct
import threading

from harness.hosts import LOCALHOST, PATIENCE

# What waits for the network to go on looks again after so many seconds.
LOOK = 0.02


class Link:
    """A connection through a network: the bytes that came from the client (`up`) and from the
    server (`down`)."""

    def __init__(self, client, server):
        self.ends = {"up": (client, server), "down": (server, client)}
        self.came = {"up": b"", "down": b""}
        self.is_cut, self.users, self.lock = False, len(self.ends), threading.Lock()

    def cuts(self):
        """Both ends see that the connection is over."""
        with self.lock:
            for it, _ in self.ends.values() if not self.is_cut else ():
                with contextlib.suppress(OSError):
                    it.shutdown(socket.SHUT_RDWR)
            self.is_cut = True

    def leaves(self):
        """A thread uses it no more. The last one closes the sockets, as those of a connection that
        failed."""
        with self.lock:
            self.users -= 1
            for it, _ in self.ends.values() if self.users == 0 else ():
                with contextlib.suppress(OSError):
                    it.setsockopt(socket.SOL_SOCKET, socket.SO_LINGER, struct.pack("ii", 1, 0))
                it.close()


class Network:
    """Listens at a port, and connects each client to another one. While it is held, nothing passes;
    while it is down, no client is connected."""

    def __init__(self, to):
        self.to, self.links, self.port = to, [], 0
        self.passes = threading.Event()
        self.passes.set()
        self.comes_up()

    def __enter__(self):
        return self

    def __exit__(self, *_):
        self.goes_down()

    def comes_up(self):
        self.listener = socket.create_server((LOCALHOST, self.port))
        self.port = self.listener.getsockname()[1]
        threading.Thread(target=self.serves, args=(self.listener,), daemon=True).start()

    def goes_down(self):
        """Each connection fails, and connecting is refused."""
        # A close alone would leave the thread in its call, and the port open.
        with contextlib.suppress(OSError):
            self.listener.shutdown(socket.SHUT_RDWR)
        self.listener.close()
        self.cuts()

    def serves(self, listener):
        with contextlib.suppress(OSError):
            while True:
                client, _ = listener.accept()
                self.connects(client)

    def connects(self, client):
        try:
            server = socket.create_connection((LOCALHOST, self.to), PATIENCE)
        except OSError:
            return client.close()
        server.settimeout(None)
        link = Link(client, server)
        self.links.append(link)
        for way in link.ends:
            threading.Thread(target=self.hands_on, args=(link, way), daemon=True).start()

    def hands_on(self, link, way):
        one, other = link.ends[way]
        with contextlib.suppress(OSError):
            other.setsockopt(socket.IPPROTO_TCP, socket.TCP_NODELAY, 1)
            while piece := one.recv(1 << 16):
                link.came[way] += piece
                while not self.passes.wait(LOOK) and not link.is_cut:
                    pass
                if link.is_cut:
                    break
                other.sendall(piece)
        # One end is over: so is the other.
        link.cuts()
        link.leaves()

    def holds(self):
        self.passes.clear()

    def opens(self):
        self.passes.set()

    def cuts(self):
        """Each connection fails."""
        for link in self.links:
            link.cuts()
        self.passes.set()
