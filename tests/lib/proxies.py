"""Proxies on loopback, one for what a member sends to a peer, which lose, delay, repeat, reorder and cut connections."""

import collections
import contextlib
import random
import socket
import struct
import threading
import time

from lib.members import received

# For how long a proxy waits for either side, in seconds.
LONGEST = 8

# What becomes of a connection in each weather, and how often among the others.
WEATHERS = {
    "fair": {"pass_on": 1},
    "storm": {"pass_on": 16, "lose": 4, "swallow": 2, "delay": 5, "repeat": 3, "cut": 4, "drip": 2, "hold": 2},
    "apart": {"lose": 4, "hold": 1},
}


def reset(stream):
    """Has the close of a connection say that something is wrong."""
    stream.setsockopt(socket.SOL_SOCKET, socket.SO_LINGER, struct.pack("ii", 1, 0))


class Proxy:
    """A port at which a member meets a peer.

    What it sends on a connection is passed on to the peer's own port, as the weather wants it: connections that are
    delayed come behind later ones. `taken(generation, data)` is called with what the peer surely took, all of it read in
    less than `sure` seconds, and the generation that the peer had before.
    """

    def __init__(self, peer, seed, sure, taken):
        self.peer, self.sure, self.taken = peer, sure, taken
        self.draw = random.Random(seed)
        self.weather = "fair"
        self.fates, self.threads = collections.Counter(), []
        self.listener = socket.create_server(("127.0.0.1", 0), backlog=256)
        self.port = self.listener.getsockname()[1]
        threading.Thread(target=self.accept, daemon=True).start()

    def close(self):
        self.listener.shutdown(socket.SHUT_RDWR)
        self.listener.close()

    def accept(self):
        while True:
            try:
                stream, _ = self.listener.accept()
            except OSError:
                return
            chances = WEATHERS[self.weather]
            (fate,) = self.draw.choices(list(chances), chances.values())
            self.fates[fate] += 1
            thread = threading.Thread(target=self.meet, args=(stream, fate, self.draw.random()), daemon=True)
            thread.start()
            self.threads = [*filter(threading.Thread.is_alive, self.threads), thread]

    def meet(self, stream, fate, chance):
        """Gives a connection its fate; a chance of 0 to 1 says how much of it."""
        with contextlib.suppress(OSError), stream:
            stream.settimeout(LONGEST)
            getattr(self, fate)(stream, chance)

    def give(self, pieces, broken=False):
        """Passes pieces on, as a connection that ends well or that breaks."""
        begun, generation, data = time.monotonic(), self.peer.generation, b""
        with socket.create_connection(("127.0.0.1", self.peer.port), timeout=LONGEST) as stream:
            for piece in pieces:
                stream.sendall(piece)
                data += piece
            if broken:
                reset(stream)
                return
            stream.shutdown(socket.SHUT_WR)
            if stream.recv(1) == b"" and time.monotonic() - begun < self.sure:
                self.taken(generation, data)

    def pass_on(self, stream, _):
        self.give(iter(lambda: stream.recv(65536), b""))

    def lose(self, stream, chance):
        if chance < 0.5:
            reset(stream)

    def swallow(self, stream, _):
        received(stream)

    def delay(self, stream, chance):
        data = received(stream)
        time.sleep(3 * chance)
        self.give([data])

    def repeat(self, stream, chance):
        data = received(stream)
        self.give([data])
        time.sleep(chance)
        self.give([data])

    def cut(self, stream, chance):
        data = received(stream)
        self.give([data[: int(chance * len(data))]], broken=chance * 1000 % 2 < 1)

    def drip(self, stream, chance):
        self.give(self.drops(received(stream), 1 + int(30 * chance)))

    def drops(self, data, count):
        """The data in some pieces, with a pause before each."""
        size = len(data) // count + 1
        for at in range(0, len(data), size):
            time.sleep(0.02)
            yield data[at : at + size]

    def hold(self, stream, chance):
        time.sleep(4 * chance)
