"""Links of three miners on one machine that hold back what they carry: each piece of bytes takes its time to be sent, one after another, and then its way."""
import contextlib
import queue
import socket
import threading
import time

PIECE = 1 << 16
LISTENS = {(1, 2): 1, (1, 3): 1, (2, 3): 2}
BETWEEN_MINERS = 10


def port_of(pair, port):
    """The port at which a pair of miners meets, by the port that a miner is given."""
    return port + sum(pair) - 3


def ports_of_miners(port):
    """A first port for each miner, so far apart that no two miners have a port in common."""
    return {miner: port + BETWEEN_MINERS * (miner - 1) for miner in (1, 2, 3)}


class SlowLinks:
    """Three links that lead on what comes to the port of the miner that connects to that of the one that listens. A piece is on its way for `delay` seconds, and
    takes `of_byte` seconds for each byte before that."""

    def __init__(self, host, port, delay, of_byte=0.0):
        self.host, self.delay, self.of_byte = host, delay, of_byte
        self.ports, self.open = ports_of_miners(port), []

    def __enter__(self):
        for pair, listener in LISTENS.items():
            comer = sum(pair) - listener
            server = socket.create_server((self.host, port_of(pair, self.ports[comer])))
            self.open.append(server)
            self.begin(self.take, server, port_of(pair, self.ports[listener]))
        return self

    def __exit__(self, *_):
        for one in self.open:
            # (so that a thread that waits for it goes on)
            with contextlib.suppress(OSError):
                one.shutdown(socket.SHUT_RDWR)
            one.close()

    @staticmethod
    def begin(work, *words):
        threading.Thread(target=work, args=words, daemon=True).start()

    def take(self, server, port):
        """Leads each stream that comes on, and back."""
        with contextlib.suppress(OSError):
            while True:
                comer, _ = server.accept()
                listener = self.reach(port)
                self.open += [comer, listener]
                for source, target in ((comer, listener), (listener, comer)):
                    source.setsockopt(socket.IPPROTO_TCP, socket.TCP_NODELAY, 1)
                    under_way = queue.SimpleQueue()
                    self.begin(self.receive, source, under_way)
                    self.begin(self.hand_on, target, under_way)

    def reach(self, port):
        """A stream to who listens at a port, once somebody does."""
        while True:
            try:
                return socket.create_connection((self.host, port))
            except ConnectionRefusedError:
                time.sleep(0.01)

    def receive(self, source, under_way):
        """Notes of each piece when it has come."""
        free = 0.0
        with contextlib.suppress(OSError):
            while data := source.recv(PIECE):
                free = max(time.monotonic(), free) + self.of_byte * len(data)
                under_way.put((free + self.delay, data))
        under_way.put((max(time.monotonic(), free) + self.delay, b""))

    def hand_on(self, target, under_way):
        """Hands each piece on when it has come, and the end after the last."""
        with contextlib.suppress(OSError):
            while True:
                due, data = under_way.get()
                time.sleep(max(0.0, due - time.monotonic()))
                if not data:
                    target.shutdown(socket.SHUT_WR)
                    return
                target.sendall(data)
