"""The links of a miner to its two peers, over TCP on this machine."""
from __future__ import annotations

import socket
import time
from collections.abc import Callable

from node import BadMessage, Node
from refusals import CallRefused
from wire import HEADER_SIZE, HELLO_SIZE, BadFrame, Hello, frame, read_header, read_hello, read_words

HOST = "127.0.0.2"
PATIENCE = 60.0


class LinkFault(Exception):
    """A link could not be joined, or has ended."""


def port_of(one: int, other: int, port: int) -> int:
    return port + one + other - 3


def listener(port: int) -> socket.socket:
    found = socket.socket()
    found.setsockopt(socket.SOL_SOCKET, socket.SO_REUSEADDR, 1)
    found.bind((HOST, port))
    found.listen(8)
    found.settimeout(PATIENCE)
    return found


def reach(port: int, patience: float = PATIENCE) -> socket.socket:
    """A stream to who listens on this port, or will soon."""
    until = time.monotonic() + patience
    while True:
        try:
            stream = socket.create_connection((HOST, port), PATIENCE)
            stream.setsockopt(socket.IPPROTO_TCP, socket.TCP_NODELAY, 1)
            return stream
        except OSError:
            if time.monotonic() > until:
                raise LinkFault from None
            time.sleep(0.005)


def join(me: int, port: int) -> dict[int, socket.socket]:
    """The streams to both peers: all ports are bound before a lower peer is reached."""
    try:
        listeners = {peer: listener(port_of(me, peer, port)) for peer in range(me + 1, 4)}
        streams = {peer: reach(port_of(peer, me, port)) for peer in range(1, me)}
        for peer, one in listeners.items():
            streams[peer] = one.accept()[0]
            streams[peer].settimeout(PATIENCE)
            one.close()
        return streams
    except OSError:
        raise LinkFault from None


class Peers:
    """Two joined streams: hellos first, then frames."""

    def __init__(self, me: int, streams: dict[int, socket.socket]):
        self.me, self.streams = me, streams

    def write(self, peer: int, data: bytes):
        try:
            self.streams[peer].sendall(data)
        except OSError:
            raise LinkFault from None

    def read(self, peer: int, count: int) -> bytes:
        """Just so many bytes."""
        data = bytearray()
        while len(data) < count:
            try:
                piece = self.streams[peer].recv(count - len(data))
            except OSError:
                raise LinkFault from None
            if not piece:
                raise LinkFault
            data += piece
        return bytes(data)

    def greet(self, hello: Hello) -> str | None:
        """Sends both hellos and reads both, the lower peer's first: the first field that differs."""
        others = sorted(self.streams)
        for peer in others:
            self.write(peer, hello.to(peer).data())
        for peer in others:
            theirs = read_hello(self.read(peer, HELLO_SIZE))
            found = hello.to(peer).answer().first_difference(theirs)
            if found:
                return found
        return None

    def send(self, peer: int, words: list[int]):
        self.write(peer, frame(words))

    def receive(self, peer: int) -> list[int]:
        count = read_header(self.read(peer, HEADER_SIZE))
        return read_words(self.read(peer, 8 * count))

    def close(self):
        for stream in self.streams.values():
            try:
                stream.shutdown(socket.SHUT_WR)
            except OSError:
                pass
            stream.close()


def text_of_a_run(peers: Peers, hello: Hello, node: Callable[[Peers], Node]) -> tuple[str, int]:
    """The text of a miner, and its status, once both peers have greeted it; or the refusal of what came."""
    try:
        found = peers.greet(hello)
        if found:
            raise CallRefused(f"N2 {found}", 11)
        return node(peers).text()
    except LinkFault:
        raise CallRefused("link", 10) from None
    except BadFrame as bad:
        raise CallRefused(f"N3 place {bad.place}", 11) from None
    except BadMessage as bad:
        raise CallRefused(str(bad), 11) from None
