"""One miner of a run: it takes the steps of the code by its own shares and its own tape, and reads and sends messages where its part of a protocol does."""
from __future__ import annotations

from collections.abc import Callable

from clear import Input, Value, ValueType, shown
from code_file import Code
from code_meaning import CodeRun
from gates import INTERACTIVE, MASK, Gate, Kind, Ring, blocks_of, local_share, unpacked
from joint import bit, cross, next_of, previous_of
from shares import ShareFile
from tree import Data

Send = Callable[[int, list[int]], None]
Receive = Callable[[int], list[int]]


class BadMessage(Exception):
    """A message that the protocol doesn't take: its line."""


def inputs_of(share: ShareFile) -> tuple[list[Input], list[list[int]]]:
    """The inputs with zeros for private words, and the shares of these."""
    inputs, shares = [], []
    for entry in share.entries:
        private, data = entry["domain"] == "private", Data(entry["type"])
        if private:
            array = entry["shape"] != "scalar"
            words = [0] * (entry["shape"] if array else 1)
            shares.append(entry["share"])
        else:
            array = isinstance(entry["value"], list)
            words = [int(one) for one in (entry["value"] if array else [entry["value"]])]
        inputs.append(Input(entry["name"], ValueType(private, data, array), tuple(words)))
    return inputs, shares


class Protocols:
    """A miner's part of each protocol, on one block of shares."""

    def __init__(self, me: int, tape: list[int], send: Send, receive: Receive):
        self.me, self.before, self.behind = me, previous_of(me), next_of(me)
        self.tape, self.place, self.send, self.receive = tape, 0, send, receive

    def draw(self, letters: int, size: int) -> list[list[int]]:
        start = self.place
        self.place += letters * size
        return [self.tape[start + letter * size : start + (letter + 1) * size] for letter in range(letters)]

    def take(self, sender: int, fields: str, size: int) -> list[list[int]]:
        """The fields of the next message: `w` of any words, `b` of bits."""
        message, link = self.receive(sender), 10 * sender + self.me
        if len(message) != len(fields) * size:
            raise BadMessage(f"N4 link {link} want {len(fields) * size} have {len(message)}")
        for place, word in enumerate(message):
            if fields[place // size] == "b" and word > 1:
                raise BadMessage(f"N4 link {link} place {place} word {word}")
        return [message[field * size : (field + 1) * size] for field in range(len(fields))]

    def masked(self, ring: Ring, words: list[int], own: list[int], other: list[int]) -> list[int]:
        return [ring.subtract(ring.add(u, a), b) for u, a, b in zip(words, own, other)]

    def result(self, ring: Ring, size: int, u: list[int]) -> list[int]:
        (own,) = self.draw(1, size)
        self.send(self.behind, own)
        (other,) = self.take(self.before, "w", size)
        return self.masked(ring, u, own, other)

    def open(self, ring: Ring, size: int, u: list[int]) -> list[int]:
        """The opened words."""
        own = self.result(ring, size, u)
        self.send(self.behind, own)
        self.send(self.before, own)
        (first,) = self.take(self.before, "w", size)
        (second,) = self.take(self.behind, "w", size)
        return [ring.add(ring.add(x, y), z) for x, y, z in zip(own, first, second)]

    def multiply(self, ring: Ring, size: int, u: list[int], v: list[int]) -> list[int]:
        a, b, c = self.draw(3, size)
        self.send(self.behind, a + b + c)
        other_a, other_b, other_c = self.take(self.before, "www", size)
        u, v = self.masked(ring, u, a, other_a), self.masked(ring, v, b, other_b)
        self.send(self.behind, u + v)
        other_u, other_v = self.take(self.before, "ww", size)
        return self.masked(ring, cross(ring, u, v, other_u, other_v), c, other_c)

    def split(self, size: int, u: list[int], negated: bool) -> tuple[list[int], list[int]]:
        zeros = [0] * size
        if self.me == 1:
            (k,) = self.draw(1, size)
            self.send(2, k)
            self.send(3, [(x - y) & MASK for x, y in zip(u, k)])
            return zeros, zeros
        (k,) = self.take(1, "w", size)
        made = [(x + y) & MASK for x, y in zip(u, k)]
        if self.me == 2:
            return made, zeros
        return zeros, [-word & MASK for word in made] if negated else made

    def convert(self, size: int, u: list[int]) -> list[int]:
        if self.me == 1:
            b, e, m, own = self.draw(4, size)
            self.send(2, m + [bit(one) for one in e] + own)
            self.send(3, [(bit(x) ^ bit(y)) - z & MASK for x, y, z in zip(b, u, m)] + [bit(x ^ y) for x, y in zip(b, e)])
            (other,) = self.take(3, "w", size)
            return self.masked(Ring.ADDITIVE, [0] * size, own, other)
        (own,) = self.draw(1, size)
        if self.me == 2:
            m, e, other = self.take(1, "wbw", size)
            self.send(3, [bit(x ^ y) for x, y in zip(e, u)] + own)
            (rest,) = self.take(3, "b", size)
            turned = [bit(x ^ y ^ z) for x, y, z in zip(rest, e, u)]
            made = [1 - x & MASK if s else x for x, s in zip(m, turned)]
        else:
            self.send(1, own)
            f, both = self.take(1, "wb", size)
            self.send(2, [bit(x ^ y) for x, y in zip(both, u)])
            rest, other = self.take(2, "bw", size)
            turned = [bit(x ^ y ^ z) for x, y, z in zip(both, rest, u)]
            made = [-x & MASK if s else x for x, s in zip(f, turned)]
        return self.masked(Ring.ADDITIVE, made, own, other)


class Node(CodeRun):
    """A run of code by one miner; a value is opened with the others, and its words are the answer."""

    def __init__(self, code: Code, share: ShareFile, tape: list[int], budget: int, send: Send, receive: Receive):
        inputs, self.dealt = inputs_of(share)
        super().__init__(code, inputs, budget, share.lengths, [])
        self.protocols = Protocols(share.miner, tape, send, receive)
        self.values: dict[int, list[int]] = {}
        self.done, self.lines = 0, []

    def answer(self, value: Value) -> tuple[int, ...]:
        words = tuple(self.run_gates())
        if value.type.data is Data.TRUTH:
            words = tuple(unpacked(words, len(value.words)))
        self.lines.append(" ".join(["open", *shown(value.type.data, words)]))
        return words

    def publish(self, name: str, value: Value) -> None:
        super().publish(name, value)
        if value.type.private:
            kind = [value.type.data.value] if value.type.data.is_number else ["bool", str(len(value.words))]
            self.lines.append(" ".join(["share", name, *kind, *map(str, self.run_gates())]))
        else:
            self.lines.append(" ".join(["publish", name, *shown(value.type.data, value.words)]))

    def run_gates(self) -> list[int]:
        """Does what was made since; the words of the last gate, which opens or hands over."""
        words: list[int] = []
        while self.done < len(self.made.gates):
            gate = self.made.gates[self.done]
            self.done += 1
            words = self.gate(gate)
        return words

    def gate(self, gate: Gate) -> list[int]:
        if gate.kind is Kind.INPUT:
            self.values[gate.result] = self.dealt[gate.extra[0]]
            return []
        operands = [self.values[number] for number in gate.operands]
        if gate.kind not in INTERACTIVE:
            self.values[gate.result] = local_share(gate, operands, self.protocols.me)
            return []
        made: list[int] = []
        second: list[int] = []
        for begin, end in blocks_of(gate.size):
            cut = [operand[begin:end] for operand in operands]
            if gate.kind is Kind.SPLIT:
                first, other = self.protocols.split(end - begin, cut[0], bool(gate.extra[0]))
                made, second = made + first, second + other
            else:
                made = made + self.block(gate, end - begin, cut)
        self.values[gate.result] = made
        if gate.kind is Kind.SPLIT:
            self.values[gate.result + 1] = second
        return made

    def block(self, gate: Gate, size: int, operands: list[list[int]]) -> list[int]:
        if gate.kind is Kind.MULTIPLY:
            return self.protocols.multiply(gate.ring, size, *operands)
        if gate.kind is Kind.CONVERT:
            return self.protocols.convert(size, operands[0])
        protocol = self.protocols.open if gate.kind is Kind.OPEN else self.protocols.result
        return protocol(gate.ring, size, operands[0])

    def text(self) -> tuple[str, int]:
        """Runs to the end: the miner's text, and the status."""
        report = self.report()
        self.run_gates()
        return "".join(line + "\n" for line in [*self.lines, report.end_line()]), report.end.status

