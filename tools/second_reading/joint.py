"""The joint run of three miners on a list of gates, the maps of tapes, and the simulated miner and client."""
from __future__ import annotations

from dataclasses import dataclass
from enum import Enum, auto

from clear import Input
from gates import INTERACTIVE, MASK, Gate, Kind, Ring, blocks_of, local_share

LINKS = (12, 13, 21, 23, 31, 32)
# Who looks, in the place of a miner's number.
CLIENT = 0


def next_of(miner: int) -> int:
    return miner % 3 + 1


def previous_of(miner: int) -> int:
    return (miner + 1) % 3 + 1


def link(sender: int, receiver: int) -> int:
    return 10 * sender + receiver


@dataclass
class BlockPlace:
    """A block of a gate: its elements, where each miner's words begin, and the operands' shares of the three miners."""

    gate: Gate
    size: int
    starts: list[int]
    operands: list[list[list[int]]]


class Direction(Enum):
    """From real tapes to the simulator's, or back."""

    TO_SIMULATOR = auto()
    FROM_SIMULATOR = auto()


def bit(word: int) -> int:
    return word & 1


def map_block(miner: int, direction: Direction, place: BlockPlace, source: list[list[int]], target: list[list[int]]):
    """Writes into the target what a block's slots hold there, by the source's words and the shares."""
    if miner == CLIENT:
        if place.gate.kind is Kind.RESULT:
            map_result(direction, place, source, target)
        return
    before, behind = previous_of(miner), next_of(miner)
    kind, ring, size, starts = place.gate.kind, place.gate.ring, place.size, place.starts
    if kind in (Kind.MULTIPLY, Kind.OPEN):
        for letter in range(2 if kind is Kind.MULTIPLY else 1):
            for element in range(size):
                mask = source[before][starts[before] + letter * size + element]
                slot = starts[behind] + letter * size + element
                share = place.operands[letter][before][element]
                target[behind][slot] = ring.subtract(ring.add(share, mask), source[behind][slot])
    elif kind is Kind.SPLIT and miner == 3:
        for element in range(size):
            slot = starts[1] + element
            target[1][slot] = (place.operands[0][1][element] - source[1][slot]) & MASK
    elif kind is Kind.CONVERT and miner in (2, 3):
        for element in range(size):
            map_conversion(miner, direction, place, element, source[1], target[1])


def map_result(direction: Direction, place: BlockPlace, source: list[list[int]], target: list[list[int]]):
    """What the client looks at: the masks of miners 1 and 2 become their new shares."""
    ring = place.gate.ring
    for element in range(place.size):
        slots = [0] + [place.starts[miner] + element for miner in (1, 2, 3)]
        one, two, three = (source[miner][slots[miner]] for miner in (1, 2, 3))
        first, second = place.operands[0][1][element], place.operands[0][2][element]
        if direction is Direction.TO_SIMULATOR:
            target[1][slots[1]] = ring.subtract(ring.add(first, one), three)
            target[2][slots[2]] = ring.subtract(ring.add(second, two), one)
        else:
            real = ring.add(ring.subtract(one, first), three)
            target[1][slots[1]] = real
            target[2][slots[2]] = ring.add(ring.subtract(two, second), real)


def map_conversion(miner: int, direction: Direction, place: BlockPlace, element: int, source: list[int], target: list[int]):
    """The slots of one element's conversion."""
    slots = [place.starts[1] + letter * place.size + element for letter in range(3)]
    old_b, old_e, old_m = (source[slot] for slot in slots)
    first, second, third = (place.operands[0][one][element] for one in (1, 2, 3))
    if miner == 2:
        target[slots[0]] = old_b ^ bit(old_e ^ third)
    elif direction is Direction.TO_SIMULATOR:
        target[slots[0]] = old_b ^ bit(old_e)
        target[slots[1]] = old_e ^ bit(second)
        target[slots[2]] = (bit(old_b ^ first) - old_m) & MASK
    else:
        real_e = old_e ^ bit(second)
        real_b = old_b ^ bit(real_e)
        target[slots[0]], target[slots[1]] = real_b, real_e
        target[slots[2]] = (bit(real_b ^ first) - old_m) & MASK


class JointRun:
    """All three miners at once, gate by gate. Shares, words and positions are lists with one place for each party."""

    def __init__(self, gates: list[Gate], inputs: list[Input], tapes: list[list[int]], before_block=None, before_dealing=None):
        self.tapes, self.before_block = tapes, before_block
        self.starts = [0, 0, 0, 0]
        self.shares: dict[int, list[list[int]]] = {}
        self.messages: dict[int, list[list[int]]] = {one: [] for one in LINKS}
        self.results: list[list[list[int]]] = []
        self.opened: list[int] = []
        self.dealt = self.deal([entry for entry in inputs if entry.type.private], before_dealing)
        for gate in gates:
            self.gate(gate)

    def deal(self, private: list[Input], before_dealing) -> list[list[list[int]]]:
        """The shares of the private inputs."""
        dealt = []
        for entry in private:
            words, ring, start = entry.type.gate_words(entry.words), entry.type.ring, self.starts[0]
            size = len(words)
            if before_dealing:
                before_dealing(entry, start)
            first = self.tapes[0][start : start + size]
            second = self.tapes[0][start + size : start + 2 * size]
            third = [ring.subtract(ring.subtract(x, u), v) for x, u, v in zip(words, first, second)]
            self.starts[0] += 2 * size
            dealt.append([[], first, second, third])
        return dealt

    def drawn(self, miner: int) -> list[int]:
        return self.tapes[miner][: self.starts[miner]]

    def gate(self, gate: Gate):
        """One gate: local ones on the whole, others block by block."""
        if gate.kind is Kind.INPUT:
            self.shares[gate.result] = self.dealt[gate.extra[0]]
            return
        operands = [self.shares[number] for number in gate.operands]
        if gate.kind not in INTERACTIVE:
            made = [local_share(gate, [operand[miner] for operand in operands], miner) for miner in (1, 2, 3)]
            self.shares[gate.result] = [[], *made]
            return
        outputs = [[[], [], [], []], [[], [], [], []]]
        for begin, end in blocks_of(gate.size):
            cut = [[[], *(operand[miner][begin:end] for miner in (1, 2, 3))] for operand in operands]
            for value, made in enumerate(self.block(gate, end - begin, cut)):
                for miner in (1, 2, 3):
                    outputs[value][miner] += made[miner]
        self.shares[gate.result] = outputs[0]
        if gate.kind is Kind.SPLIT:
            self.shares[gate.result + 1] = outputs[1]
        if gate.kind is Kind.RESULT:
            self.results.append(outputs[0])

    def block(self, gate: Gate, size: int, operands) -> list[list[list[int]]]:
        place = BlockPlace(gate, size, list(self.starts), operands)
        if self.before_block:
            self.before_block(place)
        runs = {Kind.MULTIPLY: self.multiply, Kind.OPEN: self.open, Kind.RESULT: self.result,
                Kind.SPLIT: self.split, Kind.CONVERT: self.convert}
        return runs[gate.kind](place)

    def letters(self, miner: int, count: int, size: int) -> list[list[int]]:
        """Draws so many words for each element."""
        start = self.starts[miner]
        self.starts[miner] += count * size
        return [self.tapes[miner][start + letter * size : start + (letter + 1) * size] for letter in range(count)]

    def all_letters(self, count: int, size: int):
        return [None, *(self.letters(miner, count, size) for miner in (1, 2, 3))]

    def send(self, sender: int, receiver: int, *fields: list[int]):
        self.messages[link(sender, receiver)].append([word for field in fields for word in field])

    def masked(self, ring: Ring, shares: list[list[int]], masks: list[list[int]]) -> list[list[int]]:
        """Each miner's share with its own mask added and the previous one's taken away."""
        made = [[]]
        for miner in (1, 2, 3):
            other = masks[previous_of(miner)]
            made.append([ring.subtract(ring.add(u, a), b) for u, a, b in zip(shares[miner], masks[miner], other)])
        return made

    def multiply(self, place: BlockPlace):
        """Masked operands go round, and each miner forms three products."""
        ring = place.gate.ring
        letters = self.all_letters(3, place.size)
        a, b, c = ([None] + [letters[miner][letter] for miner in (1, 2, 3)] for letter in range(3))
        for miner in (1, 2, 3):
            self.send(miner, next_of(miner), a[miner], b[miner], c[miner])
        u, v = self.masked(ring, place.operands[0], a), self.masked(ring, place.operands[1], b)
        for miner in (1, 2, 3):
            self.send(miner, next_of(miner), u[miner], v[miner])
        product = [[]]
        for miner in (1, 2, 3):
            other = previous_of(miner)
            product.append(cross(ring, u[miner], v[miner], u[other], v[other]))
        return [self.masked(ring, product, c)]

    def open(self, place: BlockPlace):
        """Masked shares go to both others."""
        ring = place.gate.ring
        masks = [letters and letters[0] for letters in self.all_letters(1, place.size)]
        for miner in (1, 2, 3):
            self.send(miner, next_of(miner), masks[miner])
        shares = self.masked(ring, place.operands[0], masks)
        for miner in (1, 2, 3):
            self.send(miner, next_of(miner), shares[miner])
            self.send(miner, previous_of(miner), shares[miner])
        self.opened += [ring.add(ring.add(x, y), z) for x, y, z in zip(*shares[1:])]
        return [[[], [], [], []]]

    def result(self, place: BlockPlace):
        masks = [letters and letters[0] for letters in self.all_letters(1, place.size)]
        for miner in (1, 2, 3):
            self.send(miner, next_of(miner), masks[miner])
        return [self.masked(place.gate.ring, place.operands[0], masks)]

    def split(self, place: BlockPlace):
        """Miner 1 spreads its share over the two others, so that they hold two values."""
        (masks,) = self.letters(1, 1, place.size)
        _, first, second, third = place.operands[0]
        rest = [(u - k) & MASK for u, k in zip(first, masks)]
        self.send(1, 2, masks)
        self.send(1, 3, rest)
        at_two = [(u + k) & MASK for u, k in zip(second, masks)]
        at_three = [(u + r) & MASK for u, r in zip(third, rest)]
        if place.gate.extra[0]:
            at_three = [-word & MASK for word in at_three]
        zeros = [0] * place.size
        return [[[], zeros, at_two, zeros], [[], zeros, zeros, at_three]]

    def convert(self, place: BlockPlace):
        """Truth values become numbers: miner 1 helps, the others choose."""
        b, e, m, first_mask = self.letters(1, 4, place.size)
        masks = [None, first_mask, self.letters(2, 1, place.size)[0], self.letters(3, 1, place.size)[0]]
        _, first, second, third = place.operands[0]
        rest = [(bit(x) ^ bit(u)) - y & MASK for x, u, y in zip(b, first, m)]
        self.send(1, 2, m, [bit(word) for word in e], masks[1])
        self.send(1, 3, rest, [bit(x ^ y) for x, y in zip(b, e)])
        self.send(3, 1, masks[3])
        self.send(2, 3, [bit(x ^ u) for x, u in zip(e, second)], masks[2])
        self.send(3, 2, [bit(x ^ y ^ u) for x, y, u in zip(b, e, third)])
        turned = [bit(x ^ u ^ v) for x, u, v in zip(b, second, third)]
        at_two = [(1 - word) & MASK if s else word for word, s in zip(m, turned)]
        at_three = [-word & MASK if s else word for word, s in zip(rest, turned)]
        return [self.masked(Ring.ADDITIVE, [[], [0] * place.size, at_two, at_three], masks)]


def cross(ring: Ring, u, v, other_u, other_v) -> list[int]:
    """The three products that one miner forms."""
    add, multiply = ring.add, ring.multiply
    return [add(add(multiply(w, x), multiply(w, z)), multiply(y, x)) for w, x, y, z in zip(u, v, other_u, other_v)]


def map_tapes(miner: int, direction: Direction, gates: list[Gate], inputs: list[Input], tapes: list[list[int]], dealt: bool):
    """The simulator's tapes of real ones, or the real ones of the simulator's."""
    if not dealt:
        return [list(tape) for tape in tapes]
    source = [list(tape) for tape in tapes]
    target = [list(tape) for tape in tapes]
    to_simulator = direction is Direction.TO_SIMULATOR

    def before_dealing(entry: Input, start: int):
        if miner != 3:
            return
        words, ring = entry.type.gate_words(entry.words), entry.type.ring
        size = len(words)
        for place, word in enumerate(words):
            first, second = source[0][start + place], source[0][start + size + place]
            target[0][start + place] = ring.subtract(ring.subtract(word, first), second)

    def before_block(place: BlockPlace):
        map_block(miner, direction, place, source, target)

    JointRun(gates, inputs, source if to_simulator else target, before_block, before_dealing)
    return target


class SimulatedMiner:
    """What one miner sees, made of a tape and the words that gates open; no private word is known here."""

    def __init__(self, miner: int, gates: list[Gate], inputs: list[Input], opened: list[int], tapes: list[list[int]]):
        self.miner, self.tapes, self.opened = miner, tapes, opened
        self.before, self.behind = previous_of(miner), next_of(miner)
        self.opened_used = 0
        self.starts = [0, 0, 0, 0]
        self.shares: dict[int, list[int]] = {}
        self.received: dict[int, list[list[int]]] = {one: [] for one in LINKS}
        self.dealt = []
        start = 0
        for entry in inputs:
            if entry.type.private:
                size = entry.type.gate_size(len(entry.words))
                begin = start + size if miner == 2 else start
                self.dealt.append(tapes[0][begin : begin + size])
                start += 2 * size
        for gate in gates:
            self.gate(gate)

    def drawn(self) -> list[int]:
        return self.tapes[self.miner][: self.starts[self.miner]]

    def gate(self, gate: Gate):
        """One gate, by the shares of this miner alone."""
        if gate.kind is Kind.INPUT:
            self.shares[gate.result] = self.dealt[gate.extra[0]]
            return
        operands = [self.shares[number] for number in gate.operands]
        if gate.kind not in INTERACTIVE:
            self.shares[gate.result] = local_share(gate, operands, self.miner)
            return
        outputs = [[], []]
        for begin, end in blocks_of(gate.size):
            made = self.block(gate, end - begin, [operand[begin:end] for operand in operands])
            for value, words in enumerate(made):
                outputs[value] += words
        self.shares[gate.result] = outputs[0]
        if gate.kind is Kind.SPLIT:
            self.shares[gate.result + 1] = outputs[1]

    def slots(self, counts: tuple[int, int, int], size: int):
        """The block's slots: for each party a list of letters."""
        found = [None]
        for miner, count in zip((1, 2, 3), counts):
            start = self.starts[miner]
            found.append([self.tapes[miner][start + letter * size : start + (letter + 1) * size] for letter in range(count)])
            self.starts[miner] += count * size
        return found

    def receive(self, sender: int, *fields: list[int]):
        self.received[link(sender, self.miner)].append([word for field in fields for word in field])

    def block(self, gate: Gate, size: int, operands: list[list[int]]) -> list[list[int]]:
        if gate.kind is Kind.MULTIPLY:
            return [self.multiply(gate.ring, self.slots((3, 3, 3), size), *operands)]
        if gate.kind is Kind.SPLIT:
            return self.split(self.slots((1, 0, 0), size), operands[0], bool(gate.extra[0]))
        if gate.kind is Kind.CONVERT:
            return [self.convert(self.slots((4, 1, 1), size), operands[0])]
        slots = self.slots((1, 1, 1), size)
        if gate.kind is Kind.RESULT:
            self.receive(self.before, slots[self.before][0])
            return [self.reshared(gate.ring, operands[0], slots, 0)]
        return [self.open(gate.ring, slots, operands[0])]

    def reshared(self, ring: Ring, share: list[int], slots, letter: int) -> list[int]:
        own, other = slots[self.miner][letter], slots[self.before][letter]
        return [ring.subtract(ring.add(u, a), b) for u, a, b in zip(share, own, other)]

    def multiply(self, ring: Ring, slots, u: list[int], v: list[int]) -> list[int]:
        self.receive(self.before, *slots[self.before])
        other_u, other_v = slots[self.behind][0], slots[self.behind][1]
        self.receive(self.before, other_u, other_v)
        own_u, own_v = self.reshared(ring, u, slots, 0), self.reshared(ring, v, slots, 1)
        return self.reshared(ring, cross(ring, own_u, own_v, other_u, other_v), slots, 2)

    def open(self, ring: Ring, slots, share: list[int]) -> list[int]:
        """What the others send is made to fit the opened words."""
        opened = self.opened[self.opened_used : self.opened_used + len(share)]
        self.opened_used += len(share)
        own = self.reshared(ring, share, slots, 0)
        of_previous = slots[self.behind][0]
        self.receive(self.before, slots[self.before][0])
        self.receive(self.before, of_previous)
        rest = [ring.subtract(ring.subtract(x, r), s) for x, r, s in zip(opened, own, of_previous)]
        self.receive(self.behind, rest)
        return []

    def split(self, slots, share: list[int], negated: bool) -> list[list[int]]:
        zeros = [0] * len(share)
        if self.miner == 1:
            return [zeros, zeros]
        (word,) = slots[1]
        self.receive(1, word)
        made = [(u + k) & MASK for u, k in zip(share, word)]
        if self.miner == 2:
            return [made, zeros]
        return [zeros, [-one & MASK for one in made] if negated else made]

    def convert(self, slots, share: list[int]) -> list[int]:
        b, e, m, mask = slots[1]
        masks = [None, mask, slots[2][0], slots[3][0]]
        bits_of_b, bits_of_e = [bit(word) for word in b], [bit(word) for word in e]
        if self.miner == 1:
            self.receive(3, masks[3])
            made = [0] * len(share)
        elif self.miner == 2:
            self.receive(1, m, bits_of_e, masks[1])
            self.receive(3, bits_of_b)
            turned = [bit(x ^ y ^ u) for x, y, u in zip(bits_of_b, bits_of_e, share)]
            made = [(1 - word) & MASK if s else word for word, s in zip(m, turned)]
        else:
            self.receive(1, m, bits_of_b)
            self.receive(2, bits_of_e, masks[2])
            turned = [bit(x ^ y ^ u) for x, y, u in zip(bits_of_b, bits_of_e, share)]
            made = [-word & MASK if s else word for word, s in zip(m, turned)]
        own, other = masks[self.miner], masks[self.before]
        return [(w + x - y) & MASK for w, x, y in zip(made, own, other)]


# The words that each miner draws for an element.
LETTERS = {Kind.MULTIPLY: (3, 3, 3), Kind.SPLIT: (1, 0, 0), Kind.CONVERT: (4, 1, 1), Kind.OPEN: (1, 1, 1), Kind.RESULT: (1, 1, 1)}


def simulated_shares(gates: list[Gate], handed: list[list[int]], tapes: list[list[int]]) -> list[list[list[int]]]:
    """The three shares of each value that is handed over, made of its words as gates have them and of tapes; no share is known here."""
    starts, made, left = [0, 0, 0, 0], [], iter(handed)
    for gate in gates:
        if gate.kind is Kind.RESULT:
            first, second = (tapes[miner][starts[miner] : starts[miner] + gate.size] for miner in (1, 2))
            third = [gate.ring.subtract(gate.ring.subtract(x, u), v) for x, u, v in zip(next(left), first, second)]
            made.append([[], first, second, third])
        for miner, count in zip((1, 2, 3), LETTERS.get(gate.kind, (0, 0, 0))):
            starts[miner] += count * gate.size
    return made
