"""Cases that chance seldom makes: each operation alone at the edges of blocks, every budget, every length of a tape, every next link."""
from __future__ import annotations

import random
import re
from collections.abc import Iterator
from dataclasses import dataclass, replace
from itertools import product

from clear import Input, Report, ValueType, dealer_need, evaluate
from commands import DEFAULT_BUDGET, runnable
from gates import MASK
from joint import LINKS
from network import default_delivery, random_delivery
from runs import Case, random_word
from tree import Data

HEAD = "import stdlib; import shared3p; domain p shared3p;\nvoid main() {\n"
SIZES = (0, 1, 2, 63, 64, 65, 511, 512, 513, 1024, 1025)
# Truth values whose words are about a block, and about one word.
TRUTH_BLOCKS = (32_768, 32_769)
TRUTH_SIZES = (1, 2, 63, 64, 65, 127, 128, 129, 513)
PRIVATE = {"a": (Data.NUMBER, True), "b": (Data.NUMBER, True), "c": (Data.TRUTH, True), "d": (Data.TRUTH, True),
           "g": (Data.SIGNED, True), "h": (Data.SIGNED, True),
           "s": (Data.NUMBER, False), "t": (Data.TRUTH, False), "u": (Data.SIGNED, False)}
PUBLIC = {"k": (Data.NUMBER, True), "l": (Data.TRUTH, True), "e": (Data.SIGNED, True),
          "n": (Data.NUMBER, False), "f": (Data.TRUTH, False), "o": (Data.SIGNED, False)}
OPERATIONS = (
    "a + b", "a - b", "a * b", "a + s", "s - a", "a * s", "s * b", "a + k", "k - a", "a * k", "k * s", "n * a", "a * n", "s + n",
    "s * n", "s * s",
    "a == b", "a != b", "a < b", "a <= b", "a > b", "a >= b", "a == s", "s < a", "a < k", "k >= a", "s == n", "s < s", "s > n",
    "c & d", "c | d", "c ^ d", "c == d", "c != d", "c && d", "c || d", "c & t", "t | c", "c & l", "l & c", "c | l", "l ^ c", "f & c",
    "c && f",
    "t && t", "f && t", "f || t", "!f && t", "t && f", "t & f", "f & t", "!c", "!t",
    "(uint64) c", "(uint64) t", "(bool) a", "(bool) s", "(uint64) a", "(bool) c",
    "cat(a, b)", "cat(c, d)", "cat(a, k)", "cat(l, d)", "sum(a)", "sum(a * b)", "sum((uint64) c)", "bitExtract(s)", "a[0]", "c[0]",
    "bitExtract(s * s)[63]", "a[size(a) - 1]", "(uint64) (a < b)", "a * (uint64) c", "(bool) (a * b)", "!(a == b)",
    "g + h", "g - h", "g * h", "g + u", "u - g", "g * u", "g + e", "e - g", "g * e", "o * g", "u + o", "u * u",
    "g == h", "g != h", "g < h", "g <= h", "g > h", "g >= h", "u < g", "g >= e", "o > g", "u < u", "u <= o",
    "(int64) c", "(int64) t", "(bool) g", "(int64) a", "(uint64) g", "(int64) g", "(uint64) u < s", "(int64) s < u",
    "cat(g, h)", "cat(g, e)", "sum(g)", "sum(g * h)", "g[0]", "(int64) (g < h)",
    "lookup(a, s)", "lookup(a, n)", "lookup(k, s)", "lookup(g, s)", "lookup(e, s)",
)
LOOK_UPS = (
    (0, 'lookup(a, s)'), (0, 'lookup(a, cat(a, k))'), (1, 'lookup(a, b)'), (2, 'lookup(a, (uint64) c)'), (3, 'lookup(g, (uint64) t)'),
    (64, 'lookup(e, (uint64) c)'), (3, 'lookup(g, k)'), (17, 'lookup(k, a)'),
    (65, 'lookup(g, a)'), (513, 'lookup(a, s)'), (2, 'lookup(g, s) < u'), (1024, 'lookup(a, s)'),
)
OF_TRUTHS = (
    'c[0] = t; c[size(c) - 1] = d[0]; publish("c", c); publish("d", declassify(c ^ d));',
    'for (uint64 i = 0; i < size(c); i++) { c[i] = d[size(c) - 1 - i]; } publish("c", declassify(c)); publish("d", d);',
    'p bool[[1]] v (size(c)) = t; v[size(c) / 2] = !t; publish("v", v); publish("w", declassify(v & c));',
    'p bool[[1]] v = cat(c, d); v = cat(v, cat(c, v)); publish("v", v); publish("l", v[size(c)]); publish("n", declassify(sum((uint64) v)));',
    'p bool[[1]] v = cat(c, c); v = cat(v, l); publish("v", declassify(!v)); publish("w", v[size(v) - 1] == t);',
    'p bool[[1]] v; v = cat(v, c); p bool[[1]] w = cat(c, v); publish("w", w); publish("e", declassify(v == c));',
    'publish("r", (t & c) ^ (c | f)); publish("q", declassify(t == d)); publish("l", l & c); publish("m", l & t);',
    'p bool[[1]] v = bitExtract(s); publish("v", v); publish("w", declassify(v[63] ^ v[0])); v[63] = t; publish("u", declassify(v & v));',
    'p bool[[1]] v = !c; for (uint64 i = 0; i < size(v); i += 3) { v[i] = c[i] & t; } publish("v", declassify(v)); publish("n", sum((uint64) v));',
)
SMALL_PROGRAMS = (
    'publish("x", declassify(s * s)); publish("y", t); uint64 z = declassify(s); publish("z", z);',
    'publish("x", declassify((uint64) t)); publish("y", declassify(s == 5)); publish("z", t | (s < 7));',
    'p uint64[[1]] v (3) = s; v[1] = n; publish("v", declassify(v)); publish("w", v * v);',
    'uint64 x = declassify(s); uint64[[1]] y (4); publish("y", y[x]); publish("z", declassify(t));',
    'if (declassify(t)) { publish("x", declassify(s)); } else { publish("y", s); } publish("n", declassify((bool) s));',
    'p uint64[[1]] q; publish("q", declassify(q)); publish("q", q); publish("w", declassify(q * q)); publish("e", declassify(q < q));',
)


@dataclass
class Limited:
    """A case with the lengths of its four tapes (None: as long as it needs), of which the last one lacks some words."""

    case: Case
    lengths: list[int] | None = None
    missing: int = 0


@dataclass
class Begun:
    """A case with a schedule: the beginning of a good one, and one more link."""

    case: Case
    schedule: list[int]


def entry(source: random.Random, name: str, private: bool, kind: tuple[Data, bool], size: int) -> Input:
    data, array = kind
    count = size if array else 1
    words = [source.getrandbits(1) if data is Data.TRUTH else random_word(source) for _ in range(count)]
    return Input(name, ValueType(private, data, array), tuple(words))


def declared(used: list[Input]) -> str:
    lines = []
    for one in used:
        word = ("p " if one.type.private else "") + one.type.data.value + ("[[1]]" if one.type.array else "")
        lines.append(f'{word} {one.name} = argument("{one.name}");')
    return " ".join(lines) + "\n"


def case_of(source: random.Random, body: str, size: int) -> Case:
    """A program of a body in which the letters above are inputs."""
    words = set(re.findall(r"\b[a-z]\b", re.sub(r'"[^"]*"', "", body)))
    used = [entry(source, name, True, kind, size) for name, kind in PRIVATE.items() if name in words]
    used += [entry(source, name, False, kind, size) for name, kind in PUBLIC.items() if name in words]
    source.shuffle(used)
    return Case(HEAD + declared(used) + body + "\n}\n", used)


def operations(source: random.Random) -> Iterator[Case]:
    """Each operation at each size, published privately or opened."""
    for operation, size in product(OPERATIONS, SIZES):
        arrays = re.search(r"\b[abcdeghkl]\b", operation) and not operation.startswith(("bitExtract", "t ", "f ", "!f", "!t"))
        if not arrays and size > 1:
            continue
        costly = any(sign in operation for sign in ("<", ">"))
        if costly and size > 513 and "a < b" != operation:
            continue
        result = operation if source.random() < 0.5 else f"declassify({operation})"
        yield case_of(source, f'publish("r", {result});', size)
    for body, size in product(OF_TRUTHS, TRUTH_SIZES):
        yield case_of(source, body, size)
    for size, operation in LOOK_UPS:
        yield case_of(source, f'publish("r", {operation}); publish("q", declassify({operation}));', size)
    for operation, size in product(("c & d", "declassify(c | d)", "c", "declassify(!c)", "declassify(f & c)", "cat(c, d)[size(c)]"), TRUTH_BLOCKS):
        yield case_of(source, f'publish("r", {operation});', size)


def whole_report(case: Case) -> Report:
    return evaluate(runnable(case.program.encode()), case.inputs, DEFAULT_BUDGET)


def scarce(source: random.Random) -> Iterator[Limited]:
    """Every budget, and every length of each tape."""
    for body in SMALL_PROGRAMS:
        case = case_of(source, body, 2)
        case.inputs = [replace(one, words=(source.choice((2, 3, 5)),)) if one.name == "s" else one for one in case.inputs]
        whole = whole_report(case)
        needs = [dealer_need(case.inputs), *whole.needs[1:]]
        for budget in range(whole.cost + 2):
            yield Limited(Case(case.program, case.inputs, budget), needs)
        for party in range(4):
            for length in range(needs[party]):
                yield Limited(case, [*needs[:party], length, *needs[party + 1 :]])


def next_links(source: random.Random) -> Iterator[Begun]:
    """From each begun schedule each next link."""
    for body in SMALL_PROGRAMS[:5]:
        case = case_of(source, body, 2)
        gates = whole_report(case).gates
        for whole in (default_delivery(gates).delivered, random_delivery(gates, source)):
            for place, one in product(range(len(whole) + 1), LINKS):
                yield Begun(case, [*whole[:place], one])


TRAPS = (
    'publish("x", s * s); assert(declassify(t)); publish("y", s);',
    'publish("x", s * s); assert(declassify(s < s)); publish("y", s);',
    'publish("x", t & t); uint64 z = declassify(s - s); publish("y", n / z); publish("w", s);',
    'publish("x", t & t); uint64[[1]] z = declassify(a - a); publish("y", k % z); publish("w", s);',
    'publish("x", s); p uint64 m = argument("n"); publish("w", m);',
    'publish("x", s); p bool m = argument("s"); publish("w", m);',
    'publish("x", s); p uint64[[1]] m = argument("s"); publish("w", m);',
    'publish("x", declassify(s)); a[size(a)] = s * s; publish("w", a);',
    'publish("x", declassify(s)); a = a * cat(a, b); publish("w", a);',
    'publish("x", declassify(s)); p bool[[1]] m (declassify(s) + 1048577 - declassify(s)) = t; publish("w", m);',
)


def traps(source: random.Random) -> Iterator[Limited]:
    """Each trap after words that were opened."""
    for body in TRAPS * 6:
        yield Limited(case_of(source, body, 2))


WIDE = (
    (65_536, 'publish("x", sum(declassify(a)));'),
    (65_536, 'publish("x", a);'),
    (65_536, 'publish("x", declassify(c));'),
    (65_536, 'publish("x", sum((uint64) c));'),
    (65_536, 'publish("x", sum(a * b));'),
    (8_193, 'publish("x", a == b);'),
    (4_097, 'publish("x", sum((uint64) (a < s)));'),
    (1, 'p uint64[[1]] v (1048576) = s; publish("x", v);'),
    (1, 'p bool[[1]] v (1048576) = t; publish("x", size(declassify(v)));'),
    (1, 'p uint64[[1]] v (1048577) = s; publish("x", v);'),
    (1, 'p uint64[[1]] v (1048576) = s; publish("x", cat(v, a));'),
    (1, 'p uint64[[1]] v (16385) = s; publish("x", bitExtract(v));'),
    (1, 'p uint64[[1]] v (1040) = s; publish("x", bitExtract(v));'),
)


def wide(source: random.Random) -> Iterator[Limited]:
    """Arrays at the limits: many blocks, the greatest input, the greatest array."""
    for size, body in WIDE:
        case = case_of(source, body, size)
        case.budget = 50_000_000
        yield Limited(case)
        if size < 65_536:
            yield Limited(case, missing=1)


def workloads(source: random.Random) -> Iterator[int]:
    """Numbers of workloads: at the edges, and others."""
    yield from (0, 1, 2, 510, 511, 512, 599, 600, 601, MASK, MASK - 1, 1 << 63, (1 << 32) - 1)
    yield from (source.getrandbits(64) for _ in range(3))
    yield from (source.randrange(3000) for _ in range(6))
