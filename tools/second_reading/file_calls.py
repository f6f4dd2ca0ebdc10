"""Calls on files that are refused, one or several at once, and on paths that cannot be read or written."""
from __future__ import annotations

import itertools
import random
from collections.abc import Callable, Iterator
from dataclasses import replace

import faulty_files
from call_words import spoiled
from comparison import Folder
from files import write_tapes
from good_calls import GOOD_FILES, LINES, WRITTEN, Line, is_read

ROOMY = write_tapes([[0] * 400, *([[place] * 60 for place in (1, 2, 3)])])
FILES = {**GOOD_FILES, "z": ROOMY}
FOLDER = "folder"


def line_of(command: str, nth: int = 0) -> Line:
    return [line for line in LINES if line.command == command][nth]


def in_turn(play: Callable[..., None]) -> Callable[..., None]:
    """Plays the cases of a group in one folder, each of which finds the good files alone."""

    def play_group(group: list, source: random.Random, folder: Folder):
        folder.make_folder(FOLDER)
        for case in group:
            folder.reset(FILES)
            play(case, source, folder)

    return play_group


def play_input(data: bytes, source: random.Random, folder: Folder):
    """An input file: dealt, where its shares show all that was read, and given to another command."""
    folder.put("x", data)
    folder.call("deal", "--input", "x", "--tape", "z", "--to", "d")
    command = source.choice(("eval", "need", "run", "map", "twin", "twin"))
    line = line_of(command).having(source.choice(("input", "second")) if command == "twin" else "input", "x")
    folder.call(*line.words())


def play_public(data: bytes, source: random.Random, folder: Folder):
    """A public file: its private entries show in the view."""
    folder.put("x", data)
    line = line_of("simulate", 1).having("public", "x")
    folder.call(*replace(line, places=(source.choice("123"), "p.sc")).having("sim", source.choice(("z", "z", "sim"))).words())


def play_opened(data: bytes, source: random.Random, folder: Folder):
    folder.put("x", data)
    folder.call(*replace(line_of("simulate", source.randrange(2)), places=(source.choice("123"), "p.sc")).having("opened", "x").words())


def play_tapes(data: bytes, source: random.Random, folder: Folder):
    folder.put("x", data)
    for command in source.sample(("run", "map", "twin", "deal", "simulate"), 2):
        folder.call(*line_of(command).having("sim" if command == "simulate" else "tape", "x").words())


def play_schedule(data: bytes, source: random.Random, folder: Folder):
    folder.put("x", data)
    folder.call(*line_of(source.choice(("run", "simulate"))).having("schedule", "x").words())


def play_share(data: bytes, source: random.Random, folder: Folder):
    """A share file, alone and beside a good one."""
    folder.put("x", data)
    folder.call("gather", "--me", source.choice("1222"), "--to", "g", "x")
    folder.call("gather", "--me", "2", "--to", "g", *source.choice((("x", "second.2"), ("second.2", "x"), ("x", "x"), ("first.2", "x"))))


# Several faults at once

LONG_PROGRAM = b"void main() { " + b'publish("x", 1); ' * 1365 + b"}"
WRONG = {
    "program": (b"", b"$", b"void main() {", b"void main() { x; }", b"void f() { }", b"\xff", LONG_PROGRAM, GOOD_FILES["code.m"]),
    "input": (b"", b"{", b'{"inputs":0}', b'{"inputs":[0]}', faulty_files.whole(faulty_files.entry(type='"uint"')),
              faulty_files.whole(faulty_files.entry(value=faulty_files.long_value(65_537)))),
    "tape": (b"", bytes(31), bytes(33), b"\xff" * 32, GOOD_FILES["t"][:-1], GOOD_FILES["t"] + b"\x00"),
    "opened": (b"x\n", b"open 1", b"open 1\nopen 01\n", b"\n"),
    "published": (b"x\n", b"publish a 1", b"publish a 1\npublish a 01\n", b"\n", b"publish\n", b"publish a-b 1\n", b"open 1\n"),
    "schedule": (b"x\n", b"12", b"12\n11\n", b"\n"),
}
WRONG["second"] = WRONG["public"] = WRONG["input"]
WRONG["sim"] = WRONG["tape"]
LATER = {
    "schedule": (b"", b"13\n", b"12\n12\n"), "opened": (b"", b"open\n"), "published": (b"", b"publish a\n"),
    "second": (GOOD_FILES["i.json"].replace(b":3}", b":4}"),),
}
PROGRAM = "program"


def roles(line: Line) -> list[str]:
    """What a call reads, in the order of its words."""
    return ([PROGRAM] if line.places else []) + [name for name, _ in line.options if is_read(line, name)]


def with_path(line: Line, role: str, path: str) -> Line:
    if role == PROGRAM:
        return replace(line, places=line.places[:-1] + (path,))
    return line.having(role, path)


STATES = ("good", "wrong", "gone")


def combined() -> Iterator[tuple[Line, tuple[str, ...]]]:
    """Each call with each of its files good, wrong or not there."""
    for line in LINES:
        yield from ((line, states) for states in itertools.product(STATES, repeat=len(roles(line))))


def play_combined(case: tuple[Line, tuple[str, ...]], source: random.Random, folder: Folder):
    line, states = case
    for role, state in zip(roles(line), states):
        if state == "wrong":
            folder.put(f"wrong {role}", source.choice(WRONG[role] + LATER.get(role, ())))
            line = with_path(line, role, f"wrong {role}")
        elif state == "gone":
            line = with_path(line, role, source.choice(("gone", "", FOLDER, ".", "nowhere/x", f"gone {role}")))
    folder.call(*line.words())
    if source.random() < 0.3:
        folder.call(*spoiled(line.words(), source))


WRITING = ("new", FOLDER, "nowhere/x", "", "p.sc", "i.json", "t", "s", "both")


def written() -> Iterator[Line]:
    """Each writing call with each of its paths new, not writable, or another file's."""
    for line in LINES:
        names = WRITTEN.get(line.command, ())
        for paths in itertools.product(WRITING, repeat=len(names)) if names else ():
            made = line
            for name, path in zip(names, paths):
                made = made.having(name, path)
            yield made


def prefixed() -> Iterator[tuple[Line, str]]:
    """Each prefix with a file of it that is a folder."""
    for command, name, endings in (("run", "views", ("1", "2", "3")), ("deal", "to", ("1", "2", "3", "t1", "t2", "t3"))):
        for ending in endings:
            yield line_of(command).having(name, "kept"), f"kept.{ending}"


def writing_cases() -> Iterator[tuple[Line, str | None]]:
    """Calls that write, perhaps with one more folder."""
    yield from ((line, None) for line in written())
    yield from prefixed()


def play_writing(case: tuple[Line, str | None], source: random.Random, folder: Folder):
    """A call that writes, seldom with a wrong file; what stood on its paths is another file then."""
    line, path = case
    if path is not None:
        folder.make_folder(path)
    for kept in ("both", "kept.1", "kept.t2"):
        if kept != path:
            folder.put(kept, b"as it was")
    if source.random() < 0.2:
        role = source.choice(roles(line))
        folder.put("wrong", source.choice(WRONG[role] + LATER.get(role, ())))
        line = with_path(line, role, "wrong")
    folder.call(*line.words())
    if path is not None:
        folder.remove_folder(path)


def streams() -> Iterator[tuple[Line, tuple[str, ...]]]:
    """Each call with streams that take nothing."""
    for line in LINES:
        yield from ((line, full) for full in (("stdout",), ("stderr",), ("stdout", "stderr")))


def play_streams(case: tuple[Line, tuple[str, ...]], source: random.Random, folder: Folder):
    """A good call, one with a wrong file, and one with a path that can't be written."""
    line, full = case
    folder.put("wrong", b"$")
    folder.call(*line.words(), full=full)
    if roles(line):
        folder.call(*with_path(line, source.choice(roles(line)), "wrong").words(), full=full)
    for name in WRITTEN.get(line.command, ()):
        folder.call(*line.having(name, "nowhere/x").words(), full=full)
    folder.call(*spoiled(line.words(), source), full=full)


def random_orders(source: random.Random, count: int) -> Iterator[tuple[Line, random.Random]]:
    for number in range(count):
        yield source.choice([line for line in LINES if line.options]), random.Random(source.getrandbits(64))


def play_order(case: tuple[Line, random.Random], source: random.Random, folder: Folder):
    """A call of any files on any paths."""
    line, source = case
    for role in source.sample(roles(line), min(source.choice((1, 2, 2, 3, 4)), len(roles(line)))):
        folder.put(f"x {role}", any_file(role, source))
        line = with_path(line, role, source.choice((f"x {role}", f"x {role}", f"x {role}", "gone", *FILES)))
    for name in WRITTEN.get(line.command, ()):
        if source.random() < 0.3:
            line = line.having(name, source.choice(WRITING))
    words = line.words()
    folder.call(*(spoiled(words, source) if source.random() < 0.15 else words))


def any_file(role: str, source: random.Random) -> bytes:
    """A file of a role, mostly a refused one."""
    choice = source.random()
    if choice < 0.4 or role == PROGRAM:
        return source.choice(WRONG[role] + LATER.get(role, ()))
    if role in ("input", "second"):
        return faulty_files.changed_entries(GOOD_FILES["i.json"], source)
    if role == "public":
        return faulty_files.changed_entries(GOOD_FILES["public"], source)
    if role in ("tape", "sim"):
        return faulty_files.changed_tapes(GOOD_FILES["t"], source)
    return faulty_files.changed_lines(GOOD_FILES["s" if role == "schedule" else role], source)


def changed(make: Callable[[bytes, random.Random], bytes], good: bytes) -> Callable[[random.Random, int], Iterator[bytes]]:
    """What makes cases of a file that was changed at random."""
    return lambda source, count: (make(good, source) for _ in range(count))
