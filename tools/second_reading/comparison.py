"""What both comparisons share: their options, a folder in which both sides are called, and the tally of what occurred."""
from __future__ import annotations

import argparse
import random
import shlex
import subprocess
import sys
import threading
import time
from collections import Counter
from collections.abc import Callable, Iterable, Iterator
from dataclasses import dataclass, field, replace
from itertools import islice
from pathlib import Path
from tempfile import TemporaryDirectory

from commands import Answer, Caller, NeedsPeers
from words import FORMS

FULL = "/dev/full"
SHOWN = 2000
PATIENCE = 600


@dataclass
class Tally:
    """What occurred."""

    cases: int = 0
    calls: int = 0
    codes: int = 0
    differences: int = 0
    commands: Counter[str] = field(default_factory=Counter)
    signs: Counter[str] = field(default_factory=Counter)
    ends: Counter[str] = field(default_factory=Counter)

    def take(self, words: list[str], answer: Answer, caller: Caller):
        """Counts a call."""
        self.calls += 1
        self.commands[words[0] if words and words[0] in FORMS else "no command"] += 1
        if answer.err:
            self.signs[answer.err.decode().split()[1]] += 1
        for report in caller.reports:
            parts = report.end.what.split()
            self.ends[" ".join(parts[:2]) if parts[0] in ("trap", "tape") else parts[0]] += 1

    def show(self):
        codes = f", {self.codes} code files" if self.codes else ""
        print(f"{self.cases} cases, {self.calls} calls{codes} compared, {self.differences} differences")
        for name, counts in (("calls", self.commands), ("signs of refusals", self.signs), ("ends of runs", self.ends)):
            print(f"{name}: " + (", ".join(f"{key} {count}" for key, count in sorted(counts.items())) or "none"))


def shown(data: bytes, start: int = 0) -> str:
    """Bytes as they are printed, at most so many."""
    place = f"from byte {start} " if start else ""
    return place + repr(data[start : start + SHOWN]) + (f" .. of {len(data)} bytes" if len(data) > start + SHOWN else "")


def printable(text: str) -> str:
    """A text that may have halves of characters, as it is printed."""
    return text.encode("utf-8", "backslashreplace").decode()


def sides(want: bytes | None, have: bytes | None) -> str:
    """What the two sides have, from shortly before the first difference on; None for no file."""
    alike = 0
    if want is not None and have is not None:
        alike = next((place for place, (u, v) in enumerate(zip(want, have)) if u != v), min(len(want), len(have)))
    start = max(alike - SHOWN // 4, 0) if alike > SHOWN // 2 else 0
    model, program = ("no file" if data is None else shown(data, start) for data in (want, have))
    return f"\n    model   {model}\n    program {program}"


class Folder:
    """A folder in which the program is called, and what must stand there by the model."""

    def __init__(self, program: Path, place: Path, tally: Tally, case: str):
        self.program, self.place, self.tally, self.case = program, place, tally, case
        self.files: dict[str, bytes] = {}
        self.folders: set[str] = set()
        self.caller = Caller(self.files, self.folders)

    def put(self, path: str, data: bytes):
        self.files[path] = data
        (self.place / path).write_bytes(data)

    def make_folder(self, path: str):
        """Makes a folder, which can be neither read nor written as a file."""
        self.folders.add(path)
        (self.place / path).mkdir()

    def remove_folder(self, path: str):
        self.folders.remove(path)
        (self.place / path).rmdir()

    def remove(self, path: str):
        del self.files[path]
        (self.place / path).unlink()

    def reset(self, files: dict[str, bytes]):
        """Makes these all the files that there are."""
        for path in set(self.files) - set(files):
            self.remove(path)
        for path, data in files.items():
            if self.files.get(path) != data:
                self.put(path, data)

    def call(self, *words: str, full: tuple[str, ...] = ()) -> Answer:
        """Calls both sides, and compares; of the streams `full` names those that take nothing."""
        answer = self.caller.call(list(words))
        if "stdout" in full:
            answer = untold(answer)
        if "stderr" in full:
            answer = replace(answer, err=b"")
        self.tally.take(list(words), answer, self.caller)
        before = dict(self.files)
        faults = self.faults(list(words), answer, full)
        if faults:
            self.tell([*words, *(f"{stream}=full" for stream in full)], before, faults)
        return answer

    def call_if_ended(self, *words: str):
        """Calls both sides where the call ends without peers and children."""
        try:
            self.caller.call(list(words))
        except NeedsPeers:
            return
        self.call(*words)

    def faults(self, words: list[str], answer: Answer, full: tuple[str, ...]) -> list[str]:
        """What the program does otherwise; the folder is left as the model says."""
        found = []
        try:
            with open(FULL, "wb") as device:
                streams = {name: device if name in full else subprocess.PIPE for name in ("stdout", "stderr")}
                done = subprocess.run([str(self.program), *words], cwd=self.place, timeout=PATIENCE, **streams)
        except subprocess.TimeoutExpired:
            found.append(f"no answer in {PATIENCE} seconds")
        else:
            if answer.status != done.returncode:
                found.append(f"status: model {answer.status}, program {done.returncode}")
            for name, want, have in (("output", answer.out, done.stdout), ("error", answer.err, done.stderr)):
                if want != (have or b""):
                    found.append(f"{name}:{sides(want, have)}")
        there = {one.name: one.read_bytes() for one in self.place.iterdir() if one.is_file()}
        self.files.update((path, there.get(path, b"") if data is None else data) for path, data in answer.written)
        for path in sorted(set(there) | set(self.files)):
            want, have = self.files.get(path), there.get(path)
            if want != have:
                found.append(f"file {path}:{sides(want, have)}")
        self.restore(there)
        return found

    def restore(self, there: dict[str, bytes]):
        """Makes the folder, which has these files now, have what it must have."""
        for path in set(there) - set(self.files):
            (self.place / path).unlink()
        for path, data in self.files.items():
            if there.get(path) != data:
                (self.place / path).write_bytes(data)

    def tell(self, words: list[str], before: dict[str, bytes], faults: list[str]):
        """Prints a difference: the words, the files that they name, and what was found."""
        self.tally.differences += 1
        print(f"DIFFERENCE in {self.case}: {printable(shlex.join(words))}")
        for path, data in before.items():
            if path in words:
                print(f"  given {printable(path)}: {shown(data)}")
        for fault in faults:
            print(f"  {printable(fault)}")
        sys.stdout.flush()


def untold(answer: Answer) -> Answer:
    """The answer where the output takes nothing: a text that can't be printed is a fault, after all writes."""
    return Answer(16, b"", b"error: write\n", answer.written) if answer.out else answer


Play = Callable[[Folder], None]


def sampled(make: Callable[[], Iterator], count: int, seed: str) -> Iterator:
    """What is made, or so many of it in its order where there is more."""
    whole = sum(1 for _ in make())
    if whole <= count:
        yield from make()
        return
    made, before = make(), 0
    for place in sorted(random.Random(seed).sample(range(whole), count)):
        yield next(islice(made, place - before, None))
        before = place + 1


class Comparison:
    """One run of a comparing program: its options, its clock and its tally."""

    def __init__(self, what: str, parts: list[str]):
        reader = argparse.ArgumentParser(description=what)
        reader.add_argument("--program", type=Path, required=True, help="the built program")
        reader.add_argument("--seed", type=int, default=1)
        reader.add_argument("--cases", type=int, default=100, help="at most so many cases of each part")
        reader.add_argument("--seconds", type=float, default=float("inf"), help="no new case is begun behind these")
        reader.add_argument("--part", nargs="+", choices=parts, default=parts, metavar="NAME", help=", ".join(parts))
        self.options = reader.parse_args()
        self.program = self.options.program.resolve()
        if not self.program.is_file():
            reader.error(f"no program {self.program}")
        self.end = time.monotonic() + self.options.seconds
        self.tally = Tally()

    def play(self, part: str, cases: Iterable[Play]):
        """Plays the cases of a part while there is time."""
        for number, case in enumerate(cases):
            if time.monotonic() >= self.end:
                print(f"the time is over before case {number} of {part}")
                return
            with TemporaryDirectory() as place:
                case(Folder(self.program, Path(place), self.tally, f"case {number} of {part}"))
            self.tally.cases += 1

    def finish(self) -> int:
        """Prints the tally; the status of the whole."""
        self.tally.show()
        return 1 if self.tally.differences or not self.tally.calls else 0


def with_deep_stack(work: Callable[[], int]) -> int:
    """Runs `work` where calls may nest deeply; its result is a status."""
    result = [1]

    def run():
        try:
            result[0] = work()
        except SystemExit as leaving:
            result[0] = leaving.code or 0

    sys.setrecursionlimit(200_000)
    threading.stack_size(512 * 1024 * 1024)
    thread = threading.Thread(target=run)
    thread.start()
    thread.join()
    return result[0]
