"""Tries examples/library and docs/recipes.md with a built program: what the programs tell, on shares too, their words and comparisons, and the page.

    check_library.py --program PATH [--tools FOLDER]
"""
from __future__ import annotations

import argparse
import json
import os
import re
import subprocess
import sys
import tempfile
from pathlib import Path

TOP = Path(__file__).resolve().parents[2]
sys.path.insert(0, str(TOP / "tools" / "second_reading"))
sys.setrecursionlimit(100_000)
from commands import Caller  # noqa: E402
from gates import GateList  # noqa: E402
from library_cases import RECIPES, made  # noqa: E402
from page import blocks, commands, functions, programs  # noqa: E402

LIBRARY = TOP / "examples" / "library"
PAGE = TOP / "docs" / "recipes.md"
SEED = "000102030405060708090a0b0c0d0e0f101112131415161718191a1b1c1d1e1f"
TAPE_WORDS, INPUT_ELEMENTS, ENOUGH = 16_777_216, 65_536, "18446744073709551615"
SIZES = (1, 2, 7, 16)


class Fault(Exception):
    """What is not as it must be."""


def same(what: str, wanted: object, have: object) -> None:
    if wanted != have:
        raise Fault(f"{what}:\nwanted: {wanted}\nhave:   {have}")


class Program:
    """The built program, called on made inputs."""

    def __init__(self, path: str, work: Path):
        self.path, self.input = path, work / "input.json"

    def called(self, command: str, name: str, *options: str) -> str:
        words = [self.path, command, str(LIBRARY / f"{name}.sc"), "--input", str(self.input), "--budget", ENOUGH, *options]
        return subprocess.run(words, capture_output=True, text=True, check=False).stdout

    def give(self, name: str, n: int) -> list[str]:
        """Writes the inputs for n people, and tells what must be published."""
        inputs, told = made(name, n, seed=1)
        self.input.write_text(json.dumps(inputs))
        return told

    def words(self, name: str, n: int) -> list[int]:
        self.give(name, n)
        return [int(word) for word in self.called("need", name).split()[1:]]


def publishing(text: str) -> list[str]:
    return [line for line in text.splitlines() if line.startswith("publish ")]


def results_are_told(program: Program) -> int:
    """Of several numbers of people each program tells what Python's own means tell; on shares what it tells in the clear."""
    tried = 0
    for name in RECIPES:
        for n in SIZES:
            told = program.give(name, n)
            text = program.called("eval", name)
            same(f"{name} for {n} people", told, publishing(text))
            tried += 1
        same(f"{name} on shares", text, program.called("run", name, "--seed", SEED, "--words", "65536"))
    return tried


class Counter:
    """Counts what the model compares and tests for equality."""

    def __init__(self):
        self.less, self.equal = 0, 0
        less, equal = GateList.less, GateList.equal_to_zero

        def counted_less(gates, left, right):
            self.less += gates.sizes[left]
            return less(gates, left, right)

        def counted_equal(gates, operand):
            self.equal += gates.sizes[operand]
            return equal(gates, operand)

        GateList.less, GateList.equal_to_zero = counted_less, counted_equal

    def of(self, name: str, n: int) -> tuple[int, int]:
        self.less, self.equal = 0, 0
        files = {"p": (LIBRARY / f"{name}.sc").read_bytes(), "i": json.dumps(made(name, n, seed=1)[0]).encode()}
        Caller(files, set()).call(["need", "p", "--input", "i", "--budget", ENOUGH])
        return self.less, self.equal


def value(formula: str, n: int) -> int:
    return eval(formula.strip().strip("`"), {"__builtins__": {}}, {"n": n, "k": n.bit_length() - 1, "w": -(-n // 64)})


def cost_rows(text: str) -> list[list[str]]:
    rows = [line.strip("|").split(" | ") for line in text.splitlines()]
    start = next(place for place, row in enumerate(rows) if row[0].strip() == "program")
    return [row for row in rows[start + 2:start + 2 + len(RECIPES)]]


def costs_are_told(program: Program, text: str) -> int:
    """Each row of the table of costs: comparisons and tests of equality by the model, words and the greatest number of people by `need`."""
    counter = Counter()
    rows = cost_rows(text)
    same("rows of costs", sorted(RECIPES), sorted(re.search(r"`(\w+)`", row[0]).group(1) for row in rows))
    for first, less, equal, words, most in rows:
        name = re.search(r"`(\w+)`", first).group(1)
        for n in (8, 16):
            same(f"comparisons of {name}", (value(less, n), value(equal, n)), counter.of(name, n))
        for n in (8, 16, 64):
            need = program.words(name, n)
            same(f"words of {name} for {n} people", value(words, n), need[1])
            same(f"miners who draw more in {name}", [], [one for one in need[2:] if one > need[1]])
        limit = int(most.strip(" |").replace(",", ""))
        by_twos = "a power of 2" in first and "shown" not in first
        same(f"{limit} people are few enough for {name}", True, program.words(name, limit)[1] <= TAPE_WORDS)
        if limit < INPUT_ELEMENTS:
            beyond = 2 * limit if by_twos else limit + 1
            same(f"{beyond} people are too many for {name}", True, program.words(name, beyond)[1] > TAPE_WORDS)
    return len(rows)


FRAME = """import stdlib; import shared3p; domain p shared3p;
void main() { p uint64[[1]] a = argument("pay"); p uint64[[1]] b = a * 2; p uint64 s; {body} }
"""
MESSAGES = (
    ("products, added up", "s = sum(a * b);", "for (uint64 i = 0; i < size(a); i++) s += a[i] * b[i];"),
    ("comparisons, counted", "s = sum((uint64) (a < b));", "for (uint64 i = 0; i < size(a); i++) s += (uint64) (a[i] < b[i]);"),
    ("the greatest",
     "while (size(a) > 1) { uint64 h = size(a) / 2; p uint64[[1]] u (h); p uint64[[1]] v (h); "
     "for (uint64 i = 0; i < h; i++) { u[i] = a[i]; v[i] = a[i + h]; } a = v + (uint64) (u > v) * (u - v); }",
     "s = a[0]; for (uint64 i = 1; i < size(a); i++) s = s + (uint64) (a[i] > s) * (a[i] - s);"),
)


def messages(program: Program, work: Path, body: str) -> int:
    """How many messages a run of this body delivers."""
    (work / "messages.sc").write_text(FRAME.replace("{body}", body))
    words = [program.path, "run", str(work / "messages.sc"), "--input", str(program.input), "--seed", SEED, "--words", "262144",
             "--record", str(work / "links")]
    same(f"status of {body}", 0, subprocess.run(words, capture_output=True, check=False).returncode)
    return len((work / "links").read_text().splitlines())


def messages_are_told(program: Program, work: Path, text: str) -> None:
    """The first table of the page: messages of 1,024 products, comparisons and the greatest, on arrays and number by number."""
    told = {cells[0].strip("| "): [int(cell.strip(" |").replace(",", "")) for cell in cells[1:3]]
            for cells in (line.split(" | ") for line in text.splitlines() if line.startswith(tuple(f"| {name} |" for name, _, _ in MESSAGES)))}
    program.give("sort", 1024)
    for name, arrays, numbers in MESSAGES:
        same(f"messages of {name}", told[name], [messages(program, work, arrays), messages(program, work, numbers)])


def functions_agree() -> int:
    """A function of one name has one text in all programs of the library and of the jobs."""
    known: dict[str, tuple[str, Path]] = {}
    for path in programs(LIBRARY, TOP / "examples" / "jobs"):
        for name, text in functions(path.read_text()).items():
            other, where = known.setdefault(name, (text, path))
            same(f"the function {name} in {where} and {path}", other, text)
    return len(known)


def page_shows(page: Path, folder: Path, environment: dict[str, str]) -> tuple[int, int]:
    """The pieces of programs on a page stand in those files, and its commands print what it shows."""
    pieces = printed = 0
    text = page.read_text()
    with tempfile.TemporaryDirectory() as work:
        subprocess.run(["cp", "-r", f"{folder}/.", work], check=True)
        where = work
        for block in blocks(text):
            kind, _, name = block.info.partition(" ")
            if kind in ("secrec", "result"):
                same(f"{page.name}:{block.line}: this stands in {name}", True, block.text in (folder / name).read_text())
                pieces += 1
            elif kind == "console":
                for command in commands(block):
                    if command.words.startswith("cd "):
                        continue
                    done = subprocess.run(["bash", "-c", command.words], cwd=where, env=environment, capture_output=True, text=True, check=False)
                    shown = done.stdout if command.shown == done.stdout else done.stdout + done.stderr
                    same(f"{page.name}:{command.line}: {command.words}", command.shown, shown)
                    printed += 1
    return pieces, printed


def main() -> int:
    parser = argparse.ArgumentParser(description=__doc__)
    parser.add_argument("--program", required=True)
    asked = parser.parse_args()
    text = PAGE.read_text()
    tools = f"{TOP}/user:{os.environ['PATH']}"
    with tempfile.TemporaryDirectory() as work:
        program = Program(os.path.abspath(asked.program), Path(work))
        try:
            agreeing = functions_agree()
            results = results_are_told(program)
            costs = costs_are_told(program, text)
            messages_are_told(program, Path(work), text)
            pieces, printed = page_shows(PAGE, LIBRARY, {**os.environ, "PATH": tools, "SECREC_PROGRAM": program.path})
        except Fault as fault:
            print(f"recipes_check: {fault}", file=sys.stderr)
            return 1
    print(f"recipes_check: {len(RECIPES)} recipes tell what Python tells in {results} cases, and on shares; {costs} rows of costs hold; {agreeing} functions "
          f"have one text; the page shows {pieces} pieces of them and {printed} outputs")
    return 0


if __name__ == "__main__":
    sys.exit(main())
