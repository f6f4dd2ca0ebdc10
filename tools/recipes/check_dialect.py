"""Tries the rows of docs/dialect.md with a built program: what was written is refused as the row says, and what to write instead is accepted in its place.

    check_dialect.py --program PATH
"""
from __future__ import annotations

import argparse
import re
import subprocess
import sys
import tempfile
from collections.abc import Iterator
from dataclasses import dataclass
from pathlib import Path

from page import blocks

PAGE = Path(__file__).resolve().parents[2] / "docs" / "dialect.md"
PLACE, FEWEST = "/* the row */", 40
CODE = re.compile(r"`([^`]*)`")


@dataclass(frozen=True)
class Row:
    """What was written, what is said of it, and what to write instead."""

    written: str
    says: str
    instead: str


def rows(page: str) -> Iterator[Row]:
    for line in page.splitlines():
        if line.startswith("| `"):
            written, says, means = (cell.replace("\1", "|") for cell in line.replace("\\|", "\1").strip("|").split("|"))
            yield Row(CODE.findall(written)[0], CODE.findall(says)[0], CODE.findall(means)[-1])


class Program:
    """The built program, asked what it says of texts."""

    def __init__(self, path: str, frame: str, work: Path):
        self.path, self.frame, self.file = path, frame, work / "row.sc"

    def says(self, piece: str) -> str:
        self.file.write_text(piece if "main()" in piece else self.frame.replace(PLACE, piece))
        done = subprocess.run([self.path, "check", str(self.file)], capture_output=True, text=True, check=False)
        return (done.stdout + done.stderr).strip()


def main() -> int:
    parser = argparse.ArgumentParser(description=__doc__)
    parser.add_argument("--program", required=True)
    asked = parser.parse_args()
    text = PAGE.read_text()
    frame = next(block.text for block in blocks(text) if block.info == "secrec row")
    found, faults = list(rows(text)), 0
    with tempfile.TemporaryDirectory() as work:
        program = Program(asked.program, frame, Path(work))
        for row in found:
            for piece, wanted in ((row.written, row.says), (row.instead, "ok")):
                said = program.says(piece)
                if said != wanted:
                    print(f"dialect_check: {piece}\nwanted: {wanted}\nsaid:   {said}", file=sys.stderr)
                    faults += 1
    if faults or len(found) < FEWEST:
        return 1
    print(f"dialect_check: {len(found)} pieces of other programs are refused as the page says, and what to write instead is accepted")
    return 0


if __name__ == "__main__":
    sys.exit(main())
