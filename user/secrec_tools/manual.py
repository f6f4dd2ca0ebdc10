"""The rows of the manual that say what a refusal means: read from the tables of `docs/*.md`, so that the pages are their one source.

Tables whose head begins as one of HEADS are read. A row has what was written, what is said, and what that means; what was written stands after the block
`secrec row` (or `json row`) before its table, in place of the comment there, but where it is a whole program. Tables of `docs/formats.md` with the head
`| refusal | when |` say of each refusal's form when it comes.
"""
from __future__ import annotations

import glob
import os
import re
from dataclasses import dataclass
from functools import lru_cache

from .program import TOP

HEADS = ("| program | refusal |", "| what you wrote |", "| an entry, ", "| what you called |")
FORMS = ("| refusal | when |", "| refusal | place | when |")
HERE = "/* the row */"
CODE = re.compile(r"`([^`]*)`")
PART = re.compile(r"\x01")
AGAIN = re.compile(r"(?:the|and the) same\b[:,;]? ?(.*)", re.S)


@dataclass(frozen=True)
class Row:
    """A row of a table: its page and heading, what was written (alone, and as the whole program or file), what is said, and what it means."""

    page: str
    heading: str
    kind: str
    written: str
    whole: str
    says: str
    means: str

    @property
    def sign(self) -> str:
        return sign_of(self.says)

    @property
    def place(self) -> tuple[int, int] | None:
        return place_of(self.says)


def sign_of(line: str) -> str:
    """The sign of a refusal or the kind of an end: `D4`, `usage`, `trap Div`, `budget`, `tape`."""
    words = line.split()
    if words[:1] == ["error:"]:
        return words[1] if len(words) > 1 else ""
    if words[:1] == ["end"]:
        return " ".join(words[1:3]) if words[1:2] == ["trap"] else "".join(words[1:2])
    return "".join(words[:1])


def place_of(line: str) -> tuple[int, int] | None:
    """The line and the column that a refusal names."""
    found = re.search(r" line (\d+) column (\d+)", line)
    return (int(found[1]), int(found[2])) if found else None


def cells_of(line: str) -> list[str]:
    """The cells of a line of a table."""
    return [PART.sub("|", cell).strip() for cell in line.replace("\\|", "\x01").strip().strip("|").split("|")]


def joined(means: str, before: str) -> str:
    """What a row means that says `the same` of the row before it."""
    again = AGAIN.match(means)
    if not again:
        return means
    return f"{before}; {again[1]}" if again[1] else before


class Page:
    """Reads one page from its beginning to its end."""

    def __init__(self, path: str):
        self.name, self.heading, self.kind, self.before = os.path.basename(path), "", "", ""
        self.templates: dict[str, str] = {}
        self.rows: list[Row] = []
        self.forms: list[tuple[str, str]] = []
        with open(path, encoding="utf-8") as file:
            self.read(file.read().split("\n"))

    def read(self, lines: list[str]):
        block: list[str] | None = None
        name = ""
        for line in lines:
            if block is not None:
                if line == "```":
                    self.templates[name] = "\n".join(block) + "\n"
                    block = None
                else:
                    block.append(line)
            elif line.startswith("```"):
                name, block = line[3:], []
            elif line.startswith("#"):
                self.heading = line.lstrip("# ")
            elif line.startswith("|"):
                self.table_line(line)
            else:
                self.kind = ""

    def table_line(self, line: str):
        """A line of a table: its head, or a row."""
        if line.startswith(HEADS + FORMS):
            self.kind = line.split("|")[1].strip()
        elif self.kind == "refusal":
            cells = cells_of(line)
            if len(cells) >= 2 and cells[0].startswith("`"):
                self.forms += [(form, cells[-1]) for form in CODE.findall(cells[0])]
        elif self.kind and line.startswith("| `"):
            self.row(cells_of(line))

    def row(self, cells: list[str]):
        written, says, means = cells[0], CODE.findall(cells[1]), cells[2]
        written = written[written.index("`") + 1 : written.rindex("`")]
        means = joined(means, self.before)
        self.before = means
        self.rows.append(Row(self.name, self.heading, self.kind, written, self.filled(written), says[0] if says else cells[1], means))

    def filled(self, written: str) -> str:
        """The whole program, or the whole file, in which this was written."""
        if self.kind.startswith("an entry"):
            return self.templates.get("json row", HERE).replace(HERE, written)
        if "main()" in written or self.kind == "what you called":
            return written
        return self.templates.get("secrec row", HERE).replace(HERE, written)


@lru_cache(maxsize=1)
def pages() -> tuple[Page, ...]:
    """The pages, the manual first."""
    paths = sorted(glob.glob(f"{TOP}/docs/*.md"), key=lambda path: (os.path.basename(path) != "language.md", path))
    return tuple(Page(path) for path in paths)


def rows_of(sign: str) -> list[Row]:
    """All rows with a sign, those of the manual first."""
    return [row for page in pages() for row in page.rows if row.sign == sign]


def rule_of(sign: str) -> Row | None:
    """The row of the rules that says what a sign means."""
    return next((row for row in rows_of(sign) if row.kind == "program"), None)


def form_of(line: str) -> str:
    """What the tables of forms say of a refusal, or nothing."""
    words = line.removeprefix("error: ").split() or [""]
    for page in pages():
        for form, means in page.forms:
            shape = form.split()
            if shape[0] == words[0] and len(shape) == len(words) and all(one == other or one.isupper() for one, other in zip(shape, words)):
                return means
    return next((means for page in pages() for form, means in page.forms if form.split()[0] == words[0]), "")
