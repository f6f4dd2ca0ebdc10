"""Row files: calls of the program, what each finds, and what must come of it."""
from __future__ import annotations

import copy
import re
import struct
from dataclasses import dataclass, field

TEXT_KINDS = ("file", "written", "out", "err", "arrive", "sent", "calls", "before", "between", "after")
ESCAPES = {"n": "\n", "r": "\r", "t": "\t", "\\": "\\"}
FAULT = re.compile(r"[A-Z][0-9]+")
STATUSES = (("error: I", 4), ("error: ", 3), ("end trap ", 1), ("end budget ", 7), ("end tape ", 8))


@dataclass
class Row:
    """One call: its words, the texts that it finds or leaves by kind and name, what fails, and its status."""

    line: int
    title: str = ""
    words: list[str] = field(default_factory=list)
    texts: dict[tuple[str, str], bytearray] = field(default_factory=dict)
    failing: list[str] = field(default_factory=list)
    children: list[int] = field(default_factory=list)
    status: int = 0
    last: bytearray | None = None

    def begin(self, kind: str, name: str = ""):
        """A text of this kind and name; of two the later counts, and a file that is written or absent is not the other."""
        for other in {"written": ("absent",), "absent": ("written",)}.get(kind, ()):
            self.texts.pop((other, name), None)
        self.last = self.texts[kind, name] = bytearray()

    def text(self, kind: str, name: str = "") -> bytes:
        return bytes(self.texts.get((kind, name), b""))

    def named(self, kind: str) -> dict[str, bytes]:
        return {name: bytes(data) for (one, name), data in self.texts.items() if one == kind}

    def joined(self, line: int, title: str) -> Row:
        """A row that has what this one has."""
        made = copy.deepcopy(self)
        made.line, made.title, made.last = line, title, None
        return made


def numbers(text: str) -> bytes:
    return b"".join(struct.pack("<Q", int(word)) for word in text.split())


def zeros(text: str) -> bytes:
    return numbers(text) + bytes(8 * sum(map(int, text.split())))


def tapes(text: str) -> bytes:
    parts = text.split("/")
    return b"".join(struct.pack("<Q", len(part.split())) for part in parts) + b"".join(map(numbers, parts))


def copies(text: bytes, end: bytes, count: int) -> bytes:
    return b"".join(text.replace(b"#", str(copy_).encode()) + end for copy_ in range(count))


def repeated(text: str, end: bytes) -> bytes:
    count, _, rest = text.partition(" ")
    return copies(rest.encode(), end, int(count))


def inputs(text: str) -> bytes:
    """An input file of entries `NAME DOMAIN TYPE VALUE`."""
    entries = []
    for entry in text.split(";") if text else ():
        name, domain, kind, value = entry.strip().split(" ", 3)
        entries.append(f'{{"name":"{name}","domain":"{domain}","type":"{kind}","value":{value}}}')
    return ('{"inputs":[' + ",".join(entries) + "]}").encode()


PIECES = {
    "hex": bytes.fromhex, "u64": numbers, "tape": tapes, "zeros": zeros, "repeat": lambda text: repeated(text, b""),
    "lines": lambda text: repeated(text, b"\n"), "inputs": inputs,
}


def unescaped(text: str) -> str:
    return re.sub(r"\\(.)", lambda found: ESCAPES[found[1]], text)


def place_after(data: bytes) -> str:
    return f"line {data.count(10) + 1} column {len(data) - (data.rfind(10) + 1) + 1}"


class Reader:
    """Reads the lines of a row file."""

    def __init__(self):
        self.rows: list[Row] = []
        self.group, self.current, self.takes = Row(0), None, False

    def line(self, number: int, line: str):
        if not line or line.startswith("#") or self.takes and self.piece(line):
            return
        self.takes = False
        word, _, rest = line.partition(" ")
        if word == "group":
            self.group = self.current = Row(number)
        elif word == "row":
            self.current = self.group.joined(number, rest)
            self.rows.append(self.current)
        elif word == "do":
            self.current = self.group
            self.rows.append(self.program_row(number, rest, "eval p.sc --input p.json"))
            self.rows[-1].texts.setdefault(("file", "p.json"), bytearray(inputs("")))
            self.rows[-1].begin("out")
        elif word == "ok" or FAULT.fullmatch(word):
            self.current = self.group
            self.rows.append(self.checked(number, word, rest))
        elif word == "=":
            self.printed(number, rest)
        else:
            self.takes = self.said(word, rest)

    def piece(self, line: str) -> bool:
        """Whether the line gives bytes to the last text."""
        target = self.current.last if self.current else None
        word, _, rest = line.partition(" ")
        if target is None:
            return False
        if line[0] in "|>":
            target += line[1:].encode() + (b"\n" if line[0] == "|" else b"")
        elif word == "copies":
            target[:] = copies(bytes(target), b"", int(rest))
        elif word in PIECES:
            target += PIECES[word](rest)
        else:
            return False
        return True

    def said(self, word: str, rest: str) -> bool:
        """A line of a row or a group; whether the next ones may give bytes."""
        row = self.current
        if word in TEXT_KINDS:
            has_name = word in ("file", "written", "arrive", "sent")
            row.begin(word, rest if has_name else "")
            if rest and not has_name:
                row.last += rest.encode() + b"\n"
            return True
        if word == "call":
            row.words = ["" if one == '""' else one for one in rest.split()]
        elif word == "word":
            row.words = [*row.words, rest]
        elif word == "fail":
            row.failing = [*row.failing, rest]
        elif word == "children":
            row.children = [*row.children, *map(int, rest.split())]
        elif word == "status":
            row.status = int(rest)
        elif word == "absent":
            row.begin("absent", rest)
        elif word == "given":
            row.begin("file", "p.json")
            row.last += inputs(rest)
        elif word != "slow":
            raise ValueError(word)
        return False

    def program_row(self, number: int, text: str, words: str) -> Row:
        """A row of the program of a line."""
        row = self.group.joined(number, text)
        row.words = row.words or words.split()
        row.begin("file", "p.sc")
        if ("between", "") in self.group.texts:
            first, _, second = text.partition("~")
            middle = unescaped(first).encode() + self.group.text("between") + unescaped(second).encode()
        else:
            middle = unescaped(text).encode()
        row.last += self.group.text("before") + middle + self.group.text("after")
        return row

    def checked(self, number: int, word: str, text: str) -> Row:
        row = self.program_row(number, text, "check p.sc")
        row.title = f"{word} {text}"
        if word == "ok":
            row.begin("out")
            row.last += b"ok\n"
            return row
        before, _, after = row.text("file", "p.sc").partition(b"@")
        row.texts["file", "p.sc"][:] = before + after
        row.status = 3
        row.begin("err")
        row.last += f"error: {word} {place_after(before)}\n".encode()
        return row

    def printed(self, number: int, text: str):
        """A line that the program of the last row prints, or the row of `need`."""
        row = self.rows[-1]
        if text == "need" or text.startswith("need "):
            made = row.joined(number, f"{row.title} (need)")
            made.words = ["need", *made.words[1:]]
            made.begin("out")
            if text != "need":
                made.last += f"{text}\n".encode()
            self.rows.append(made)
            return
        row.status = next((status for start, status in STATUSES if text.startswith(start)), 0)
        if text.startswith("error: "):
            row.begin("err")
        row.last += f"{text}\n".encode()


def read_rows(text: str) -> list[Row]:
    """The rows of a row file."""
    reader = Reader()
    for number, line in enumerate(text.split("\n"), 1):
        reader.line(number, line)
    return reader.rows
