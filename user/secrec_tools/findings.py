"""What is known of one fault: where it stands, what it means in general, what is known of it here, and the manual's row that is most like it."""
from __future__ import annotations

from dataclasses import dataclass, field

from .manual import Row

TAB = 4


@dataclass
class Spot:
    """A place in a text file, line and column from 1 (columns in bytes), with the line and what stands there."""

    path: str
    line: int
    column: int
    text: bytes
    length: int = 1

    def shown(self) -> list[str]:
        """The line, with a caret below the place."""
        before = self.text[: self.column - 1].decode("utf-8", "replace").expandtabs(TAB)
        whole = self.text.decode("utf-8", "replace").expandtabs(TAB).rstrip()
        start = max(len(before) - 70, 0)
        ahead, cut = ("..", start + 2) if start else ("", 0)
        length = max(1, min(self.length, 60))
        return [f"    {ahead}{whole[cut : start + 130]}", "    " + " " * (len(before) - start) + "^" + "~" * (length - 1)]


def spot_of(path: str, text: bytes, line: int, column: int, length: int = 1) -> Spot:
    lines = text.split(b"\n")
    return Spot(path, line, column, lines[line - 1] if line <= len(lines) else b"", length)


def spot_at(path: str, text: bytes, offset: int, length: int = 1) -> Spot:
    """The spot of an offset."""
    begin = text.rfind(b"\n", 0, offset) + 1
    return spot_of(path, text, text.count(b"\n", 0, offset) + 1, offset - begin + 1, length)


@dataclass
class Note:
    """A sentence of what is known here, perhaps with a place."""

    text: str
    spot: Spot | None = None


@dataclass
class Finding:
    """All that is said of a line."""

    line: str
    spot: Spot | None = None
    means: str = ""
    notes: list[Note] = field(default_factory=list)
    row: Row | None = None

    def note(self, text: str, spot: Spot | None = None):
        self.notes.append(Note(text, spot))

    def text(self) -> str:
        """What is printed."""
        lines = [self.line]
        if self.spot:
            lines += ["", f"{self.spot.path}, line {self.spot.line}, column {self.spot.column}:", *self.spot.shown()]
        if self.means:
            lines += ["", f"what it means: {self.means}"]
        for note in self.notes:
            lines += ["", f"here: {note.text}"]
            if note.spot:
                lines += [f"{note.spot.path}, line {note.spot.line}:", *note.spot.shown()]
        if self.row and self.row.means != self.means:
            lines += ["", f"as in `{self.row.written}`: {self.row.means}"]
        return "\n".join(lines) + "\n"

    def known(self) -> bool:
        return bool(self.means or self.notes or self.row)

    def fields(self) -> dict:
        """The same for an editor: place from 1, columns in characters."""
        said = [self.means] * bool(self.means) + [note.text for note in self.notes]
        said += [f"as in `{self.row.written}`: {self.row.means}"] if self.row and self.row.means != self.means else []
        found = {"refusal": self.line, "says": said}
        if self.spot:
            column = len(self.spot.text[: self.spot.column - 1].decode("utf-8", "replace")) + 1
            found |= {"path": self.spot.path, "line": self.spot.line, "column": column, "length": self.spot.length}
        return found
