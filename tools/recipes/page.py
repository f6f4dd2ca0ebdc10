"""The blocks of a page: pieces of program files, and commands with what they print."""
from __future__ import annotations

import re
from collections.abc import Iterator
from dataclasses import dataclass
from pathlib import Path


@dataclass(frozen=True)
class Block:
    """A fenced block: what stands after its opening fence, the page's line of that, and its text."""

    info: str
    line: int
    text: str


@dataclass(frozen=True)
class Command:
    """A command line of a page, and what must be printed."""

    line: int
    words: str
    shown: str


def blocks(page: str) -> Iterator[Block]:
    """The fenced blocks in their order."""
    info, start, text = None, 0, []
    for number, line in enumerate(page.splitlines(), 1):
        if info is None:
            if line.startswith("```"):
                info, start, text = line[3:], number, []
        elif line == "```":
            yield Block(info, start, "".join(one + "\n" for one in text))
            info = None
        else:
            text.append(line)


def commands(block: Block) -> Iterator[Command]:
    """The commands of a console block: each stands after `$ `, and what it prints below it."""
    words, at, shown = None, 0, []
    for number, line in enumerate(block.text.splitlines(), block.line + 1):
        if line.startswith("$ "):
            if words is not None:
                yield Command(at, words, "".join(one + "\n" for one in shown))
            words, at, shown = line[2:], number, []
        else:
            shown.append(line)
    if words is not None:
        yield Command(at, words, "".join(one + "\n" for one in shown))


FUNCTION = re.compile(r"^(?:template <[^>]*>\n)?(?:[a-zA-Z_][\w]* )?(?:[a-z0-9_]+(?:\[\[1\]\])?) ([a-z_]+)\([^)]*\) \{.*?(?:^\}|\}$)", re.MULTILINE | re.DOTALL)


def functions(program: str) -> dict[str, str]:
    """The functions of a program by their names, each with the comment before it; `main` is not among them."""
    found = {}
    for piece in re.split(r"\n\n", program):
        told = FUNCTION.search(piece)
        if told and told.group(1) != "main":
            found[told.group(1)] = piece.strip()
    return found


def programs(*folders: Path) -> Iterator[Path]:
    for folder in folders:
        yield from sorted(folder.glob("*.sc"))
