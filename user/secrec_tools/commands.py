"""The commands of `secrec`, read from `commands.json`: their synopses, the help on them, and what is wrong with words that ask for none.

A synopsis is a list of parts: a PLACE, an option with its VALUE, `[..]` for what may be left out, and `(.. or ..)` for one of several. A part that
depends on an option stands with it, as `--words` in `(--tape FILE or --seed HEX [--words N])`. An option that may stand several times has a value that
ends with two points, as `--share FILE..`, and so has the name of a last place that takes one word or more.
"""
from __future__ import annotations

import json
import os
import re
from dataclasses import dataclass, field
from difflib import get_close_matches

HERE = os.path.dirname(os.path.abspath(__file__))
PIECE = re.compile(r"[\[\]()]|[^\s\[\]()]+")
DIGITS = re.compile(r"[0-9]+")
SEED = re.compile(r"[0-9a-f]{64}")
WORD_END = 1 << 64
MINERS = ("1", "2", "3")
# Miners join at a port and at the two after it.
LAST_PORT = 65_533


@dataclass(frozen=True)
class Place:
    """A word that stands without an option before it."""

    name: str


@dataclass(frozen=True)
class Option:
    """An option and what its value is."""

    name: str
    value: str

    def __str__(self) -> str:
        return f"{self.name} {self.value}"


@dataclass(frozen=True)
class Group:
    """Several lists of parts of which one is given, or none where it may be left out."""

    choices: tuple[tuple["Part", ...], ...]
    optional: bool


Part = Place | Option | Group


@dataclass(frozen=True)
class Command:
    """A command: its name, the line that shows its words, and what it does."""

    name: str
    synopsis: str
    parts: tuple[Part, ...]
    says: str
    more: str

    def options(self) -> dict[str, Option]:
        return {part.name: part for part in flat(self.parts) if isinstance(part, Option)}

    def places(self) -> list[str]:
        return [part.name for part in self.parts if isinstance(part, Place)]


def flat(parts):
    """All places and options of a list of parts, in order."""
    for part in parts:
        if isinstance(part, Group):
            for choice in part.choices:
                yield from flat(choice)
        else:
            yield part


def read_parts(pieces: list[str], closing: str = "") -> tuple[tuple[Part, ...], ...]:
    """The choices up to the closing bracket, which is taken."""
    choices: list[list[Part]] = [[]]
    while pieces:
        piece = pieces.pop(0)
        if piece == closing:
            return tuple(tuple(choice) for choice in choices)
        if piece == "or":
            choices.append([])
        elif piece in "[(":
            choices[-1].append(Group(read_parts(pieces, "]" if piece == "[" else ")"), piece == "["))
        elif piece.startswith("--"):
            choices[-1].append(Option(piece, pieces.pop(0)))
        else:
            choices[-1].append(Place(piece))
    return tuple(tuple(choice) for choice in choices)


def read_command(entry: dict) -> Command:
    name, _, rest = entry["synopsis"].partition(" ")
    return Command(name, entry["synopsis"], read_parts(PIECE.findall(rest))[0], entry["says"], entry["more"])


class Table:
    """All commands, and what is said of their words."""

    def __init__(self, path: str = f"{HERE}/commands.json"):
        with open(path, encoding="utf-8") as file:
            found = json.load(file)
        self.commands = {one.name: one for one in map(read_command, found["commands"])}
        self.place_says, self.option_says, self.most = found["places"], found["options"], found["most"]
        self.statuses = {int(status): text for status, text in found["statuses"].items()}
        self.tools = found["tools"]

    def overview(self) -> str:
        """What `secrec --help` prints."""
        lines = ["Computes on data that no single server may see: a dealer splits private values into shares, and three miners compute on these.", ""]
        lines += [f"    secrec {one.synopsis}" for one in self.commands.values()]
        lines += ["    secrec help COMMAND, --help, --version", ""]
        width = max(map(len, self.commands))
        lines += [f"  {one.name:{width}}  {one.says}" for one in self.commands.values()]
        lines += ["", "Beside it:"]
        lines += [f"  {tool['synopsis'].split()[0]:14}  {tool['says']}" for tool in self.tools]
        lines += ["", "`man secrec` has the rest. Scripts may call the program below, which says one line of a refusal and no more: `secrec --where` tells its path."]
        return "\n".join(lines) + "\n"

    def help_on(self, name: str) -> str:
        """What `secrec help COMMAND` prints."""
        command = self.commands[name]
        lines = [f"    secrec {command.synopsis}", "", command.more, ""]
        parts = [(str(part) if isinstance(part, Option) else part.name, part.name) for part in flat(command.parts)]
        width = max(len(shown) for shown, _ in parts)
        lines += [f"  {shown:{width}}  {self.place_says.get(key) or self.option_says.get(key, '')}" for shown, key in parts]
        return "\n".join(lines) + "\n"

    def asks_for_help(self, words: list[str]) -> str | None:
        """The help that the words ask for; empty for a command that there isn't, None where they ask for no help."""
        asked = words[: words.index("--")] if "--" in words else words
        if words in (["--help"], ["-h"], ["help"]):
            return self.overview()
        if asked[:1] == ["help"]:
            return self.help_on(asked[1]) if len(asked) == 2 and asked[1] in self.commands else ""
        if "--help" in asked and asked[0] in self.commands:
            return self.help_on(asked[0])
        return None

    def faults(self, words: list[str]) -> list[str]:
        """What is wrong with words that ask for no command, as far as it can be seen from them."""
        if not words:
            return ["no command is named"]
        if words[0] not in self.commands:
            return [unknown("command", words[0], list(self.commands))]
        return Reader(self, self.commands[words[0]]).faults(words[1:])

    def usage(self, words: list[str]) -> str:
        """What is said on the error stream after words that ask for no command."""
        lines = self.faults(words)
        if words and words[0] in self.commands:
            lines += [f"secrec {self.commands[words[0]].synopsis}", f"`secrec help {words[0]}` says more"]
        else:
            lines += ["the commands are " + ", ".join(self.commands), "`secrec --help` shows their words"]
        return "".join(f"secrec: {line}\n" for line in lines)


def unknown(what: str, word: str, known: list[str]) -> str:
    """That there is no such word, with the one that is nearest."""
    near = get_close_matches(word, known, 1, 0.6)
    return f"no {what} `{word}`" + (f"; is `{near[0]}` meant?" if near else "")


@dataclass
class Reader:
    """Reads the words after a command, and collects what is wrong with them."""

    table: Table
    command: Command
    given: dict[str, str] = field(default_factory=dict)
    found: list[str] = field(default_factory=list)

    def faults(self, words: list[str]) -> list[str]:
        self.take(words)
        if not self.found:
            self.fits(self.command.parts)
            for name, value in self.given.items():
                self.value_fits(name, value)
        return self.found

    def take(self, words: list[str]):
        """Hands each word to its place or option."""
        places, rest, ended = self.command.places(), list(words), False
        while rest:
            word = rest.pop(0)
            if word == "--" and not ended:
                ended = True
            elif not ended and word.startswith("-") and word != "-":
                self.option(word, rest)
            elif places:
                self.given[places[0] if places[0].endswith("..") else places.pop(0)] = word
            else:
                self.found.append(self.too_many(word))

    def too_many(self, word: str) -> str:
        """That a word has no place, with the option that it may belong to."""
        endings = {".json": "--input", ".tape": "--tape", ".schedule": "--schedule"}
        meant = endings.get(os.path.splitext(word)[1])
        if meant in self.command.options() and meant not in self.given:
            return f"`{word}` has no place of its own: files stand after their options, `{meant} {word}`"
        return f"`{word}` is a word too many"

    def option(self, word: str, rest: list[str]):
        """Takes an option and its value."""
        known = self.command.options()
        name, attached, value = word.partition("=")
        if not name.startswith("--") and f"-{name}" in known:
            self.found.append(f"`{name}`: options have two dashes and their whole name, `-{name}`")
        elif name not in known:
            self.found.append(unknown("option", name, list(known)) + f" of `{self.command.name}`" + self.elsewhere(name))
        elif name in self.given and not known[name].value.endswith(".."):
            self.found.append(f"`{name}` stands twice")
        elif attached:
            self.given[name] = value
            return
        elif not rest:
            self.found.append(f"`{name}` has no value after it: `{known[name]}`")
        elif rest[0].startswith("-") and rest[0] != "-":
            if rest[0].startswith("--"):
                self.found.append(f"`{name}` has no value after it: `{known[name]}`")
            else:
                self.found.append(f"`{name} {rest[0]}`: a value that begins with - stands after =, `{name}={rest.pop(0)}`")
            return
        else:
            self.given[name] = rest.pop(0)
            return
        if not attached and rest and not rest[0].startswith("-"):
            rest.pop(0)

    def elsewhere(self, name: str) -> str:
        """Which commands have an option that this one has not."""
        others = [one.name for one in self.table.commands.values() if name in one.options()]
        return f" (it is one of {', '.join(others)})" if others else ""

    def is_given(self, parts) -> bool:
        """Whether anything of these parts is there."""
        return any(part.name in self.given for part in flat(parts))

    def fits(self, parts):
        """What is missing of these parts, and what excludes one another."""
        for part in parts:
            if isinstance(part, Group):
                chosen = [choice for choice in part.choices if self.is_given(choice)]
                if len(chosen) > 1:
                    names = [next(one.name for one in flat(choice) if one.name in self.given) for choice in chosen]
                    self.found.append(f"not both `{names[0]}` and `{names[1]}`")
                elif chosen:
                    self.fits(chosen[0])
                elif not part.optional:
                    ways = [" ".join(map(str, (one for one in choice if not isinstance(one, Group)))) for choice in part.choices]
                    self.found.append("`" + "` or `".join(ways) + "` is missing")
            elif part.name not in self.given:
                shown = str(part) if isinstance(part, Option) else part.name
                self.found.append(f"`{shown}` is missing")

    def value_fits(self, name: str, value: str):
        """What is wrong with the form of a value."""
        option = self.command.options().get(name)
        kind = option.value if option else name
        if kind == "MINER" and not (DIGITS.fullmatch(value) and value.lstrip("0") in MINERS):
            where = f"`{name}`" if option else "the miner stands before the program, and"
            self.found.append(f"{where} is 1, 2 or 3, not `{value}`")
        if kind in ("N", "K"):
            most = self.table.most.get(name, WORD_END - 1)
            if not DIGITS.fullmatch(value) or len(value.lstrip("0")) > 20 or int(value.lstrip("0") or "0") > most:
                self.found.append(f"`{name} {value}`: digits alone, of a number up to {most}")
        if kind == "P" and not (DIGITS.fullmatch(value) and 1 <= len(value.lstrip("0")) <= 5 and int(value.lstrip("0")) <= LAST_PORT):
            self.found.append(f"`{name} {value}`: digits alone, of a port from 1 to {LAST_PORT}")
        if kind == "HEX" and not SEED.fullmatch(value):
            self.found.append(f"`{name}` has 64 hexadecimal digits in lower case, and no 0x; there are {len(value)} signs")
