"""JSON: the value of a text, or none."""
from __future__ import annotations

import re

LEVELS = 127
WORD_BOUND = 1 << 64
BLANKS = re.compile(r"[ \t\n\r]*")
NUMBER = re.compile(r"(-?)(0|[1-9][0-9]*)((?:\.[0-9]+)?(?:[eE][+-]?[0-9]+)?)")
PLAIN = re.compile(r'[^"\\\x00-\x1f]*')
FOUR = re.compile(r"[0-9a-fA-F]{4}")
ESCAPES = {'"': '"', "\\": "\\", "/": "/", "b": "\b", "f": "\f", "n": "\n", "r": "\r", "t": "\t"}
LITERALS = {"t": ("true", True), "f": ("false", False), "n": ("null", None)}


class NoJson(Exception):
    """The bytes are no JSON."""


class Below(int):
    """A number from -2^63 to -1."""


class Reader:
    """Reads a text from its start; a number is an `int` where it is a word, `Below` where it is one of those, else a `float`."""

    def __init__(self, text: str):
        self.text, self.place = text, 0

    def blanks(self):
        self.place = BLANKS.match(self.text, self.place).end()

    def sees(self, sign: str) -> bool:
        """Whether this stands here; then it is taken."""
        found = self.text.startswith(sign, self.place)
        if found:
            self.place += len(sign)
        return found

    def want(self, sign: str):
        if not self.sees(sign):
            raise NoJson

    def whole(self):
        """The one value of the text."""
        value = self.value(0)
        self.blanks()
        if self.place != len(self.text):
            raise NoJson
        return value

    def value(self, level: int):
        self.blanks()
        sign = self.text[self.place : self.place + 1]
        if sign in ("[", "{"):
            if level == LEVELS:
                raise NoJson
            self.place += 1
            return self.array(level + 1) if sign == "[" else self.object(level + 1)
        if sign == '"':
            self.place += 1
            return self.string()
        if sign in LITERALS:
            word, value = LITERALS[sign]
            self.want(word)
            return value
        return self.number()

    def array(self, level: int) -> list:
        values = []
        self.blanks()
        if self.sees("]"):
            return values
        while True:
            values.append(self.value(level))
            self.blanks()
            if self.sees("]"):
                return values
            self.want(",")

    def object(self, level: int) -> dict:
        """Of equal keys the last one counts."""
        values = {}
        self.blanks()
        if self.sees("}"):
            return values
        while True:
            self.blanks()
            self.want('"')
            key = self.string()
            self.blanks()
            self.want(":")
            values[key] = self.value(level)
            self.blanks()
            if self.sees("}"):
                return values
            self.want(",")

    def string(self) -> str:
        """What stands up to the closing quote."""
        parts = []
        while True:
            found = PLAIN.match(self.text, self.place)
            parts.append(found.group())
            self.place = found.end()
            if self.sees('"'):
                return "".join(parts)
            self.want("\\")
            parts.append(self.escape())

    def escape(self) -> str:
        """What stands after a backslash; two halves of a pair are one character."""
        if not self.sees("u"):
            sign = self.text[self.place : self.place + 1]
            if sign not in ESCAPES:
                raise NoJson
            self.place += 1
            return ESCAPES[sign]
        code = self.four_digits()
        if 0xD800 <= code < 0xDC00:
            self.want("\\u")
            low = self.four_digits()
            if not 0xDC00 <= low < 0xE000:
                raise NoJson
            return chr(0x10000 + ((code - 0xD800) << 10) + (low - 0xDC00))
        if 0xDC00 <= code < 0xE000:
            raise NoJson
        return chr(code)

    def four_digits(self) -> int:
        found = FOUR.match(self.text, self.place)
        if not found:
            raise NoJson
        self.place = found.end()
        return int(found.group(), 16)

    def number(self) -> int | float:
        found = NUMBER.match(self.text, self.place)
        if not found:
            raise NoJson
        self.place = found.end()
        sign, digits, rest = found.groups()
        if not sign and not rest and len(digits) <= 20 and int(digits) < WORD_BOUND:
            return int(digits)
        if sign and not rest and len(digits) <= 20 and 1 <= int(digits) <= WORD_BOUND >> 1:
            return Below(-int(digits))
        value = float(found.group())
        if value in (float("inf"), float("-inf")):
            raise NoJson
        return value


def json_value(data: bytes):
    """The value of these bytes."""
    try:
        text = data.decode()
    except UnicodeDecodeError:
        raise NoJson from None
    return Reader(text).whole()
