"""Bytes to tokens, or the first lexical refusal in the order of the text."""

from dataclasses import dataclass
from enum import Enum

TEXT_LIMIT = 1_048_576
NAME_LIMIT = 64
WORD_END = 1 << 64

KEYWORDS = frozenset(
    "import kind domain template public void uint64 uint int64 int bool if else while do for break continue return assert "
    "true false argument publish declassify".split()
)
LONG_SIGNS = frozenset("== != <= >= && || += -= *= &= |= ^= ++ --".split())
SHORT_SIGNS = frozenset("( ) [ ] { } < > , ; : = + - * / % & | ^ !".split())
BLANKS = b" \t\r\n"
DIGITS = b"0123456789"
LETTERS = b"abcdefghijklmnopqrstuvwxyzABCDEFGHIJKLMNOPQRSTUVWXYZ_"
WORD_BYTES = frozenset(DIGITS + LETTERS)


class Kind(Enum):
    """What a token is; keywords and signs are told apart by their text."""

    WORD = "keyword or sign"
    NAME = "name"
    NUMBER = "number"
    STRING = "string"
    END = "end of the text"


@dataclass(frozen=True)
class Token:
    """A token; `place` is the offset of its first byte."""

    kind: Kind
    text: str
    value: int
    place: int


class Refused(Exception):
    """A refusal with its sign and the offset where it stands."""

    def __init__(self, sign: str, place: int):
        super().__init__(sign, place)
        self.sign = sign
        self.place = place


def word_end(text: bytes, start: int) -> int:
    """Where the run of letters, digits and underscores from `start` on ends."""
    end = start
    while end < len(text) and text[end] in WORD_BYTES:
        end += 1
    return end


def number_value(word: str) -> int | None:
    """The value of a number, or None where it is no number below 2^64."""
    if word.startswith("0x"):
        digits, base, allowed = word[2:], 16, "0123456789abcdefABCDEF"
    else:
        digits, base, allowed = word, 10, "0123456789"
    if not digits or any(digit not in allowed for digit in digits):
        return None
    value = 0
    for digit in digits:
        value = value * base + int(digit, 16)
    return value if value < WORD_END else None


def skip_comment(text: bytes, start: int) -> int | None:
    """Where a comment that begins at `start` ends; None where none begins there."""
    if text.startswith(b"//", start):
        end = text.find(b"\n", start)
        return len(text) if end < 0 else end
    if text.startswith(b"/*", start):
        end = text.find(b"*/", start + 2)
        if end < 0:
            raise Refused("L4", start)
        return end + 2
    return None


def read_string(text: bytes, start: int) -> tuple[Token, int]:
    """The string whose opening quote is at `start`."""
    end = word_end(text, start + 1)
    if end == len(text) or text[end] == 0x0A:
        raise Refused("L3", start)
    if text[end] != 0x22:
        raise Refused("L1", end)
    length = end - start - 1
    if length == 0 or length > NAME_LIMIT:
        raise Refused("L5", start)
    return Token(Kind.STRING, text[start + 1 : end].decode("ascii"), 0, start), end + 1


def read_word(text: bytes, start: int) -> tuple[Token, int]:
    """The name, keyword or number at `start`."""
    end = word_end(text, start)
    word = text[start:end].decode("ascii")
    if text[start] in DIGITS:
        value = number_value(word)
        if value is None:
            raise Refused("L2", start)
        return Token(Kind.NUMBER, word, value, start), end
    if word in KEYWORDS:
        return Token(Kind.WORD, word, 0, start), end
    if end - start > NAME_LIMIT:
        raise Refused("L5", start)
    return Token(Kind.NAME, word, 0, start), end


def read_sign(text: bytes, start: int) -> tuple[Token, int]:
    """The longest sign at `start`."""
    for length, signs in ((2, LONG_SIGNS), (1, SHORT_SIGNS)):
        piece = text[start : start + length].decode("latin-1")
        if piece in signs:
            return Token(Kind.WORD, piece, 0, start), start + length
    raise Refused("L1", start)


def lex(text: bytes) -> list[Token]:
    """All tokens of the text, with the end of the text as the last one."""
    if len(text) > TEXT_LIMIT:
        raise Refused("L6", TEXT_LIMIT)
    tokens = []
    place = 0
    while place < len(text):
        if text[place] in BLANKS:
            place += 1
            continue
        behind = skip_comment(text, place)
        if behind is not None:
            place = behind
            continue
        if text[place] == 0x22:
            token, place = read_string(text, place)
        elif text[place] in WORD_BYTES:
            token, place = read_word(text, place)
        else:
            token, place = read_sign(text, place)
        tokens.append(token)
    tokens.append(Token(Kind.END, "", 0, len(text)))
    return tokens
