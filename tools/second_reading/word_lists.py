"""Long arrays' words of which a copy with one word changed costs a piece, and not the whole."""
from __future__ import annotations

from itertools import chain

PIECE = 512
LONG = 4 * PIECE


class WordList:
    """A sequence of words that never changes, as a tuple is one, in pieces of one length but for the last."""

    __slots__ = ("pieces", "size")

    def __init__(self, pieces: list[tuple[int, ...]], size: int):
        self.pieces, self.size = pieces, size

    def __len__(self) -> int:
        return self.size

    def __iter__(self):
        return chain.from_iterable(self.pieces)

    def __getitem__(self, place):
        if isinstance(place, slice):
            return tuple(self)[place]
        return self.pieces[place // PIECE][place % PIECE]

    def __add__(self, other) -> tuple[int, ...]:
        return tuple(self) + tuple(other)

    def __radd__(self, other) -> tuple[int, ...]:
        return tuple(other) + tuple(self)

    def changed(self, index: int, word: int) -> WordList:
        """The same words but for the one at this index."""
        number, place = divmod(index, PIECE)
        piece = self.pieces[number]
        pieces = list(self.pieces)
        pieces[number] = piece[:place] + (word,) + piece[place + 1 :]
        return WordList(pieces, self.size)


def in_pieces(words) -> WordList:
    whole = tuple(words)
    return WordList([whole[begin : begin + PIECE] for begin in range(0, len(whole), PIECE)], len(whole))


def changed(words, index: int, word: int):
    """Words with the one at an index below their count changed."""
    if isinstance(words, WordList):
        return words.changed(index, word)
    if len(words) < LONG:
        return words[:index] + (word,) + words[index + 1 :]
    return in_pieces(words).changed(index, word)
