"""Compares what the program and the model say of made texts: programs of one fault, of many, and of none.

    python3 compare_texts.py --program PATH [--seed N] [--cases K] [--seconds S] [--part NAME..]
"""
from __future__ import annotations

import random
import sys
from collections.abc import Iterator
from functools import partial

import texts
from case_calls import PROGRAM_CALLS
from comparison import Comparison, Folder, Play, sampled, with_deep_stack
from random_texts import random_graph, random_text, random_typed

RANDOM = {"random": random_text, "graphs": random_graph, "typed": random_typed}
PARTS = [*texts.PARTS, *RANDOM]


def made_texts(part: str, seed: int, count: int) -> Iterator[bytes]:
    """The texts of a part."""
    if part in RANDOM:
        yield from (RANDOM[part](f"{seed} {number}") for number in range(count))
        return
    for text in sampled(texts.PARTS[part], count, f"{seed} {part}"):
        yield text.encode() if isinstance(text, str) else text


def play(text: bytes, source: random.Random, folder: Folder):
    """The calls of a text: whether it is accepted, and sometimes what other commands say of it."""
    folder.put("p.sc", text)
    folder.call("check", "p.sc")
    if source.random() < 0.3:
        folder.call("compile", "p.sc", "--code", "code")
    if source.random() < 0.1:
        folder.call(*source.choice(PROGRAM_CALLS))


def cases(part: str, seed: int, count: int) -> Iterator[Play]:
    source = random.Random(f"{seed} calls of {part}")
    return (partial(play, text, source) for text in made_texts(part, seed, count))


def main() -> int:
    comparison = Comparison("Compares what is said of made texts.", PARTS)
    for part in comparison.options.part:
        comparison.play(part, cases(part, comparison.options.seed, comparison.options.cases))
    return comparison.finish()


if __name__ == "__main__":
    sys.exit(with_deep_stack(main))
