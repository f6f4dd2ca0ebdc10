"""Compares what the program and the model answer to words of all kinds and on files that are refused, and the code that is written.

    python3 compare_calls.py --program PATH [--seed N] [--cases K] [--seconds S] [--part NAME..]
"""
from __future__ import annotations

import random
import sys
from collections.abc import Iterator
from functools import partial
from itertools import islice

import call_words
import code_calls
import faulty_files
import file_calls
import miner_calls
from comparison import Comparison, Play, sampled, with_deep_stack
from good_calls import GOOD_FILES

RANDOM = {
    "random-words": (call_words.at_random, call_words.play),
    "random-inputs": (file_calls.changed(faulty_files.changed_entries, GOOD_FILES["i.json"]), file_calls.play_input),
    "random-publics": (file_calls.changed(faulty_files.changed_entries, GOOD_FILES["public"]), file_calls.play_public),
    "random-shares": (file_calls.changed(faulty_files.changed_entries, GOOD_FILES["first.2"]), file_calls.play_share),
    "random-tapes": (file_calls.changed(faulty_files.changed_tapes, GOOD_FILES["t"]), file_calls.play_tapes),
    "random-opened": (file_calls.changed(faulty_files.changed_lines, b"open 1 true\nopen\nopen 20\n"), file_calls.play_opened),
    "random-schedules": (file_calls.changed(faulty_files.changed_lines, GOOD_FILES["s"]), file_calls.play_schedule),
    "random-orders": (file_calls.random_orders, file_calls.play_order),
    **miner_calls.RANDOM,
}
DIRECTED = {
    **{part: (partial(call_words.by_hand, part), call_words.play) for part in call_words.PARTS},
    "inputs": (lambda: faulty_files.entry_files(False), file_calls.play_input),
    "publics": (lambda: faulty_files.entry_files(True), file_calls.play_public),
    "tapes": (faulty_files.tape_files, file_calls.play_tapes),
    "opened": (faulty_files.opened_files, file_calls.play_opened),
    "schedules": (faulty_files.schedule_files, file_calls.play_schedule),
    "shares": (faulty_files.share_files, file_calls.play_share),
    "orders": (file_calls.combined, file_calls.play_combined),
    "writes": (file_calls.writing_cases, file_calls.play_writing),
    "streams": (file_calls.streams, file_calls.play_streams),
    **miner_calls.DIRECTED,
}
CODES = {"random-codes": code_calls.at_random, "text-codes": code_calls.of_texts, "codes": code_calls.by_hand}
GROUP = 10


def groups(made: Iterator) -> Iterator[list]:
    """Cases together that are played in one folder."""
    while group := list(islice(made, GROUP)):
        yield group


def cases(part: str, seed: int, count: int) -> Iterator[Play]:
    """The cases of a part, each of which is played in a folder of its own: a program with its code, or a group of calls."""
    name = f"{seed} {part}"
    if part in CODES:
        play = code_calls.play
        made = sampled(lambda: CODES[part](random.Random(name), count), count, name)
    elif part in RANDOM:
        make, play = RANDOM[part][0], file_calls.in_turn(RANDOM[part][1])
        made = groups(make(random.Random(name), GROUP * count))
    else:
        make, play = DIRECTED[part][0], file_calls.in_turn(DIRECTED[part][1])
        made = sampled(lambda: groups(iter(make())), count, name)
    for number, case in enumerate(made):
        yield partial(play, case, random.Random(f"{name} {number}"))


def main() -> int:
    comparison = Comparison("Compares answers to words and on files.", [*RANDOM, *DIRECTED, *CODES])
    for part in comparison.options.part:
        comparison.play(part, cases(part, comparison.options.seed, comparison.options.cases))
    return comparison.finish()


if __name__ == "__main__":
    sys.exit(with_deep_stack(main))
