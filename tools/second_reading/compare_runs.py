"""Compares runs of three miners, and what is made of them, with the model: programs with inputs, tapes, budgets and orders of delivery.

    python3 compare_runs.py --program PATH [--seed N] [--cases K] [--seconds S] [--part NAME..]
"""
from __future__ import annotations

import random
import sys
from collections.abc import Iterator
from functools import partial

import directed_runs
import edges
import programs
from case_calls import begun_case, limited_case, whole_case, workload
from comparison import Comparison, Play, sampled, with_deep_stack

RANDOM = {
    "programs": (programs.cases, whole_case),
    "scarce-programs": (programs.scarce, limited_case),
}
DIRECTED = {
    "edges": (lambda source: edges.cases(), whole_case),
    "operations": (directed_runs.operations, whole_case),
    "scarce": (directed_runs.scarce, limited_case),
    "traps": (directed_runs.traps, limited_case),
    "wide": (directed_runs.wide, limited_case),
    "links": (directed_runs.next_links, begun_case),
    "loads": (directed_runs.workloads, workload),
}


def cases(part: str, seed: int, count: int) -> Iterator[Play]:
    """The cases of a part: each is played in a folder."""
    name = f"{seed} {part}"
    if part in RANDOM:
        make, play = RANDOM[part]
        made = make(random.Random(name), count)
    else:
        make, play = DIRECTED[part]
        made = sampled(lambda: make(random.Random(name)), count, name)
    for number, case in enumerate(made):
        yield partial(play, case, random.Random(f"{name} {number}"))


def main() -> int:
    comparison = Comparison("Compares runs of made cases.", [*RANDOM, *DIRECTED])
    for part in comparison.options.part:
        comparison.play(part, cases(part, comparison.options.seed, comparison.options.cases))
    return comparison.finish()


if __name__ == "__main__":
    sys.exit(with_deep_stack(main))
