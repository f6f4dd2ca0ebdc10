"""The recipes whose results go to the reader alone: inputs for n people, and what is published of them, by Python's own means."""
from __future__ import annotations

import random
import statistics
from math import log

from recipe_parts import Entry, Given, Recipe, Told, pay, private, public, region_inputs, with_sign

MOST = 1_000_000


def mean_told(given: Given) -> Told:
    told: Told = [("people", len(given.pay)), ("total", sum(given.pay))]
    for code in range(given.regions):
        there = [one for one, place in zip(given.pay, given.region, strict=True) if place == code]
        there = there if len(there) >= given.fewest else []
        told += [("people_there", len(there)), ("total_there", sum(there))]
    return told


def within(*columns: list[int]) -> tuple[str, bool]:
    return "within", max(max(column) for column in columns) <= MOST


def deviation_told(given: Given) -> Told:
    return [within(given.pay), ("people", len(given.pay)), ("total", sum(given.pay)), ("squares", sum(one * one for one in given.pay))]


def pairs_inputs(chance: random.Random, n: int) -> list[Entry]:
    x = [chance.randrange(100) for _ in range(n)]
    return [private("x", x), private("y", [3 * one + chance.randrange(50) for one in x]), public("most", MOST)]


def line_told(given: Given) -> Told:
    x, y = given.x, given.y
    sums = [("xx", zip(x, x)), ("xy", zip(x, y, strict=True)), ("yy", zip(y, y))]
    return [within(x, y), ("pairs", len(x)), ("x", sum(x)), ("y", sum(y)), *((name, sum(one * other for one, other in both)) for name, both in sums)]


def truths(chance: random.Random, n: int) -> list[bool]:
    return [chance.random() < 0.5 for _ in range(n)]


def four_told(given: Given) -> Told:
    pairs = list(zip(given.first, given.second, strict=True))
    return [("people", len(pairs)), ("both", pairs.count((True, True))), ("first", sum(given.first)), ("second", sum(given.second))]


def group_median_told(given: Given) -> Told:
    there = [one for one, place in zip(given.pay, given.region, strict=True) if place == given.wanted]
    return [("low_median", statistics.median_low(there)), ("high_median", statistics.median_high(there))]


def between_told(given: Given) -> Told:
    order, told = sorted(given.pay), []
    for percent in given.percents:
        place, rest = divmod((len(order) - 1) * percent, 100)
        told += [("below", order[place]), ("above", order[place + 1] if rest else order[place]), ("hundredths", rest)]
    return told


def weighted_told(given: Given) -> Told:
    return [within(given.pay, given.weight), ("weights", sum(given.weight)), ("weighted", sum(map(int.__mul__, given.pay, given.weight)))]


def points_inputs(chance: random.Random, n: int) -> list[Entry]:
    return [
        private("x", [chance.randrange(100) for _ in range(n)]), private("y", [chance.randrange(100) for _ in range(n)]),
        public("centre_x", [20, 80, 50]), public("centre_y", [20, 30, 90]),
    ]


def k_means_told(given: Given) -> Told:
    points = list(zip(given.x, given.y, strict=True))
    centres = list(zip(given.centre_x, given.centre_y, strict=True))
    nearest = [min(range(len(centres)), key=lambda k: (x - centres[k][0]) ** 2 + (y - centres[k][1]) ** 2) for x, y in points]
    told: Told = [("within", True)]
    for k in range(len(centres)):
        here = [point for point, place in zip(points, nearest) if place == k]
        told += [("points", len(here)), ("sum_x", sum(x for x, _ in here)), ("sum_y", sum(y for _, y in here))]
    return told


def stairs(count: int) -> list[int]:
    """The edges above zero, in thousandths, of stairs with twice as many steps: where the logistic curve is in the middle of a step."""
    chances = [(2 * k + 1) / (4 * count) for k in range(count, 2 * count)]
    return [round(1000 * log(chance / (1 - chance))) for chance in chances]


def doses_inputs(chance: random.Random, n: int) -> list[Entry]:
    return [
        private("dose", [chance.randrange(12) for _ in range(n)]), private("answer", truths(chance, n)),
        with_sign(public("start", -1500)), with_sign(public("slope", 300)), public("stairs", stairs(4)),
    ]


def logistic_told(given: Given) -> Told:
    edges = [*given.stairs, *(-one for one in given.stairs)]
    rests = []
    for dose, answer in zip(given.dose, given.answer, strict=True):
        height = given.start + given.slope * dose
        rests.append(len(edges) * answer - sum(height >= edge for edge in edges))
    by_dose = sum(rest * dose for rest, dose in zip(rests, given.dose, strict=True))
    return [("people", len(rests)), ("steps", len(edges)), ("rest", sum(rests)), ("rest_by_dose", by_dose)]


def watched_inputs(chance: random.Random, n: int) -> list[Entry]:
    return [
        private("time", [chance.randrange(10) for _ in range(n)]), private("event", truths(chance, n)), private("first", truths(chance, n)),
        public("times", 10),
    ]


def log_rank_told(given: Given) -> Told:
    people = list(zip(given.time, given.event, given.first, strict=True))
    told: Told = [("within", True)]
    for t in range(given.times):
        left = [(event and time == t, first) for time, event, first in people if time >= t]
        told += [
            ("watched", len(left)), ("watched_first", sum(first for _, first in left)), ("events", sum(event for event, _ in left)),
            ("events_first", sum(event and first for event, first in left)),
        ]
    return told


PUBLISHED = {
    "mean_published": Recipe(lambda chance, n: [*region_inputs(chance, n), public("regions", 4), public("fewest", 2)], mean_told),
    "deviation": Recipe(lambda chance, n: [pay(chance, n), public("most", MOST)], deviation_told),
    "line": Recipe(pairs_inputs, line_told),
    "four_counts": Recipe(lambda chance, n: [private("first", truths(chance, n)), private("second", truths(chance, n))], four_told),
    "group_median": Recipe(lambda chance, n: [*region_inputs(chance, n), public("wanted", 2)], group_median_told),
    "quantiles_between": Recipe(lambda chance, n: [pay(chance, n), public("percents", [25, 50, 75, 90])], between_told),
    "weighted_mean": Recipe(
        lambda chance, n: [pay(chance, n), private("weight", [chance.randrange(10) for _ in range(n)]), public("most", MOST)], weighted_told
    ),
    "k_means": Recipe(points_inputs, k_means_told),
    "logistic": Recipe(doses_inputs, logistic_told),
    "log_rank": Recipe(watched_inputs, log_rank_told),
}
