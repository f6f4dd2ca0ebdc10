"""What the result files of examples/library must make of the inputs of a case, by Python's own means: fractions, `statistics` and `math`."""
from __future__ import annotations

import math
import statistics
from collections.abc import Callable
from fractions import Fraction

from recipe_parts import Given

Number = Fraction | float | int | bool | None
Wanted = dict[str, Number | list[Number] | dict[str, Number]]
REGIONS = ("north", "south", "east", "west")


def quotient(x: int, y: int) -> Fraction | None:
    return Fraction(x, y) if y else None


def mean_values(given: Given) -> Wanted:
    means = {}
    for code, word in enumerate(REGIONS):
        there = [one for one, place in zip(given.pay, given.region, strict=True) if place == code]
        means[word] = statistics.mean(map(Fraction, there)) if len(there) >= given.fewest else None
    return {"mean": statistics.mean(map(Fraction, given.pay)), "mean_there": means}


def deviation_values(given: Given) -> Wanted:
    exact = [Fraction(one) for one in given.pay]
    return {
        "mean": statistics.mean(exact), "variance": statistics.pvariance(exact), "deviation": statistics.pstdev(given.pay),
        "sample_variance": statistics.variance(exact), "sample_deviation": statistics.stdev(given.pay),
    }


def line_values(given: Given) -> Wanted:
    line = statistics.linear_regression(given.x, given.y)
    return {"slope": line.slope, "begins": line.intercept, "correlation": statistics.correlation(given.x, given.y)}


def four_values(given: Given) -> Wanted:
    pairs = list(zip(given.first, given.second, strict=True))
    counts = {(one, other): pairs.count((one, other)) for one in (True, False) for other in (True, False)}
    found: Fraction | None = Fraction(0)
    for one, other in counts:
        expected = Fraction(given.first.count(one) * given.second.count(other), len(pairs))
        found = None if found is None or not expected else found + (counts[one, other] - expected) ** 2 / expected
    return {
        "both": counts[True, True], "first_alone": counts[True, False], "second_alone": counts[False, True], "neither": counts[False, False],
        "chi_square": found, "p": None if found is None else math.erfc(math.sqrt(found / 2)),
    }


def between_values(given: Given) -> Wanted:
    found = statistics.quantiles(map(Fraction, given.pay), n=100, method="inclusive")
    return {"quantile": {f"{percent} %": found[percent - 1] for percent in given.percents}}


def weighted_values(given: Given) -> Wanted:
    return {"weighted_mean": quotient(sum(map(int.__mul__, given.pay, given.weight)), sum(given.weight))}


def k_means_values(given: Given) -> Wanted:
    centres = list(zip(given.centre_x, given.centre_y, strict=True))
    here: list[list[tuple[int, int]]] = [[] for _ in centres]
    for point in zip(given.x, given.y, strict=True):
        here[min(range(len(centres)), key=lambda k: math.dist(point, centres[k]))].append(point)
    means = [[round(statistics.mean(map(Fraction, column))) for column in zip(*points)] or [None, None] for points in here]
    return {"points": list(map(len, here)), "centre_x": [one[0] for one in means], "centre_y": [one[1] for one in means]}


def logistic_values(given: Given) -> Wanted:
    """Of each person the chance that stairs tell is taken from the answer."""
    rests = []
    for dose, answer in zip(given.dose, given.answer, strict=True):
        height = given.start + given.slope * dose
        steps = sum((height >= edge) + (height >= -edge) for edge in given.stairs)
        rests.append(answer - Fraction(steps, 2 * len(given.stairs)))
    by_dose = [rest * dose for rest, dose in zip(rests, given.dose, strict=True)]
    return {"start_rises": 1000 * statistics.mean(rests), "slope_rises": 1000 * statistics.mean(by_dose)}


def log_rank_values(given: Given) -> Wanted:
    """By the times at which somebody has the event, one after another."""
    people = list(zip(given.time, given.event, given.first, strict=True))
    expected, spread = Fraction(0), Fraction(0)
    for t in sorted({time for time, event, _ in people if event}):
        left = [first for time, _, first in people if time >= t]
        events = sum(event for time, event, _ in people if time == t)
        share = Fraction(sum(left), len(left))
        expected += events * share
        if len(left) > 1:
            spread += events * share * (1 - share) * Fraction(len(left) - events, len(left) - 1)
    observed = sum(event and first for _, event, first in people)
    found = (observed - expected) ** 2 / spread if spread else None
    return {
        "observed": observed, "expected": expected, "chi_square": found, "p": None if found is None else math.erfc(math.sqrt(found / 2)),
    }


VALUES: dict[str, Callable[[Given], Wanted]] = {
    "mean_published": mean_values, "deviation": deviation_values, "line": line_values, "four_counts": four_values, "quantiles_between": between_values,
    "weighted_mean": weighted_values, "k_means": k_means_values, "logistic": logistic_values, "log_rank": log_rank_values,
}
