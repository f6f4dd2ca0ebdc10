"""What each job of examples/jobs must publish, computed of its table by Python's own means."""
from __future__ import annotations

import csv
import heapq
import statistics
from bisect import bisect_right
from collections import Counter
from collections.abc import Callable
from fractions import Fraction
from math import ceil, floor
from pathlib import Path


class Tables:
    """The tables of the jobs."""

    def __init__(self, folder: Path):
        self.folder = folder

    def rows(self, name: str, separator: str = ",") -> list[dict[str, str]]:
        with open(self.folder / name, newline="", encoding="utf-8") as table:
            return list(csv.DictReader(table, delimiter=separator))

    def cents(self) -> list[int]:
        return [int(Fraction(row["salary"]) * 100) for row in self.rows("people.csv")]


def cut(number: Fraction) -> int:
    return floor(number) if number >= 0 else ceil(number)


def lines(name: str, value: object) -> list[str]:
    elements = value if isinstance(value, list) else [value]
    return ["publish " + " ".join([name, *(str(one).lower() if isinstance(one, bool) else str(one) for one in elements)])]


def median(tables: Tables) -> list[str]:
    return lines("low_median", statistics.median_low(tables.cents())) + lines("high_median", statistics.median_high(tables.cents()))


def bids(tables: Tables) -> list[str]:
    return lines("sorted", sorted(int(row["bid"]) for row in tables.rows("bids.csv", ";")))


def top(tables: Tables) -> list[str]:
    return lines("top", heapq.nlargest(5, tables.cents())[::-1])


def histogram(tables: Tables) -> list[str]:
    regions = Counter(row["region"] for row in tables.rows("people.csv"))
    between = Counter(bisect_right([200_000, 250_000, 300_000, 350_000], one) for one in tables.cents())
    return lines("regions", [regions[name] for name in ("north", "south", "east", "west")]) + lines("pay", [between[place] for place in range(5)])


def fitted(x: list[int], y: list[int]) -> list[str]:
    """The line that fits best: its slope, and its height where x is its own mean, cut off."""
    mean_x, mean_y = Fraction(sum(x), len(x)), Fraction(sum(y), len(y))
    together = sum((one - mean_x) * (other - mean_y) for one, other in zip(x, y, strict=True))
    slope = together / sum((one - mean_x) ** 2 for one in x)
    middle_x, middle_y = cut(mean_x), cut(mean_y)
    height = mean_y + slope * (middle_x - mean_x)
    near = statistics.linear_regression(x, y)
    assert abs(near.slope - slope) < 1e-6 and abs(near.intercept + near.slope * middle_x - height) < 1e-4
    return [
        *lines("people", len(x)), *lines("middle_x", middle_x), *lines("middle_y", middle_y), *lines("slope", cut(100 * slope)),
        *lines("height", 100 * middle_y + cut(100 * (height - middle_y))),
    ]


def regression(tables: Tables) -> list[str]:
    return fitted([int(row["years"]) for row in tables.rows("people.csv")], tables.cents())


def firms(tables: Tables) -> list[str]:
    rows = tables.rows("firms.csv")
    return fitted([int(row["sales"]) for row in rows], [int(row["profit"]) for row in rows])


def income_change(tables: Tables) -> list[str]:
    """People, those who earn less, and the changes of all and of these, in cents, of each branch of ten people or more."""
    columns = []
    for branch in ("farming", "trade", "crafts", "care"):
        here = [row for row in tables.rows("incomes.csv") if row["branch"] == branch]
        changes = [int(100 * (Fraction(row["after"]) - Fraction(row["before"]))) for row in here if len(here) >= 10]
        falls = [one for one in changes if one < 0]
        columns.append((len(changes), len(falls), sum(changes), sum(falls)))
    return [line for name, values in zip(("people", "poorer", "change", "lost"), zip(*columns)) for line in lines(name, list(values))]


def chi_square(tables: Tables) -> list[str]:
    counts = Counter((row["treated"], row["recovered"]) for row in tables.rows("patients.csv"))
    total = sum(counts.values())
    found = Fraction(0)
    for treated in ("yes", "no"):
        for recovered in ("yes", "no"):
            row = counts[treated, "yes"] + counts[treated, "no"]
            column = counts["yes", recovered] + counts["no", recovered]
            expected = Fraction(row * column, total)
            found += (counts[treated, recovered] - expected) ** 2 / expected
    return [
        *lines("treated_recovered", counts["yes", "yes"]), *lines("treated_ill", counts["yes", "no"]), *lines("others_recovered", counts["no", "yes"]),
        *lines("others_ill", counts["no", "no"]), *lines("chi_square", floor(1000 * found)),
    ]


def intersection(tables: Tables) -> list[str]:
    employed = [row["employed"] for row in tables.rows("employed.csv")]
    insured = [row["insured"] for row in tables.rows("insured.csv")]
    return lines("employed", len(employed)) + lines("insured", len(insured)) + lines("in_both", len(set(employed) & set(insured)))


def quartiles(tables: Tables) -> list[str]:
    order = sorted(tables.cents())
    return [line for percent in (25, 50, 75) for line in lines("quantile", order[ceil(Fraction(len(order) * percent, 100)) - 1])]


def variance(tables: Tables) -> list[str]:
    exact = [Fraction(one) for one in tables.cents()]
    return lines("mean", floor(statistics.mean(exact))) + lines("variance", floor(statistics.pvariance(exact)))


def temperatures(tables: Tables) -> list[str]:
    changes = [Fraction(row["change"].replace(",", ".")) for row in tables.rows("stations.csv", "\t")]
    return lines("colder", sum(one < 0 for one in changes)) + lines("mean", cut(1000 * statistics.mean(changes)))


def long_waits(tables: Tables) -> list[str]:
    cells = [row["wait"] for row in tables.rows("mistakes/waits_torn.csv")]
    return lines("hours", sum(int(Fraction(one) * 10) for one in cells if one and Fraction(one) > 30))


def urgent_waits(tables: Tables) -> list[str]:
    return lines("mean", floor(statistics.mean(int(row["wait"]) for row in tables.rows("mistakes/waits.csv") if row["urgent"] == "yes")))


RESULTS: dict[str, Callable[[Tables], list[str]]] = {
    "Median by ranks": median, "Bitonic sort": bids, "Top k": top, "Histogram": histogram, "Regression": regression, "Chi-square": chi_square,
    "Intersection of two registers": intersection, "Quartiles": quartiles, "Variance": variance, "Signs and decimals": temperatures,
    "Change of income": income_change, "A private condition": long_waits, "A column of another type": urgent_waits, "Products that overflow": firms,
}
