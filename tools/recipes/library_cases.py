"""What each program of examples/library is asked for and must tell: inputs for n people, and the results by Python's own means."""
from __future__ import annotations

import random
import statistics
from fractions import Fraction
from math import ceil, floor

from published_cases import PUBLISHED
from recipe_parts import WORDS, Entry, Given, Recipe, Told, Value, pay, private, public, region_inputs, with_sign


# How many different codes there are where the words go by them.
CODES = 16


def cut(number: Fraction) -> int:
    """Cut off towards zero."""
    return floor(number) if number >= 0 else ceil(number)


def ranks(numbers: list[int]) -> list[int]:
    order = sorted(range(len(numbers)), key=lambda place: (numbers[place], place))
    found = [0] * len(numbers)
    for rank, place in enumerate(order):
        found[place] = rank
    return found


def slice_told(given: Given) -> Told:
    numbers = given.pay
    return [("slice", numbers[given.__dict__["from"]:given.to]), ("reversed", numbers[::-1]), ("every_second", numbers[::2])]


def choose_inputs(chance: random.Random, n: int) -> list[Entry]:
    return [
        pay(chance, n), private("raised", [chance.randrange(5000) for _ in range(n)]),
        private("agreed", [chance.random() < 0.5 for _ in range(n)]), private("place", chance.randrange(n)),
    ]


def choose_told(given: Given) -> Told:
    each = [new if yes else old for yes, new, old in zip(given.agreed, given.raised, given.pay, strict=True)]
    stored = list(given.pay)
    stored[given.place] = 1
    return [("first", each[0]), ("each", each), ("element", given.pay[given.place]), ("stored", stored)]


def histogram_told(given: Given) -> Told:
    bounds = [0, *given.edges, WORDS]
    between = [sum(low <= one < high for one in given.pay) for low, high in zip(bounds, bounds[1:])]
    return [("regions", [given.region.count(code) for code in range(given.regions)]), ("pay", between)]


def join_inputs(chance: random.Random, n: int) -> list[Entry]:
    people = chance.sample(range(100, 100 + 2 * n), n)
    others = chance.sample(range(100, 100 + 2 * n), n)
    return [private("employed", people), private("insured", others), pay(chance, n)]


def join_told(given: Given) -> Told:
    table = dict(zip(given.employed, given.pay, strict=True))
    found = [table[key] for key in given.insured if key in table]
    return [("in_both", len(found)), ("pay_of_insured", sum(found))]


def price_inputs(chance: random.Random, n: int) -> list[Entry]:
    """Some articles are not in the list."""
    return [
        private("prices", [chance.randrange(1000) for _ in range(CODES)]), private("article", [chance.randrange(CODES + 2) for _ in range(n)]),
        private("amount", [chance.randrange(10) for _ in range(n)]),
    ]


def price_told(given: Given) -> Told:
    prices = dict(enumerate(given.prices))
    return [("paid", sum(prices.get(article, 0) * amount for article, amount in zip(given.article, given.amount, strict=True)))]


def rent_inputs(chance: random.Random, n: int) -> list[Entry]:
    """Some codes stand in several rows of the other register, some in none."""
    codes = [chance.randrange(CODES) for _ in range(2 * n)]
    return [
        private("region", codes[:n]), private("rent_region", codes[n:]), private("rent", [chance.randrange(900) for _ in range(n)]), public("codes", CODES),
    ]


def rent_told(given: Given) -> Told:
    rents = list(zip(given.rent_region, given.rent, strict=True))
    return [("rent", [sum(rent for code, rent in rents if code == region) for region in given.region])]


def mark_told(given: Given) -> Told:
    return [("below", [sum(one < mark for one in given.mark) for mark in given.mark])]


def mean_told(given: Given) -> Told:
    there = [one for one, place in zip(given.pay, given.region, strict=True) if place == given.wanted]
    told: Told = [("mean", floor(statistics.mean(map(Fraction, given.pay)))), ("enough", len(there) >= given.fewest)]
    return told + [("mean_there", floor(statistics.mean(map(Fraction, there))))] * (len(there) >= given.fewest)


def variance_told(given: Given) -> Told:
    exact = [Fraction(one) for one in given.pay]
    return [("mean", floor(statistics.mean(exact))), ("variance", floor(statistics.pvariance(exact)))]


def top_told(given: Given) -> Told:
    return [("top", sorted([0] * given.k + given.pay)[-given.k:])]


def quantiles_told(given: Given) -> Told:
    order = sorted(given.pay)
    return [("quantile", order[ceil(Fraction(len(order) * percent, 100)) - 1]) for percent in given.percents]


def signs_inputs(chance: random.Random, n: int) -> list[Entry]:
    change = [chance.randrange(-40_000, 40_000) for _ in range(n)]
    return [with_sign(private("change", change)), private("weight", [chance.randrange(3_000) for _ in range(n)]), public("bound", 15_000)]


def signs_told(given: Given) -> Told:
    change = given.change
    total = sum(one * weight for one, weight in zip(change, given.weight, strict=True))
    return [
        ("below_zero", [one < 0 for one in change]), ("far", sum(abs(one) > given.bound for one in change)),
        ("less", [one < weight for one, weight in zip(change, given.weight, strict=True)]),
        ("mean", cut(Fraction(sum(change), len(change)))), ("weighted", cut(Fraction(total, 1000))),
    ]


def empty_told(given: Given) -> Told:
    there = [one for one, place in zip(given.pay, given.region, strict=True) if place == given.wanted]
    return [("count", len(there)), ("mean", floor(statistics.mean(map(Fraction, there))))]


RECIPES = {
    "slice": Recipe(lambda chance, n: [pay(chance, n), public("from", n // 4), public("to", n // 2)], slice_told),
    "greatest": Recipe(lambda chance, n: [pay(chance, n)], lambda given: [("greatest", max(given.pay)), ("least", min(given.pay))]),
    "sort": Recipe(lambda chance, n: [pay(chance, n)], lambda given: [("sorted", sorted(given.pay))]),
    "sort_any": Recipe(lambda chance, n: [pay(chance, n)], lambda given: [("sorted", sorted(given.pay))]),
    "rank": Recipe(lambda chance, n: [pay(chance, n)], lambda given: [("ranks", ranks(given.pay))]),
    "median": Recipe(
        lambda chance, n: [pay(chance, n)],
        lambda given: [("low_median", statistics.median_low(given.pay)), ("high_median", statistics.median_high(given.pay))],
    ),
    "quantiles": Recipe(lambda chance, n: [pay(chance, n), public("percents", [25, 50, 75, 90])], quantiles_told),
    "halving": Recipe(
        lambda chance, n: [pay(chance, n), public("bits", 17)], lambda given: [("low_median", statistics.median_low(given.pay))]
    ),
    "choose": Recipe(choose_inputs, choose_told),
    "any_all": Recipe(
        lambda chance, n: [pay(chance, n), public("limit", 900 + n)],
        lambda given: [("any_above", any(one > given.limit for one in given.pay)), ("all_above", all(one > given.limit for one in given.pay))],
    ),
    "histogram": Recipe(
        lambda chance, n: [*region_inputs(chance, n), public("regions", 4), public("edges", [900, 900 + n, 900 + 2 * n])], histogram_told
    ),
    "join": Recipe(join_inputs, join_told),
    "price_list": Recipe(price_inputs, price_told),
    "join_by_code": Recipe(rent_inputs, rent_told),
    "rank_by_code": Recipe(
        lambda chance, n: [private("mark", [chance.randrange(CODES) for _ in range(n)]), public("codes", CODES)], mark_told
    ),
    "mean": Recipe(lambda chance, n: [*region_inputs(chance, n), public("wanted", 2), public("fewest", 1)], mean_told),
    "variance": Recipe(lambda chance, n: [pay(chance, n), public("most", 1_000_000)], variance_told),
    "top": Recipe(lambda chance, n: [pay(chance, n), public("k", 3)], top_told),
    "signs": Recipe(signs_inputs, signs_told),
    "empty": Recipe(lambda chance, n: [*region_inputs(chance, n), public("wanted", 2)], empty_told),
    **PUBLISHED,
}


def shown(value: Value) -> str:
    """As a run shows it."""
    elements = value if isinstance(value, list) else [value]
    return "".join(" " + (str(one).lower() if isinstance(one, bool) else str(one)) for one in elements)


def made(name: str, n: int, seed: int) -> tuple[dict[str, object], list[str]]:
    """The input file of this recipe for n people, and the lines `publish` that its program must tell."""
    recipe = RECIPES[name]
    given = Given(recipe.inputs(random.Random(f"{name} {n} {seed}"), n))
    lines = [f"publish {key}{shown(value)}" for key, value in recipe.told(given)]
    return {"inputs": [entry.as_json() for entry in given.entries]}, lines
