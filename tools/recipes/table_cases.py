"""Tables of others: the commands from each to its results, and what Python's own means compute of it. LIBRARY stands for examples/library, TABLES for
.ci/tables, TABLE for the file."""
from __future__ import annotations

import math
import statistics
from collections.abc import Callable, Iterable
from dataclasses import dataclass
from fractions import Fraction

Row = dict[str, str]
STATSMODELS, SKLEARN = "statsmodels/datasets/", "sklearn/datasets/data/"


@dataclass(frozen=True)
class Case:
    """A table: its file (in .ci/tables, or in a package), the sign between its cells, the commands, of which the last prints JSON, and the results."""

    file: str
    commands: tuple[str, ...]
    results: Callable[[list[Row]], dict]
    separator: str = ","


def by(program: str, table_words: str, formulas: str = "") -> tuple[str, ...]:
    """The three commands: inputs of the table, the run, and what the formulas make of it."""
    formulas = formulas or f"LIBRARY/{program}.result"
    return (
        f"csv_to_input TABLE {table_words} --to input.json", f"secrec-job LIBRARY/{program}.sc --input input.json > run.txt",
        f"secrec-result run.txt --by {formulas} --as json --digits 12",
    )


def column(rows: Iterable[Row], name: str) -> list[Fraction]:
    return [Fraction(row[name].strip()) for row in rows]


def line(x: str, y: str, factor_x: int = 1, factor_y: int = 1) -> Callable[[list[Row]], dict]:
    """The line and the correlation of two columns, multiplied by these factors."""

    def results(rows: list[Row]) -> dict:
        xs, ys = [factor_x * one for one in column(rows, x)], [factor_y * one for one in column(rows, y)]
        found = statistics.linear_regression(xs, ys)
        return {"slope": found.slope, "begins": found.intercept, "correlation": statistics.correlation(xs, ys)}

    return results


def spread(name: str) -> Callable[[list[Row]], dict]:
    def results(rows: list[Row]) -> dict:
        exact = column(rows, name)
        return {
            "mean": statistics.mean(exact), "variance": statistics.pvariance(exact), "deviation": math.sqrt(statistics.pvariance(exact)),
            "sample_variance": statistics.variance(exact), "sample_deviation": math.sqrt(statistics.variance(exact)),
        }

    return results


def strikes(rows: list[Row]) -> dict:
    found = statistics.quantiles(column(rows, "duration"), n=20, method="inclusive")
    return {"quantile": {f"{percent} %": found[percent // 5 - 1] for percent in (25, 50, 75, 90)}}


def extremes(name: str, factor: int) -> Callable[[list[Row]], dict]:
    def results(rows: list[Row]) -> dict:
        return {"greatest": factor * max(column(rows, name)), "least": factor * min(column(rows, name))}

    return results


def means_by(group: str, words: list[str], name: str) -> Callable[[list[Row]], dict]:
    def results(rows: list[Row]) -> dict:
        means = {word: statistics.mean(column((row for row in rows if row[group] == word), name)) for word in words}
        return {"mean": statistics.mean(column(rows, name)), "mean_there": means}

    return results


def macrodata(rows: list[Row]) -> dict:
    people, rates = column(rows, "pop"), column(rows, "unemp")
    return {"weighted_mean": 10 * sum(map(Fraction.__mul__, people, rates)) / sum(people)}


def four(first: Callable[[Row], bool], second: Callable[[Row], bool]) -> Callable[[list[Row]], dict]:
    """The four counts of two properties and their chi-square, by expected counts."""

    def results(rows: list[Row]) -> dict:
        pairs = [(first(row), second(row)) for row in rows]
        counts = {(one, other): pairs.count((one, other)) for one in (True, False) for other in (True, False)}
        found = Fraction(0)
        for one, other in counts:
            expected = Fraction(sum(x == one for x, _ in pairs) * sum(y == other for _, y in pairs), len(pairs))
            found += (counts[one, other] - expected) ** 2 / expected
        return {
            "both": counts[True, True], "first_alone": counts[True, False], "second_alone": counts[False, True], "neither": counts[False, False],
            "chi_square": found, "p": math.erfc(math.sqrt(found / 2)),
        }

    return results


def transplants(rows: list[Row]) -> dict:
    """The log-rank test of patients from 50 years on against the others, by months of 30 days."""
    people = [(int(Fraction(row["survival"]) // 30), Fraction(row["censors"]) == 1, Fraction(row["age"]) >= 50) for row in rows]
    expected, variance = Fraction(0), Fraction(0)
    for month in sorted({time for time, event, _ in people if event}):
        left = [older for time, _, older in people if time >= month]
        events = sum(event for time, event, _ in people if time == month)
        share = Fraction(sum(left), len(left))
        expected += events * share
        if len(left) > 1:
            variance += events * share * (1 - share) * Fraction(len(left) - events, len(left) - 1)
    observed = sum(event and older for _, event, older in people)
    found = (observed - expected) ** 2 / variance
    return {"observed": observed, "expected": expected, "chi_square": found, "p": math.erfc(math.sqrt(found / 2))}


def grades(rows: list[Row]) -> dict:
    """A step from -9 + 2.8 * grade points, with the chance of each student read from eight steps."""
    edges = [sign * edge for edge in (251, 788, 1466, 2708) for sign in (1, -1)]
    doses = [int(100 * one) for one in column(rows, "'GPA'")]
    rests = [int(row["'GRADE'"]) - Fraction(sum(-9000 + 28 * dose >= edge for edge in edges), 8) for row, dose in zip(rows, doses)]
    by_dose = [rest * dose for rest, dose in zip(rests, doses)]
    return {"start_rises": 1000 * statistics.mean(rests), "slope_rises": 1000 * statistics.mean(by_dose)}


def exercises(rows: list[Row]) -> dict:
    """A step of k-means from (5, 40) and (15, 200)."""
    centres = [(5, 40), (15, 200)]
    points = list(zip(column(rows, "Chins"), column(rows, "Jumps")))
    nearest = [min(range(2), key=lambda k: (x - centres[k][0]) ** 2 + (y - centres[k][1]) ** 2) for x, y in points]
    groups = [[point for point, k in zip(points, nearest) if k == wanted] for wanted in range(2)]
    means = [[round(statistics.mean(part)) for part in zip(*group)] for group in groups]
    return {"points": list(map(len, groups)), "centre_x": [x for x, _ in means], "centre_y": [y for _, y in means]}


FIRMS = ["American Steel", "Atlantic Refining", "Chrysler", "Diamond Match", "General Electric", "General Motors", "Goodyear", "IBM", "US Steel", "Union Oil",
         "Westinghouse"]

SHIPPED = (
    Case("longley.csv", by("line", "GNP TOTEMP most:1000000 --name GNP=x --name TOTEMP=y"), line("GNP", "TOTEMP")),
    Case("stackloss.csv", by("deviation", "STACKLOSS most:1000 --name STACKLOSS=pay"), spread("STACKLOSS")),
    Case("strikes.csv", by("quantiles_between", "duration percents:25,50,75,90 --name duration=pay"), strikes),
    Case("nile.csv", by("line", "year volume most:10000 --name year=x --name volume=y"), line("year", "volume")),
    Case("sunspots.csv", (
        "csv_to_input TABLE SUNACTIVITY --scale SUNACTIVITY=10 --name SUNACTIVITY=pay | secrec-job LIBRARY/greatest.sc --input - | secrec-result - --as json",
    ), extremes("SUNACTIVITY", 10)),
    Case("grunfeld.csv", by(
        "mean_published", f"'firm={','.join(FIRMS)}' invest regions:11 fewest:5 --scale invest=1000 --name firm=region --name invest=pay",
        "TABLES/grunfeld.result",
    ), means_by("firm", FIRMS, "invest")),
    Case("macrodata.csv", by(
        "weighted_mean", "unemp pop most:1000000 --scale unemp=10 --scale pop=1000 --name unemp=pay --name pop=weight"
    ), macrodata),
    Case("anes96.csv", by(
        "four_counts", "\"'vote'\" \"'PID'\" --bool \"'vote'\" --divide \"'PID'=4\" --bool \"'PID'\" --name \"'vote'=first\" --name \"'PID'=second\""
    ), four(lambda row: row["'vote'"] == "1", lambda row: int(row["'PID'"]) >= 4), "\t"),
)

FETCHED = (
    Case(f"{STATSMODELS}statecrime/statecrime.csv", by(
        "line", "hs_grad murder most:10000 --scale hs_grad=10 --scale murder=10 --name hs_grad=x --name murder=y"
    ), line("hs_grad", "murder", 10, 10)),
    Case(f"{STATSMODELS}modechoice/modechoice.csv", by(
        "four_counts", "choice gc --bool choice --divide gc=140 --bool gc --name choice=first --name gc=second"
    ), four(lambda row: row["choice"] == "1", lambda row: int(row["gc"]) >= 140), ";"),
    Case(f"{STATSMODELS}heart/heart.csv", by(
        "log_rank", "survival censors age times:60 --divide survival=30 --bool censors --scale age=10 --divide age=500 --bool age "
        "--name survival=time --name censors=event --name age=first"
    ), transplants),
    Case(f"{STATSMODELS}spector/spector.csv", by(
        "logistic", "\"'GPA'\" \"'GRADE'\" start:-9000 slope:28 stairs:251,788,1466,2708 --signed slope --separator ' ' "
        "--scale \"'GPA'=100\" --bool \"'GRADE'\" --name \"'GPA'=dose\" --name \"'GRADE'=answer\""
    ), grades, " "),
    Case(f"{STATSMODELS}engel/engel.csv", (
        "csv_to_input TABLE income --scale income=1000000000000 --name income=pay | secrec-job LIBRARY/greatest.sc --input - | secrec-result - --as json",
    ), extremes("income", 10**12)),
    Case(f"{STATSMODELS}randhie/randhie.csv", by(
        "four_counts", "idp hlthp --bool idp --bool hlthp --name idp=first --name hlthp=second"
    ), four(lambda row: row["idp"] == "1", lambda row: row["hlthp"] == "1")),
    Case(f"{SKLEARN}linnerud_exercise.csv", by(
        "k_means", "Chins Jumps centre_x:5,15 centre_y:40,200 --separator ' ' --name Chins=x --name Jumps=y"
    ), exercises, " "),
)
