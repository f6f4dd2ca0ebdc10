"""Results as a table, as CSV or as JSON."""
from __future__ import annotations

import csv
import io
import json
from decimal import Context
from fractions import Fraction

from .formulas import Element, Result, Values
from .run_text import RunText

SMALL = Fraction(1, 1000)


def values_of(text: RunText) -> dict[str, Values]:
    """What was published, as formulas take it."""
    return {name: [one if isinstance(one, bool) else Fraction(one) for one in elements] for name, elements in text.by_name().items()}


def as_published(values: dict[str, Values]) -> list[Result]:
    """What was published, as results."""
    return [Result(name, None, tuple(elements)) for name, elements in values.items()]


def shown(x: Element, digits: int) -> str:
    """A number to so many decimals; below a thousandth to so many digits; a whole one as it is."""
    if x is None or isinstance(x, bool):
        return "none" if x is None else str(x).lower()
    if x.denominator == 1:
        return str(x.numerator)
    if abs(x) < SMALL:
        near = Context(prec=max(digits, 1)).divide(x.numerator, x.denominator)
        return f"{near.normalize():e}"
    scaled = round(x * 10**digits)
    whole, rest = divmod(abs(scaled), 10**digits)
    decimals = str(rest).rjust(digits, "0").rstrip("0") if digits else ""
    return ("-" if scaled < 0 else "") + str(whole) + ("." + decimals if decimals else "")


def rows_of(results: list[Result], digits: int) -> list[tuple[str, str, str]]:
    """Name, word or place, and value of each element."""
    found = []
    for one in results:
        words = one.groups or ([""] if len(one.values) == 1 else range(len(one.values)))
        found += [(one.name, str(word), shown(value, digits)) for word, value in zip(words, one.values)]
    return found


def as_table(results: list[Result], digits: int) -> str:
    rows = rows_of(results, digits)
    widths = [max((len(row[column]) for row in rows), default=0) for column in range(3)]
    lines = []
    for name, word, value in rows:
        middle = f"  {word:<{widths[1]}}" if widths[1] else ""
        lines.append(f"{name:<{widths[0]}}{middle}  {value:>{widths[2]}}\n")
    return "".join(lines)


def as_csv(results: list[Result], digits: int) -> str:
    made = io.StringIO()
    writer = csv.writer(made, lineterminator="\n")
    writer.writerow(("name", "group", "value"))
    writer.writerows((name, word, "" if value == "none" else value) for name, word, value in rows_of(results, digits))
    return made.getvalue()


def json_value(one: Result, digits: int) -> str:
    """A number, a list, or an object with a value for each word of the group."""
    values = ["null" if value is None else shown(value, digits) for value in one.values]
    if one.groups:
        return "{" + ",".join(f"{json.dumps(word)}:{value}" for word, value in zip(one.groups, values)) + "}"
    return values[0] if len(values) == 1 else "[" + ",".join(values) + "]"


def as_json(results: list[Result], digits: int) -> str:
    """One object, with a field for each result; of two with one name the later counts."""
    last = {one.name: one for one in results}
    return "{" + ",".join(f"{json.dumps(name)}:{json_value(one, digits)}" for name, one in last.items()) + "}\n"


FORMS = {"table": as_table, "csv": as_csv, "json": as_json}
