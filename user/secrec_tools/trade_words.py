"""Words of the trade that aren't functions here, with the recipe that does what they say, and the row of `docs/dialect.md` where there is one."""
from __future__ import annotations

import re

from .manual import Row, pages

RECIPES, RESULTS, DIALECT = "docs/recipes.md", "docs/results.md", "dialect.md"
MEAN = f"there is no private division: publish sum and count, and the reader divides (`mean_published` in {RESULTS}), or open the sum (`mean` in {RECIPES})"
DEVIATION = f"publish count, sum and sum of squares, and the reader computes it (`deviation` in {RESULTS}); `variance` in {RECIPES} opens them"
MEDIAN = f"`median` in {RECIPES}, by ranks; of more people `halving`; of the people of a private group `group_median` in {RESULTS}"
QUANTILE = f"`quantiles` and `halving` in {RECIPES}; R's types of quantiles are named in {RESULTS}"
ROOT = f"numbers are whole: publish what is under the root, and `sqrt` in a result file computes it ({RESULTS})"
ROUND = f"numbers are whole: count in hundredths or thousandths (signs and thousandths in {RECIPES}); results are rounded at the reader ({RESULTS})"
COUNT = f"truth values are counted by `sum((uint64) flags)` (any and all in {RECIPES}); how many elements an array has is `size`, which is public"
PRIVATE = "what is private belongs to a domain: `domain p shared3p;` after `import shared3p;`, and then `p uint64 x`; what has no domain is public"
EXTREME = f"`greatest` and `least` in {RECIPES}"
SIGN = f"numbers with a sign have the type `int64`, and are compared with a public zero, `int64 zero;`; `absolute` in {RECIPES} takes the sign away"
POWER = "there is no power: products make it, as `x * x`; `^` is exclusive or"
LINE = f"`line` in {RESULTS}: publish the sums, and the reader computes line and correlation"
CHI = f"`four_counts` in {RESULTS}; the job `chi_square` in examples/jobs opens the counts"
EXPONENT = f"numbers are whole: publish the exponent, and `exp` in a result file computes it ({RESULTS})"
LOGARITHM = f"numbers are whole: publish the number, and `log` in a result file computes it ({RESULTS})"
LOOKUP = f"`lookup(xs, places)` takes elements at private places (look up in {RECIPES}); by a key that is no place it is `join` or `join_by_code` in {RECIPES}"
LENGTH = "the size of an array is `size(xs)`, which is public"

WORDS = {
    "mean": MEAN, "average": MEAN, "avg": MEAN, "median": MEDIAN,
    "sd": DEVIATION, "std": DEVIATION, "stdev": DEVIATION, "var": DEVIATION, "variance": DEVIATION,
    "quantile": QUANTILE, "percentile": QUANTILE, "quartile": QUANTILE,
    "sqrt": ROOT, "root": ROOT, "round": ROUND, "floor": ROUND, "ceil": ROUND,
    "count": COUNT, "private": PRIVATE, "secret": PRIVATE, "min": EXTREME, "max": EXTREME, "minimum": EXTREME, "maximum": EXTREME, "abs": SIGN, "sign": SIGN,
    "pow": POWER, "power": POWER, "exp": EXPONENT, "cor": LINE, "correlation": LINE,
    "lm": LINE, "regression": LINE, "chisq": CHI, "chi_square": CHI, "length": LENGTH, "len": LENGTH, "nrow": LENGTH,
    "log": LOGARITHM, "weighted_mean": f"`weighted_mean` in {RESULTS}",
    "sort": f"`sort` and `sort_any` in {RECIPES}", "rank": f"`rank` in {RECIPES}", "survdiff": f"`log_rank` in {RESULTS}", "kmeans": f"`k_means` in {RESULTS}",
    "glm": f"`logistic` in {RESULTS}", "table": f"`histogram` in {RECIPES}", "tabulate": f"`histogram` in {RECIPES}",
    "merge": f"`join` in {RECIPES}, or `join_by_code` where the key is a code", "vlookup": LOOKUP, "xlookup": LOOKUP, "match": LOOKUP,
}


def said_of(word: str) -> str:
    """What a word of the trade is here, or nothing."""
    found = WORDS.get(word.lower(), "")
    return f"`{word}`: {found}" if found else ""


def row_of(word: str) -> Row | None:
    """The row of the page on other dialects that has such a word."""
    if word.lower() not in WORDS:
        return None
    rows = (row for page in pages() if page.name == DIALECT for row in page.rows)
    return next((row for row in rows if re.match(rf"(?:.* )?{re.escape(word.lower())}[ (]", row.written)), None)


def told_of(word: str) -> str:
    """What is printed of a word alone, or nothing."""
    said, row = said_of(word), row_of(word)
    return said + (f"\n\nas in `{row.written}`: {row.means}" if row else "") if said else ""
