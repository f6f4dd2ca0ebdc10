"""Formulas, with what they give or why they are refused: worked by hand, but for roots and logarithms, which are Python's `math`, and chi-square, whose
quantiles are those of printed tables (E. S. Pearson and H. O. Hartley, Biometrika Tables for Statisticians)."""
import math

PUBLISHED = {"n": [8], "xs": [1, 2, 4, 8], "below": [(1 << 64) - 1500], "fits": [True, True], "bad": [True, False], "nobody": [0], "nothing": []}

GIVEN = (
    ("1 + 2 * 3", 7), ("(1 + 2) * 3", 9), ("7 - 2 - 1", 4), ("8 / 2 / 2", 2), ("2 ^ 10", 1024), ("-2 ^ 2", -4), ("(-2) ^ 2", 4), ("2 ^ -1", 0.5),
    ("2 * -3", -6), ("- - 3", 3), ("0.5 + 0.25", 0.75), ("n / 3 * 3", 8), ("xs[3] - xs[0]", 7), ("xs[n - 6]", 4), ("xs * 2", [2, 4, 8, 16]),
    ("n - xs", [7, 6, 4, 0]), ("xs * xs", [1, 4, 16, 64]), ("sum(xs)", 15), ("count(xs)", 4), ("count(fits)", 2), ("sum(nothing)", 0), ("nothing + 1", []),
    ("signed(below)", -1500), ("signed(2 ^ 63)", -2**63), ("signed(2 ^ 63 - 1)", 2**63 - 1),
    ("signed(below) / 1000", -1.5), ("abs(signed(below))", 1500), ("sqrt(2)", math.sqrt(2)), ("sqrt(9 / 4)", 1.5),
    ("sqrt(10 ^ 30)", 10**15), ("sqrt(1 / 10 ^ 20)", 1e-10), ("exp(1)", math.e), ("log(10)", math.log(10)), ("exp(-50)", math.exp(-50)),
    ("exp(1000) * exp(-1000)", 1), ("log(2 ^ 2000)", 2000 * math.log(2)),
    ("floor(-1.5)", -2), ("ceil(-1.5)", -1), ("round(2.675, 2)", 2.68), ("round(2.5, 0)", 2), ("n / nobody", None), ("sqrt(-1)", None), ("log(0)", None),
    ("0 ^ -1", None), ("1 + n / nobody", None), ("sum(xs / (xs - 1))", None), ("xs / (xs - 1)", [None, 2, 4 / 3, 8 / 7]),
    ("default(n / nobody, 5)", 5), ("sum(default(xs / (xs - 1), 0))", 2 + 4 / 3 + 8 / 7), ("chi_square_p(0, 1)", 1), ("chi_square_p(-1, 1)", None),
    ("chi_square_p(3.841458820694124, 1)", 0.05), ("chi_square_p(5.991464547107979, 2)", 0.05), ("chi_square_p(7.814727903251179, 3)", 0.05),
    ("chi_square_p(15.08627246938899, 5)", 0.01), ("chi_square_p(18.307038053275146, 10)", 0.05), ("chi_square_p(124.3421134, 100)", 0.05),
    ("chi_square_p(60, 1)", math.erfc(math.sqrt(30))),
)

REFUSED = (
    ("x = 1 +", "line 1: an expression is missing at the end"), ("x = * 2", "line 1: an expression is missing before `*`"),
    ("x = (1", "`)` is missing at the end"),
    ("x = 1 2", "`2` stands after the end of the expression"), ("\nx = nn", "line 2: nothing is published as `nn`; is `n` meant?"),
    ("x = pow(2, 3)", "there is no function `pow`; there are signed, sqrt"), ("x = round(2)", "`round` takes 2 arguments, and 1 are given"),
    ("x = xs[4]", "`xs` has 4 elements, from 0 on, and none at 4"), ("x = xs[0.5]", "an index is one whole number"),
    ("x = n + fits", "a truth value stands where"),
    ("x = xs + cat", "nothing is published as `cat`"), ("let ys = nothing\nx = xs + ys", "line 2: `+` of arrays of 0 and 4 elements"),
    ("x = 2 ^ 3 ^ 2", "a power of a power takes parentheses"), ("x = 2 ^ 0.5", "`^` takes a whole number on its right"),
    ("x = 2 ^ 100000", "of over 8192 bits"),
    ("let a = 2 ^ 2500\nlet b = a * a\nx = b * b", "line 3: a number of over 8192 bits"), ("x = exp(20000)", "`exp` takes numbers from"),
    ("x = " + "(" * 60 + "1" + ")" * 60, "more than 50 expressions stand inside one another"), ("x = signed(1.5)", "`signed` takes a word"),
    ("x = signed(2 ^ 64)", "`signed` takes a word"), ("x = chi_square_p(1, 0.5)", "takes 1 to 200 degrees of freedom"),
    ("x = round(n, -1)", "`round` takes 0 to 100"),
    ("check bad\nx = n", "line 1: `bad` is false, so the results would not be right"), ("check n", "`check` takes truth values, and `n` has numbers"),
    ("x by region = xs", "no line above this one has `groups region = ..`"), ("groups g = a, b\nx by g = xs", "line 2: `x` has 4 elements, and g has 2 words"),
    ("groups g = a, a", "are all different"), ("groups g = a,,b", "none is empty"), ("groups g = a\nlet x by g = n", "`let` shows none"),
    ("__import__('os')", "a line is `NAME = ..`"), ("x = n.real", "`.` has no meaning in an expression"), ("x = n; y = n", "`;` has no meaning"),
    ("x = " + "1" * 70_000, "has at most 65536 letters"), ("x = " + "1" * 5000, "a name or a number of over 1000 letters"),
    ("x = " + "9" * 900 + " ^ 3", "a power of over 8192 bits"), ("x = n // 3", "`//` stands within a line"),
)
