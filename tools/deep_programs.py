"""The programs that want most stack, for bench/stack.sh and .ci/stack_check: each shape makes a program of n parts inside one another, around a call
of the function itself, so that calls nest to their limit and each program ends in a trap for depth."""

HEAD = "import stdlib; import shared3p; domain p shared3p;\n"
MAIN = 'void main() { publish("x", f(%s)); }\n'
# No program of more parts in one another is accepted: each makes the tree higher by one at least.
MOST = 128


def around(before, behind, inside):
    return lambda n: before * n + inside + behind * n


def expression(kind, start, parts):
    return lambda n: HEAD + f"{kind} f({kind} n) {{ return {parts(n)}; }}\n" + MAIN % start


def statement(parts):
    return lambda n: HEAD + f"bool f(bool n) {{ {parts(n)} return n; }}\n" + MAIN % "true"


ARRAY_MAIN = 'void main() { uint64[[1]] a; publish("x", f(a)); }\n'


def arrays(parts):
    return lambda n: HEAD + f"uint64[[1]] f(uint64[[1]] n) {{ return {parts(n)}; }}\n" + ARRAY_MAIN


def element(parts):
    return lambda n: HEAD + f"uint64[[1]] f(uint64[[1]] n) {{ uint64 x = {parts(n)}; return n; }}\n" + ARRAY_MAIN


def private(parts):
    ending = 'void main() { p uint64 a; publish("x", f(a)); }\n'
    return lambda n: HEAD + f"p uint64 f(p uint64 n) {{ return {parts(n)}; }}\n" + ending


SHAPES = {
    "chains of !": expression("bool", "true", around("!", "", "f(n)")),
    "calls as arguments of calls": expression("bool", "true", around("f(", ")", "n")),
    "blocks in blocks": statement(around("{ ", " }", "f(n);")),
    "if in if": statement(around("if (n) ", "", "f(n);")),
    "else in else": statement(around("if (!n) return n; else ", "", "f(n);")),
    "while in while": statement(around("while (n) ", "", "f(n);")),
    "do in do": statement(around("do ", " while (n);", "f(n);")),
    "for in for": statement(around("for (; n; ) ", "", "f(n);")),
    "right operands of +": expression("uint64", "1", around("1 + (", ")", "f(n)")),
    "left operands of +": expression("uint64", "1", around("", " + 1", "f(n)")),
    "left operands of &&": expression("bool", "true", around("", " && n", "f(n)")),
    "right operands of &&": expression("bool", "true", around("n && (", ")", "f(n)")),
    "arrays joined on the left": arrays(around("cat(", ", n)", "f(n)")),
    "arrays joined on the right": arrays(around("cat(n, ", ")", "f(n)")),
    "parentheses": expression("bool", "true", around("(", ")", "f(n)")),
    "casts": expression("bool", "true", around("(bool) ", "", "f(n)")),
    "declassify in declassify": expression("bool", "true", around("declassify(", ")", "f(n)")),
    "indices in indices": element(around("n[", "]", "f(n)[0]")),
    "private left factors": private(around("", " * n", "f(n)")),
    "private right factors": private(around("n * (", ")", "f(n)")),
}


def deepest(is_accepted, made):
    """The greatest number of parts with which a program of a shape is accepted; None where there is none."""
    return next((n for n in range(MOST, 0, -1) if is_accepted(made(n))), None)
