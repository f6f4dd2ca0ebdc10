"""Texts made by hand: each fault in many ways, pairs of faults in both orders, and the edges of limits."""

import itertools
from collections.abc import Iterator

HEAD = "import stdlib; import shared3p; domain p shared3p; domain r shared3p;\n"
BODY = ("uint64 x; bool b; p uint64 a; p bool c; r uint64 d; r bool e; uint64[[1]] xs; bool[[1]] bs; p uint64[[1]] as; "
        "p bool[[1]] cs; r uint64[[1]] ds;\n")
FUNCTIONS = (
    "uint64 one(uint64 y) { return y; } void none() { } p uint64 hidden(p uint64 y, uint64[[1]] z) { return y; } "
    "template <domain D> D uint64 both(D uint64 y, D uint64 z) { return y + z; } "
    "template <domain D : shared3p> D bool kinded(D bool y) { return !y; } "
    "template <domain D, domain E> E uint64 two(D uint64 y, E uint64[[1]] z) { return declassify(y) + sum(z); } "
    "template <domain D> void quiet(D uint64[[1]] y) { } bool truth() { return true; }\n"
)


def in_main(statements: str, items: str = "", functions: str = FUNCTIONS) -> str:
    return HEAD + functions + items + "\nvoid main() { " + BODY + statements + "\n}\n"


# Values by type, each in some forms

VALUES = {
    "public number": ["x", "5", "one(1)", "size(as)", "(x)", "xs[0]", "declassify(a)", "(uint64) b", "x + 1", "sum(xs)"],
    "public truth": ["b", "true", "truth()", "!b", "x < 1", "bs[x]", "declassify(c)", "(bool) x", "b && b", "kinded(c) == c"],
    "p number": ["a", "both(a, 1)", "as[0]", "a + x", "(uint64) c", "sum(as)", "hidden(a, xs)"],
    "p truth": ["c", "cs[0]", "kinded(c)", "a < 1", "!c", "c && b", "(bool) a", "bitExtract(a)[0]"],
    "r number": ["d", "ds[0]", "both(1, d)", "two(a, ds)"],
    "r truth": ["e", "d == 1"],
    "public numbers": ["xs", "cat(xs, xs)", "xs + 1", "declassify(as)", "(uint64) bs"],
    "public truths": ["bs", "xs == x", "bitExtract(x)", "!bs"],
    "p numbers": ["as", "as * x", "cat(xs, as)", "xs + a"],
    "p truths": ["cs", "as < a", "bitExtract(as)"],
    "r numbers": ["ds", "cat(ds, xs)"],
    "void": ["none()", "main()", "publish(\"s\", 1)", "quiet(xs)"],
    "refused": ["zz", "zz(1)", "zz[0]", "argument(\"q\")", "true + 1", "a / 2", "one(true)", "one()", "xs[a]"],
}
OPERATORS = "+ - * / % == != < <= > >= & | ^ && ||".split()


def operators() -> Iterator[str]:
    """Each operator on each pair of kinds of values."""
    for operator, (left, right) in itertools.product(OPERATORS, itertools.product(VALUES.values(), repeat=2)):
        yield in_main(f"1 == 1; {left[0]} {operator} {right[0]};")


HOLES = [
    "x = {};", "b = {};", "a = {};", "c = {};", "d = {};", "xs = {};", "bs = {};", "as = {};", "cs = {};", "ds = {};", "x += {};",
    "b &= {};", "a *= {};", "c |= {};", "xs -= {};", "xs[0] = {};", "as[1] = {};", "bs[0] = {};", "cs[0] ^= {};", "xs[{}] = 1;",
    "as[{}] = a;", "cs[{}] = b;", "x[{}] = 1;", "xs[{}]++;", "x = xs[{}];", "a = as[{}];", "x = x[{}];", "({})[0];", "uint64 y = {};",
    "p uint64 y = {};", "r uint64 y = {};", "bool y = {};", "p bool[[1]] y = {};", "uint64[[1]] y = {};", "uint64[[1]] y ({});",
    "p uint64[[1]] y ({}) = 1;", "uint64[[1]] y (1) = {};", "p uint64[[1]] y (1) = {};", "p bool[[1]] y (1) = {};", "uint64 y ({});",
    "bool y ({}) = true;", "uint64 y (1) = {};", "q uint64 y = {};", "if ({}) ;", "while ({}) ;", "do ; while ({});", "for (; {}; ) ;",
    "for (; ; {}) ;", "for (; {}; x++) ;", "for (; {}; zz) ;", "for (; {}; none()) ;", "for (; {}; x = zz) ;", "for (x = {}; ; ) ;",
    "for (uint64 i = {}; ; ) ;", "for (x = zz; {}; ) ;", "assert({});", "return {};", "{};", "({});", "!{};", "(uint64) {};",
    "(bool) {};", "declassify({});", "publish(\"s\", {});", "one({});", "hidden({}, xs);", "hidden(a, {});", "both({}, 1);",
    "both(a, {});", "both({}, d);", "kinded({});", "two({}, xs);", "two(1, {});", "quiet({});", "size({});", "sum({});", "cat({}, xs);",
    "cat(as, {});", "bitExtract({});", "main({});", "zz({});", "both({}, zz);", "one({}, 1);", "size({}, xs);", "truth({});",
    "if ({}) zz;", "zz = {};", "zz[{}] = 1;", "zz[0] = {};", "x = 1 + {};", "b = {} && b;", "uint64 x = {};", "{{ uint64 x = {}; }}",
    "uint64[[1]] y ({}) = zz;", "uint64[[1]] y (zz) = {};", "xs[{}] = zz;", "x[zz] = {};", "xs[true] = {};",
]


def uses() -> Iterator[str]:
    """Each value where each kind of value is wanted."""
    for hole, values in itertools.product(HOLES, VALUES.values()):
        for value in values:
            yield in_main(hole.format(value))


RETURNS = ["void", "uint64", "bool", "p uint64", "r uint64", "uint64[[1]]", "p bool[[1]]", "q uint64"]


def returns() -> Iterator[str]:
    """Each value given back from each kind of function."""
    arguments = "uint64 x, bool b, p uint64 a, p bool c, r uint64 d, r bool e, uint64[[1]] xs, bool[[1]] bs, p uint64[[1]] as, " \
                "p bool[[1]] cs, r uint64[[1]] ds"
    for kind, values in itertools.product(RETURNS, VALUES.values()):
        for value in values[:2]:
            yield in_main("", f"{kind} f({arguments}) {{ return {value}; }}")
        yield in_main("", f"{kind} f({arguments}) {{ return; }}")


RETURNING = [
    "", ";", "return 1;", "return 1; ;", "; return 1;", "{ return 1; }", "{ { return 1; } ; }", "if (true) return 1;",
    "if (true) return 1; else return 2;", "if (true) return 1; else ;", "if (true) { return 1; } else { return 2; }",
    "if (true) ; else return 1;", "if (true) { if (true) return 1; else return 2; } else return 3;",
    "if (true) if (true) return 1; else return 2;", "if (true) if (true) return 1; else return 2; else return 3;",
    "while (true) return 1;", "do return 1; while (true);", "for (;;) return 1;", "for (;;) { return 1; } return 2;",
    "while (true) { } return 1;", "assert(false);", "{ }", "{ if (true) return 1; else { return 2; } }",
    "if (true) { while (true) return 1; } else return 1;", "{ while (true) { return 1; } }", "return true;", "return;", "f();",
    "if (true) return 1; if (false) return 2;", "return f(); 1 + true;", "if (zz) return 1; else return 2;",
    "if (true) return 1; else if (true) return 2; else return 3;", "if (true) return 1; else if (true) return 2;",
]


def return_paths() -> Iterator[str]:
    """Bodies that always return by their form, and others."""
    for body in RETURNING:
        yield f"uint64 f() {{ {body} }} void main() {{ }}"
        yield f"void main() {{ f(); }} uint64 f() {{ {body} }}"
        yield f"void main() {{ f(1); }} template <domain D> uint64 f(D uint64 y) {{ {body.replace('f()', 'f(y)')} }}"
        yield f"template <domain D> uint64 f(D uint64 y) {{ {body} }} void main() {{ }}"
        yield f"void f() {{ {body} }} void main() {{ }}"
        yield f"uint64 main() {{ {body} }}"


FAULTY_STATEMENTS = [
    "zz = 1;", "zz(1);", "q uint64 y;", "x = zz;", "bool x;", "{ bool y; bool y; }", "x = true;", "if (1) ;", "xs[true] = 1;",
    "return 1;", "none() + 1;", "uint64 y (1);", "kinded(true);", "if (c) ;", "while (a < 1) ;", "x = xs[a];", "as[a]++;",
    "uint64[[1]] y (a);", "x = a;", "one(a);", "a = a / 2;", "x = 1 % a;", "assert(c);", "a = d;", "a + d;", "both(a, d);", "cat(as, ds);",
    "hidden(d, xs);", "one();", "size(xs, xs);", "x = argument(\"q\");", "(argument(\"q\"));", "both(a, true);", "!x;", "x[0] = 1;",
    "for (; c; zz) ;", "for (; c; x++) ;", "xs[a] = zz;", "xs[a] = true;", "uint64[[1]] y (c) = a;", "one(true, zz);", "zz[zz] = zz;",
    "f0(1);", "f0(a);", "f1(1);", "f1(true);", "f2(1);", "f3(a);", "f4(d);", "f5(1);",
]
FAULTY_ITEMS = [
    "import other;", "kind other;", "kind shared3p;", "domain p shared3p;", "domain q other;", "domain shared3p shared3p;", "import p;",
    "void one() { }", "uint64 sum(uint64 y) { return y; }", "void cat() { }", "uint64 g() { }", "q uint64 g(uint64 y) { return y; }",
    "void g(q uint64 y) { }", "void g(uint64 y, bool y) { }", "void g(uint64 y) { bool y; }", "void g() { zz = 1; }",
    "template <domain D> void none(D uint64 y) { }", "uint64 g() { return; }", "void g() { return 1; }", "domain other p;",
    "domain q shared3p; domain q shared3p;", "template <domain D> void bitExtract(D uint64 y) { }", "void main() { }",
    "uint64 main() { return 1; }",
]
TEMPLATES = (
    "template <domain D> void f0(D uint64 y) { if (y == 1) ; }\n"
    "template <domain D, domain D, domain E : k> void f1(D uint64 y) { zz; }\n"
    "template <domain p> p uint64 f2(p uint64 y) { }\n"
    "template <domain D> void f3(D uint64 y) { uint64 z = y; f4(y); }\n"
    "template <domain D> void f4(D uint64 y) { p uint64 z = y; f3(y); }\n"
    "template <domain D, domain E> void f5(D uint64 y) { E uint64 z; q bool w; }\n"
)


def pairs() -> Iterator[str]:
    """Two faulty statements, or a statement and an item, in both orders."""
    for first, second in itertools.product(FAULTY_STATEMENTS, repeat=2):
        yield in_main(f"{first} {second}", "", FUNCTIONS + TEMPLATES)
        if second.startswith("f"):
            yield in_main(f"{first} {second}", "", FUNCTIONS) + TEMPLATES
    for statement, item in itertools.product(FAULTY_STATEMENTS, FAULTY_ITEMS):
        yield in_main(statement, item, FUNCTIONS + TEMPLATES)
        yield in_main(statement, "", FUNCTIONS) + TEMPLATES + item
        yield in_main(f"{{ {statement} }}", "", "") + FUNCTIONS + item + TEMPLATES
    for first, second in itertools.product(FAULTY_ITEMS, repeat=2):
        yield in_main("", first + " " + second)
        yield first + "\n" + in_main("") + second
    for item in FAULTY_ITEMS:
        yield item
        yield item + " void main() { }"
        yield "void main() { } " + item


FRAMES = [
    "if (c) {{ {} }}", "if ({}) ;", "while (true) {}", "for (bool x; ; ) {{ {} }}", "do {{ {} }} while (c);", "{{ bool x; {} }}",
    "if (b) ; else {{ {} }}", "for (uint64 x; a; x++) {{ {} }}", "for (x = a; ; ) {{ {} }}",
]


def combinations() -> Iterator[str]:
    """Faults inside one another: one in a branch, a loop, a block, an argument, of another."""
    for frame, statement in itertools.product(FRAMES, FAULTY_STATEMENTS):
        if frame == "if ({}) ;":
            statement = statement.rstrip(";")
        yield in_main(frame.format(statement), "", FUNCTIONS + TEMPLATES)


HEADS = [
    "domain D", "domain D : shared3p", "domain D : k", "domain D : p", "domain p", "domain shared3p", "domain D, domain D",
    "domain D, domain E", "domain D, domain E : shared3p", "domain E : k, domain D", "domain D, domain E, domain F, domain G",
    "domain D : D", "domain q", "domain D : shared3p, domain D", "domain D, domain D : shared3p", "domain main",
]
HEAD_BODIES = [
    "void f(D uint64 y) { }", "D uint64 f(D uint64 y) { return y; }", "void f(D uint64 y, D uint64 z) { zz; }",
    "void f(D uint64 y, E uint64 z) { }", "E uint64 f(D uint64 y) { return y; }", "void f(p uint64 y) { uint64 z = y; }",
    "void f(shared3p uint64 y) { shared3p bool z; }", "void f(D uint64 y, D bool y) { }", "void f(D uint64 y) { D bool y; }",
    "void f(D uint64 y, q uint64 z) { w; }", "void f() { }", "q uint64 f(D uint64 y) { return true; }", "void f(uint64 y) { }",
    "void f(D uint64[[1]] y, D uint64 z) { f(y, z); y[0] = z; }", "D uint64 f(D uint64 y) { if (y == 0) return 1; }",
    "void f(q uint64 y) { uint64 z = y; r uint64 w = y; }", "uint64 size(D uint64 y) { }", "void main(D uint64 y) { zz; }",
    "D uint64 f(D uint64 y) { return f(true); }", "D uint64 f(D uint64 y, D uint64 z) { p uint64 w = y; return f(z, 1) + f(1, w); }",
    "void f(D uint64 y) { D uint64 D = y; domains(D); } void domains(uint64 y) { }",
]
CALLS = [
    "", "f();", "f(1);", "f(a);", "f(d);", "f(true);", "f(zz);", "f(xs);", "f(1, 2);", "f(a, 1);", "f(a, d);", "f(1, a); f(a, 1);",
    "f(1, zz);", "f(a, true);", "f(xs, 1);", "f(xs, a);", "f(as, d);", "f(1); f(a); f(d);", "main(1);", "size(1);", "1 + f(1);",
    "1 + f(zz);", "true + f(1);", "x = f(1); a = f(a); r uint64 z = f(a);", "f(none());", "f(argument(\"q\"));", "q uint64 y; f(y);",
]


def templates() -> Iterator[str]:
    """Heads, bodies and calls of templates, before and after `main`."""
    for head, body, call in itertools.product(HEADS, HEAD_BODIES, CALLS):
        template = f"template <{head}> {body}\n"
        yield in_main(call, template, "")
        yield in_main(call, "", "") + template
    extra = ["domain q shared3p;", "domain D shared3p;", "domain q other;", "domain E shared3p;", "kind k;"]
    for head, body, call, item in itertools.product(HEADS[:8], HEAD_BODIES[:16], CALLS[1:6], extra):
        template = f"template <{head}> {body}\n"
        yield in_main(call, template + item, "")
        yield in_main(call, item, "") + template
        yield item + "\n" + in_main(call, template, "")
    for head, body, call in itertools.product(HEADS, HEAD_BODIES, ["f(1);", "f(d);", "f(1, 2);"]):
        template = f"template <{head}> {body}\n"
        yield in_main("", template + "void g(r uint64 d) { " + call + " }", "")
        yield in_main("", template + "template <domain G> void g(G uint64 d) { " + call + " }", "")
        yield in_main("g(a);", template + "template <domain G> void g(G uint64 d) { " + call + " }", "")
        yield in_main("g(1); g(a);", "template <domain G> void g(G uint64 d) { " + call + " }", "") + template


SPACE_ITEMS = [
    "", "kind shared3p;", "kind other;", "domain p shared3p;", "domain shared3p shared3p;", "domain p p;", "domain shared3p p;",
    "domain p other;", "domain other shared3p;", "void sum() { }", "void bitExtract() { }", "void size() { }", "void cat(uint64 y) { }",
    "void shared3p() { }", "void stdlib() { }", "uint64 sum(bool y) { return 1; }", "import stdlib;", "import shared3p;", "import size;",
]


def spaces() -> Iterator[str]:
    """Names of domains, kinds, functions and built-in functions, with and without imports."""
    imports = ["", "import stdlib;", "import shared3p;", "import stdlib; import shared3p;", "import shared3p; import shared3p;"]
    bodies = [
        "", "sum();", "sum(true);", "bitExtract(1);", "size(1);", "cat(1);", "p uint64 a; shared3p bool b;", "uint64[[1]] xs; sum(xs);",
    ]
    for brought, (first, second), body in itertools.product(imports, itertools.product(SPACE_ITEMS, repeat=2), bodies):
        yield f"{brought} {first} void main() {{ {body} }} {second}"
        yield f"{first} {second} void main() {{ {body} }} {brought}"


SCOPED = [
    "uint64 y = y;", "uint64 y; { uint64 y = y; }", "bool y; { uint64 y = y; }", "bool y; { uint64 z = y; uint64 y; }",
    "uint64[[1]] y (y);", "uint64 y; { uint64[[1]] y (y) = y; y[0] = 1; }", "uint64 y; { uint64[[1]] y (size(y)); }",
    "for (uint64 i; i < 1; i++) uint64 i;", "for (uint64 i; i < 1; i++) { bool i; i = true; }", "for (uint64 i = i; ; ) ;",
    "for (uint64 i; ; ) { } i = 1;", "for (bool x; x; x = !x) { x = 1; }", "uint64 i; for (uint64 i = i; ; ) ;",
    "uint64 i; for (bool i = i; ; ) ;", "if (b) uint64 y; y = 1;", "if (b) uint64 y; else y = 1;", "if (b) { uint64 y; } else uint64 y;",
    "while (b) uint64 y; uint64 y; uint64 y;", "do uint64 y; while (y == 1);", "do { bool y; } while (y);",
    "bool y; do uint64 y; while (y);", "{ uint64 y; } y = 1;", "{ uint64 x; } uint64 x;",
    "uint64 a; { uint64 a; uint64 b; { uint64 b; bool b; } }", "for (uint64 x; ; ) uint64 x = x;", "for (; ; ) uint64 y; y = 1;",
    "if (b) if (b) uint64 y; else uint64 y; else y = 1;", "uint64 p = 1; p uint64 y = p; p = 2;", "uint64 main; main(); main = 1;",
    "uint64 size = size(xs); size(size);", "bool sum; sum = sum(xs);", "uint64 D;", "for (bool y; y; y) y;", "uint64 y (2) = y;",
    "x = 1; bool x; x = true;", "for (uint64 i; ; i = true) bool i = true;", "while (b) { bool b; b = x; } b = true;",
    "p uint64 r; r uint64 p = r;", "uint64 y = argument(\"y\"), z;", "uint64 y = argument(\"y\"); uint64 y = argument(\"y\");",
    "for (uint64 y = argument(\"y\"); y < 1; y++) ;", "for (uint64 y = (argument(\"y\")); y < 1; y++) ;",
    "uint64[[1]] y = argument(\"y\");", "q uint64 y; y = true; y + true; zz;", "q uint64 y; one(y); x = y; zz;", "q uint64 y = zz;",
    "q uint64 y (zz) = true;", "uint64 x = argument(\"x\");", "q uint64 x;", "uint64 y = true; y = true;", "uint64 y = zz; { y + true; }",
]


def scopes() -> Iterator[str]:
    """Where names begin and end."""
    for statement in SCOPED:
        yield in_main(statement)
        yield in_main("", f"void f(uint64 y, bool z, p uint64 i) {{ bool b; {statement} }}")
        template = f"template <domain D, domain E> void f(D uint64 y, bool z, E uint64 i) {{ {statement} }}"
        yield in_main("f(1, b, 1); f(a, b, a); f(d, b, d);", "", FUNCTIONS) + template
        yield in_main("f(1, b, 1); f(a, b, a); f(d, b, d);", template)
    stored = "template <domain D> void f(D uint64 y) { uint64 z = y; }"
    yield in_main("p uint64 y = zz; f(y);", stored)
    for initial in ["true", "zz", "1 / a", "argument(\"q\")", "(argument(\"q\"))", "xs", "d"]:
        yield in_main(f"p uint64 y = {initial}; f(y);", stored)
        yield in_main(f"q uint64 y = {initial}; f(y);", stored)
        yield in_main(f"p uint64 y = {initial}; p uint64 y = 1; f(y);", stored)
        two = "template <domain D> void f(D uint64 y, D uint64 z) { uint64 z = y; }"
        yield in_main(f"p uint64 y; y = {initial}; f(y, {initial});", two)
        yield in_main(f"f(both(a, {initial}));", stored)
        yield in_main(f"f(declassify({initial}) + a);", stored)


LONG = "abcdefghijklmnopqrstuvwxyz_ABCDEFGHIJKLMNOPQRSTUVWXYZ_0123456789"


BYTE_FRAMES = [
    b"%s", b"void main() { %s }", b"void main() { x = %s; }", b"void main() { publish(\"%s\", 1); }", b"/*%s*/ void main() { }",
    b"//%s\nvoid main() { }", b"void main() { } //%s", b"void main() { } /*%s", b"\"%s", b"\"%s\"", b"a%sb", b"1%s2", b"0x%s", b"&%s&",
]


NUMBERS = [
    b"0", b"00", b"0x", b"0X1", b"0xg", b"0x0", b"0xfF", b"18446744073709551615", b"18446744073709551616", b"018446744073709551615",
    b"99999999999999999999", b"0xffffffffffffffff", b"0x10000000000000000", b"0x00000000000000000001", b"1a", b"1_", b"_1", b"0b1", b"08",
    b"1e5", b"1.5", b"0x1x", b"0xx", b"00x1", b"1 2", b"0x 1", b"1" + b"0" * 400, b"0" * 500 + b"1", b"0x" + b"0" * 500 + b"f",
    b"9" * 5000, b"0x" + b"f" * 5000, b"1" * 64, b"1" * 65, b"18446744073709551615u", b"1uint64",
]


NAMES = [
    b"a" * 63, b"a" * 64, b"a" * 65, LONG.encode(), LONG.encode() + b"x", b"_", b"_" * 64, b"_" * 65, b"a" * 100000, b"importx",
    b"Import", b"Uint64", b"uint", b"uint6", b"uint644", b"truex", b"publish", b"publi", b"do", b"domain", b"domainx", b"dom",
    b"el\xc3\xa9", b"a.b", b"a-b", b"a$",
]


STRINGS = [
    b'""', b'"a"', b'"' + b"a" * 64 + b'"', b'"' + b"a" * 65 + b'"', b'"a', b'"', b'"a\n"', b'"\n', b'"a\\n"', b'"a b"', b'"a\tb"',
    b'"a\rb"', b'"\xc3\xa9"', b'"' + b"a" * 70 + b"$", b'"' + b"a" * 70 + b"\n", b'"' + b"a" * 70, b'"a""b"', b'"a"b', b'a"b"', b'"/*"',
    b'"//"', b'"a/*b*/"', b'"1"', b'"0x"', b'"true"', b'"_"', b"'a'", b'""""', b'"a" $', b'$ "a', b'"a\x00"', b'"a\n$', b'"$\n',
]


COMMENTS = [
    b"/**/", b"/***/", b"/*/", b"/*/*/", b"/* /* */", b"/* // */", b"// /*\n", b"// */", b"/", b"//", b"/*", b"/* *", b"/* * /", b"*/",
    b"/**", b"/*\n*/", b"// a\r$", b"// a\r\n$", b"//\n$", b"/*\n\n*/$", b"/* */ /*", b"/* $ */ $", b"// $\n\n  $", b"//*\n$", b"/*//*/$",
    b"/ /", b"/ *", b"1/*x*/2", b"a/**/b", b"a//\nb", b"/*\x00\xff*/", b"//\x00\xff", b"\"a/*\"*/", b"x /= 2", b"x //= 2\n;",
    b"x /*= 2*/ = 3;", b"\xef\xbb\xbf", b"\x0c", b"\x0b", b"\x00", b"#", b"@", b"~", b"`", b"?", b".", b"'", b"\\", b"$",
]


CONTEXTS = [
    b"%s", b"void main() { uint64 x = %s; }", b"void main() { uint64 %s; }", b"void main() { publish(%s, 1); }",
    b"void main() { x %s 1; }", b"%s void main() { }", b"void main() { } %s", b"\n\n  %s\n", b"void main() {\n\t%s",
    b"void f%s() { } void main() { }", b"uint64 a %s b", b"void main() { uint64 x; bool b; x%s; }",
    b"void main() { uint64 x; bool b; b = x%sx; }",
]


LEXICAL_FAULTS = [
    b"$", b"1a", b'"', b'"\n', b"/*", b'""', b"a" * 65, b'"$', b"0x", b'"' + b"a" * 65 + b'"', b"\xff", b"'", b"18446744073709551616",
]


def lexical() -> Iterator[bytes]:
    """Tokens at their edges, and each byte in each place."""
    for frame in BYTE_FRAMES:
        for byte in range(256):
            yield frame.replace(b"%s", bytes([byte]))
    signs = [a + b for a in (b"=", b"!", b"<", b">", b"&", b"|", b"+", b"-", b"*", b"^", b"/", b"%", b":") for b in
             (b"=", b"!", b"<", b">", b"&", b"|", b"+", b"-", b"*", b"^", b"/", b"%", b"==", b"+=", b"++", b"--", b"")]
    for context, piece in itertools.product(CONTEXTS, NUMBERS + NAMES + STRINGS + COMMENTS + signs):
        yield context.replace(b"%s", piece)
    for first, second, between in itertools.product(LEXICAL_FAULTS, LEXICAL_FAULTS, [b" ", b"", b"\n", b"\n\t", b"/* */", b"//\n"]):
        yield b"void main() { " + first + between + second
        yield first + between + second + b" */ \" }"
    limit = 1_048_576
    for ending in (b"", b"$", b"void main() { }", b"/*", b'"a', b"\n", b"}"):
        for extra in (-1, 0, 1):
            yield b" " * (limit + extra - len(ending)) + ending
            yield b"\n" * (limit + extra - len(ending)) + ending
            yield b"void main() { }\n//" + b"\xff" * (limit + extra - 18 - len(ending)) + ending
    yield b"$" * (limit + 1)
    yield b"\n" * limit + b"$" + b"\n" * 10
    yield (b"a\n" * limit)[: limit + 3]


INNER = [
    ";", "x;", "x = 1;", "x++;", "x += 1;", "a[0] = 1;", "a[0] += 1;", "a[0]++;", "a[0];", "f();", "f(1);", "f()[0];", "uint64 x;",
    "uint64 x = 1;", "uint64 x (1);", "uint64 x (1) = 2;", "p uint64 x;", "p uint64[[1]] x (1);", "public bool x = true;", "if (a) ;",
    "if (a) ; else ;", "while (a) ;", "do ; while (a);", "for (;;) ;", "for (x = 1; ; ) ;", "for (uint64 x; ; ) ;",
    "for (p bool x = 1; ; ) ;", "for (; ; x) ;", "for (; ; x++) ;", "for (; ; a[i] = 1) ;", "for (; ; a[i] += 1) ;",
    "for (; ; a[i + 1] = 1) ;", "for (; ; f(a[1])) ;", "for (a[1] = 2; ; ) ;", "for (a[1]++; ; ) ;", "for (x; ; ) ;", "for (a[1]; ; ) ;",
    "for (; x; ) ;", "for (; a[1]; ) ;", "for (; ; (x)) ;", "for (; ; x + 1) ;", "return;", "return 1;", "return 1 + 2;", "return (1);",
    "return !x;", "return (uint64) x;", "return a[1];", "return 1 + 2 + 3;", "return 1 + 2 * 3;", "return 1 * 2 + 3;",
    "return (1 + 2) * 3;", "assert(x);", "assert(x == 1);", "assert(!x);", "{ }", "{ ; }", "{ x; }", "{ { } }", "x + 1;", "x + 1 * 2;",
    "x * 1 + 2;", "x + 1 + 2 + 3;", "1;", "true;", "(x);", "((x));", "!x;", "!!x;", "(uint64) x;", "(bool) (x);", "declassify(x);",
    "declassify(x + 1);", "publish(\"a\", 1);", "publish(\"a\", x[1]);", "argument(\"a\");", "x = argument(\"a\");", "f(x, y);",
    "f(x + 1, y);", "f(x, y + 1);", "f(f());", "f(g(), h());", "x[f()] = 1;", "x[1 + 2] = 3;", "x[1 + 2] += 3;", "x[y[z]] = 1;",
    "x[y[z]]++;", "x = a + b;", "x = (a);", "x += a + b;", "x += (a);", "x += a * b + c;", "a[1] + 2;", "a[1] == b[2];", "(a)[1];",
    "f(1)[2];", "f(1)[2] + 3;", "(a + b)[c];", "a[b + c];", "a || b && c;", "a && b || c;", "a | b ^ c & d;", "x == y < z + w * v;",
    "v * w + z < y == x;", "v * w + z < y == x & a ^ b | c && d || e;", "break;", "continue;", "else ;", "]", "x]", "x =", "x +=",
    "x ++ +", "a[", "a[1", "a[1]", "a[1] =", "f(", "f(1", "f(1,", "(", "(uint64", "(uint64)", "!", "1 +", "1 + 2 *", "uint64", "uint64 x",
    "uint64 x (", "uint64 x =", "public", "p uint64 x =", "if", "if (", "if (x", "if (x)", "if (x) ; else", "while (x)", "do", "do ;",
    "do ; while", "for", "for (", "for (x", "for (x =", "for (;", "for (;;", "for (;;x", "for (;;x =", "for (;;a[", "for (;;a[i",
    "for (;;a[i]", "for (;;a[i] =", "for (;;a[i] +=", "for (;;)", "return", "assert", "assert (", "{", "}", "", "}}",
]


WRAPPED = [
    ("(", ")"), ("!", ""), ("(uint64)", ""), ("f(", ")"), ("declassify(", ")"), ("publish(\"s\", ", ")"), ("a[", "]"), ("1 + (", ")"),
    ("f(1, ", ")"), ("(", ")[1]"), ("f(", ")[x]"), ("(bool) !", ""), ("!(", ")"),
]
CHAINED = [
    "x = {};", "x += {};", "x[{}] = 2;", "x[{}]++;", "for (; ; x[{}] = 1) ;", "for (; ; x[{}] -= 1) ;", "for (x[{}] = 1; ; ) ;",
]
NESTING = [
    "if (x) ", "while (x) ", "do ", "for (;;) ", "if (x) ; else ", "for (uint64 i; i < 1; i++) ", "if (x) { } else { } if (x) ",
]


def heights() -> Iterator[str]:
    """Parts at the greatest depth: each inner text at each depth near the limit."""
    for blocks, text in itertools.product(range(118, 127), INNER):
        yield "void main() {" + "{" * blocks + text + "}" * (blocks + 1)
    for blocks, text in itertools.product(range(119, 126), INNER):
        yield "void main() { while (true) " + "{" * blocks + text + "}" * (blocks + 1)
    for count in range(119, 128):
        yield from wrapped_expressions(count)
        for operator, shift in itertools.product(("+", "*", "&&", "=="), range(-3, 3)):
            chain = f" {operator} ".join(["1"] * (count + shift))
            for frame in CHAINED:
                yield "void main() { " + frame.format(chain) + " }"
            yield f"void main() {{ {chain} {operator} (1 * 2 || 3); }}"
        for head, core in itertools.product(NESTING, (";", "x = 1;", "return;", "{ }", "x++;", "", "uint64 y;")):
            ending = " while (x);" * count if head == "do " else ""
            yield "void main() { bool x; " + head * count + core + ending + " }"


def wrapped_expressions(count: int) -> Iterator[str]:
    """Expressions in so many, half and a third as many others, in three places."""
    for (opening, closing), times in itertools.product(WRAPPED, (count, count // 2, count // 3)):
        for core in ("x", "x + 1", "1 + 2 + 3", "f()", "a[1]", "(x)", "!x", ""):
            expression = opening * times + core + closing * times
            yield f"void main() {{ x = {expression}; }}"
            yield f"void main() {{ {expression}; }}"
            yield f"void main() {{ for (; ; {expression}) ; }}"


BEGINNINGS = [
    "", "import", "import a", "import a;", "kind", "kind a", "domain", "domain a", "domain a b", "template", "template <",
    "template < domain", "template <domain D", "template <domain D :", "template <domain D : k", "template <domain D,",
    "template <domain A, domain B, domain C, domain D", "template <domain D>", "template <domain D> void", "template <domain D> a",
    "void", "void f", "void f(", "void f()", "void f(a", "void f(uint64", "void f(uint64 a", "void f(uint64 a,", "void f(a uint64",
    "void f(public", "public", "public uint64", "a", "a uint64", "uint64", "uint64[", "uint64[[", "uint64[[1", "uint64[[1]",
    "uint64[[1]]", "uint64[[1]] f", "void f() {", "void f() { }", "void f() { ;", "void f() { {", "void f() { { }", "void f() { if",
    "void f() { if (", "void f() { if (a", "void f() { if (a)", "void f() { if (a) ;", "void f() { if (a) b", "void f() { if (a) ; else",
    "void f() { if (a) ; else ;", "void f() { if (a) if (b) ; else ;", "void f() { while", "void f() { while (", "void f() { while (a)",
    "void f() { while (a) {", "void f() { while (a) { }", "void f() { do", "void f() { do ;", "void f() { do ; while",
    "void f() { do ; while (a", "void f() { do ; while (a)", "void f() { do break; while (a);", "void f() { for", "void f() { for (",
    "void f() { for (a", "void f() { for (a[", "void f() { for (a[1", "void f() { for (a[1]", "void f() { for (a =",
    "void f() { for (a = 1", "void f() { for (a++", "void f() { for (uint64", "void f() { for (uint64 a",
    "void f() { for (p uint64 a (1)", "void f() { for (uint64 a = 1", "void f() { for (;", "void f() { for (; a", "void f() { for (;;",
    "void f() { for (;; a", "void f() { for (;; a[", "void f() { for (;; a[1]", "void f() { for (;; a[1] =", "void f() { for (;; a++",
    "void f() { for (;; a +", "void f() { for (;; a()", "void f() { for (;; 1", "void f() { for (;; (a)", "void f() { for (;;)",
    "void f() { for (;;) {", "void f() { while (a) break", "void f() { while (a) continue", "void f() { return", "void f() { return 1",
    "void f() { assert", "void f() { assert(", "void f() { assert(a", "void f() { assert(a)", "void f() { a", "void f() { a[",
    "void f() { a[1", "void f() { a[1]", "void f() { a[1] =", "void f() { a[1] +", "void f() { a =", "void f() { a = 1",
    "void f() { a +=", "void f() { a += 1", "void f() { a++", "void f() { a(", "void f() { a(1", "void f() { a(1,", "void f() { a()",
    "void f() { a()[1]", "void f() { a +", "void f() { a + 1", "void f() { a uint64", "void f() { a uint64 b", "void f() { public",
    "void f() { uint64", "void f() { uint64 a", "void f() { uint64 a (", "void f() { uint64 a (1", "void f() { uint64 a (1)",
    "void f() { uint64 a =", "void f() { uint64 a = 1", "void f() { uint64 a = argument", "void f() { uint64[", "void f() { uint64[[0]]",
    "void f() { (", "void f() { (a", "void f() { (a)", "void f() { (a)[", "void f() { (uint64", "void f() { (uint64)",
    "void f() { (uint64) a", "void f() { !", "void f() { !a", "void f() { 1", "void f() { 1[", "void f() { 1[2]", "void f() { true",
    "void f() { true[1]", "void f() { declassify", "void f() { declassify(", "void f() { declassify(a", "void f() { declassify(a)",
    "void f() { declassify(a)[1]", "void f() { argument", "void f() { argument(", "void f() { argument(\"a\"",
    "void f() { argument(\"a\")", "void f() { argument(\"a\")[1]", "void f() { publish", "void f() { publish(",
    "void f() { publish(\"a\"", "void f() { publish(\"a\",", "void f() { publish(\"a\", 1", "void f() { publish(\"a\", 1)",
    "void f() { publish(\"a\", 1)[1]", "void f() { while (a) { { break", "void f() { while (a) if (b)", "void f() { if (a) while (b) ;",
    "void f() { (bool) !", "void f() { a[1][", "void f() { ((a)[1]",
]


def grammar() -> Iterator[str]:
    """Each token after each beginning."""
    tokens = (
        "import kind domain template public void uint64 uint bool if else while do for break continue return assert true false "
        "argument publish declassify ( ) [ ] { } < > , ; : = + - * / % & | ^ ! == != <= >= && || += -= *= &= |= ^= ++ -- "
        "name 1 0 2 \"s\""
    ).split()
    for beginning, token in itertools.product(BEGINNINGS, tokens):
        yield f"{beginning} {token}"
        yield f"{beginning}\n{token} }} void main() {{ }}"


def repeated(text: str, count: int) -> str:
    return "".join(text.replace("#", str(number)) for number in range(count))


COUNTED = [
    (";", 1), ("publish(\"x\", 1);", 3), ("x++;", 5), ("a[0]++;", 8), ("uint64[[1]] y# (1) = 2;", 3), ("for (uint64 i; ; i++) ;", 8),
    ("if (b) ; else ;", 4), ("x = 1 + 2 * 3;", 7), ("f(1, x, !b);", 6), ("do ; while (b);", 3), ("{ }", 1), ("return;", 1),
    ("a[x] += (1);", 9), ("p uint64 z#;", 1), ("while (b) break;", 3), ("for (; ; a[0] -= 1) ;", 10), ("assert((b));", 3),
    ("(uint64) b;", 3), ("uint64 w# = argument(\"w\");", 2), ("declassify(c)[0];", 4),
]


LARGE_USES = [
    "a(true); b(true);", "b(true); a(true);", "a(b(true));", "a(c(true)) == b(true);", "if (a(true)) b(true); else c(true);",
    "while (a(true)) b(true);", "do b(true); while (a(true));", "for (; a(true); b(true)) c(true);",
    "for (bool i = e(true); a(true); b(true)) c(true);", "for (bool i = e(true); a(true); b(true)) ;", "for (; a(true); bs[0] = b(true)) ;",
    "xs[(uint64) a(true)] = (uint64) b(true);", "xs[(uint64) a(true)] += (uint64) b(true);", "bool[[1]] y ((uint64) d(true)) = c(true);",
    "return; a(true);", "if (false) d(true);", "b(true) && a(true) || c(true);", "assert(c(true)); a(true);", "g(); b(true);",
    "b(true); g();", "g2(a(true)); c(true);", "publish(\"x\", d(true)); b(true);", "{ { d(true); } } a(true);",
    "while (true) { while (a(true)) b(true); c(true); }", "!d(true) == a(true);", "for (; ; ) { break; d(true); }",
    "while (c(true)) for (; a(true); b(true)) d(true);", "xs[size(xs) + (uint64) d(true)];", "(uint64) cat(bs, bs)[(uint64) c(true)];",
    "main(); b(true);", "while (a(true)) { while (b(true)) { } } d(true);", "if (true) { } else if (d(true)) { } c(true);",
    "do { continue; } while (a(true)); b(true);", "h(1); a(true);", "a(true); h(1);", "k(1); h(1);",
]


FOUR = "template <domain A, domain B, domain C, domain D> void f(A uint64 a, B uint64 b, C uint64 c, D uint64 d) "


def limits() -> Iterator[str]:
    """Counts at their edges."""
    yield from sizes_of_main()
    yield from sizes_of_others()
    yield from first_large_one()
    yield from whole_sizes()
    yield from counts_of_instances()


def sizes_of_main() -> Iterator[str]:
    """`main` at the greatest size of a function, made of each kind of statement."""
    before = ("import shared3p; domain p shared3p; void f(uint64 x, uint64 y, bool z) { } "
              "void main() { uint64 x; bool b; p bool[[1]] c; uint64[[1]] a; ")
    for (text, size), total in itertools.product(COUNTED, range(4093, 4098)):
        count, rest = divmod(total - 6, size)
        yield before + repeated(text, count) + ";" * rest + "}"


def sizes_of_others() -> Iterator[str]:
    """Functions with parameters at the greatest size, called and uncalled."""
    for parameters, size in itertools.product((0, 1, 2, 60), (4092, 4093, 4094)):
        head = ", ".join(f"uint64 y{k}" for k in range(parameters))
        arguments = ", ".join(["1"] * parameters)
        body = ";" * (size - parameters)
        yield f"void g({head}) {{ {body} }} void main() {{ g({arguments}); }}"
        yield f"void main() {{ g({arguments}); }} void g({head}) {{ {body} }}"
        yield f"void g({head}) {{ {body} }} void main() {{ }}"
        if parameters:
            generic = head.replace("uint64 y0", "D uint64 y0")
            yield f"template <domain D> void g({generic}) {{ {body} }} void main() {{ g({arguments}); }}"


def first_large_one() -> Iterator[str]:
    """Several functions that are too large: the one that code has first counts."""
    large = {"a": 4094, "b": 4095, "c": 4096, "d": 4097, "e": 5000}
    functions = "".join(f"bool {name}(bool y) {{ {';' * (count - 3)} return y; }} " for name, count in large.items())
    functions += "void g() { c(true); } void g2(bool y) { d(y); } template <domain D> void h(D uint64 y) { e(true); } "
    functions += "template <domain D> void k(D uint64 y) { h(y); c(true); } "
    for use in LARGE_USES:
        yield f"{functions}void main() {{ uint64[[1]] xs; bool[[1]] bs; {use} }}"


def whole_sizes() -> Iterator[str]:
    """Programs at the greatest size of a whole, made of many functions, of one, and of instances of a template."""
    for total in range(65533, 65538):
        filler = "".join(f"void t{k}() {{ {';' * 3998} }} " for k in range(16))
        calls = "".join(f"t{k}();" for k in range(16))
        yield filler + f"void main() {{ {calls} {';' * (total - 64000 - 34)} }}"
        yield f"void main() {{ {';' * (total - 2)} }}"
        generic = f"template <domain D> void t(D uint64 y) {{ {';' * 3997} }} "
        variables = "".join(f"d{k} uint64 v{k}; t(v{k});" for k in range(15))
        rest = ";" * (total - 64000 - 2 - 3 - 15 * 4)
        yield "import shared3p; " + repeated("domain d# shared3p; ", 15) + generic + f"void main() {{ t(1); {variables} {rest} }}"


def counts_of_instances() -> Iterator[str]:
    """Programs at the greatest count of instances: of many templates, in a chain, and of one template."""
    for count in range(1023, 1027):
        yield repeated("template <domain D> void t#(D uint64 x) { }\n", count) + f"void main() {{ {repeated('t#(1);', count)} }}"
        chain = "".join(f"template <domain D> void t{k}(D uint64 x) {{ t{k + 1}(x); }}\n" for k in range(count))
        yield chain + f"void t{count}(uint64 x) {{ }} void main() {{ t0(1); }}"
        yield chain + f"template <domain D> void t{count}(D uint64 x) {{ t0(x); }} void main() {{ t0(1); }}"
    domains = "import shared3p; " + repeated("domain d# shared3p; ", 6)
    variables = repeated("d# uint64 v#; ", 6) + "uint64 v6; "
    for count in (1023, 1024, 1025, 1100, 2401):
        bindings = itertools.islice(itertools.product(range(7), repeat=4), count)
        calls = [f"f(v{a}, v{b}, v{c}, v{d})" for a, b, c, d in bindings]
        parts = [calls[start : start + 500] for start in range(0, count, 500)]
        body = "".join(f"void part{number}() {{ {variables} {';'.join(part)}; }} " for number, part in enumerate(parts))
        main = "".join(f"part{number}();" for number in range(len(parts)))
        for called in (main, "part0();", ""):
            yield domains + FOUR + "{ } " + body + f"void main() {{ {called} }}"
        yield domains + FOUR + "{ d3 uint64 y = a; } " + body + f"void main() {{ {main} }}"
    rotating = FOUR + "{ f(b, c, d, a); f(b, a, c, d); } "
    yield domains + rotating + f"void main() {{ {variables} f(v0, v1, v2, v3); f(v0, v0, v1, v6); }}"
    for kept in range(3, 8):
        spreading = FOUR + "{ " + variables + repeated("f(v#, a, b, c);", kept) + " } "
        first = "f(v0, v1, v2, v3);" if kept == 7 else "f(v0, v0, v0, v0);"
        yield domains + spreading + f"void main() {{ {variables} {first} }}"


def stages() -> Iterator[bytes]:
    """Faults of different stages in one text, in all orders."""
    lexed = [b"$", b"1a", b"\"ab\n", b"/*", b"\"\"", b"a" * 65, b"\"a b\"", b"\x80", b"\""]
    parsed = [b"x = ;", b"break;", b"else ;", b"}", b")", b"x y;", b"a[1][2];", b"-1;", b"(" * 130,
              b"{" * 127, b"x = " + b"!" * 130 + b"x;", b"import a;"]
    typed = [b"zz = 1;", b"uint64 y; bool y;", b"true + 1;", b"return 1;", b"argument(\"q\");", b"none();", b"main(1);", b"if (1) ;"]
    large = [b";" * 4094, b"publish(\"x\", 1);" * 1365]
    fine = [b"", b";", b"uint64 x = 1;\n"]
    groups = [lexed, parsed, typed, large, fine]
    for first, second in itertools.product(groups, repeat=2):
        for one, two in itertools.product(first, second):
            yield b"void main() { " + one + b" " + two + b" }"
            yield b"void f() { " + one + b" }\nvoid main() {\n" + two + b" }\n"
    for first, second, third in itertools.permutations([lexed[:3], parsed[:4], typed[:4]]):
        for one, two, three in itertools.product(first, second, third):
            yield b"void main() { " + one + b"\n" + two + b"\n" + three + b" }"


def scale() -> Iterator[str]:
    """Programs with very many parts of one kind."""
    for count in (1000, 20000):
        yield repeated("void f#() { } ", count) + "void main() { f0(); }"
        yield repeated("void f#() { } ", count) + "void f1() { } void main() { f0(); }"
        yield "kind shared3p; " + repeated("domain d# shared3p; ", count) + "void main() { }"
        yield "kind shared3p; " + repeated("domain d# shared3p; ", count) + "domain d7 shared3p; void main() { }"
        yield repeated("import shared3p; ", count) + "void main() { }"
        yield "void main() { " + repeated("uint64 v#; ", count) + "}"
        yield "void main() { " + repeated("uint64 v#; ", count) + "uint64 v5; }"
        yield "void main() { " + repeated("{ uint64 v; } ", count) + "}"
        yield "void main() { " + repeated("{ uint64 v; } ", count) + "v = 1; }"
        head, ones = ", ".join(f"uint64 a{k}" for k in range(count)), ", ".join(["1"] * (count - 1))
        for arguments in (f"{ones}, 1", f"{ones}, true", ones):
            yield f"void f({head}) {{ }} void main() {{ f({arguments}); }}"
        yield f"void f({head}, bool a3) {{ }} void main() {{ }}"
        yield "void main() { " + "zz = 1; " * count + "}"
        yield "void main() { " + "; " * count + "zz; }"
        yield repeated("template <domain D> void t#(D uint64 x) { zz; } ", count // 2) + "void main() { }"
        yield repeated("void f#() { zz(); } ", count) + "void main() { }"
        yield repeated("void f#() { g#(); } void g#() { f#(); } ", count // 2) + "void main() { f0(); }"
        yield "void main() { " + "/* */ " * count + "}"
        yield "void main() { x" + " " * count + "}"
    for domains in (8, 9):
        declared = "import shared3p; " + repeated("domain d# shared3p; ", domains)
        variables = repeated("d# uint64 v#; ", domains) + f"uint64 v{domains}; "
        spreading = FOUR + "{ " + variables + repeated("f(v#, a, b, c);", domains + 1) + " } "
        yield declared + spreading + f"void main() {{ {variables} f(v0, v1, v2, v3); }}"


WHOLE = [
    "import stdlib ; import shared3p ; domain p shared3p ; domain r shared3p ; template < domain D , domain E : shared3p > D "
    "uint64 f ( D uint64 u , E bool [ [ 1 ] ] v ) { D uint64 w = u + 1 ; if ( size ( v ) > 0 ) { return w ; } else return u * w "
    "; } void main ( ) { p uint64 [ [ 1 ] ] a ( 3 ) = 2 ; r bool [ [ 1 ] ] c = argument ( \"c\" ) ; a [ 1 ] += f ( a [ 0 ] , c ) ; "
    "for ( uint64 i = 0 ; i < 3 ; i ++ ) { a [ i ] = ( uint64 ) ( a [ i ] == 2 ) ; } publish ( \"s\" , declassify ( sum ( a ) ) ) "
    "; }",
    "kind shared3p ; domain q shared3p ; bool g ( public uint x , q bool y ) { bool z = declassify ( ! y ) && x != 3 ; while ( z "
    ") { if ( x == 1 ) break ; x -- ; continue ; } do x = x / 2 % 3 ; while ( x > 1 || z ) ; assert ( x <= 1 ) ; return z ; } "
    "void h ( ) { return ; } void main ( ) { uint64 n = argument ( \"n\" ) ; q bool b = n > 1 ; { uint64 n = 2 ; h ( ) ; n *= 3 ; "
    "} ; publish ( \"g\" , g ( n , b ) ) ; bool [ [ 1 ] ] m ( n ) ; m [ n - 1 ] |= true ; publish ( \"m\" , cat ( m , m & ( m ^ b ) "
    ") ) ; }",
]


def sweep() -> Iterator[str]:
    """Two whole programs with each token left out, doubled, swapped with the next, and each of the others in its place or before it."""
    pool = ("import kind domain template public void uint64 bool if else while do for break return assert true argument publish declassify "
            "( ) [ ] { } < > , ; : = + / % & ! == < && += |= ++ name p main 1 0 \"s\" n a").split()
    for program in WHOLE:
        tokens = program.split()
        for at in range(len(tokens) + 1):
            yield " ".join(tokens[:at] + tokens[at + 1:])
            yield " ".join(tokens[:at] + tokens[at:at + 1] * 2 + tokens[at + 1:])
            yield " ".join(tokens[:at] + tokens[at + 1:at + 2] + tokens[at:at + 1] + tokens[at + 2:])
            yield " ".join(tokens[:at])
            yield " ".join(tokens[at:])
            for token in pool:
                yield " ".join(tokens[:at] + [token] + tokens[at:])
                yield " ".join(tokens[:at] + [token] + tokens[at + 1:])


PARTS = {
    "sweep": sweep,
    "scale": scale, "stages": stages,
    "operators": operators, "uses": uses, "returns": returns, "return-paths": return_paths, "pairs": pairs, "combinations": combinations,
    "templates": templates, "spaces": spaces, "scopes": scopes, "lexical": lexical, "heights": heights, "grammar": grammar,
    "limits": limits,
}
