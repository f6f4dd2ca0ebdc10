r"""Programs made by hand at edges that random ones seldom reach, with inputs for them.

In the lists of bodies a line that begins with blanks goes on with the body before it, and \n is the end of a line of the program.
"""
from __future__ import annotations

import re
from collections.abc import Iterator

from clear import Input, ValueType
from gates import MASK
from runs import Case
from tree import Data

NUMBER, TRUTH = Data.NUMBER, Data.TRUTH
HEAD = "import stdlib; import shared3p; domain p shared3p; domain q shared3p;\n"


def entry(name: str, private: bool, data: Data, *words: int, array: bool = True) -> Input:
    """An input: an array if nothing else is said."""
    return Input(name, ValueType(private, data, array), words)


INPUTS = [
    entry("a", True, NUMBER, 6, array=False), entry("b", True, NUMBER, MASK, array=False), entry("u", False, NUMBER, 5, array=False),
    entry("as", True, NUMBER, 0, 1, MASK, 1 << 63), entry("bs", True, NUMBER, 1, 0, 1 << 63, MASK),
    entry("us", False, NUMBER, 3, 0, 7, MASK), entry("vs", False, NUMBER, 1, 2, 3, 4),
    entry("c", True, TRUTH, 1, array=False), entry("d", True, TRUTH, 0, array=False), entry("t", False, TRUTH, 1, array=False),
    entry("cs", True, TRUTH, 1, 0, 0, 1), entry("ds", True, TRUTH, 0, 0, 1, 1), entry("ts", False, TRUTH, 1, 1, 0, 0),
    entry("ea", True, NUMBER), entry("eu", False, NUMBER), entry("ec", True, TRUTH), entry("et", False, TRUTH),
    entry("one", True, NUMBER, 9), entry("three", False, NUMBER, 0, 0, 0),
]
DECLARED = "".join(
    f'{"p " if one.type.private else ""}{one.type.data.value}{"[[1]]" if one.type.array else ""} {one.name} = argument("{one.name}");\n'
    for one in INPUTS[:-2]
)

FUNCTIONS = r"""
uint64[[1]] three_of() { uint64[[1]] x (4) = 3; return x; }
void show(uint64 x) { publish("shown", x); }
template <domain D> D uint64 same(D uint64 x) { return x; }
template <domain D> D uint64[[1]] same_array(D uint64[[1]] x) { return x; }
template <domain D> D uint64 given(D uint64 x) { return 5; }
template <domain D> D uint64[[1]] given_array(D uint64[[1]] x) { uint64[[1]] y (2) = 5; D uint64[[1]] z; z = y; z[0] = 1; return y; }
template <domain D> D bool said(D bool x) { publish("said", x); return x; }
template <domain D> D bool both(D bool x, D bool y) { return x && said(y); }
template <domain D> D bool either(D bool x, D bool y) { return x || said(y); }
template <domain D, domain E> E uint64 two(D uint64 x, E uint64 y) { return y + declassify(x); }
template <domain D> uint64 opened(D uint64 x) { D uint64 y = x * x; return declassify(y) % 10; }
template <domain D : shared3p> D uint64 lesser(D uint64 x, D uint64 y) { D bool z = x < y; return (uint64) z * x + (uint64) !z * y; }
uint64 product(uint64 n) { if (n == 0) return 1; return n *
product(n - 1); }
template <domain D> D uint64 power(D uint64 x, uint64 n) { if (n == 0) { return 1; } else return x * power(x, n - 1); }
uint64[[1]] swap(uint64[[1]] x, uint64 i, uint64 j) { uint64 y = x[i]; x[i] = x[j];
x[j] = y; return x; }
uint64 pick(uint64 n) { publish("pick", n); return n; }
p uint64[[1]] gather(uint64 i, uint64[[1]] x, uint64 j, p uint64[[1]] y, bool[[1]] z, p bool w) {
publish("size", size(x) + size(y) + size(z)); return cat(x, y) + i - j; }
void even(uint64 n) { publish("even", n); if (n == 0) return; odd(n - 1); }
void odd(uint64 n) { publish("odd", n); if (n != 0) even(n - 1); }
uint64 nested(uint64 m, uint64 n) {
if (m == 0) return n + 1; if (n == 0) return nested(m - 1, 1); return nested(m - 1, nested(m, n - 1)); }
void early(uint64 n) {
for (;;) { if (n == 0) return; while (true) { if (n == 1) return; do { if (n == 2) return; show(n); return; } while (true); } } }
uint64 found(uint64[[1]] x, uint64 v) { for (uint64 i; i < size(x); i++) { if (x[i] == v) return i; } return size(x); }
"""

TRAPS = r"""
publish("x",\n(1)\n/\n0);
publish("x",\n1\n%\n(u - u));
uint64[[1]] x (2); uint64[[1]] y (3);\nx\n+=\ny;
uint64[[1]] x (2); uint64[[1]] y (3);\npublish("z",\n(\nx\n)\n*\ny\n);
uint64[[1]] x (2);\npublish("z",\n(\nx\n)\n[\n2\n]\n);
uint64[[1]] x (2);\nx\n[\n2\n]\n=\n1;
uint64[[1]] x (2);\nx\n[\n2\n]\n++;
uint64[[1]] x (2);\nx\n[\n18446744073709551615\n]\n+=\n1 / 0;
uint64[[1]] x (2);\nx\n[\n2\n]\n=\n1 / 0;
uint64[[1]] x (2);\nx\n[\n1 / 0\n]\n=\n1;
public\nuint64\n[[1]]\nx\n(\n1048577\n)\n=\n1;
p\nuint64\n[[1]]\nx\n(\n18446744073709551615\n)\n=\n1;
uint64[[1]] x (16385); publish("x", size(\nbitExtract\n(x)));
p uint64[[1]] x (16385);\npublish("x", size(\nbitExtract\n(x)));
uint64 x\n=\nargument\n(\n"none"\n);
uint64 x\n=\nargument\n(\n"a"\n);
p uint64 x\n=\nargument\n(\n"u"\n);
p bool x\n=\nargument\n(\n"a"\n);
p uint64[[1]] x\n=\nargument\n(\n"a"\n);
p uint64 x\n=\nargument\n(\n"one"\n);
p uint64 x = argument("three");
p bool[[1]] x = argument("ea");
bool[[1]] x = argument("eu");
p uint64[[1]] x = argument("eu");
\nassert\n(\nfalse\n);
\nassert\n(\nu == 5\n);\nassert(u != 5);
publish("x", false || 1 / 0 == 1);
publish("x", eu / 0);
publish("x", eu % 0);
publish("x", eu / us);
publish("x", us / eu);
uint64[[1]] z (3); publish("x", us / z);
uint64[[1]] z (4); publish("x", us / z);
publish("x", vs / us);
publish("x", us / us[1]);
publish("x", eu[0]);
publish("x", ea[0]);
ea[0] = 1;
ec[0] = c;
as[4] = 1;
publish("x", product(62)); publish("x",\nproduct(63));
publish("x",\nproduct(64));
publish("x", swap(us, 0, 3)); publish("x", us); publish("x", swap(us, 0, 0)); publish("x", swap(us, 0, 4));
us[pick(1)]++; publish("x", us); us[pick(2)] += pick(3); as[pick(0)]--; publish("x", as); us[pick(3)] = pick(1); us[pick(4)] = pick(5);
us[pick(7)]++;
as[pick(7)] = 1 / pick(0);
publish("x", 1);\nas += as * bs; publish("x", (declassify(as) + three_of())[u - 1]);\npublish("x", as * ea);
while (true) { uint64[[1]] x (50000); }
for (;;) { p uint64[[1]] x (50000); continue; }
for (; t; u++) { uint64[[1]] x (50000); if (u % 2 == 0) continue; }
do { uint64[[1]] x (50000); continue; } while (true);
uint64[[1]] x (999000); for (uint64 i; true; i++) publish("x", 1 / (250 - i));
uint64[[1]] x (1000001);
"""

EXPRESSIONS = r"""
publish("x", false && 1 / 0 == 1); publish("x", true || 1 / 0 == 1); publish("x", true && 1 / 1 == 1);
publish("x", false && (c & (1 / 0 == 1))); publish("x", true || declassify(c));
publish("x", true && true && false && (1 / 0 == 0)); publish("x", false || false || true || (1 / 0 == 0));
publish("x", (false && true) || c); publish("x", (true || false) && d); publish("x", false && c || d);
publish("x", !t && t); publish("x", !t && c); publish("x", !c && t); publish("x", !c && d); publish("x", !t && ec);
publish("x", !t || t); publish("x", !t || c); publish("x", !c || t); publish("x", !c || d); publish("x", !t || cs);
publish("x", eu / eu); publish("x", 0 / eu); publish("x", u % eu); publish("x", eu / 1); publish("x", us / vs); publish("x", us % vs);
publish("x", !t); publish("x", !c); publish("x", !ts); publish("x", !cs); publish("x", !!!c); publish("x", !ec); publish("x", !et);
publish("x", (uint64) t); publish("x", (uint64) c); publish("x", (uint64) ts); publish("x", (uint64) cs); publish("x", (uint) ec);
publish("x", (uint64) u); publish("x", (uint64) a); publish("x", (uint) us); publish("x", (uint) as); publish("x", (bool) ea);
publish("x", (bool) t); publish("x", (bool) c); publish("x", (bool) ts); publish("x", (bool) cs);
publish("x", (bool) u); publish("x", (bool) a); publish("x", (bool) us); publish("x", (bool) as);
publish("x", declassify(ea)); publish("x", declassify(ec)); publish("x", declassify(eu)); publish("x", declassify(t));
publish("x", declassify(us)); publish("x", declassify(declassify(as))); publish("x", declassify(as)[1]); publish("x", declassify(c));
publish("x", bitExtract(u)); publish("x", bitExtract(a)); publish("x", bitExtract(us)); publish("x", bitExtract(ea));
publish("x", bitExtract(as)); publish("x", bitExtract(b)[63]); publish("x", bitExtract(bs)[64 + 64 + 63]);
publish("x", sum(us)); publish("x", sum(as)); publish("x", sum(ea)); publish("x", sum(eu));
publish("x", size(us)); publish("x", size(as)); publish("x", size(ts)); publish("x", size(ea)); publish("x", size(cat(as, us)));
publish("x", cat(us, vs)); publish("x", cat(as, bs)); publish("x", cat(us, as)); publish("x", cat(as, us)); publish("x", cat(ts, cs));
publish("x", cat(cs, ts)); publish("x", cat(ts, ts)); publish("x", cat(ea, ea)); publish("x", cat(eu, ea)); publish("x", cat(as, eu));
publish("x", cat(et, cs)); publish("x", cat(ts, ec)); publish("x", cat(us, declassify(as))); publish("x", cat(cat(us, as), vs));
publish("x", cat(us, cat(as, eu)[\n0\n] * vs)); publish("x", cat(us,\nas + three_of()));
publish("x", three_of()[2]); publish("x", (three_of() + us[0])[2]); publish("x", ((us))[(0)]); publish("x", cat(us, us)[7]);
publish("x", MASK * MASK); publish("x", 0 - MASK); publish("x", MASK + MASK); publish("x", MASK / 1); publish("x", MASK % MASK);
publish("x", 0xFFFFFFFFFFFFFFFF ^ 0xffffffff); publish("x", 00018446744073709551615 & 0xF0); publish("x", 0 / MASK);
publish("x", a * MASK); publish("x", b * b); publish("x", a - MASK); publish("x", b + 1); publish("x", 0 - b); publish("x", MASK < b);
publish("x", 10 - 4 - 3); publish("x", 100 / 7 / 2); publish("x", 100 % 7 * 3); publish("x", 1 | 2 ^ 3 & 5);
publish("x", 7 == 3 & true); publish("x", true | false ^ true & false); publish("x", 1 + 2 < 3 * 4 == true && 5 > 4);
u; a; us; as; u + 1; a * b; a < b; !c; declassify(a); three_of(); (u); (as); size(as); sum(as);
publish("x", pick(1) + pick(2) * pick(3) - pick(4) / pick(5)); publish("x", pick(1) == pick(2) && pick(3) == pick(3));
  publish("x", pick(1) == pick(1) || pick(3) == pick(3)); publish("x", pick(6) == 6 && pick(7) == 7);
publish("x", gather(pick(1), us, pick(2), as, ts, c)); gather(1, eu, 2, ea, et, t); gather(1, vs, 2, us, ts, t);
publish("x", same(a)); publish("x", same(u)); publish("x", same_array(as)); publish("x", same_array(us));
publish("x", given(u)); publish("x", given(a)); publish("x", given_array(us)); publish("x", given_array(as));
publish("x", both(t, !t)); publish("x", both(!t, t)); publish("x", both(c, t)); publish("x", both(t, c)); publish("x", both(!c, !t));
publish("x", either(t, !t)); publish("x", either(!t, t)); publish("x", either(c, t)); publish("x", either(t, c));
publish("x", two(a, u)); publish("x", two(u, a)); publish("x", two(u, u)); publish("x", two(a, b));
q uint64 z = argument("b"); p uint64 y = argument("b"); publish("x", two(a, z)); publish("x", two(z, y)); publish("x", two(z, z));
publish("x", opened(a)); publish("x", opened(u)); publish("x", lesser(a, u)); publish("x", lesser(u, a)); publish("x", lesser(a, b));
publish("x", product(0)); publish("x", product(5)); publish("x", product(20)); publish("x", product(21)); publish("x", product(60));
publish("x", power(a, 3)); publish("x", power(a, 0)); publish("x", power(b, 2)); publish("x", power(3, 40));
even(5); even(6); publish("x", nested(2, 3));
early(0); early(1); early(2); early(3); publish("x", found(us, 7)); publish("x", found(us, 8)); publish("x", found(eu, 8));
"""

STATEMENTS = r"""
as[3] = u; as[0] = a; as[2]++; as[1] += b; as[1] *= u; publish("x", as);
cs[3] = t; cs[0] = c; cs[2] ^= true; cs[1] |= t; cs[1] &= d; publish("x", cs);
us[0] |= 8; us[1] ^= 9; us[2] &= 3; us[3]++; us[2]--; us[1] *= 2; us[0] -= 100; publish("x", us);
ts[0] |= true; ts[1] ^= t; ts[2] &= false; ts[3] = !ts[3]; publish("x", ts);
u *= 2 + 3; u -= 100 - 1; u += 1; u |= 1 | 2 ^ 3 & 4; publish("x", u);
us += 1; us *= vs; us -= us; us |= 3; us++; us--; publish("x", us);
as += 1; as *= bs; as -= us; as++; as--; publish("x", as); cs &= ts; cs |= ds; cs ^= t; publish("x", cs);
a++; a--; a += u; a -= b; a *= a; a *= u; publish("x", a); c &= t; c |= d; c ^= c; publish("x", c);
p uint64 x; p bool y; p uint64[[1]] xs; p bool[[1]] ys; publish("x", x); publish("x", y); publish("x", xs); publish("x", ys);
uint64 z; bool w; uint64[[1]] zs; bool[[1]] ws; publish("x", z); publish("x", w); publish("x", zs); publish("x", ws);
p uint64[[1]] x (3); p uint64[[1]] y (0); p uint64[[1]] z (1) = u; p uint64[[1]] w (2) = a; p bool[[1]] v (u) = t; p bool[[1]] k (u) = c;
  publish("x", x); publish("x", y); publish("x", z); publish("x", w); publish("x", v); publish("x", k);
uint64[[1]] x (3); uint64[[1]] y (0) = 7; uint64[[1]] z (u) = u; bool[[1]] w (u) = t; bool[[1]] v (1);
  publish("x", x); publish("x", y); publish("x", z); publish("x", w); publish("x", v);
p uint64 x = u; p bool y = t; p uint64[[1]] xs = us; p bool[[1]] ys = ts; p uint64[[1]] es = eu; publish("x", xs); publish("x", ys);
  x = u + 1; y = !t; xs = vs; ys = !ts; es = eu; publish("x", x); publish("x", y); publish("x", xs); publish("x", es);
uint64 x = 1; { uint64 x = x + 1; publish("x", x); { bool x = x == 2; publish("x", x); } x++; publish("x", x); } publish("x", x);
for (uint64 i = 0; i < 3; i++) { uint64 x; uint64[[1]] xs; p uint64 z; x++; xs = cat(xs, us); z += 1; publish("x", xs); publish("x", z); }
for (uint64 i = 0; i < 3; i++) { uint64[[1]] xs (i); xs += i; publish("x", xs); p uint64[[1]] ys (i); ys += i; publish("y", ys); }
uint64 i = 3; for (uint64 i = 0; i < 2; i++) { uint64 i = 7; publish("x", i); } publish("x", i);
uint64 i; do { i++; if (i == 2) continue; if (i == 5) break; publish("x", i); } while (i < 10 && i != 7);
uint64 i; while (i < 10) { i++; if (i == 2) continue; if (i == 5) break; publish("x", i); }
uint64 i; for (; i < 10; i++) { if (i == 2) continue; if (i == 5) break; publish("x", i); }
uint64 i; for (; ; publish("i", i)) {
  i++; if (i == 2) continue; if (i == 4) break; for (; ; ) break; while (true) { if (i == 3) break; else break; } }
for (uint64 i; i < 3; ) { i++; for (uint64 j; j < 3; j++) { if (j == i) break; if (j == 1) continue; publish("x", i * 10 + j); } }
for (u = 3; u < 7; u++) publish("x", u);
for (u = 2; u < 4; show(u)) u++;
for (u += 2; false; ) ; for (us[1] = 1; !true; 3) ; for (; u > 5; u + 1) u--; for (bool t = t; t; 1 / 0) t = false;
if (t) if (!t) publish("x", 1); else publish("x", 2); else publish("x", 3);
if (t) { } else publish("x", 3); if (!t) ; else ; if (!t) publish("x", 4); if (t) uint64 x = 4; else uint64 x = 5;
if (!t) publish("x", 1); else if (!t) publish("x", 2); else if (t) publish("x", 3); else publish("x", 4);
return; publish("x", 1);
while (t) { publish("x", 1); return; } publish("x", 2);
{ { { return; } } } publish("x", 2);
publish("0", 1); publish("_", 2); publish("nnnnnnnnnnnnnnnnnnnnnnnnnnnnnnnnnnnnnnnnnnnnnnnnnnnnnnnnnnnnnnnn", 3); publish("Z9", true);
q uint64 x = argument("a"); p uint64 y = argument("a"); publish("x", x); publish("y", y);
"""

NUMBER_PAIRS = (
    "u u", "u a", "a u", "us a", "a us", "u as", "as u", "as us", "us as", "as bs", "a as", "as a", "a b", "u vs", "us u", "us vs",
    "ea ea", "ea a", "a ea", "ea u", "u ea", "ea eu", "eu a", "eu u",
)
PUBLIC_PAIRS = ("us vs", "us u", "u vs", "u u", "eu u", "u eu", "eu eu")
TRUTH_PAIRS = (
    "t t", "t c", "c t", "c d", "ts t", "t ts", "ts ts", "ts c", "c ts", "t cs", "cs t", "cs ts", "ts cs", "cs ds", "cs c", "c ds",
    "ec ec", "ec t", "c et", "t et", "ec c",
)

STORES = r"""
x[1] = ONE; publish("x", x); p T[[1]] y = x; y[2] = ONE; x[3] = ONE; publish("x", x); publish("y", y);
x[0] = ONE; p T[[1]] y = x; p T[[1]] z = y; y[1] = ONE; z[2] = ONE; x[3] = ONE; publish("x", x); publish("y", y); publish("z", z);
  x = y; y[4] = ONE; publish("x", x); x = z; x[5] = ONE; publish("z", z);
x[0] = ONE; p T[[1]] y = changed(x); publish("x", x); publish("y", y); x = changed(x); publish("x", x);
  y = same_store(x); y[3] = ONE; publish("x", x); publish("y", y);
x[0] = ONE; x[1] = changed(x)[0]; x[2] = changed(x)[7]; publish("x", x);
x = deeper(x, 5); publish("x", x);
p T[[1]] y (N) = ONE; for (uint64 i; i < 4; i++) {
  p T[[1]] z (N) = ZERO; z[i] = ONE; y = z; z[i + 1] = ONE; publish("y", y); publish("z", z); x = y; y[9] = ONE; }
  publish("x", x); publish("y", y);
for (uint64 i; i < 6; i++) {
  p T[[1]] y = x; x[i] = ONE; if (i == 2) continue; y[i + 8] = ONE; publish("y", y); if (i == 4) break; x = y; } publish("x", x);
p T[[1]] y = (T) x; x[1] = ONE; publish("y", y); y = (T) x; y[2] = ONE; publish("x", x);
  x = (T) ((x)); x[3] = ONE; publish("x", x); publish("y", y);
T[[1]] k (N) = ZERO; x = k; k[0] = ONE; x[1] = ONE; publish("x", x); publish("k", k); x = k; k[2] = ONE; x[3] = ONE; publish("x", x);
  T[[1]] l = k; l[4] = ONE; k[5] = ONE; publish("k", k); publish("l", l); k = l; k[6] = ONE; publish("l", l); publish("k", k);
T[[1]] k (N) = ZERO; k[0] = ONE; T[[1]] l = changed(k); publish("k", k); publish("l", l); k = deeper(k, 3); publish("k", k);
  k = same_store(l); k[4] = ONE; publish("l", l); k = (T) l; k[5] = ONE; publish("l", l);
T[[1]] k = declassify(x); x[1] = ONE; publish("k", k); k = declassify(x); k[2] = ONE; publish("x", x); publish("k", k);
  x = k; x[3] = ONE; publish("k", k);
p T s = ONE; p T[[1]] y (N) = s; x[0] = ONE; y[1] = ZERO; s = ZERO; publish("x", x); publish("y", y); publish("s", s);
  s = x[0]; x[0] = ZERO; publish("s", s);
p T[[1]] y = cat(x, x); x[0] = ONE; y[1] = ONE; x = cat(x, y); y[2] = ONE; publish("x", x); publish("y", y);
  x[0] = x[1]; x[1] = x[2]; x[2] = x[0]; publish("x", x); publish("z", cat(x, changed(x)));
p T[[1]] y (N) = ONE; p T[[1]] z = x; x = y; y = z; x[0] = ZERO; y[1] = ONE; z[2] = ONE; publish("x", x); publish("y", y); publish("z", z);
  { p T[[1]] x = y; x[3] = ONE; publish("x", x); y = x; x[4] = ONE; } publish("y", y); publish("x", x);
stored(x, x); p T[[1]] y (N) = ONE; stored(x, y); stored(y, changed(x)); publish("x", x); publish("y", y);
x[0] = ONE; { p T[[1]] y = x; } x[1] = ONE; for (uint64 i; i < 2; i++) { p T[[1]] y = x; y[2] = ONE; x[3 + i] = ONE; } publish("x", x);
  p T[[1]] z; z = x; x[N - 1] = ONE; z[N - 1] = ZERO; publish("x", x); publish("z", z); z[N] = ONE;
x[0] = ONE; while (true) { p T[[1]] y = x; while (true) { p T[[1]] z = y; z[1] = ONE; y = z; break; } x[2] = ONE; publish("y", y); x = y;
  break; } x[3] = ONE; publish("x", x);
x ADD ONE; x[0] = x[0]; p T[[1]] y = x; y[1] = ZERO; x[2] ADD ONE; x[2] ADD ONE; y[3] ADD ONE; publish("x", x); publish("y", y);
  x = x; x[4] = ZERO; publish("x", x);
"""
STORE_FUNCTIONS = r"""
template <domain D> D T[[1]] changed(D T[[1]] x) { x[5] = ONE; publish("in", x[5]); return x; }
template <domain D> D T[[1]] same_store(D T[[1]] x) { return x; }
template <domain D> D T[[1]] deeper(D T[[1]] x, uint64 n) {
if (n == 0) return x; D T[[1]] z = x; x[n] = ONE; D T[[1]] y = deeper(x, n - 1); x[n + 8] = ONE; publish("y", y[n]); publish("z", z[n]);
if (n == 2) return x; return y; }
template <domain D> void stored(D T[[1]] x, D T[[1]] y) {
x[1] = ONE; y[2] = ONE; publish("x", x); publish("y", y); x = y; y[3] = ZERO; publish("x", x); publish("y", y); }
"""
STORE_WORDS = (
    {"T": "uint64", "ZERO": "0", "ONE": "1", "ADD": "+=", "N": "16"},
    {"T": "uint64", "ZERO": "0", "ONE": "1", "ADD": "+=", "N": "300"},
    {"T": "bool", "ZERO": "false", "ONE": "true", "ADD": "|=", "N": "64"},
    {"T": "bool", "ZERO": "false", "ONE": "true", "ADD": "|=", "N": "300"},
)

PROGRAMS = (
    "void main() {\nmain(); }",
    'void main() { publish("x", 1);\nmain();\nmain(); }',
    "void main() { }",
    "void main() { ;;;{}{;}{{}} }",
    '\n\n/* nothing */ // here\nvoid main() { publish("x"\r\n, /*\n*/ 1\n/ // one\n0); }\n\n',
    'uint64 f(uint64 n) { return\nf(n); } void main() { publish("x", f(0)); }',
    HEAD + 'p uint64 f(p uint64[[1]] n) { return\nf(cat(n, n)); } void main() { uint64[[1]] x (1); publish("x", f(x)); }',
    "kind shared3p; domain p shared3p; uint64 sum(uint64 x) { return x + 1; }\n"
    "uint64[[1]] bitExtract(uint64 x) { uint64[[1]] y (x); return y; }\n"
    'void main() { p uint64 x = sum(4); publish("x", x); publish("y", bitExtract(2)); publish("s", size(bitExtract(3))); }',
    "import stdlib; bool bitExtract(uint64 x) { return x == 0; }\n"
    'void main() { uint64[[1]] x (3) = 2; publish("x", sum(x)); publish("y", bitExtract(0)); }',
    "import stdlib; import shared3p; domain p shared3p; domain sum shared3p; uint64 p(uint64 p) { return p; }\n"
    'void main() { uint64 size = 3; uint64[[1]] cat (size); p uint64 sum = p(size); publish("x", sum);\n'
    'uint64 main = size(cat); publish("y", main); sum uint64 z = 4; publish("z", z); }',
    HEAD + "domain r shared3p;\n"
    "template <domain A, domain B, domain C, domain D> void f(A uint64 a, B uint64 b, C uint64 c, D uint64 d) {\n"
    'publish("a", a); publish("b", b); A uint64 x = 1; B uint64 y = 2; x += a; y *= b; publish("x", x); publish("y", y);\n'
    'C bool v = c < 5; D bool w = d != 5; publish("v", v); publish("w", w); }\n'
    "void main() { p uint64 x = 1; q uint64 y = 2; r uint64 z = 3; f(x, y, z, 4); f(1, x, x, y); f(1, 2, 3, 4); f(z, z, z, z); }",
    HEAD + "template <domain D> D uint64 f(D uint64 x, uint64 n) { if (n == 0) return x; return g(x, n - 1, 7); }\n"
    "template <domain E, domain D> D uint64 g(D uint64 x, uint64 n, E uint64 y) {\n"
    'E uint64 z = y + y; publish("z", z); return f(x + declassify(z), n) + h(x); }\n'
    "template <domain D> D uint64 h(D uint64 x) { D uint64[[1]] y (2) = x; return y[1] * y[0]; }\n"
    'void main() { p uint64 a = 3; publish("x", f(a, 3)); publish("y", f(5, 3)); publish("w", g(4, 1, a)); }',
    f'uint64 f({", ".join(f"uint64 a{k}" for k in range(300))}) {{ return a0 - a299; }}\n'
    f'void main() {{ publish("x", f({", ".join(map(str, range(300)))})); }}',
    f'void main() {{ publish("x", {"!" * 122}true); }}',
    f'void main() {{ publish("x", {"(" * 122}1{")" * 122}); }}',
    f'void main() {{ {"{ uint64 x; " * 120}publish("x", x); {"} " * 120}}}',
    f'void main() {{ {"while (true) " * 120}return; }}',
    'void show(uint64 k) { publish("x", k); }\n'
    f'void main() {{ uint64 x = 50; {" else ".join(f"if (x == {k}) show({k});" for k in range(60))} }}',
    f'void main() {{ publish("x", {" + ".join(["1"] * 123)}); }}',
    HEAD + f'void main() {{ p uint64 a = 1; publish("x", {" * ".join(["a"] * 123)}); }}',
    f'void main() {{ publish("x", {"1 - (" * 60}1{")" * 60}); }}',
    f'void main() {{ {" ".join(f"uint64 x{k} = {k};" for k in range(400))} publish("x", x0 + x399 + x200); }}',
    HEAD + "p uint64[[1]] f() { p uint64[[1]] x (3) = 7; return x; }\n"
    'void main() { p uint64 y = f()[1]; f()[2]; publish("y", y);\nf()[3]; }',
    'void f() { publish("f", 1); } void g() { f(); f(); return; } bool yes() { return true; }\n'
    "void main() { g(); for (; false; f()) ; for (; yes(); f()) return; }",
    HEAD + "p uint64[[1]] f(uint64 n) { uint64[[1]] x (n) = 4; return x; } p bool g() { return true; }\n"
    'void main() { publish("x", f(5)); publish("y", f(0)); publish("g", g()); }',
)

GREAT_BUDGET = 6_000_000
GREAT = r"""
publish("x", 1);\nuint64[[1]] x (524288); uint64[[1]] y (524289); publish("x", size(cat(x, x)));\npublish("x", size(\ncat(x, y)));
uint64[[1]] x (524288); p uint64[[1]] y (524289);\npublish("x", size(\ncat(x, y)));
uint64[[1]] x (16384); publish("x", size(bitExtract(x))); uint64[[1]] y (1048576) = 18446744073709551615; publish("x", sum(y));
p bool[[1]] x (1048576) = true; publish("x", size(x));\nx[1048576] = false;
"""


def bodies_of(text: str) -> list[str]:
    """The bodies of a list."""
    return [body.replace("\\n", "\n") for body in re.split(r"\n(?! )", text.strip("\n"))]


def operator_bodies() -> Iterator[str]:
    """Each operator with operands of each manner."""
    for sign in ("+", "-", "*", "==", "!=", "<", "<=", ">", ">="):
        yield tellings(sign, NUMBER_PAIRS)
    for sign in ("/", "%", "&", "|", "^"):
        yield tellings(sign, PUBLIC_PAIRS)
    for sign in ("&&", "||", "&", "|", "^", "==", "!="):
        yield tellings(sign, TRUTH_PAIRS)


def tellings(sign: str, pairs: tuple[str, ...]) -> str:
    """A body that publishes what an operator makes of each pair."""
    return "\n".join(f'publish("x", {left} {sign} {right});' for left, right in map(str.split, pairs))


def stores() -> Iterator[Case]:
    """Stores into arrays of which there are copies, long ones among them."""
    for body in bodies_of(STORES):
        for words in STORE_WORDS:
            text = f"{HEAD}{STORE_FUNCTIONS}void main() {{\np T[[1]] x (N) = ZERO;\n{body}\n}}\n"
            yield Case(re.sub(r"\b(T|ZERO|ONE|ADD|N)\b", lambda found, words=words: words[found.group()], text), [])


def cases() -> Iterator[Case]:
    """All cases; what is not used of the functions and inputs stays."""
    bodies = [*bodies_of(TRAPS), *bodies_of(EXPRESSIONS), *bodies_of(STATEMENTS), *operator_bodies()]
    for body in bodies:
        text = f"{HEAD}{FUNCTIONS}void main() {{\n{DECLARED}{body}\n}}\n"
        yield Case(re.sub(r"\bMASK\b", str(MASK), text), list(INPUTS))
    for program in PROGRAMS:
        yield Case(program, [])
    for body in bodies_of(GREAT):
        yield Case(f"{HEAD}void main() {{\n{body}\n}}\n", [], GREAT_BUDGET)
    yield from stores()
