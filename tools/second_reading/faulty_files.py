"""Files that are refused, and good ones in odd forms: by hand for each rule and its edges, and good ones that were changed at random."""
from __future__ import annotations

import itertools
import json
import random
import struct
from collections.abc import Iterator

from good_calls import GOOD_FILES, LENGTHS

NO_JSON = (
    b"", b" ", b"\n", b"{", b"}", b"[", b'"', b"{}{}", b"nul", b"True", b"NaN", b"Infinity", b"-", b"+1", b"01", b"1.", b".5", b"1e",
    b"1e+", b"0x1", b"1_0", b"- 1", b"1 2", b"'a'", b"[1,]", b"[,1]", b"[1 2]", b'{"a"}', b'{"a":}', b'{"a" 1}', b'{"a":1,}', b"{,}",
    b"{1:2}", b'{"a":1 "b":2}', b"[1}", b'{"a":1]', b'"\n"', b'"\t"', b'"\x00"', b'"\x1f"', b'"\\x41"', b'"\\u12"', b'"\\u12g4"', b'"\\"',
    b'"\\ud800"', b'"\\ud800x"', b'"\\ud800\\n"', b'"\\ud800\\u0041"', b'"\\ud800\\ud800"', b'"\\udc00"', b'"\\U0041"', b"\xef\xbb\xbf{}",
    b"\xff", b'"\xff"', b'"\xc0\x80"', b'"\xed\xa0\x80"', b'"\xf4\x90\x80\x80"', b'"\xc3"', b"\xfe\xff\x00{", b"{}\x00", b"\x0b{}",
    b"\x0c{}", b"\xc2\xa0{}", b"// c\n{}", b"/* c */ {}", b"# c\n{}", b"{} // c", b"{}x", b"{},", b"[[]", b"1e999", b"-1e999", b"1e309",
    b"1" + b"0" * 400, b"[1e999]", b"tru", b"truee", b"falsenull", b"nullnull", b"\\u007b}",
)
OTHER_TOPS = (
    b"null", b"true", b"0", b"1e5", b'"inputs"', b"[]", b'[{"inputs":[]}]', b"{}", b'{"Inputs":[]}', b'{"input":[]}', b'{"inputs":{}}',
    b'{"inputs":null}', b'{"inputs":"[]"}', b'{"inputs":0}', b'{"inputs":[],"inputs":{}}', b'{"inputs":{},"inputs":[]}',
    b'{"in\\u0070uts":[]}', b'{"inputs\\u0000":[]}', b'{"":[]}', b' \t\r\n{ "inputs" : [ ] } \t\r\n', b'{"inputs":[],"x":1e-999}',
    b'{"inputs":[],"x":0e999}', b'{"inputs":[],"x":-0.0e-0}', b'{"inputs":[],"x":"\\ud83d\\ude00\\"\\\\\\/\\b\\f\\n\\r\\t\x7f"}',
    b'{"inputs":[],"x":"\xf0\x9f\x98\x80\xef\xbf\xbf"}', b'{"inputs":[],"x":1e308}', b'{"inputs":[],"x":1.7e308}',
    b'{"inputs":[],"x":"\xed"}', b'{"inputs":[],"\xff":1}', b'{"inputs":[],"x":' + b"9" * 300 + b"}",
)
NAMES = (
    '"a"', '"Z_9"', '"_"', '"0"', '"' + "n" * 64 + '"', '"' + "n" * 65 + '"', '""', '" a"', '"a "', '"a-b"', '"a.b"', '"\u00e9"',
    '"\\u0061b"', '"a\\u0000"', '"\\n"', "null", "1", "true", "[]", "{}", '["a"]', '"\u0430"', '"\uff41"', '"public"', '"a\\nb"',
)
DOMAINS = (
    '"public"', '"private"', '"Private"', '"p"', '""', '"public "', "null", "true", "0", "[]", '["private"]', '"privat\\u0065"',
    '"shared3p"',
)
TYPES = ('"uint64"', '"bool"', '"uint"', '"Bool"', '"int64"', '"int"', '"Int64"', '"uint64[[1]]"', '""', "null", "64", "[]", '"boo\\u006c"')
VALUES = (
    "0", "1", "5", "18446744073709551615", "18446744073709551616", "99999999999999999999999", "-1", "-0", "0.0", "1.0", "1e0", "1E2",
    "0e0", "1.5", "9223372036854775808", "-9223372036854775809",
    "-9223372036854775808", "9223372036854775807", "-1.0", "-1e0", "[-1,1]", "[-0]", "[-9223372036854775808,9223372036854775808]",
    "true", "false", "null", '"6"', '"true"', '""', "{}", "[]", "[0]",
    "[true]", "[1,2,3]", "[true,false]", "[1,true]", "[true,1]", "[[1]]", "[[]]", "[null]", "[1,null]", '["1"]', "[1,-1]", "[1.0]",
    "[1,2,18446744073709551616]", "{\"value\":1}", "[{}]", "1e999", "01", "[01]", "[1,]",
)
SHAPES = (
    '"scalar"', "0", "1", "3", "65536", "65537", "18446744073709551615", "18446744073709551616", "-1", "1.0", "-0", "null", "true",
    '"array"', '"Scalar"', '""', '"3"', "[]", "[3]", "{}", '"scala\\u0072"', "1e3",
)
FIELDS = ("name", "domain", "type", "value")
GOOD = {"name": '"a"', "domain": '"private"', "type": '"uint64"', "value": "6"}
SHOWN = {"name": NAMES, "domain": DOMAINS, "type": TYPES, "value": VALUES, "shape": SHAPES}
WRONG = {"name": '"a b"', "domain": '"p"', "type": '"uint"', "value": "-1", "shape": "-1"}
OTHER_ENTRIES = ("null", "1", '"a"', "[]", "true", "{}", '[{"name":"a"}]')


def entry(**fields: str | None) -> str:
    """An entry of the good fields, but for these; None leaves one out."""
    return shown({**GOOD, **fields})


def shown(fields: dict[str, str | None]) -> str:
    return "{" + ",".join(f'"{name}":{text}' for name, text in fields.items() if text is not None) + "}"


def whole(*entries: str) -> bytes:
    return ('{"inputs":[' + ",".join(entries) + "]}").encode()


def as_shape(fields: dict[str, str | None]) -> dict[str, str | None]:
    """Fields of a private entry of a public file."""
    return {**{name: text for name, text in fields.items() if name != "value"}, "shape": fields.get("shape", '"scalar"')}


def entries_of(has_shapes: bool) -> Iterator[dict[str, str | None]]:
    """Entries with one field of each kind, with none of it, and with faults of several."""
    base = as_shape(GOOD) if has_shapes else GOOD
    names = ("name", "domain", "type", "shape") if has_shapes else FIELDS
    for field in names:
        for text in SHOWN[field]:
            yield {**base, field: text}
        yield {**base, field: None}
    for text in VALUES:
        yield {**GOOD, "type": '"bool"', "value": text}
        yield {**GOOD, "type": '"int64"', "value": text}
        yield {**GOOD, "domain": '"public"', "type": '"int64"', "value": text}
        yield {**GOOD, "domain": '"public"', "value": text}
    for bits in range(16):
        yield {**base, **{field: WRONG[field] for place, field in enumerate(names) if bits >> place & 1}}
        yield {**base, **{field: None for place, field in enumerate(names) if bits >> place & 1}}
    yield {**base, "value": "[-1]", "shape": '"x"'}
    yield {**GOOD, "shape": "1", "domain": '"public"'}
    yield {**GOOD, "shape": "65537"}
    yield {**base, "other": "1e999"}
    yield {**base, "Name": "null", "names": "1"}


def twice() -> Iterator[str]:
    """Entries with a key twice: the last one counts."""
    for field in FIELDS:
        yield entry()[:-1] + f',"{field}":{WRONG[field]}' + "}"
        yield "{" + f'"{field}":{WRONG[field]},' + entry()[1:]
        yield "{" + f'"\\u00{ord(field[0]):02x}{field[1:]}":{WRONG[field]},' + entry(**{field: None})[1:]


def long_value(count: int, last: str = "1") -> str:
    return "[" + "0," * (count - 1) + last + "]"


def large_files(has_shapes: bool) -> Iterator[bytes]:
    """Sizes about the limit, beside other faults."""
    base = as_shape(GOOD) if has_shapes else GOOD
    other, bad = shown({**base, "name": '"b"'}), shown({**base, "name": '"-"'})
    for shape in ("65536", "65537", "18446744073709551616") if has_shapes else ():
        large = shown({**base, "shape": shape})
        yield from (whole(large, bad), whole(bad, large), whole(other, large, bad))
    for count, last in ((65_536, "1"), (65_537, "1"), (65_537, "-1"), (65_537, "true")):
        large = entry(domain='"public"', value=long_value(count, last))
        yield whole(large, bad)
        yield whole(other, large)
        if last == "1":
            yield whole(bad, large)
            yield whole(large.replace("public", "private"), bad)
            yield whole(large.replace("uint64", "bool"), bad)
    yield whole(entry(domain='"public"', type='"bool"', value=long_value(65_537).replace("0", "true").replace("1", "true")), bad)


def deep_files() -> Iterator[bytes]:
    """Nesting about the limit, in fields that are ignored and in others."""
    for count in (1, 120, 123, 124, 125, 126, 127, 128, 129, 300, 100_000):
        arrays, objects = "[" * count + "]" * count, '{"a":' * count + "1" + "}" * count
        yield f'{{"inputs":[],"x":{arrays}}}'.encode()
        yield f'{{"inputs":[],"x":{objects}}}'.encode()
        yield whole(entry(value=arrays))
        yield whole(entry(other=arrays))
        yield arrays.encode()
        yield ("[" * count).encode()


def entry_files(has_shapes: bool) -> Iterator[bytes]:
    """Files of inputs, or public files: each fault by itself, and among others."""
    yield from NO_JSON
    yield from OTHER_TOPS
    base = shown(as_shape(GOOD)) if has_shapes else entry()
    other = shown({**(as_shape(GOOD) if has_shapes else GOOD), "name": '"b"'})
    for fields in entries_of(has_shapes):
        yield whole(shown(fields))
        yield whole(other, shown(fields), "null")
    for text in OTHER_ENTRIES:
        yield whole(text)
        yield whole(base, text)
        yield whole(text, base)
    for text in twice():
        yield whole(text)
    for second in (base, other, other.replace('"b"', '"\\u0061"'), other.replace('"b"', '"A"'), other.replace("private", "p")):
        yield whole(base, second)
        yield whole(base, other, second, "0")
    yield from large_files(has_shapes)
    yield from deep_files()


SHARE_WORDS = (0, 1, (1 << 64) - 1, 5)
SHARED_SHAPES = ('"scalar"', 0, 1, 2, 63, 64, 65, 127, 128, 129)


def share_files() -> Iterator[bytes]:
    """Share files of one value of each type, with words that are as many as its elements, as the words that hold so many truth values, and others."""
    for kind, shape in itertools.product(("bool", "uint64", "int64"), SHARED_SHAPES):
        count = shape if isinstance(shape, int) else 1
        for size in sorted({0, 1, 2, 3, count, count + 1, -(-count // 64), count // 64}):
            words = ",".join(str(SHARE_WORDS[place % 4 if size > 1 else 2]) for place in range(size))
            entry_text = f'{{"name":"a","domain":"private","type":"{kind}","shape":{shape},"share":[{words}]}}'
            yield f'{{"inputs":[{entry_text}],"lens":[4,25,18,18],"miner":2}}'.encode()


TOKENS = tuple(text.encode() for text in (
    *NAMES, *DOMAINS, *TYPES, *VALUES, *SHAPES, *(f'"{field}"' for field in (*FIELDS, "shape", "inputs", "share")), "{", "}", "[", "]", ",",
    ":", " ", "\n", "\x0b",
    "\\u0061", "\\ud800", "\ufeff"))


def changed_bytes(data: bytes, source: random.Random, tokens: tuple[bytes, ...]) -> bytes:
    """A change at one place: a byte or a piece goes, comes, is exchanged or stands twice."""
    data, place = bytearray(data), source.randint(0, len(data))
    choice, end = source.randrange(7), min(place + source.choice((1, 1, 2, 8, 30)), len(data))
    if choice == 0:
        del data[place:end]
    elif choice == 1:
        data[place:place] = source.choice(tokens)
    elif choice == 2:
        data[place:end] = source.choice(tokens)
    elif choice == 3:
        data[place:place] = data[place:end]
    elif choice == 4 and data:
        data[min(place, len(data) - 1)] ^= 1 << source.randrange(8)
    elif choice == 5:
        del data[place:]
    else:
        data[place:place] = bytes([source.randrange(256)])
    return bytes(data)


def changed_fields(data: bytes, source: random.Random) -> bytes:
    """Entries of a file with other fields: exchanged between entries, left out, or of other texts."""
    entries = [{name: json.dumps(value) for name, value in one.items()} for one in json.loads(data)["inputs"]]
    for _ in range(source.choice((1, 1, 2, 3))):
        one, other = source.choice(entries), source.choice(entries)
        field = source.choice((*FIELDS, "shape"))
        choice = source.randrange(5)
        if choice == 0:
            one.pop(field, None)
        elif choice == 1:
            one[field] = other.get(field, "null")
        elif choice == 2:
            entries.insert(source.randint(0, len(entries)), dict(one))
        else:
            one[field] = source.choice(SHOWN[field])
    if source.random() < 0.3:
        source.shuffle(entries)
    return whole(*map(shown, entries))


def changed_entries(data: bytes, source: random.Random) -> bytes:
    """A file of inputs or a public file with one to three changes."""
    if source.random() < 0.6:
        data = changed_fields(data, source)
        if source.random() < 0.7:
            return data
    for _ in range(source.choice((1, 1, 2, 3))):
        data = changed_bytes(data, source, TOKENS)
    return data


def tape_files() -> Iterator[bytes]:
    """Tape files of all short sizes, with lengths about the limit, and of sizes about the right one."""
    good = GOOD_FILES["t"]
    for size in (*range(34), len(good) - 9, len(good) - 8, len(good) - 1):
        yield good[:size]
        yield bytes(size)
    for more in (1, 7, 8, 9, 16):
        yield good + bytes(more)
    for party in range(4):
        for length in (0, 1, (1 << 24) - 1, 1 << 24, (1 << 24) + 1, 1 << 32, 1 << 61, (1 << 61) - 4, 1 << 62, 1 << 63, (1 << 64) - 1):
            yield good[: 8 * party] + struct.pack("<Q", length) + good[8 * party + 8 :]
            yield bytes(8 * party) + struct.pack("<Q", length) + bytes(24 - 8 * party)
        for one in (LENGTHS[party] - 1, LENGTHS[party] + 1):
            yield good[: 8 * party] + struct.pack("<Q", one) + good[8 * party + 8 :]
    for first in range(4):
        for second in range(first + 1, 4):
            lengths = [(1 << 24) + 1 if party in (first, second) else 1 for party in range(4)]
            yield struct.pack("<4Q", *lengths) + bytes(16)
            yield struct.pack("<4Q", *lengths)[:31]
    yield struct.pack(">4Q", *LENGTHS) + good[32:]
    yield struct.pack("<4Q", *[1 << 24] * 4)


OPENED_LINES = (
    "open", "open 0", "open 1", "open true", "open false", "open 1 true 0", "open 18446744073709551615", "open 18446744073709551616",
    "open 99999999999999999999", "open 01", "open 00", "open -1", "open -0", "open +1", "open 1.0", "open 0x1", "open True", "open TRUE",
    "open tru", "open truefalse", "open x", "open ", "open  1", "open 1 ", "open 1  2", " open 1", "open\t1", "open 1\t2", "open 1\r",
    "open 1\x0b", "open 1\x00", "opne 13", "Open 1", "ope", "opened 1", "open1", "open,1", "", " ", "end done cost 7", "publish s 1",
    "open \u0661", "\u00e9", "open 1\u00a02", "open '1'", "\ufeffopen 1", "open 1_0", "open 1e1", "open 0" + "0" * 30,
    "open " + "9" * 100,
)


def opened_files() -> Iterator[bytes]:
    """Opened files of one line of each kind, alone and among good ones, with and without the last newline."""
    yield b""
    for line in OPENED_LINES:
        yield f"{line}\n".encode()
        yield line.encode()
        yield f"open 1\nopen\n{line}\nopen 2\n".encode()
        yield f"open 1\n{line}\nopen x\n".encode()
    yield b"open 1\n\xff\n"
    yield b"open \xff\nopen x\n"
    yield b"\nopen 1\n"
    yield b"open 1\n\n"
    yield b"open 1\r\nopen 2\r\n"


SCHEDULE_LINES = (
    "11", "22", "33", "10", "01", "14", "41", "1", "2", "123", "", " ", " 12", "12 ", "12\r", "1 2", "1-2", "012", "+12", "12.", "xx",
    "12\x00", "\t12", "12,", "l2", "\uff11\uff12", "\ufeff12", "12 13", "1213",
)


def schedule_files() -> Iterator[bytes]:
    """Schedules with one wrong line at several places, and with wrong ends."""
    good = GOOD_FILES["s"].decode().splitlines(True)
    yield b""
    for line in SCHEDULE_LINES:
        for place in (0, 1, len(good) // 2, len(good)):
            yield "".join([*good[:place], line + "\n", *good[place:]]).encode()
        yield line.encode()
        yield "".join([*good, line]).encode()
    for link in ("12", "13", "21", "23", "31", "32"):
        yield link.encode()
        yield f"{link}\n".encode()
        yield "".join([*good, f"{link}\n"]).encode()
        yield "".join([f"{link}\n", "x\n", *good]).encode()
    for count in range(len(good)):
        yield "".join(good[:count]).encode()
    yield "".join(good)[:-1].encode()
    yield "".join(good).replace("\n", "\r\n").encode()
    yield "".join(good).encode() + b"\n"
    yield "".join(good).encode() + b"\xff\n"


LINE_TOKENS = (
    b"\n", b" ", b"open", b"open ", b"true", b"0", b"1", b"2", b"3", b"12\n", b"31\n", b"\r", b"\xff", b"\x00", b"18446744073709551616",
)


def changed_lines(data: bytes, source: random.Random) -> bytes:
    for _ in range(source.choice((1, 1, 1, 2, 3))):
        data = changed_bytes(data, source, LINE_TOKENS)
    return data


def changed_tapes(data: bytes, source: random.Random) -> bytes:
    """Tapes of another size, or with another length."""
    choice = source.randrange(4)
    if choice == 0:
        return changed_bytes(data, source, (bytes(8), bytes(4), b"\x01"))
    place = 8 * source.randrange(4)
    length = source.choice((source.randrange(40), source.getrandbits(64), 1 << source.randrange(64), (1 << 24) + source.randrange(-1, 2)))
    return data[:place] + struct.pack("<Q", length) + data[place + 8 :] if choice < 3 else data[: source.randrange(40)]
