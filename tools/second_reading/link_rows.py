#!/usr/bin/env python3
"""link_rows FOLDER: writes the row files of `miner`, `trio` and `join` (miner.rows, trio.rows, joins.rows), made by the model of this folder alone."""
from __future__ import annotations

import sys

sys.dont_write_bytecode = True
from code_file import FIRST, decode, encode
from files import compact
from served import GREETING, Hello, Setting, frame
from served_programs import (
    CONVERSION, INDEXED, KEPT_PRODUCT, NOTHING_DONE, PRODUCT, TOLD, TRUTHS, Served, number, numbers, public_number, truth, truths,
)

ZEROS = [[0] * 4 for _ in range(4)]
SIX_SEVEN = [number("a", 6), number("b", 7)]


def others(miner: int) -> list[int]:
    return [peer for peer in (1, 2, 3) if peer != miner]


class Rows:
    """A row file that is put together."""

    def __init__(self, *comment: str):
        self.lines = [f"# {line}" for line in comment]

    def add(self, *lines: str):
        self.lines += lines

    def group(self, title: str, *lines: str):
        self.add("", f"group {title}", *lines)

    def row(self, title: str, *lines: str):
        self.add("", f"row {title}", *lines)

    def text(self) -> str:
        return "".join(line + "\n" for line in self.lines)


# The most bytes of a line of bytes, and characters of a text in a line: lines of a text's bytes follow one another.
BYTES_EACH, CHARACTERS_EACH = 48, 150


def hexed(data: bytes) -> list[str]:
    return ["hex " + data[at : at + BYTES_EACH].hex(" ") for at in range(0, len(data), BYTES_EACH)]


def cut(line: str, mark: str) -> list[str]:
    """A line of a text, of which the last piece has this mark."""
    places = range(0, max(len(line), 1), CHARACTERS_EACH)
    return [(mark if at == places[-1] else ">") + line[at : at + CHARACTERS_EACH] for at in places]


def spelled(data: bytes) -> list[str]:
    """The bytes of a link: the hello in a line, then each frame in one."""
    lines, data = hexed(data[:GREETING]), data[GREETING:]
    while len(data) >= 5 and data[0] == 1:
        size = 5 + 8 * int.from_bytes(data[1:5], "little")
        lines += hexed(data[:size])
        data = data[size:]
    return lines + hexed(data)


def written(data: bytes) -> list[str]:
    """The bytes of a text, line by line."""
    *lines, rest = data.decode().split("\n")
    return [piece for line in lines for piece in cut(line, "|")] + (cut(rest, ">") if rest else [])


def write_files(folder: str, made: dict[str, Rows]):
    """Writes row files of these names."""
    for name, rows in made.items():
        with open(f"{folder}/{name}.rows", "w", encoding="utf-8") as target:
            target.write(rows.text())


def file(name: str, lines: list[str]) -> list[str]:
    return [f"file {name}", *lines]


def tape_lines(setting: Setting, miner: int) -> list[str]:
    return ["u64 " + " ".join(map(str, [setting.lengths[miner], *setting.tapes[miner]]))]


def miner_files(setting: Setting, miner: int) -> list[str]:
    return [
        *file("p.code", hexed(setting.code)),
        *file(f"p.{miner}", written(setting.share_file(miner))),
        *file(f"p.t{miner}", tape_lines(setting, miner)),
    ]


def miner_call(miner: int, budget: int | None = None) -> str:
    words = f"call miner p.code --me {miner} --share p.{miner} --tape p.t{miner} --port 47310 --out p.o{miner}"
    return words if budget is None else f"{words} --budget {budget}"


def arriving(peer: int, data: bytes) -> list[str]:
    return [f"arrive {peer}", *spelled(data)] if data else []


def was_sent(setting: Setting, miner: int, received: dict[int, int] | None = None) -> list[str]:
    return [line for peer in others(miner) for line in (f"sent {peer}", *spelled(setting.sent(miner, peer, received)))]


def greeted(setting: Setting, miner: int) -> list[str]:
    """What the miner sent where it sent its hellos alone."""
    return [line for peer in others(miner) for line in (f"sent {peer}", *spelled(setting.hello(miner, peer).bytes()))]


def honest(setting: Setting, miner: int) -> list[str]:
    return [line for peer in others(miner) for line in arriving(peer, setting.arriving(peer, miner))]


def ends(status: int, line: str) -> list[str]:
    return [f"status {status}", f"err error: {line}"]


class MinerRows(Rows):
    """Rows of one miner over links in memory."""

    def setting(self, title: str, setting: Setting, miner: int, budget: int | None = None, *lines: str):
        self.group(title, miner_call(miner, budget), *miner_files(setting, miner), *lines)

    def whole(self, title: str, setting: Setting, miner: int):
        """The miner's peers do their part, and it comes to the end of the run."""
        status = setting.report.end.status
        self.row(
            title, *honest(setting, miner), *([f"status {status}"] if status else []), *was_sent(setting, miner),
            f"written p.o{miner}", *written(setting.text(miner)),
        )

    def refused(self, title: str, status: int, line: str, miner: int, *lines: str):
        self.row(title, *lines, *ends(status, line), f"absent p.o{miner}")


def changed(hello: Hello, **fields) -> bytes:
    return Hello(**{**hello.__dict__, **fields}).bytes()


def product_rows(rows: MinerRows):
    """Miner 2 of a product of 6 and 7, whose peers lie."""
    setting, me = PRODUCT.setting(SIX_SEVEN, ZEROS), 2
    rows.setting("miner 2 of a product", setting, me)
    rows.whole("it comes to its end", setting, me)
    lower, higher = setting.arriving(1, me), setting.arriving(3, me)
    hello = setting.hello(1, me)
    good_higher = arriving(3, higher)
    for field, fields in (
        ("version", {"version": 1}), ("sender", {"sender": 3}), ("receiver", {"receiver": 3}), ("code", {"code": bytes(32)}),
        ("public", {"public": bytes(32)}),
    ):
        rows.refused(f"a hello with another {field}", 11, f"N2 {field}", me, *arriving(1, changed(hello, **fields)), *good_higher, *greeted(setting, me))
    everything = changed(hello, version=0, sender=0, receiver=9, code=bytes(32), public=bytes(32))
    rows.refused("a hello with all fields wrong", 11, "N2 version", me, *arriving(1, everything), *good_higher, *greeted(setting, me))
    rows.refused(
        "a hello with all fields but the first wrong", 11, "N2 sender", me, *arriving(1, everything[:1] + b"\x02" + everything[2:]), *good_higher,
        *greeted(setting, me),
    )
    seven = b"\x07" + hello.bytes()[1:]
    rows.refused("a hello whose first byte is 7", 11, "N3 place 0", me, *arriving(1, seven), *good_higher, *greeted(setting, me))
    for count in (0, 1, 40, 67):
        rows.refused(f"a hello of {count} bytes", 10, "link", me, *arriving(1, hello.bytes()[:count]), *good_higher, *greeted(setting, me))
    rows.refused("a hello of 67 bytes whose first is 7", 10, "link", me, *arriving(1, seven[:67]), *good_higher, *greeted(setting, me))
    bad_higher = b"\x07" + higher[1:]
    rows.refused("both hellos are wrong, and the lower peer's counts", 11, "N2 sender", me, *arriving(1, changed(hello, sender=3)),
                 *arriving(3, bad_higher), *greeted(setting, me))
    rows.refused("the higher peer's hello is wrong", 11, "N3 place 0", me, *arriving(1, lower), *arriving(3, bad_higher), *greeted(setting, me))
    rows.refused("the higher peer sends nothing", 10, "link", me, *arriving(1, lower), *greeted(setting, me))
    rows.refused("the lower peer's hello is wrong, and the higher peer sends nothing", 11, "N2 receiver", me,
                 *arriving(1, changed(hello, receiver=3)), *greeted(setting, me))
    frame_rows(rows, setting, me)


def frame_rows(rows: MinerRows, setting: Setting, me: int):
    """Frames that are wrong; what was sent before is told exactly."""
    higher = arriving(3, setting.arriving(3, me))
    hello, frames = setting.hello(1, me).bytes(), setting.messages(12)

    def came(title: str, status: int, line: str, taken: int, data: bytes):
        sent = hello + b"".join(map(frame, frames[:taken])) + data
        rows.refused(title, status, line, me, *arriving(1, sent), *higher, *was_sent(setting, me, {12: taken}))

    came("no frame comes", 10, "link", 0, b"")
    came("a frame of 2 words in the place of 3", 11, "N4 link 12 want 3 have 2", 0, frame([0, 0]))
    came("a frame of 4 words in the place of 3", 11, "N4 link 12 want 3 have 4", 0, frame([0, 0, 0, 0]))
    came("a frame that begins with 0", 11, "N3 place 0", 0, b"\x00" + frame([0, 0, 0])[1:])
    came("a frame that says 2049 words", 11, "N3 place 1", 0, b"\x01" + (2049).to_bytes(4, "little"))
    came("a frame that says 2^24 + 3 words", 11, "N3 place 1", 0, b"\x01\x03\x00\x00\x01" + bytes(24))
    came("a frame that says no words", 11, "N3 place 1", 0, b"\x01\x00\x00\x00\x00")
    came("a frame of which 4 bytes come, the first is 7", 10, "link", 0, b"\x07\x03\x00\x00")
    came("a frame of which the last byte does not come", 10, "link", 0, frame([0, 0, 0])[:-1])
    came("a frame of another length of which the last byte does not come", 10, "link", 0, frame([0, 0])[:-1])
    came("the first frame comes, and no other", 10, "link", 1, b"")
    came("a second frame that says 2049 words", 11, "N3 place 1", 1, b"\x01" + (2049).to_bytes(4, "little"))
    came("after two good frames one of 2 words in the place of 1", 11, "N4 link 12 want 1 have 2", 2, frame([0, 0]))
    came("after three good frames one of 512 words", 11, "N4 link 12 want 1 have 512", 3, frame([1] * 512))
    behind = arriving(1, setting.arriving(1, me) + b"\x07 and more") + arriving(3, setting.arriving(3, me) + frame([1]))
    rows.row("bytes come behind the last frames", *behind, *was_sent(setting, me), f"written p.o{me}", *written(setting.text(me)))


def file_rows(rows: MinerRows):
    """What is wrong with words and files, in their order; no peer is reached."""
    setting, me = PRODUCT.setting(SIX_SEVEN, ZEROS), 2
    rows.setting("miner 2 of a product, whose files are not as they must be", setting, me, None, *honest(setting, me))
    code = setting.code
    rows.refused("the code has one byte more", 3, f"B4 place {len(code)}", me, *file("p.code", hexed(code + b"\x00")))
    rows.refused("the code has one byte fewer", 3, f"B1 place {len(code) - 1}", me, *file("p.code", hexed(code[:-1])))
    rows.refused("the code is of the first version", 3, "B3 place 4", me, *file("p.code", hexed(code[:4] + b"\x01" + code[5:])))
    rows.refused("the code has a version that there isn't", 3, "B3 place 4", me, *file("p.code", hexed(code[:4] + b"\x03" + code[5:])))
    rows.refused("the code of a program that does nothing, of the first version", 3, "B3 place 4", me,
                 *file("p.code", hexed(encode(decode(NOTHING_DONE.code), FIRST))))
    rows.refused("a register that is not there", 3, "B5 function 0 instruction 0", me, *file("p.code", hexed(first_register(code, 9))))
    rows.refused("the code of a program that does nothing, with one byte more", 3, "B4 place 17", me, *file("p.code", hexed(NOTHING_DONE.code + b"\x00")))
    rows.refused("the code is wrong, and the share file, too", 3, "B1 place 0", me, "file p.code", "file p.2")
    rows.refused("the share file of another miner", 4, "I2 miner", me, *file("p.2", written(setting.share_file(3))))
    rows.refused("the share file is no JSON, and the tape file is none", 4, "I1", me, "file p.2", ">{", "file p.t2")
    rows.refused("the tape file of another length", 5, "Q1 place 0", me, *file("p.t2", ["u64 3 0 0 0"]))
    rows.refused("the tape file has 7 bytes", 5, "Q1 place 7", me, *file("p.t2", ["hex 04 00 00 00 00 00 00"]))
    rows.refused("the tape file has a word too few", 5, "Q1 place 32", me, *file("p.t2", ["u64 4 0 0 0"]))
    rows.refused("the tape file is cut to its length", 5, "Q1 place 8", me, *file("p.t2", ["u64 4"]))
    rows.refused("the tape file has a byte too many", 5, "Q1 place 40", me, *file("p.t2", ["u64 4 0 0 0 0", "hex 00"]))
    rows.row("the text is written over a file that is read", f"{miner_call(me).replace('p.o2', 'p.t2')}", *was_sent(setting, me),
             "written p.t2", *written(setting.text(me)))
    rows.row("no connection", "fail links 0", *ends(10, "link"), "absent p.o2")
    missing = "call miner nowhere --me 2 --share p.2 --tape p.t2 --port 47310 --out p.o2"
    for name, call in (
        ("nowhere", missing),
        ("no.2", miner_call(me).replace("p.2 ", "no.2 ")),
        ("no.t2", miner_call(me).replace("p.t2", "no.t2")),
    ):
        rows.row(f"{name} is not there", call, *ends(9, f"file {name}"), "absent p.o2")
    for title, before, after in (
        ("no number of a miner", "--me 2", "--me 4"), ("port 0", "--port 47310", "--port 0"), ("the port is too great", "--port 47310", "--port 65534"),
        ("no port", "--port 47310 ", ""), ("no own tape", "--tape p.t2 ", ""), ("a budget that is no number", "--out p.o2", "--out p.o2 --budget x"),
    ):
        rows.row(f"usage: {title}", miner_call(me).replace(before, after), *ends(2, "usage"), "absent p.o2")
    rows.row("the greatest port", miner_call(me).replace("47310", "65533"), *was_sent(setting, me), "written p.o2", *written(setting.text(me)))


def first_register(code: bytes, register: int) -> bytes:
    """The code whose first instruction, an argument, goes to another register."""
    place = code.index(bytes([0x10, 2, 0]))
    return code[: place + 1] + bytes([register]) + code[place + 2 :]


def run_rows(rows: MinerRows):
    """Runs of other programs, each to its end."""
    product = PRODUCT.setting(SIX_SEVEN, ZEROS)
    masks = [[0] * 4, [1, 2, 3, 4], [5, 6, 7, 8], [9, 10, 11, (1 << 64) - 1]]
    masked = PRODUCT.setting(SIX_SEVEN, [[3, 5, 1 << 63, 9], *masks[1:]])
    for miner in (1, 3):
        rows.setting(f"miner {miner} of a product", product, miner)
        rows.whole("it comes to its end", product, miner)
    for miner in (1, 2, 3):
        rows.setting(f"miner {miner} of a product with masks", masked, miner)
        rows.whole("it comes to its end", masked, miner)
    for title, served, inputs, tapes in kinds_of_runs():
        setting = served.setting(inputs, tapes)
        for miner in (1, 2, 3):
            rows.setting(f"miner {miner} of {title}", setting, miner)
            rows.whole("it comes to its end", setting, miner)
    filled = TRUTHS.setting([truths("a", 65), truths("b", 65, 2)], MASKS, filled=True)
    for miner in (1, 2, 3):
        rows.setting(f"miner {miner} of 65 truth values, whose shares have all bits set after the last one", filled, miner)
        rows.whole("the same is opened", filled, miner)
    ended_rows(rows)


def kinds_of_runs() -> list[tuple[str, Served, list, list[list[int]]]]:
    rich = [[1, 0, 1 << 40, 3, 7, 1, 4, 1], [11, 12, 13, 14, 15], [21, 22, 23, 24], [31, 32, 33, 34]]
    conversion = [[0, 1], [3, 2, 10, 0, 0], [0, 0], [0, 0]]
    return [
        ("a product that is handed out", KEPT_PRODUCT, SIX_SEVEN, ZEROS),
        ("a conversion", CONVERSION, [truth("b", True)], conversion),
        ("a conversion of false", CONVERSION, [truth("b", False)], conversion),
        ("two values that are handed out, and a public one", TOLD, [numbers("a", 1, 2, (1 << 64) - 1), public_number("p", 5), truth("b", True)], rich),
        ("an empty array that is handed out", TOLD, [truth("b", False), numbers("a")], rich),
        ("nothing", NOTHING_DONE, [], [[], [], [], []]),
        ("65 truth values", TRUTHS, [truths("a", 65), truths("b", 65, 2)], MASKS),
    ]


# Tapes whose words have all bits somewhere, as shares of packed truth values may have them.
ALL_ONES = (1 << 64) - 1
MASKS = [
    [ALL_ONES, 2, 3 << 62, 1 << 63, 5, ALL_ONES - 5, 7, 1 << 40],
    *([place * miner << 33 ^ ALL_ONES - place for place in range(10)] for miner in (1, 2, 3)),
]


def ended_rows(rows: MinerRows):
    """Runs that end before all is done."""
    me = 2
    for title, setting, budget in (
        ("by its budget, after an opening", PRODUCT.setting(SIX_SEVEN, ZEROS, 6), 6),
        ("by its budget, before the first gate", PRODUCT.setting(SIX_SEVEN, ZEROS, 0), 0),
        ("by the third miner's tape, before the first message", PRODUCT.setting(SIX_SEVEN, [*ZEROS[:3], [0, 0]]), None),
        ("by its own tape, at an opening", PRODUCT.setting(SIX_SEVEN, [[0] * 4, [0] * 4, [0] * 3, [0] * 4]), None),
        ("by the dealer's tape, of which the share file says that it is too short", PRODUCT.setting(SIX_SEVEN, [[0] * 3, *ZEROS[1:]]), None),
        ("by an argument that is not there", PRODUCT.setting(SIX_SEVEN[:1], ZEROS), None),
        ("by an index", INDEXED.setting([], ZEROS), None),
    ):
        rows.setting(f"miner 2, whose run ends {title}", setting, me, budget)
        rows.whole("it says so", setting, me)


def bit_rows(rows: MinerRows):
    """Words that must be bits, in a conversion."""
    setting, me = CONVERSION.setting([truth("b", True)], [[0, 1], [3, 2, 10, 0, 0], [0, 0], [0, 0]]), 2
    rows.setting("miner 2 of a conversion, to which no bits come", setting, me)
    hello, higher = setting.hello(1, me).bytes(), setting.arriving(3, me)

    def came(title: str, line: str, words: list[int]):
        rows.refused(title, 11, line, me, *arriving(1, hello + frame(words)), *arriving(3, higher), *greeted(setting, me))

    came("the second word is 2", "N4 link 12 place 1 word 2", [10, 2, 0])
    came("the second word is 2^64 - 1", f"N4 link 12 place 1 word {(1 << 64) - 1}", [10, (1 << 64) - 1, 0])
    came("the second word is 2, and there is none after it", "N4 link 12 want 3 have 2", [10, 2])
    bad = setting.hello(3, me).bytes() + frame([2])
    rows.refused("the word of the third miner is 2", 11, "N4 link 32 place 0 word 2", me, *arriving(1, setting.arriving(1, me)), *arriving(3, bad),
                 *was_sent(setting, me, {32: 0}))


def fault_rows(rows: MinerRows):
    """A link that fails in the middle. Hellos of 68 bytes move in 10 calls, 7 bytes a call; the frame of 3 words in 5."""
    setting, me = PRODUCT.setting(SIX_SEVEN, ZEROS), 2
    rows.setting("miner 2 of a product, whose links fail", setting, me, None, *honest(setting, me))
    sent = was_sent(setting, me, {12: 0})
    rows.refused("the first byte after both hellos cannot be read", 10, "link", me, f"fail links {1 + 4 * 10 + 5}", *sent)
    rows.refused("the same, one byte a call", 10, "link", me, "slow", f"fail links {1 + 4 * 68 + 29}", *sent)
    rows.refused("the first hello cannot be sent", 10, "link", me, "fail links 1")
    hellos_in_turn(rows, setting, me)
    rows.refused("no hello can be read: both were sent", 10, "link", me, f"fail links {1 + 2 * 10}", *greeted(setting, me))
    rows.row("one byte a call", "slow", *was_sent(setting, me), "written p.o2", *written(setting.text(me)))
    for me in (1, 3):
        rows.setting(f"miner {me} of a product, whose links fail", setting, me, None, *honest(setting, me))
        hellos_in_turn(rows, setting, me)


def hellos_in_turn(rows: MinerRows, setting: Setting, me: int):
    """The next miner is greeted before the previous one."""
    following = me % 3 + 1
    hello = spelled(setting.hello(me, following).bytes())
    rows.refused("the second hello cannot be sent: the next miner has its own", 10, "link", me, f"fail links {1 + 10}", f"sent {following}", *hello)


def tape_fault_rows(rows: MinerRows):
    """An own tape that can't be read. Of files the code is the first call, then the share file, the tape's size and its length, and then, where a gate draws
    first, all words of so short a tape, which are read ahead: before the peers are joined, since that gate begins before the first wait."""
    setting, me = PRODUCT.setting(SIX_SEVEN, ZEROS), 2
    rows.setting("miner 2 of a product, whose tape cannot be read", setting, me, None, *honest(setting, me))
    for number, what in ((2, "its size"), (3, "its length"), (5, "the words of the product")):
        rows.refused(f"{what} cannot be read", 9, "file p.t2", me, f"fail files {number}")
    rows.refused("the words of the opening, which are read with them, cannot be read", 9, "file p.t2", me, "fail files 9")
    rows.refused("the same, one byte a call", 9, "file p.t2", me, "slow", "fail files 9")
    rows.refused("the text cannot be written", 9, "file p.o2", me, "fail files 10", *was_sent(setting, me))
    short = PRODUCT.setting(SIX_SEVEN, [[0] * 3, *ZEROS[1:]])
    rows.setting("miner 2, whose dealer's tape is too short, and whose own cannot be read", short, me, None, *honest(short, me))
    rows.refused("its length cannot be read", 9, "file p.t2", me, "fail files 3")
    rows.row("its words are not read", "fail files 6", f"status {short.report.end.status}", *was_sent(short, me), f"written p.o{me}", *written(short.text(me)))


def miner_rows() -> MinerRows:
    rows = MinerRows("One of three miners over links in memory, whose peers do their part, lie or go away. Made by",
                     "tools/second_reading/link_rows.py: hellos and frames by a model in Python, codes by hand.")
    product_rows(rows)
    bit_rows(rows)
    file_rows(rows)
    run_rows(rows)
    fault_rows(rows)
    tape_fault_rows(rows)
    return rows


def shares_written(setting: Setting) -> list[str]:
    """What `deal` writes."""
    lines = []
    for miner in (1, 2, 3):
        lines += [f"written p.{miner}", *written(setting.share_file(miner))]
    for miner in (1, 2, 3):
        lines += [f"written p.t{miner}", *tape_lines(setting, miner)]
    return lines


def started(count: int, budget: int, port: int = 47310) -> list[str]:
    return [
        f"|start miner p.code --me {one} --share p.{one} --tape p.t{one} --port {port} --out p.o{one} --budget {budget}"
        for one in range(1, count + 1)
    ]


def waits(*children: int) -> list[str]:
    return [f"|wait {child}" for child in children]


def tapes_file(setting: Setting) -> list[str]:
    return file("p.tape", ["tape " + " / ".join(" ".join(map(str, tape)) for tape in setting.tapes)])


def texts(*found: bytes) -> list[str]:
    return [line for place, text in enumerate(found, 1) for line in file(f"p.o{place}", written(text))]


def trio_group(rows: Rows, title: str, served: Served, setting: Setting, inputs: str, *lines: str, words: str = ""):
    rows.group(
        title, f"call trio p.sc --input p.json --tape p.tape --to p --port 47310{words}", "file p.sc", *written(served.text.encode()),
        f"given {inputs}".rstrip(), *tapes_file(setting), *lines,
    )


def common_text(setting: Setting) -> list[str]:
    return ["out", *written(setting.report.text().encode())]


NO_FILES = [f"absent p.{name}" for name in ("code", "1", "2", "3", "t1", "t2", "t3")]


def child_rows(rows: Rows, setting: Setting, done: list[str]):
    """Children that fail or end badly. All are waited for where all were started."""
    budget = setting.budget
    all_calls = ["calls", *started(3, budget), *waits(0, 1, 2)]
    rows.row("the second child has status 5", "children 0 5 0", *ends(12, "C3 miner 2 status 5"), *done, *all_calls)
    rows.row("the second and the third child have other statuses", "children 0 5 -1", *ends(12, "C3 miner 2 status 5"), *done, *all_calls)
    rows.row("the first child has a negative status", "children -9 5 1", *ends(12, "C3 miner 1 status -9"), *done, *all_calls)
    rows.row("the third child has status 16", "children 0 0 16", *ends(12, "C3 miner 3 status 16"), *done, *all_calls)
    rows.row("statuses of ends", "children 8 7 1", *common_text(setting), *done, *all_calls)
    rows.row("the first child cannot be started", "fail children 0", *ends(12, "child"), *done)
    rows.row("the second child cannot be started", "fail children 1", *ends(12, "child"), *done, "calls", *started(1, budget))
    rows.row("the third child cannot be started", "fail children 2", *ends(12, "child"), *done, "calls", *started(2, budget))
    rows.row("the first child cannot be waited for", "fail children 3", *ends(12, "child"), *done, "calls", *started(3, budget), *waits(1, 2))
    rows.row("the second child cannot be waited for, the first has status 5", "children 5", "fail children 4", *ends(12, "C3 miner 1 status 5"), *done,
             "calls", *started(3, budget), *waits(0, 2))
    rows.row("the first child cannot be waited for, the second has status 5", "children 0 5", "fail children 3", *ends(12, "child"), *done,
             "calls", *started(3, budget), *waits(1, 2))


def text_rows(rows: Rows, setting: Setting, done: list[str]):
    """Texts of miners that are not there, of no form, or not alike."""
    calls = ["calls", *started(3, setting.budget), *waits(0, 1, 2)]
    good = [setting.text(miner) for miner in (1, 2, 3)]
    moved = [line.replace(" p.", " q/p.") for line in [*done, *calls]]
    rows.row("no text stands where the children write", "call trio p.sc --input p.json --tape p.tape --to q/p --port 47310", *ends(9, "file q/p.o1"), *moved)
    for title, found, status, line in joined_cases(good):
        rows.row(title, *texts(*found), *ends(status, line), *done, *calls)


def joined_cases(good: list[bytes]) -> list[tuple[str, list[bytes], int, str]]:
    """Three texts, and how they are refused."""
    first, second, third = good
    return [
        ("the first line of the second text is another", [first, b"open 41\n" + second, third], 13, "C2 line 1"),
        ("the last lines differ", [first, second.replace(b"cost 7", b"cost 8"), third], 13, f"C2 line {first.count(10)}"),
        ("the third text is the end alone", [first, second, third.splitlines(True)[-1]], 13, "C2 line 1"),
        ("the names of the shares differ", [first, second, third.replace(b"share c", b"share d")], 13, "C2 line 1"),
        ("one has a word fewer", [first, second.replace(b" uint64 0", b" uint64"), third], 13, "C2 line 1"),
        ("the second line of the second text is of no form, and the first of the third", [first, second.replace(b"cost 7", b"cost 07"), b"opne 42\n"], 12,
         "C4 miner 2 line 2"),
        ("the first text has no newline at its end", [first[:-1], second, third], 12, f"C4 miner 1 line {first.count(10)}"),
        ("the third text goes on after its end", [first, second, third + b"open 1\n"], 12, f"C4 miner 3 line {third.count(10) + 1}"),
        ("the third text is empty", [first, second, b""], 12, "C4 miner 3 line 1"),
    ]


def trio_rows() -> Rows:
    rows = Rows("Three miners as programs of their own, in memory: what is written, started and waited for, and texts that stand there as the children",
                "would have written them. Made by tools/second_reading/link_rows.py.")
    setting = KEPT_PRODUCT.setting(SIX_SEVEN, ZEROS)
    inputs, done = "a private uint64 6; b private uint64 7", shares_written(setting)
    good = [setting.text(miner) for miner in (1, 2, 3)]
    trio_group(rows, "a product that is handed out", KEPT_PRODUCT, setting, inputs, *texts(*good))
    rows.row("all is well", *common_text(setting), *done, "calls", *started(3, 1000000), *waits(0, 1, 2))
    child_rows(rows, setting, done)
    text_rows(rows, setting, done)
    opened = PRODUCT.setting(SIX_SEVEN, ZEROS)
    trio_group(rows, "a product that is opened", PRODUCT, opened, inputs, *texts(*[opened.text(miner) for miner in (1, 2, 3)]))
    opened_done = shares_written(opened)
    rows.row("all is well", *common_text(opened), *opened_done, "calls", *started(3, 1000000), *waits(0, 1, 2))
    rows.row("the texts differ in their first line", *texts(opened.text(1), opened.text(2).replace(b"open 42", b"open 41"), opened.text(3)),
             *ends(13, "C2 line 1"), *opened_done, "calls", *started(3, 1000000), *waits(0, 1, 2))
    short = PRODUCT.setting(SIX_SEVEN, [[0] * 3, *ZEROS[1:]])
    trio_group(rows, "the dealer's tape is too short", PRODUCT, short, inputs)
    rows.row("nothing is written, and no child is started", "status 8", *common_text(short), *NO_FILES)
    ended_trio_rows(rows)
    refused_trio_rows(rows)
    return rows


def ended_trio_rows(rows: Rows):
    cut = PRODUCT.setting(SIX_SEVEN, ZEROS, 6)
    trio_group(rows, "a budget", PRODUCT, cut, "a private uint64 6; b private uint64 7", *texts(*[cut.text(miner) for miner in (1, 2, 3)]),
               words=" --budget 6")
    rows.row("the run ends by it", "children 7 7 7", "status 7", *common_text(cut), *shares_written(cut), "calls", *started(3, 6), *waits(0, 1, 2))
    mixed = [numbers("a", 1, 2, (1 << 64) - 1), public_number("p", 5), truth("b", True)]
    rich = [[1, 0, 1 << 40, 3, 7, 1, 4, 1], [11, 12, 13, 14, 15], [21, 22, 23, 24], [31, 32, 33, 34]]
    told = TOLD.setting(mixed, rich)
    trio_group(rows, "two values that are handed out", TOLD, told,
               f"a private uint64 [1,2,{(1 << 64) - 1}]; p public uint64 5; b private bool true", *texts(*[told.text(miner) for miner in (1, 2, 3)]))
    rows.row("the shares are added up", *common_text(told), *shares_written(told), "calls", *started(3, 1000000), *waits(0, 1, 2))
    empty = NOTHING_DONE.setting([], [[], [], [], []])
    trio_group(rows, "a program that does nothing", NOTHING_DONE, empty, "", *texts(*[empty.text(miner) for miner in (1, 2, 3)]))
    rows.row("its code is the shortest", *common_text(empty), "written p.code", *hexed(NOTHING_DONE.code), *shares_written(empty),
             "calls", *started(3, 1000000), *waits(0, 1, 2))
    rows.row("a file that is written is the program", "call trio p.1 --input p.json --tape p.tape --to p --port 65533", "file p.1", "|void main() { }",
             *common_text(empty), "written p.code", *hexed(NOTHING_DONE.code), *shares_written(empty), "calls", *started(3, 1000000, 65533),
             *waits(0, 1, 2))


def refused_trio_rows(rows: Rows):
    """Refusals before anything is written."""
    setting = PRODUCT.setting(SIX_SEVEN, ZEROS)
    trio_group(rows, "what is refused", PRODUCT, setting, "a private uint64 6; b private uint64 7")
    call = "call trio p.sc --input p.json --tape p.tape --to p --port 47310"
    for name, word in (("no.sc", "p.sc"), ("no.json", "p.json"), ("no.tape", "p.tape")):
        rows.row(f"{name} is not there", call.replace(word, name), *ends(9, f"file {name}"), *NO_FILES)
    rows.row("the program is refused", "file p.sc", "|void main() { x = 1; }", *ends(3, "D1 line 1 column 15"), *NO_FILES)
    rows.row("the input is refused", "file p.json", "|{}", *ends(4, "I2 inputs"), *NO_FILES)
    rows.row("the tape is refused", "file p.tape", "u64 0", *ends(5, "Q1 place 8"), *NO_FILES)
    for title, before, after in (
        ("port 0", "47310", "0"), ("the port is too great", "47310", "65534"), ("no port", " --port 47310", ""), ("no prefix", " --to p", ""),
        ("a seed", " --tape p.tape", f" --seed {'0' * 64}"),
    ):
        rows.row(f"usage: {title}", call.replace(before, after), *ends(2, "usage"), *NO_FILES)
    for place, name in enumerate(("code", "1", "2", "3", "t1", "t2", "t3")):
        rows.row(f"p.{name} cannot be written", f"fail files {3 + place}", *ends(9, f"file p.{name}"), *before_write(setting, place))


def before_write(setting: Setting, place: int) -> list[str]:
    """The files where only so many of them were written; of the code nothing is said."""
    lines: list[str] = []
    for miner in (1, 2, 3):
        lines += [f"written p.{miner}", *written(setting.share_file(miner))] if miner < place else [f"absent p.{miner}"]
    for miner in (1, 2, 3):
        lines += [f"written p.t{miner}", *tape_lines(setting, miner)] if miner + 3 < place else [f"absent p.t{miner}"]
    return lines if place else [*lines, "absent p.code"]


def join_rows() -> Rows:
    rows = Rows("Texts of three miners that are put together. Made by tools/second_reading/link_rows.py.")
    setting = KEPT_PRODUCT.setting(SIX_SEVEN, ZEROS)
    good = [setting.text(miner) for miner in (1, 2, 3)]
    rows.group("a product that is handed out", "call join p.o1 p.o2 p.o3", *texts(*good))
    rows.row("all is well", *common_text(setting))
    for title, found, status, line in joined_cases(good):
        rows.row(title, *texts(*found), *ends(status, line))
    for miner in (1, 2, 3):
        words = ["p.o1", "p.o2", "p.o3"]
        words[miner - 1] = "nowhere"
        rows.row(f"the text of miner {miner} is not there", f"call join {' '.join(words)}", *ends(9, "file nowhere"))
    rows.row("two words", "call join p.o1 p.o2", *ends(2, "usage"))
    rows.row("four words", "call join p.o1 p.o2 p.o3 p.o3", *ends(2, "usage"))
    for title, served, inputs, tapes, budget in (
        ("two values, one an array", TOLD, [numbers("a", 1, 2, (1 << 64) - 1), truth("b", True)],
         [[1, 0, 1 << 40, 3, 7, 1, 4, 1], [11, 12, 13, 14, 15], [21, 22, 23, 24], [31, 32, 33, 34]], 1000000),
        ("a run that ends by its budget", PRODUCT, SIX_SEVEN, ZEROS, 6),
        ("a run that ends by a tape", PRODUCT, SIX_SEVEN, [*ZEROS[:3], [0, 0]], 1000000),
        ("a run that ends by a trap", PRODUCT, SIX_SEVEN[:1], ZEROS, 1000000),
        ("a run that does nothing", NOTHING_DONE, [], [[], [], [], []], 1000000),
        ("65 truth values", TRUTHS, [truths("a", 65), truths("b", 65, 2)], MASKS, 1000000),
        ("65 truth values, whose shares have all bits set after the last one", TRUTHS, [truths("a", 65), truths("b", 65, 2)], MASKS, 1000000),
    ):
        one = served.setting(inputs, tapes, budget, filled="all bits" in title)
        status = one.report.end.status
        rows.group(title, "call join p.o1 p.o2 p.o3", *texts(*[one.text(miner) for miner in (1, 2, 3)]))
        rows.row("it is told", *([f"status {status}"] if status else []), *common_text(one))
    truth_rows(rows)
    rows.group("the same text three times", "call join p.o1 p.o1 p.o1", "file p.o1", "|share c uint64 9223372036854775809", "|end done cost 5")
    rows.row("it is put together with itself", "out", "|publish c 9223372036854775811", "|end done cost 5")
    return rows


def truth_rows(rows: Rows):
    """Shares of truth values: how many they are, and then the words that hold them. Bits after the last one say nothing."""

    def three(*lines: str) -> list[str]:
        return texts(*[f"share b bool {line}\nend done cost 5\n".encode() for line in lines])

    def told(title: str, shown: str, *lines: str):
        rows.row(title, *three(*lines), "out", f"|publish b{shown}", "|end done cost 5")

    ones = ALL_ONES
    rows.group("shares of truth values", "call join p.o1 p.o2 p.o3")
    told("a bit each, the lowest first", " true true false", "3 3", "3 2", "3 2")
    told("bits after the last one say nothing", " true true false", f"3 {ones}", f"3 {ones - 8}", f"3 {1 << 63 | 11}")
    told("one, with all bits of all words set", " true", *[f"1 {ones}"] * 3)
    told("none", "", *["0"] * 3)
    told("63", " false" * 62 + " true", f"63 {ones}", f"63 {ones}", f"63 {1 << 62}")
    told("64", " true" + " false" * 62 + " true", f"64 {ones}", f"64 {1 << 63}", f"64 {ones - 1}")
    told("65", " false" * 64 + " true", f"65 {ones} 1", f"65 {ones} 4", "65 0 6")
    told("129 in three words", " true" * 128 + " false", f"129 {ones} {ones} 1", "129 0 0 1", "129 0 0 2")
    for title, line in (
        ("a word too few", "65 1"), ("a word too many", "64 1 1"), ("no word", "1"), ("a word of none", "0 0"), ("a word for each truth value", "2 1 1"),
        ("2^64 - 1 and no word", str(ones)), ("2^64 - 1 and a word", f"{ones} 1"), ("2^64", f"{1 << 64} 1"), ("no number of truth values", "true 1"),
        ("the number begins with 0", "01 1"), ("no number, and no word", ""),
    ):
        rows.row(f"the second text has {title}", *three("1 1", line, "1 1"), *ends(12, "C4 miner 2 line 1"))
    rows.row("numbers of truth values that differ, in as many words", *three("63 1", "64 1", "64 1"), *ends(13, "C2 line 1"))
    rows.row("one text is of numbers", *three("1 1", "1 1", "1 1")[:-3], "file p.o3", "|share b uint64 1 1", "|end done cost 5", *ends(13, "C2 line 1"))


def main(words: list[str]):
    if len(words) != 1:
        sys.exit(__doc__)
    write_files(words[0], {"miners": miner_rows(), "trios": trio_rows(), "joins": join_rows()})


if __name__ == "__main__":
    main(sys.argv[1:])
