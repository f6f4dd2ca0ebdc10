#!/usr/bin/env python3
"""compare_rows FILE..: answers each row of row files as this reading has it, and prints the rows that say otherwise. Rows in which a call fails are left out.

The status is 1 where one differs, or none was compared.
"""
from __future__ import annotations

import sys

sys.dont_write_bytecode = True
sys.setrecursionlimit(20_000)
import os

from commands import Answer, Caller, NeedsPeers, refusal
from files import read_tapes
from miner_files import read_code, read_own_tape
from miner_texts import joined, lines_of
from node import Node
from peers import LinkFault, Peers, text_of_a_run
from refusals import CallRefused
from row_files import Row, read_rows
from shares import read_share
from wire import hello_of
from words import Words, read_words

DEFAULT_BUDGET = 1_000_000
ENDED = (0, 1, 7, 8)
SHOWN = 600


class ByteLinks(Peers):
    """Links of which the bytes that come are given."""

    def __init__(self, me: int, coming: dict[str, bytes]):
        others = [peer for peer in (1, 2, 3) if peer != me]
        super().__init__(me, dict.fromkeys(others))
        self.coming = {peer: coming.get(str(peer), b"") for peer in others}
        self.sent = {peer: b"" for peer in others}

    def write(self, peer: int, data: bytes):
        self.sent[peer] += data

    def read(self, peer: int, count: int) -> bytes:
        data, self.coming[peer] = self.coming[peer][:count], self.coming[peer][count:]
        if len(data) < count:
            raise LinkFault
        return data


class RowCaller(Caller):
    """Answers a row: links and children are those of the row."""

    def __init__(self, row: Row):
        super().__init__({name: data for name, data in row.named("file").items()}, set())
        self.row, self.sent, self.calls = row, {}, []

    def can_be_written(self, path: str) -> bool:
        return True

    def answer(self) -> Answer:
        try:
            return self.call(self.row.words)
        except NeedsPeers:
            words = read_words(self.row.words)
            written: list = []
            try:
                return (self.served if words.command == "miner" else self.started)(words, written)
            except CallRefused as refused:
                return refusal(refused.line, refused.status, written)

    def served(self, words: Words, _written) -> Answer:
        """One miner, up to its text."""
        me, code, share = words.number("me"), self.read(words["code"]), self.read(words["share"])
        given, budget = read_share(share, me), words.number("budget", DEFAULT_BUDGET)
        tape = read_own_tape(self.read(words["tape"]), given.lengths[me])
        links = ByteLinks(me, self.row.named("arrive"))
        hello = hello_of(code, share, budget, me, 0)
        try:
            text, status = text_of_a_run(links, hello, lambda links: Node(read_code(code), given, tape, budget, links.send, links.receive))
        finally:
            self.sent = links.sent
        return Answer(status, written=[(words["out"], text.encode())])

    def started(self, words: Words, written: list) -> Answer:
        """Three miners as children, whose texts stand there already."""
        prefix, port, budget = words["to"], words.number("port"), words.number("budget", DEFAULT_BUDGET)
        dealt = self.call(["deal", "--input", words["input"], "--tape", words["tape"], "--to", prefix])
        written += [(f"{prefix}.code", None), *dealt.written]
        for me in (1, 2, 3):
            self.calls.append(f"start miner {prefix}.code --me {me} --share {prefix}.{me} --tape {prefix}.t{me} --port {port} --out {prefix}.o{me} "
                              f"--budget {budget}")
        statuses = [*self.row.children, 0, 0, 0][:3]
        self.calls += [f"wait {child}" for child in range(3)]
        for me, status in enumerate(statuses, 1):
            if status not in ENDED:
                raise CallRefused(f"C3 miner {me} status {status}", 12)
        text, status = joined([lines_of(me, self.read(f"{prefix}.o{me}")) for me in (1, 2, 3)])
        return Answer(status, text.encode(), b"", written)


def file_faults(row: Row, answer: Answer) -> list[str]:
    """Files that are otherwise than the row says."""
    made = dict(answer.written)
    faults = []
    held, left, gone = row.named("file"), row.named("written"), row.named("absent")
    for path in {**held, **left, **gone}:
        if path in gone:
            faults += [f"file {path}: is there"] if path in made or path in held else []
        elif path in made and made[path] is None:
            faults += code_faults(path, left.get(path))
        else:
            want, have = left.get(path, held.get(path)), made.get(path, held.get(path))
            faults += [] if want == have else [f"file {path}: row {shown(want)}", f"    model {shown(have)}"]
    return faults


def code_faults(path: str, data: bytes | None) -> list[str]:
    """Of code that is compiled nothing is said but that it may run."""
    try:
        if data is not None:
            read_code(data)
    except CallRefused as refused:
        return [f"file {path}: {refused.line}"]
    return []


def shown(data: bytes | None) -> str:
    return "nothing" if data is None else repr(data[:SHOWN])


def row_faults(row: Row) -> list[str]:
    """Where the model answers otherwise than a row says."""
    caller = RowCaller(row)
    answer = caller.answer()
    faults = [] if answer.status == row.status else [f"status: row {row.status}, model {answer.status}"]
    for name, have in (("out", answer.out), ("err", answer.err)):
        want = row.text(name)
        faults += [] if want == have else [f"{name}: row {shown(want)}", f"    model {shown(have)}"]
    faults += file_faults(row, answer)
    for peer in (1, 2, 3):
        want, have = row.text("sent", str(peer)), caller.sent.get(peer, b"")
        faults += [] if want == have else [f"sent {peer}: row {shown(want)}", f"    model {shown(have)}"]
    calls = "".join(line + "\n" for line in caller.calls).encode()
    return faults + ([] if row.text("calls") == calls else [f"calls: row {shown(row.text('calls'))}", f"    model {shown(calls)}"])


def compared(path: str) -> tuple[int, int]:
    """How many rows of a file were compared, and how many differ."""
    with open(path, encoding="utf-8", newline="") as file:
        rows = read_rows(file.read())
    tried = [row for row in rows if not row.failing]
    differing = 0
    for row in tried:
        faults = row_faults(row)
        if faults:
            differing += 1
            print(f"{path}:{row.line}: {row.title[:120]}", *faults, sep="\n  ")
    print(f"{os.path.basename(path)}: {len(tried)} rows, {differing} differ; {len(rows) - len(tried)} in which a call fails", flush=True)
    return len(tried), differing


def main(paths: list[str]) -> int:
    if not paths:
        sys.exit(__doc__)
    counts = [compared(path) for path in paths]
    return int(any(differing for _, differing in counts) or not sum(count for count, _ in counts))


if __name__ == "__main__":
    sys.exit(main(sys.argv[1:]))
