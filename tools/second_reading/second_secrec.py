#!/usr/bin/env python3
"""Answers `miner`, `trio` and `join` as this reading has them, over real files, links and children; hands every other call to the program that
SECREC_BELOW names. Scripts that are made for the program can be tried with it, and it can be one of three miners of which the others are the program's.
"""
from __future__ import annotations

import os
import subprocess
import sys

sys.dont_write_bytecode = True
sys.setrecursionlimit(20_000)
from clear import dealer_need
from entries import read_inputs
from files import read_tapes
from miner_files import read_code, read_own_tape
from miner_texts import joined, lines_of
from node import Node
from peers import LinkFault, Peers, join, text_of_a_run
from refusals import CallRefused
from shares import read_share
from wire import hello_of

DEFAULT_BUDGET = "1000000"
OPTIONS = {
    "miner": ("me", "share", "tape", "port", "out", "budget"),
    "trio": ("input", "tape", "to", "port", "budget"),
    "join": (),
}
PLACES = {"miner": 1, "trio": 1, "join": 3}


def options_of(command: str, words: list[str]) -> tuple[list[str], dict[str, str]]:
    """The places and the options; good words are taken as they are meant, and others are usage."""
    places, options, rest = [], {"budget": DEFAULT_BUDGET}, iter(words)
    for word in rest:
        if word.startswith("--"):
            name, attached, value = word[2:].partition("=")
            if name not in OPTIONS[command]:
                raise CallRefused("usage", 2)
            options[name] = value if attached else next(rest, "")
        else:
            places.append(word)
    if len(places) != PLACES[command] or any(name not in options for name in OPTIONS[command]):
        raise CallRefused("usage", 2)
    return places, options


def read(path: str) -> bytes:
    try:
        with open(path, "rb") as file:
            return file.read()
    except OSError:
        raise CallRefused(f"file {path}", 9) from None


def write(path: str, data: bytes):
    try:
        with open(path, "wb") as file:
            file.write(data)
    except OSError:
        raise CallRefused(f"file {path}", 9) from None


def miner(words: list[str]) -> tuple[str, int]:
    """One miner; its text is written to its file."""
    (path,), options = options_of("miner", words)
    me, budget = int(options["me"]), int(options["budget"])
    code = read(path)
    decoded = read_code(code)
    share = read(options["share"])
    given = read_share(share, me)
    tape = read_own_tape(read(options["tape"]), given.lengths[me])
    try:
        peers = Peers(me, join(me, int(options["port"])))
    except LinkFault:
        raise CallRefused("link", 10) from None
    try:
        hello = hello_of(code, share, budget, me, 0)
        text, status = text_of_a_run(peers, hello, lambda links: Node(decoded, given, tape, budget, links.send, links.receive))
    finally:
        peers.close()
    write(options["out"], text.encode())
    return "", status


def below(*words: str):
    """A call of the program; a refusal is handed on."""
    found = subprocess.run([os.environ["SECREC_BELOW"], *words], capture_output=True, text=True)
    if found.returncode:
        raise CallRefused(found.stderr.removeprefix("error: ").rstrip("\n"), found.returncode)


def trio(words: list[str]) -> tuple[str, int]:
    """Compiles, deals, starts three miners, waits for them, and puts their texts together."""
    (program,), options = options_of("trio", words)
    prefix = options["to"]
    below("check", program)
    need, have = dealer_need(read_inputs(read(options["input"]))), len(read_tapes(read(options["tape"]))[0])
    if need > have:
        return f"end tape 0 need {need} have {have} cost 0\n", 8
    below("compile", program, "--code", f"{prefix}.code")
    below("deal", "--input", options["input"], "--tape", options["tape"], "--to", prefix)
    children = []
    for me in "123":
        call = [sys.executable, __file__, "miner", f"{prefix}.code", "--me", me, "--share", f"{prefix}.{me}", "--tape", f"{prefix}.t{me}",
                "--port", options["port"], "--out", f"{prefix}.o{me}", "--budget", options["budget"]]
        children.append(subprocess.Popen(call))
    for me, status in enumerate([child.wait() for child in children], 1):
        if status not in (0, 1, 7, 8):
            raise CallRefused(f"C3 miner {me} status {status}", 12)
    return joined([lines_of(int(me), read(f"{prefix}.o{me}")) for me in "123"])


def join_texts(words: list[str]) -> tuple[str, int]:
    places, _ = options_of("join", words)
    return joined([lines_of(me, read(path)) for me, path in enumerate(places, 1)])


def main(words: list[str]) -> int:
    commands = {"miner": miner, "trio": trio, "join": join_texts}
    if not words or words[0] not in commands:
        program = os.environ["SECREC_BELOW"]
        os.execv(program, [program, *words])
    try:
        text, status = commands[words[0]](words[1:])
    except CallRefused as refused:
        print(f"error: {refused.line}", file=sys.stderr)
        return refused.status
    print(text, end="", flush=True)
    return status


if __name__ == "__main__":
    sys.exit(main(sys.argv[1:]))
