"""What the installed command adds to `miner`, which the program itself doesn't have.

`--wait SECONDS` ends a miner that waits longer than that for the next peer to come, or, once both are there, for what they send. `--log FILE` adds lines to a
file: one at the start, one for each peer that comes, one at the end. Both go by what the system tells of the miner's process; its words and bytes are its own.
"""
from __future__ import annotations

import hashlib
import os
import re
import signal
import threading
import time
from dataclasses import dataclass

from secrec_tools.program import Group

OPTIONS = {
    "--wait": ("SECONDS", "ends the miner where it waits longer for its peers, or for what they send (status 124)"),
    "--log": ("FILE", "adds a line at its start, for each peer that comes, and at its end"),
}
WAITED_TOO_LONG = 124
SECONDS = re.compile(r"[0-9]{1,9}(\.[0-9]{1,3})?")
ESTABLISHED, NO_NUMBER = "01", "0"
EVERY = 0.1
RUN_ENDED = (0, 1, 7, 8)
# Of the sum of a share file the log has the first digits: enough to tell two files apart, and too few to reckon a share from all three miners' logs.
SHARE_DIGITS = 8


@dataclass
class Service:
    """What is asked of the installed command for one miner."""

    wait: float | None = None
    log: str | None = None


def split_words(words: list[str]) -> tuple[list[str], Service, list[str]]:
    """The words that are the program's, what the others ask for, and what is wrong with these."""
    rest, given, faults, left = [], {}, [], list(words)
    while left and left[0] != "--":
        name, attached, value = left[0].partition("=")
        if name not in OPTIONS:
            rest.append(left.pop(0))
            continue
        left.pop(0)
        if name in given:
            faults.append(f"`{name}` stands twice")
        if not attached and (not left or left[0].startswith("-")):
            faults.append(f"`{name}` has no value after it: `{name} {OPTIONS[name][0]}`")
        else:
            given[name] = value if attached else left.pop(0)
    wait = given.get("--wait")
    if wait is not None and not (SECONDS.fullmatch(wait) and float(wait) > 0):
        faults.append(f"`--wait {wait}`: a number of seconds above 0, with at most three decimals")
        wait = None
    return rest + left, Service(None if wait is None else float(wait), given.get("--log")), faults


def help_lines() -> str:
    """What `secrec help miner` says of these options."""
    shown = [(f"{name} {value}", says) for name, (value, says) in OPTIONS.items()]
    return "\nOf the command that is installed alone:\n" + "".join(f"  {option:14}  {says}\n" for option, says in shown)


def text_of(path: str) -> str:
    """What the system tells in a file of its own; empty where it is gone."""
    try:
        with open(path, encoding="ascii", errors="replace") as file:
            return file.read()
    except OSError:
        return ""


def streams_of(pid: int) -> set[str]:
    """The numbers of the sockets that a process has open."""
    found = set()
    try:
        for name in os.listdir(f"/proc/{pid}/fd"):
            try:
                found.add(os.readlink(f"/proc/{pid}/fd/{name}"))
            except OSError:
                pass
    except OSError:
        pass
    return {name[len("socket:[") : -1] for name in found if name.startswith("socket:[")}


def peers_of(pid: int, me: int, port: int) -> set[int]:
    """The peers with which a miner has a stream: each pair has a port of its own, at one end. The stream of one that isn't let in yet has no number."""
    pairs = {port + me + peer - 3: peer for peer in (1, 2, 3) if peer != me}
    mine, found = streams_of(pid), set()
    for line in text_of(f"/proc/{pid}/net/tcp").splitlines()[1:]:
        row = line.split()
        here, there = (pairs.get(int(end.split(":")[1], 16)) for end in row[1:3])
        if row[3] == ESTABLISHED and (row[9] in mine or row[9] == NO_NUMBER and here and here > me):
            found |= {here, there} - {None}
    return found


def time_used(pid: int) -> str:
    """What changes when a process has run at all, and stays while it waits."""
    return text_of(f"/proc/{pid}/schedstat").split(" ")[0] or " ".join(text_of(f"/proc/{pid}/stat").rsplit(")", 1)[-1].split()[11:13])


def sum_of(path: str) -> str:
    """The SHA-256 of a file; a dash where it can't be read."""
    try:
        with open(path, "rb") as file:
            return hashlib.sha256(file.read()).hexdigest()
    except OSError:
        return "-"


class Log:
    """Lines that are added to a file, each with its time; none where there is no file."""

    def __init__(self, path: str | None, me: str):
        self.me, self.file = me, open(path, "a", encoding="ascii", errors="replace") if path else None

    def add(self, text: str):
        if self.file:
            self.file.write(f"{time.strftime('%Y-%m-%dT%H:%M:%SZ', time.gmtime())} miner {self.me} {text}\n")
            self.file.flush()


class Miner(Group):
    """A miner's process: it is followed from its start to its end, and ended where it waits too long."""

    def __init__(self, service: Service, given: dict[str, str]):
        """`given` has the words of the call by their places and options."""
        super().__init__()
        self.service, self.me, self.port = service, int(given["--me"]), int(given["--port"])
        if not os.path.exists("/proc/self/net/tcp"):
            raise OSError("--wait and --log need what Linux tells of a process in /proc")
        self.log = Log(service.log, given["--me"])
        self.files = sum_of(given["CODE"]), sum_of(given["--share"])[:SHARE_DIGITS]
        self.peers = [peer for peer in (1, 2, 3) if peer != self.me]
        self.here, self.gave_up, self.ended = set(), "", threading.Event()

    def begin(self, leader: int):
        super().begin(leader)
        self.log.add("start code {} share {}".format(*self.files))
        self.thread = threading.Thread(target=self.follow, daemon=True)
        self.thread.start()

    def end(self):
        super().end()
        self.ended.set()
        self.thread.join()

    def follow(self):
        """Looks again and again which peers have come and, once both have, whether the miner goes on."""
        state, since = None, time.monotonic()
        while not self.ended.wait(EVERY):
            self.note(peers_of(self.leader, self.me, self.port))
            # (one that still reaches for a peer is never at rest)
            now = len(self.here), time_used(self.leader) if len(self.here) == 2 else ""
            if now != state:
                state, since = now, time.monotonic()
            elif self.service.wait is not None and time.monotonic() - since > self.service.wait:
                self.give_up()
                return

    def note(self, peers: set[int]):
        """Puts down the peers that are new."""
        for peer in sorted(peers - self.here):
            self.log.add(f"peer {peer}")
        self.here |= peers

    def give_up(self):
        """Ends the miner, and keeps what it has waited for."""
        missing = [str(peer) for peer in self.peers if peer not in self.here]
        what = f"for miner {' and miner '.join(missing)} to come" if missing else "for what its peers send"
        self.gave_up = f"miner {self.me} has waited {self.service.wait:g} seconds {what}, and was ended"
        self.send(signal.SIGTERM)

    def status(self, status: int) -> int:
        """What the call ends with, where the program ended with this status; it is put down. A run that came to an end has had both peers."""
        if status in RUN_ENDED:
            self.note(set(self.peers))
        found = WAITED_TOO_LONG if self.gave_up and status == -signal.SIGTERM else status
        self.log.add(f"end status {found}" if found >= 0 else f"end signal {-found}")
        return found
