"""The program below: where it is, which proof it is of, and how it is called, watched and measured."""
from __future__ import annotations

import hashlib
import os
import re
import signal
import subprocess
import sys
import threading
import time
from dataclasses import dataclass

from . import standard_input
from .privacy import end_with_starter

TOP = os.path.dirname(os.path.dirname(os.path.dirname(os.path.abspath(__file__))))
CANT_START = 125
PATIENCE = 2.0
CUT_OFF = 0.2
KEPT = 1 << 16
SUM = re.compile(r"[0-9a-f]{64}")
CLEAR = "\r\x1b[K"
ENDING_SIGNALS = (signal.SIGTERM, signal.SIGHUP, signal.SIGINT)


class NoProgram(Exception):
    """There is no program to call; the text says why."""


def why(problem: BaseException) -> str:
    """What is told of a problem; of a file its name and what the system says."""
    if isinstance(problem, OSError) and problem.filename is not None and problem.strerror:
        return f"{problem.filename}: {problem.strerror}"
    return str(problem)


def find_program(build: bool = True) -> str:
    """The path of the program below: what SECREC_PROGRAM names, what is installed here, or what this checkout has built, or builds where it may."""
    named = os.environ.get("SECREC_PROGRAM")
    if named:
        return named
    installed = f"{TOP}/proved/secrec"
    if os.access(installed, os.X_OK):
        return installed
    if not os.path.exists(f"{TOP}/tools/build.sh"):
        raise NoProgram(f"{installed} is not there: install it again")
    environment = dict(os.environ) if build else {**os.environ, "SECREC_NO_BUILD": "1"}
    found = subprocess.run([f"{TOP}/secrec", "--where"], env=environment, stdout=subprocess.PIPE, stderr=None if build else subprocess.DEVNULL, text=True)
    if found.returncode:
        raise NoProgram("the program is not built")
    return found.stdout.rstrip("\n")


def read_text(path: str) -> str:
    """What a small file has, without blanks around it; empty where there is none."""
    try:
        with open(path, encoding="utf-8") as file:
            return file.read().strip()
    except OSError:
        return ""


def version() -> str:
    """Which release this is, and which proof the program below is of: the sums of its sources, of the kit and of itself."""
    program = os.environ.get("SECREC_PROGRAM") or f"{TOP}/proved/secrec"
    folder = os.path.dirname(program)
    name = os.path.basename(folder)
    sources = os.environ.get("SECREC_SUM") or read_text(f"{folder}/sum") or (name if SUM.fullmatch(name) else "")
    kit = read_text(f"{folder}/kit")
    lines = [f"secrec {read_text(f'{TOP}/VERSION') or 'of no release'} of sources {sources or 'that nothing here names'}"]
    if not os.access(program, os.X_OK):
        lines.append("not proved and built here yet")
    else:
        with open(program, "rb") as file:
            own = hashlib.file_digest(file, "sha256").hexdigest() if hasattr(hashlib, "file_digest") else hashlib.sha256(file.read()).hexdigest()
        unproved = os.path.exists(f"{folder}/unproved")
        lines.append(("compiled, AND NOTHING OF IT PROVED, by " if unproved else "proved and built by ") + (kit or "a kit that nothing here names"))
        lines.append(f"program {program}, its SHA-256 {own}")
    return "\n".join(lines) + "\n"


@dataclass
class Ended:
    """How a call ended: its status, the end of both streams where they were watched, seconds, and the most memory in KiB."""

    status: int
    out: bytes
    err: bytes
    seconds: float
    peak: int

    def last_line(self, stream: str) -> str:
        lines = [line for line in getattr(self, stream).decode("utf-8", "replace").split("\n") if line.strip()]
        return lines[-1] if lines else ""


def memory_of(pid: int) -> int | None:
    """The memory that a process has now, in KiB, where the system tells it."""
    try:
        with open(f"/proc/{pid}/statm", encoding="ascii") as file:
            return int(file.read().split()[1]) * os.sysconf("SC_PAGE_SIZE") // 1024
    except (OSError, ValueError, IndexError):
        return None


class Screen:
    """The error stream as a terminal has it: a line of progress that goes before anything else is said."""

    def __init__(self):
        self.lock, self.told = threading.Lock(), False

    def progress(self, text: str):
        with self.lock:
            os.write(2, f"{CLEAR}{text}".encode())
            self.told = True

    def pass_on(self, stream: int, data: bytes):
        """Hands bytes of the program on, below no line of progress."""
        with self.lock:
            if self.told:
                os.write(2, CLEAR.encode())
                self.told = False
            while data:
                data = data[os.write(stream, data) :]


def tell_progress(pid: int, what: str, screen: Screen, ended: threading.Event):
    """Says each half second, once two have passed, how long a call takes and what memory it has."""
    began = time.monotonic()
    if ended.wait(PATIENCE):
        return
    while True:
        memory = memory_of(pid)
        shown = "" if memory is None else f", {memory // 1024} MB"
        screen.progress(f"secrec: {what}: {time.monotonic() - began:.0f} s{shown}")
        if ended.wait(0.5):
            return


def follow(pipe, stream: int | None, kept: bytearray, screen: Screen):
    """Reads a stream of the program to its end, hands it on where it goes anywhere, and keeps its end."""
    with pipe:
        while data := os.read(pipe.fileno(), KEPT):
            kept += data
            if stream is not None:
                del kept[:-KEPT]
                try:
                    screen.pass_on(stream, data)
                except OSError:
                    stream = None


class Group:
    """A program that starts others, and these, in a process group of their own: signals to this process are handed on to all of them."""

    def __init__(self):
        self.leader, self.early = 0, []
        for number in ENDING_SIGNALS:
            if signal.getsignal(number) is not signal.SIG_IGN:
                signal.signal(number, self.hand_on)

    def hand_on(self, number: int, _frame):
        """Hands a signal on, or keeps it until there is a program."""
        if self.leader:
            self.send(number)
        else:
            self.early.append(number)

    def send(self, number: int):
        try:
            os.killpg(self.leader, number)
        except ProcessLookupError:
            pass

    def begin(self, leader: int):
        self.leader = leader
        for number in self.early:
            self.send(number)

    def end(self):
        """Ends what the program has left behind when it has ended itself, as a miner whose peer could not be started."""
        if hasattr(os, "waitid"):
            # Not taken from the system yet, so that no other group can have this number.
            os.waitid(os.P_PID, self.leader, os.WEXITED | os.WNOWAIT)
            self.send(signal.SIGTERM)


def call(
    words: list[str], out: str = "pass", err: str = "pass", watched: bool | None = None, fds=(), what: str = "", starts: bool = False,
    group: Group | None = None,
) -> Ended:
    """Calls a program and waits for it. A stream is left to it (`leave`), handed on and kept (`pass`), or kept whole (`keep`). Where `watched`, progress is
    told on the error stream; else where that is a terminal. A signal that ends this process ends the program first, and what it started where it `starts`
    programs of its own. A `group` hands signals on instead, and this process goes on until the program has ended."""
    watched = os.isatty(2) if watched is None else watched
    pipes = {name: subprocess.PIPE for name, way in (("stdout", out), ("stderr", err)) if way != "leave"}
    screen, ended, kept = Screen(), threading.Event(), (bytearray(), bytearray())
    began = time.monotonic()
    descriptors, new_session = (*fds, *standard_input.descriptors()), starts or group is not None
    child = subprocess.Popen(words, pass_fds=descriptors, start_new_session=new_session, preexec_fn=end_with_starter, **pipes)
    if group:
        group.begin(child.pid)
    threads = []
    for pipe, way, stream in ((child.stdout, out, 1), (child.stderr, err, 2)):
        if pipe:
            threads.append(threading.Thread(target=follow, args=(pipe, stream if way == "pass" else None, kept[stream - 1], screen)))
    if watched:
        threads.append(threading.Thread(target=tell_progress, args=(child.pid, what or os.path.basename(words[0]), screen, ended)))
    for thread in threads:
        thread.daemon = True
        thread.start()
    patience = None
    try:
        if group:
            group.end()
        _, code, usage = os.wait4(child.pid, 0)
    except BaseException:
        if starts:
            os.killpg(child.pid, signal.SIGTERM)
        child.terminate()
        child.wait()
        patience = CUT_OFF
        raise
    finally:
        ended.set()
        for thread in threads:
            thread.join(patience)
        screen.pass_on(2, b"")
    child.returncode = os.waitstatus_to_exitcode(code)
    peak = usage.ru_maxrss // (1024 if sys.platform == "darwin" else 1)
    return Ended(child.returncode, bytes(kept[0]), bytes(kept[1]), time.monotonic() - began, peak)


def end_by(number: int, _frame):
    """Ends this process as a signal asks, so that what it has open is let go."""
    raise SystemExit(128 + number)


def end_on_signals():
    """From here on a signal ends this process in order."""
    for number in ENDING_SIGNALS:
        signal.signal(number, end_by)


def end_as(status: int):
    """Ends this process as a program ended: with its status, or by the signal that ended it."""
    sys.stdout.flush()
    if status < 0:
        signal.signal(-status, signal.SIG_DFL)
        os.kill(os.getpid(), -status)
    os._exit(status if status >= 0 else 128 - status)
