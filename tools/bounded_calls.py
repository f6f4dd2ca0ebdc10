"""Calls of the program in folders of their own, bounded in time: what isn't through by then is ended, with all that it started."""
import contextlib
import os
import signal
import subprocess
import time
from collections import namedtuple

# How a call ended: its status (None where its time was up and it was ended), what it printed, what it said.
Ended = namedtuple("Ended", "status out err")
FIRST_PORT = 47310
LOOPBACK = "127.0.0.2"


class Call:
    """A call that goes on beside others."""

    def __init__(self, words, folder, **how):
        # (a session of its own, so that its children end with it)
        settings = {"stdin": subprocess.DEVNULL, "stdout": subprocess.PIPE, "stderr": subprocess.PIPE, "start_new_session": True, **how}
        self.words, self.process = words, subprocess.Popen(words, cwd=folder, **settings)

    def result(self, patience):
        """Waits for its end; where its time is up it is ended."""
        try:
            out, err = self.process.communicate(timeout=patience)
            return Ended(self.process.returncode, out, err)
        except subprocess.TimeoutExpired:
            self.end()
            out, err = self.process.communicate()
            return Ended(None, out, err)

    def goes_on(self):
        return self.process.poll() is None

    def peak(self):
        """The most memory that it has had, in KiB; 0 where it has ended."""
        try:
            with open(f"/proc/{self.process.pid}/status", encoding="ascii") as file:
                return next((int(line.split()[1]) for line in file if line.startswith("VmHWM")), 0)
        except OSError:
            return 0

    def end(self):
        """Ends it and all that it started; what ended already is let be."""
        with contextlib.suppress(ProcessLookupError, PermissionError):
            os.killpg(self.process.pid, signal.SIGKILL)
        with contextlib.suppress(subprocess.TimeoutExpired):
            self.process.wait(5)


@contextlib.contextmanager
def together():
    """Starts calls that go on side by side; whichever is left at the end is ended."""
    calls = []

    def start(words, folder, **how):
        calls.append(Call(words, folder, **how))
        return calls[-1]

    try:
        yield start
    finally:
        for one in calls:
            one.end()


def ended(words, folder, patience, **how):
    """One call to its end."""
    with together() as start:
        return start(words, folder, **how).result(patience)


def in_state(state, ports, prefix=()):
    """Which of these ports have a socket in a state of the system's table, in this network or where `prefix` leads."""
    table = subprocess.run([*prefix, "cat", "/proc/net/tcp"], capture_output=True, text=True, check=True).stdout
    rows = [line.split() for line in table.splitlines()[1:]]
    return sorted({int(row[1].split(":")[1], 16) for row in rows if row[3] == state} & set(ports))


def listening(ports, prefix=()):
    """Which of these ports somebody listens at."""
    return in_state("0A", ports, prefix)


def joined(ports):
    """Which of these ports have a stream."""
    return in_state("01", ports)


def wait_for(what, patience):
    """Whether something becomes true in time."""
    until = time.monotonic() + patience
    while not what():
        if time.monotonic() > until:
            return False
        time.sleep(0.02)
    return True


def pair_port(one, other, port):
    """The port at which two miners meet."""
    return port + one + other - 3
