"""What the benches have in common: files that are made, and calls with what they take."""
import os
import random
import subprocess
import time
from collections import namedtuple

# What a call took: seconds of processor time, of them in the program and in the kernel, the seconds that went by, and its peak memory in kB.
Took = namedtuple("Took", "seconds program kernel passed peak")


def written(path, text):
    """Writes a file, and returns its path."""
    with open(path, "w", encoding="utf-8") as file:
        file.write(text)
    return path


def tape(path, lengths):
    """Writes a tape file of these lengths, of words that are the same each time, and returns its path."""
    drawn = random.Random(7)
    with open(path, "wb") as file:
        for length in lengths:
            file.write(length.to_bytes(8, "little"))
        left = sum(lengths)
        while left:
            piece = min(left, 1 << 16)
            file.write(drawn.randbytes(8 * piece))
            left -= piece
    return path


def called(*words):
    """Calls a program, and returns its status, what it printed, and what it took."""
    start = time.monotonic()
    child = subprocess.Popen(words, stdout=subprocess.PIPE, stderr=subprocess.STDOUT)
    with child.stdout:
        text = child.stdout.read()
    _, status, used = os.wait4(child.pid, 0)
    child.returncode = os.waitstatus_to_exitcode(status)
    took = Took(used.ru_utime + used.ru_stime, used.ru_utime, used.ru_stime, time.monotonic() - start, used.ru_maxrss)
    return child.returncode, text, took


def ran(*words):
    """Calls a program that has to end well, and returns what it took."""
    status, text, took = called(*words)
    assert status == 0, (words, status, text)
    return took


def least(times, call):
    """Calls so many times, and returns what the call took that took least processor time."""
    return min(call() for _ in range(times))
