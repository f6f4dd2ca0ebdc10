"""What a process does before it, or a program that it calls, has secrets: files are made for their owner alone, and no image of its memory is written."""
from __future__ import annotations

import ctypes
import os
import resource
import signal
import sys

OTHERS_RIGHTS = 0o077
# The system's number of the call by which a process asks for a signal at the end of the one that started it.
ASK_FOR_SIGNAL = 1
CALL = ctypes.CDLL(None, use_errno=True).prctl if sys.platform == "linux" else None


def keep_to_oneself():
    """From here on files that this process makes, and those that it calls, are their owner's alone, and none of them leaves its memory in a core file."""
    os.umask(OTHERS_RIGHTS)
    resource.setrlimit(resource.RLIMIT_CORE, (0, 0))


def end_with_starter():
    """Asks the system to end this process when the one that started it has ended, be it by a signal that nobody can hand on; where it can be asked."""
    if CALL:
        CALL(ASK_FOR_SIGNAL, signal.SIGKILL)
