"""What the checks in Python have in common: comparisons that are counted, files that are made, and calls of tools."""
import os
import subprocess
import sys

SHOWN, PATIENCE = 600, 300
TOP = os.path.dirname(os.path.dirname(os.path.abspath(__file__)))


class Tally:
    """How many comparisons held and how many didn't."""

    def __init__(self, name):
        self.name, self.passed, self.failed = name, 0, 0

    def same(self, what, wanted, have):
        """Counts a comparison, and complains where it fails."""
        if wanted == have:
            self.passed += 1
            return
        self.failed += 1
        print("\n".join([f"{self.name}: {what}"[:SHOWN], f"  wanted {wanted!r}"[:SHOWN], f"  have   {have!r}"[:SHOWN]]), file=sys.stderr)

    def has(self, what, part, whole):
        """A part that must be in a text."""
        self.same(what, True, part in whole or f"{part!r} isn't in {whole!r}")

    def end(self):
        """Says how it went; the status."""
        print(f"{self.name}: {self.passed} passed, {self.failed} failed")
        return 1 if self.failed or not self.passed else 0


def ran(*words, where=None, env=None):
    """The status and both streams of a call."""
    environment = {**os.environ, **(env or {})}
    found = subprocess.run(words, cwd=where, capture_output=True, text=True, env=environment, errors="replace", timeout=PATIENCE)
    return found.returncode, found.stdout, found.stderr


def tool(name, *words, **how):
    """A call of a tool of user/."""
    return ran(f"{TOP}/user/{name}", *words, **how)


def put(path, text):
    """Writes a file, and returns its path."""
    with open(path, "wb") as file:
        file.write(text if isinstance(text, bytes) else text.encode())
    return path


def get(path):
    with open(path, encoding="utf-8") as file:
        return file.read()


def program_of(words):
    """The path of the program that is named, else of the one that ./secrec runs."""
    return os.path.abspath(words[0] if words else ran(f"{TOP}/secrec", "--where")[1].strip())
