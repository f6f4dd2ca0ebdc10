"""Types the commands of examples/jobs/README.md again with a built program: they print what the page shows, and publish what Python computes of the tables.

    check_jobs.py --program PATH
"""
from __future__ import annotations

import argparse
import os
import re
import subprocess
import sys
import tempfile
from collections.abc import Iterator
from pathlib import Path

from job_results import RESULTS, Tables
from page import Block, blocks, commands

TOP = Path(__file__).resolve().parents[2]
JOBS = TOP / "examples" / "jobs"
MOST_COMMANDS = 3


class Fault(Exception):
    """What is not as it must be."""


def sections(page: str) -> Iterator[tuple[str, list[Block]]]:
    """The page's headings of the second level, each with its blocks."""
    for part in re.split(r"(?m)^(?=## )", page):
        if part.startswith("## "):
            yield part.splitlines()[0][3:], list(blocks(part))


def stand_in_order(shown: str, printed: str) -> bool:
    """Whether these lines are among those that were printed, in this order."""
    rest = iter(line.rstrip() for line in printed.splitlines())
    return all(line.rstrip() in rest for line in shown.splitlines())


def types(block: Block, where: str, environment: dict[str, str]) -> int:
    count = 0
    for command in commands(block):
        done = subprocess.run(["bash", "-c", command.words], cwd=where, env=environment, capture_output=True, text=True, check=False)
        if block.info == "console some":
            good = stand_in_order(command.shown, done.stdout + done.stderr)
        else:
            good = command.shown == done.stdout and done.returncode == 0
        if not good:
            raise Fault(f"{command.words}\nshown:\n{command.shown}\nprinted:\n{done.stdout}{done.stderr}")
        count += 1
    return count


def job(title: str, blocks_of_it: list[Block], where: str, environment: dict[str, str]) -> int:
    typed = sum(types(block, where, environment) for block in blocks_of_it)
    last = list(commands(blocks_of_it[-1]))
    shown = [line for command in last for line in command.shown.splitlines() if line.startswith("publish ")]
    wanted = RESULTS[title](Tables(JOBS))
    if shown != wanted:
        raise Fault(f"{title}: by Python\n" + "\n".join(wanted) + "\nshown:\n" + "\n".join(shown))
    if len(last) > MOST_COMMANDS:
        raise Fault(f"{title} takes {len(last)} commands")
    return typed


def main() -> int:
    parser = argparse.ArgumentParser(description=__doc__)
    parser.add_argument("--program", required=True)
    asked = parser.parse_args()
    environment = {**os.environ, "PATH": f"{TOP}/user:{os.environ['PATH']}", "SECREC_PROGRAM": os.path.abspath(asked.program)}
    titles, typed = [], 0
    with tempfile.TemporaryDirectory() as work:
        subprocess.run(["cp", "-r", str(JOBS), str(JOBS.parent / "library"), work], check=True)
        try:
            for title, found in sections((JOBS / "README.md").read_text()):
                typed += job(title, found, f"{work}/jobs", environment)
                titles.append(title)
            if titles != list(RESULTS):
                raise Fault(f"jobs of the page: {titles}")
        except Fault as fault:
            print(f"jobs_check: {fault}", file=sys.stderr)
            return 1
    print(f"jobs_check: {len(titles)} jobs publish what Python computes of their tables; {typed} commands of the page print what it shows")
    return 0


if __name__ == "__main__":
    sys.exit(main())
