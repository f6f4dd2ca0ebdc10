"""Takes tables of others from CSV to results with a built program, by at most three commands each, and compares them with what Python computes of the tables.

    check_tables.py --program PATH [--packages FOLDER]

With --packages the tables are those that aren't kept here, in FOLDER, where Python's packages are; else those of .ci/tables.
"""
from __future__ import annotations

import argparse
import csv
import json
import os
import subprocess
import sys
import tempfile
import time
from pathlib import Path

from check_results import near
from table_cases import FETCHED, SHIPPED, Case

TOP = Path(__file__).resolve().parents[2]
TABLES, LIBRARY = TOP / ".ci" / "tables", TOP / "examples" / "library"
MOST_COMMANDS = 3


class Fault(Exception):
    """What is not as it must be."""


def printed(commands: tuple[str, ...], table: Path, environment: dict[str, str]) -> str:
    """What the last of the commands prints, each of which must end well."""
    shown = ""
    with tempfile.TemporaryDirectory() as work:
        for command in commands:
            words = command.replace("LIBRARY", str(LIBRARY)).replace("TABLES", str(TABLES)).replace("TABLE", str(table))
            done = subprocess.run(["bash", "-o", "pipefail", "-c", words], cwd=work, env=environment, capture_output=True, text=True, check=False)
            if done.returncode:
                raise Fault(f"{words}\nstatus {done.returncode}\n{done.stderr}")
            shown = done.stdout
    return shown


def tried(case: Case, folder: Path, environment: dict[str, str]) -> int:
    """How many rows the table has whose results are right."""
    table = folder / case.file
    with open(table, newline="", encoding="utf-8") as file:
        rows = list(csv.DictReader(file, delimiter=case.separator))
    if len(case.commands) > MOST_COMMANDS:
        raise Fault(f"{case.file} takes {len(case.commands)} commands")
    began = time.monotonic()
    have, wanted = json.loads(printed(case.commands, table, environment)), case.results(rows)
    if not near(wanted, have):
        raise Fault(f"{case.file}\nby Python {wanted}\nhave      {have}")
    print(f"tables_check: {table.name}: {len(rows)} rows, {len(case.commands)} commands, {time.monotonic() - began:.1f} s", flush=True)
    return len(rows)


def main() -> int:
    parser = argparse.ArgumentParser(description=__doc__)
    parser.add_argument("--program", required=True)
    parser.add_argument("--packages", metavar="FOLDER")
    asked = parser.parse_args()
    environment = {**os.environ, "PATH": f"{TOP}/user:{os.environ['PATH']}", "SECREC_PROGRAM": os.path.abspath(asked.program)}
    cases, folder = (FETCHED, Path(asked.packages)) if asked.packages else (SHIPPED, TABLES)
    try:
        rows = sum(tried(case, folder, environment) for case in cases)
    except (Fault, OSError) as fault:
        print(f"tables_check: {fault}", file=sys.stderr)
        return 1
    print(f"tables_check: {len(cases)} tables of {rows} rows go from CSV to results by at most {MOST_COMMANDS} commands each; Python computes the same")
    return 0


if __name__ == "__main__":
    sys.exit(main())
