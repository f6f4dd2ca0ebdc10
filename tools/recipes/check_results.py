"""Tries what readers and other programs call: docs/results.md, the result files of examples/library, the formulas, texts of three miners, `-`, JSON, secrec.py
and examples/from_programs. Values come from Python's fractions, `statistics` and `math`.

    check_results.py --program PATH
"""
from __future__ import annotations

import argparse
import contextlib
import csv
import io
import json
import os
import random
import socket
import statistics
import subprocess
import sys
import tempfile
from collections.abc import Callable
from fractions import Fraction
from pathlib import Path

TOP = Path(__file__).resolve().parents[2]
sys.path.insert(0, str(TOP / "user"))
from check_library import LIBRARY, Fault, page_shows, same  # noqa: E402
from formula_cases import GIVEN, PUBLISHED, REFUSED  # noqa: E402
from library_cases import RECIPES, made  # noqa: E402
from page import blocks, functions, programs  # noqa: E402
from recipe_parts import Given  # noqa: E402
from result_values import VALUES  # noqa: E402
from secrec_tools.formulas import FormulaErr, results_by  # noqa: E402
import secrec  # noqa: E402

PAGE, FROM_PROGRAMS = TOP / "docs" / "results.md", TOP / "examples" / "from_programs"
NEAR = Fraction(1, 10**8)
SIZES, DIGITS = (7, 16, 40), "15"


class Tools:
    """The tools, called in a folder of their own with the library in it."""

    def __init__(self, program: str, work: str):
        self.program, self.work = program, Path(work)
        self.environment = {**os.environ, "PATH": f"{TOP}/user:{os.environ['PATH']}", "SECREC_PROGRAM": program, "PYTHONPATH": f"{TOP}/user"}
        subprocess.run(["cp", "-r", f"{LIBRARY}/.", work], check=True)

    def call(self, *words: str, given: str | None = None) -> tuple[int, str, str]:
        done = subprocess.run(words, cwd=self.work, env=self.environment, input=given, capture_output=True, text=True, check=False)
        return done.returncode, done.stdout, done.stderr

    def put(self, name: str, text: str) -> str:
        (self.work / name).write_text(text)
        return name


def near(wanted: object, have: object) -> bool:
    """Whether two results are the same, numbers to some eight digits."""
    if isinstance(wanted, dict):
        return isinstance(have, dict) and list(wanted) == list(have) and all(near(wanted[key], have[key]) for key in wanted)
    if isinstance(wanted, (list, tuple)):
        return isinstance(have, (list, tuple)) and len(wanted) == len(have) and all(map(near, wanted, have))
    if wanted is None or isinstance(wanted, bool) or have is None or isinstance(have, bool):
        return wanted is have
    return abs(Fraction(wanted) - Fraction(have)) <= NEAR * max(abs(Fraction(wanted)), Fraction(1, 10**6))


def formulas_are_computed(_: Tools) -> int:
    published = {name: [one if isinstance(one, bool) else Fraction(one) for one in values] for name, values in PUBLISHED.items()}
    for text, wanted in GIVEN:
        found = list(results_by(f"x = {text}", published)[0].values)
        same(f"{text} is {found}", True, near(wanted if isinstance(wanted, list) else [wanted], found))
    for text, why in REFUSED:
        try:
            said = f"nothing; it gives {results_by(text, published)}"
        except FormulaErr as fault:
            said = str(fault)
        same(f"what is said of {text[:60]!r}: {said}", True, why in said)
    return len(GIVEN) + len(REFUSED)


def recipes_are_computed(tools: Tools) -> int:
    """Each result file makes of made inputs what Python makes of them."""
    same("recipes with a result file", sorted(VALUES), sorted(path.stem for path in LIBRARY.glob("*.result")))
    for name, values in VALUES.items():
        for n in SIZES:
            tools.put("made.json", json.dumps(made(name, n, seed=2)[0]))
            given = Given(RECIPES[name].inputs(random.Random(f"{name} {n} 2"), n))
            _, text, _ = tools.call(tools.program, "eval", f"{name}.sc", "--input", "made.json", "--budget", "100000000")
            status, shown, said = tools.call("secrec-result", "-", "--by", f"{name}.result", "--as", "json", "--digits", DIGITS, given=text)
            same(f"{name} for {n} people: {said}", 0, status)
            same(f"{name} for {n} people: {values(given)} and {shown}", True, near(values(given), json.loads(shown)))
    return len(VALUES) * len(SIZES)


TEXT = "open 5\npublish n 4\npublish part 1 3\npublish part 8\npublish fits true\nend done cost 9\n"
FORMS = (
    ((), "n           4\npart  0     1\npart  1     3\npart  2     8\nfits     true\n"),
    (("--as", "csv"), "name,group,value\nn,,4\npart,0,1\npart,1,3\npart,2,8\nfits,,true\n"),
    (("--as", "json"), '{"n":4,"part":[1,3,8],"fits":true}\n'),
)
GROUPED = "groups place = a b, c, d\n\n  // of all\nshare by place = part / 12\nnone = n / 0\nsmall = n / 10 ^ 9\nminus = -2 / 3\nmost = 2 ^ 64 - 1\n"
GROUPED_FORMS = (
    ((), "share  a b              0.083333\nshare  c                    0.25\nshare  d                0.666667\n"
         "none                        none\nsmall                       4e-9\nminus                  -0.666667\nmost        18446744073709551615\n"),
    (("--as", "csv", "--digits", "2"), "name,group,value\nshare,a b,0.08\nshare,c,0.25\nshare,d,0.67\nnone,,\nsmall,,4e-9\nminus,,-0.67\n"
                                       "most,,18446744073709551615\n"),
    (("--as", "json", "--digits", "1"), '{"share":{"a b":0.1,"c":0.2,"d":0.7},"none":null,"small":4e-9,"minus":-0.7,"most":18446744073709551615}\n'),
)
REFUSED_TEXTS = (
    ("publish n 4\n", "no line `end ..`"), ("end trap Assert line 3 cost 7\n", "ended early, so it has no results: end trap Assert line 3 cost 7"),
    ("share n uint64 5\nend done cost 1\n", "give those of all three"), ("publish n x\nend done cost 1\n", "line 1 is no line of the text of a run"),
    ("publish n 18446744073709551616\nend done cost 1\n", "line 1 is no line"),
    ("end done cost 1\npublish n 4\n", "line 2 is no line"), ("publish n 4\npublish n true\nend done cost 1\n", "numbers and truth values are published as n"),
)


def forms_are_shown(tools: Tools) -> int:
    for options, wanted in FORMS:
        same(f"secrec-result {options}", (0, wanted, ""), tools.call("secrec-result", "-", *options, given=TEXT))
    tools.put("grouped.result", GROUPED)
    for options, wanted in GROUPED_FORMS:
        same(f"secrec-result with groups {options}", (0, wanted, ""), tools.call("secrec-result", "-", "--by", "grouped.result", *options, given=TEXT))
    for text, why in REFUSED_TEXTS:
        status, shown, said = tools.call("secrec-result", "/dev/stdin", given=text)
        same(f"{text!r} is refused: {said}", (1, "", True), (status, shown, why in said))
    tools.put("wrong.result", "// what\nx = y\n")
    same("a result file that is refused", (1, "", "secrec-result: wrong.result, line 2: nothing is published as `y`\n"),
         tools.call("secrec-result", "-", "--by", "wrong.result", given=TEXT))
    for words in ((), ("-", "-"), ("-", "--as", "xml"), ("-", "--digits", "31")):
        same(f"secrec-result {words}", 2, tools.call("secrec-result", *words, given=TEXT)[0])
    return len(FORMS) + len(GROUPED_FORMS) + len(REFUSED_TEXTS) + 5


def free_port() -> int:
    """The first of three free ports of this machine."""
    for port in range(48_000, 60_000, 3):
        with contextlib.ExitStack() as stack, contextlib.suppress(OSError):
            for one in range(port, port + 3):
                stack.enter_context(socket.socket()).bind(("127.0.0.2", one))
            return port
    raise Fault("no three free ports")


def three_texts_are_joined(tools: Tools) -> int:
    """Three miners' texts give what the text of a run gives, and those of two runs are refused."""
    tools.put("few.json", json.dumps(made("four_counts", 6, seed=3)[0]))
    need = tools.call(tools.program, "need", "four_counts.sc", "--input", "few.json")[1].split()[1:]
    same("a tape", 0, tools.call("random_tape", *need, "--to", "few.tape")[0])
    words = ("trio", "four_counts.sc", "--input", "few.json", "--tape", "few.tape", "--to", "few", "--port", str(free_port()))
    status, text, said = tools.call("secrec", *words)
    same(f"a run of three processes: {said}", 0, status)
    texts = [f"few.o{miner}" for miner in (1, 2, 3)]
    shown = tools.call("secrec-result", *texts, "--by", "four_counts.result", "--as", "json")
    same("three texts and that of the run", tools.call("secrec-result", "-", "--by", "four_counts.result", "--as", "json", given=text), shown)
    same("secrec.join", secrec.read_run(text), secrec.join([tools.work / one for one in texts], program=tools.program))
    other = (tools.work / "few.o3").read_text().replace("end done cost ", "end done cost 1")
    tools.put("other.o3", other)
    status, shown_text, said = tools.call("secrec-result", *texts[:2], "other.o3")
    same(f"texts of two runs: {said}", (13, "", True), (status, shown_text, said.startswith("error: C2")))
    return 4


def standard_input_is_read(tools: Tools) -> int:
    program, inputs = (LIBRARY / "deviation.sc").read_text(), (LIBRARY / "people.json").read_text()
    wanted = tools.call("secrec", "eval", "deviation.sc", "--input", "people.json")
    same("secrec eval", 0, wanted[0])
    for place in ("-", "/dev/stdin"):
        same(f"secrec --input {place}", wanted, tools.call("secrec", "eval", "deviation.sc", "--input", place, given=inputs))
        same(f"secrec --input={place}", wanted, tools.call("secrec", "eval", f"--input={place}", "deviation.sc", given=inputs))
        same(f"secrec eval {place}", wanted, tools.call("secrec", "eval", place, "--input", "people.json", given=program))
        same(f"secrec-job --input {place}", (0, wanted[1]), tools.call("secrec-job", "deviation.sc", "--input", place, given=inputs)[:2])
        same(f"secrec-job {place}", (0, wanted[1]), tools.call("secrec-job", place, "--input", "people.json", given=program)[:2])
        same(f"csv_to_input {place}", [3, 4], json.loads(tools.call("csv_to_input", place, "a", given="a\n3\n4\n")[1])["inputs"][0]["value"])
        same(f"secrec-explain .. {place}", 0, tools.call("secrec-explain", "eval", "deviation.sc", "--input", place, given=inputs)[0])
    refused = tools.call("secrec-job", "deviation.sc", "--input", "-", given='{"inputs":[')
    same(f"a refused input of standard input: {refused[2]}", (4, "", True), (refused[0], refused[1], "error: I1" in refused[2]))
    same("the proved program takes - for a path", (9, "", "error: file -\n"), tools.call(tools.program, "check", "-", given=program))
    same("a file that is written may be called -", 0, tools.call("secrec", "compile", "deviation.sc", "--code", "-")[0])
    same("it is there", True, (tools.work / "-").exists())
    return 16


def json_is_printed(tools: Tools) -> int:
    told = json.loads(tools.call("secrec-job", "empty.sc", "--input", "people.json", "--json")[1])
    text = secrec.read_run(tools.call("secrec", "eval", "empty.sc", "--input", "people.json")[1])
    need = secrec.need(LIBRARY / "empty.sc", LIBRARY / "people.json", program=tools.program)
    wanted = {
        "published": [{"name": one.name, "values": list(one.values)} for one in text.published], "opened": [list(one) for one in text.opened],
        "end": text.end.removeprefix("end "), "words": list(need.lengths()), "budget": 1_000_000,
    }
    same("secrec-job --json", wanted, told)
    same("--json and --publish-only", 2, tools.call("secrec-job", "empty.sc", "--input", "people.json", "--json", "--publish-only")[0])
    tools.put("stops.sc", 'void main() { publish("one", 1); uint64[[1]] a (2); uint64 i = 2; publish("two", a[i]); }')
    same("a run that traps", (1, ""), tools.call("secrec-job", "stops.sc", "--input", "people.json", "--json")[:2])
    return 3


def raised(call: Callable[[], object]) -> BaseException:
    try:
        found = call()
    except Exception as problem:
        return problem
    raise Fault(f"nothing was raised: {found}")


def python_calls(tools: Tools) -> int:
    """`secrec.py` by its functions, and what they raise."""
    work, how = tools.work, {"program": tools.program}
    sums = work / tools.put("sums.sc", "import stdlib; import shared3p; domain p shared3p;\nvoid main() {\n"
        'p uint64[[1]] xs = argument("xs"); p bool yes = argument("yes"); uint64 n = argument("n");\n'
        'publish("sum", sum(xs)); publish("each", xs * n); publish("yes", declassify(yes)); }\n')
    inputs = {"xs": secrec.private([5, -7, 1]), "yes": secrec.private(True), "n": 3}
    need = secrec.need(sums, inputs, **how)
    found = secrec.run(sums, inputs, **how)
    same("secrec.run", (-1, [15, -21, 3], True), (secrec.signed(found["sum"]), [secrec.signed(one) for one in found.results["each"]], found["yes"]))
    same("what was opened", [(True,)], found.opened)
    same("the end", True, found.end.startswith("end done cost "))
    same("secrec.need", 8, need.dealer)
    signs = work / tools.put("least.sc", 'import shared3p; domain p shared3p;\nvoid main() {\n'
        'p int64[[1]] xs = argument("xs"); int64 least = argument("least");\n'
        'publish("rest", xs - least); publish("below", declassify(xs < least)); }\n')
    told = secrec.run(signs, {"xs": secrec.private(secrec.Signed([5, -(2**63)])), "least": secrec.Signed(-7)}, **how).results
    same("numbers with a sign", ([12, 7 - 2**63], [False, True]), (told["rest"], told["below"]))
    dealt = secrec.deal(inputs, need, work / "dealt", **how)
    same("secrec.deal", [0o600] * 6, [os.stat(path).st_mode & 0o777 for path in dealt.shares + dealt.tapes])
    wrong = work / tools.put("not.sc", "void main() {\n x = ; }\n")
    refusal = raised(lambda: secrec.run(wrong, {}, **how))
    same("a refused program", (secrec.Refused, "Y1", (2, 6), 3), (type(refusal), refusal.sign, refusal.place, refusal.status))
    refusal = raised(lambda: secrec.run(work / "none.sc", {}, **how))
    same("a program that isn't there", ("file", None, 9), (refusal.sign, refusal.place, refusal.status))
    end = raised(lambda: secrec.run(sums, {**inputs, "n": True}, **how))
    same("a trap", (secrec.Ended, "trap", True), (type(end), end.kind, end.line.startswith("end trap Argument line 3")))
    end = raised(lambda: secrec.need(sums, inputs, budget=5, **how))
    same("a budget", ("budget", 7, True), (end.kind, end.status, end.line.startswith("end budget cost ")))
    same("one element of three", LookupError, type(raised(lambda: found["each"])))
    for value in (0.5, "5", 1 << 64, -(1 << 64), [1, True], [[1]], secrec.Signed(1 << 63), secrec.Signed([True])):
        same(f"an input {value}", TypeError, type(raised(lambda: secrec.run(sums, {"n": value}, **how))))
    same("no program", secrec.NoProgram, type(raised(lambda: secrec.run(sums, inputs, program="/none"))))
    same("a command of another name", None, secrec.run(sums, inputs, program=TOP / "user" / "secrec").results.get("none"))
    return 23


def page_program_runs(tools: Tools) -> int:
    text = next(block.text for block in blocks(PAGE.read_text()) if block.info == "python")
    status, shown, said = tools.call(sys.executable, "-c", text)
    same(f"the page's program: {said}", (0, "[7400] 3", "trap end trap Argument line 18 cost 1"), (status, *shown.splitlines()[1:]))
    return 1


def salaries() -> dict[str, list[int]]:
    """In cents, by region."""
    found: dict[str, list[int]] = {}
    with open(FROM_PROGRAMS.parent / "jobs" / "people.csv", newline="") as file:
        for row in csv.DictReader(file):
            found.setdefault(row["region"], []).append(int(100 * Fraction(row["salary"])))
    return found


def make_makes(tools: Tools) -> int:
    """The Makefile, with inputs that are gone after it; called again it has nothing to do."""
    for folder in ("jobs", "from_programs"):
        subprocess.run(["cp", "-r", str(TOP / "examples" / folder), str(tools.work)], check=True)
    where = tools.work / "from_programs"
    words = ["make", "-s", "-C", str(where), "TOOLS=", f"LIBRARY={tools.work}"]
    status, _, said = tools.call(*words)
    same(f"make: {said}", 0, status)
    groups = salaries()
    cents = [one for group in groups.values() for one in group]
    told = json.loads((where / "salary.json").read_text())
    wanted = [statistics.mean(map(Fraction, cents)), statistics.pvariance(map(Fraction, cents)), statistics.pstdev(cents)]
    same(f"salary.json {told}", True, near(wanted, [told[name] for name in ("mean", "variance", "deviation")]))
    with open(where / "regions.csv", newline="") as file:
        means = {row["group"]: float(row["value"]) for row in csv.DictReader(file) if row["group"]}
    same(f"regions.csv {means}", True, near({name: statistics.mean(groups[name]) for name in means}, means) and len(means) == 4)
    same("inputs that stay", [], list(where.glob("*.input")))
    same("make again", 0, tools.call(*words[:1], "-q", *words[2:])[0])
    return 5


def notebook_runs(tools: Tools) -> int:
    """Each cell prints what the notebook shows, and that is what Python computes."""
    cells = [cell for cell in json.loads((FROM_PROGRAMS / "salaries.ipynb").read_text())["cells"] if cell["cell_type"] == "code"]
    scope: dict[str, object] = {}
    shown = ""
    with contextlib.chdir(tools.work / "from_programs"):
        os.symlink(tools.work, tools.work / "library")
        for cell in cells:
            printed = io.StringIO()
            with contextlib.redirect_stdout(printed):
                exec("".join(cell["source"]), scope)
            wanted = "".join("".join(output["text"]) for output in cell["outputs"])
            same("".join(cell["source"]), wanted, printed.getvalue())
            shown += wanted
    cents = [one for group in salaries().values() for one in group]
    same("the mean in the notebook", True, f"mean {statistics.mean(cents):.2f}\nstandard deviation {statistics.pstdev(cents):.2f}\n" in shown)
    return len(cells)


def library_is_whole(tools: Tools) -> int:
    """lib.sc has all functions of the library, each with its one text."""
    own = functions((LIBRARY / "lib.sc").read_text())
    others = {name: text for path in programs(LIBRARY) if path.name != "lib.sc" for name, text in functions(path.read_text()).items()}
    same("functions of lib.sc", others, own)
    return len(own)


PARTS = (
    formulas_are_computed, forms_are_shown, recipes_are_computed, three_texts_are_joined, standard_input_is_read, json_is_printed, python_calls,
    page_program_runs, make_makes, notebook_runs, library_is_whole,
)


def main() -> int:
    parser = argparse.ArgumentParser(description=__doc__)
    parser.add_argument("--program", required=True)
    program = os.path.abspath(parser.parse_args().program)
    os.environ["SECREC_PROGRAM"] = program
    with tempfile.TemporaryDirectory() as work:
        tools = Tools(program, work)
        try:
            tried = {part.__name__: part(tools) for part in PARTS}
            pieces, printed = page_shows(PAGE, LIBRARY, tools.environment)
        except Fault as fault:
            print(f"results_check: {fault}", file=sys.stderr)
            return 1
    told = ", ".join(f"{name.replace('_', ' ')} {count}" for name, count in tried.items())
    print(f"results_check: {told}; the page shows {pieces} pieces and {printed} outputs")
    return 0


if __name__ == "__main__":
    sys.exit(main())
