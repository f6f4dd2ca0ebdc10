"""What is known of the end of a run: traps, the budget, tapes. The second reading evaluates again, and the program below is asked what a run takes."""
from __future__ import annotations

import os
import re
import subprocess
from difflib import get_close_matches

from . import cures
from .findings import Finding, spot_at, spot_of
from .manual import rows_of, sign_of
from .program import NoProgram, find_program
from .reading import clear, entries, lexer, parser, tree, verdict

MOST = (1 << 64) - 1
PATIENCE = 20
LOOK = 1_000_000
ENDS = {
    "budget": "the next charge would have gone over the budget, so the run ended before it; what was opened and published before stays",
    "tape": "a tape has too few words; the numbers are of the first construct that wanted more, so the whole run may want more still",
    "done": "the program came to its end",
    "trap Length": "two arrays that meet have not the same size",
    "trap Div": "a divisor is 0",
    "trap Index": "an index is not below the size of its array",
    "trap Argument": "no input has the name that is asked for, or it has another domain, type or dimension",
    "trap Depth": "calls in one another may be 64 deep, main among them",
    "trap Assert": "an assertion is false",
    "trap Large": "an array may have 1,048,576 elements, and a look-up as many elements times indices",
}
TAPES = ("the dealer's tape", "miner 1's tape", "miner 2's tape", "miner 3's tape")


def type_text(type_) -> str:
    """A type of evaluation in words."""
    return f"{'private' if type_.private else 'public'} {type_.data.value}{'[[1]]' if type_.array else ''}"


class Traced(clear.Evaluation):
    """An evaluation that notes what stood where it trapped."""

    def __init__(self, program, inputs, budget):
        super().__init__(program, inputs, budget, clear.UNBOUNDED)
        self.frames: list = []
        self.called: list[str] = []
        self.facts: list[str] = []
        self.trapped = None
        self.looking = False

    def statement(self, node, frame):
        self.frames.append(frame)
        try:
            super().statement(node, frame)
        finally:
            self.frames.pop()

    def call_function(self, node, frame):
        self.called.append(node.name)
        result = super().call_function(node, frame)
        self.called.pop()
        return result

    def trap(self, name, node):
        if not self.looking and self.trapped is None:
            self.trapped, self.looking = node, True
            before = self.cost, self.budget, list(self.used), len(self.events), len(self.opened)
            self.budget += LOOK
            try:
                self.facts = self.facts_of(name, node, self.frames[-1])
            except (clear.Ended, LookupError):
                self.facts = []
            self.cost, self.budget, self.used = before[:3]
            del self.events[before[3] :], self.opened[before[4] :]
            self.looking = False
        super().trap(name, node)

    def facts_of(self, name, node, frame) -> list[str]:
        """What is known of a trap, from the parts of its construct evaluated again."""
        ways = {
            "Index": self.index_facts, "Length": self.length_facts, "Div": self.division_facts, "Assert": self.assertion_facts,
            "Depth": self.depth_facts, "Large": self.large_facts,
        }
        return ways[name](node, frame) if name in ways else []

    def index_facts(self, node, frame):
        if isinstance(node, tree.Assign):
            array, index = frame.find(node.target.name)[node.target.name], node.target.index
        else:
            array, index = self.expression(node.array, frame), node.index
        size = len(array.words)
        last = f"its last index is {size - 1}" if size else "it has none"
        return [f"the index is {self.expression(index, frame).words[0]}, and the array has {size} elements: {last}"]

    def length_facts(self, node, frame):
        sizes = [len(self.expression(part, frame).words) for part in (node.left, node.right)]
        return [f"`{node.operator}` has an array of {sizes[0]} elements on its left and one of {sizes[1]} on its right"]

    def division_facts(self, node, frame):
        divisor = self.expression(node.right, frame)
        if not divisor.type.array:
            return ["the divisor is 0"]
        return [f"element {divisor.words.index(0)} of the divisor is 0, of {len(divisor.words)} elements"]

    def large_facts(self, node, frame):
        if isinstance(node, tree.Declare):
            return [f"{self.expression(node.size, frame).words[0]} elements are asked for", *cures.IN_PIECES]
        sizes = [len(self.expression(part, frame).words) for part in node.arguments]
        if node.name == "lookup":
            return [f"`lookup` of {sizes[0]} elements and {sizes[1]} indices, {sizes[0] * sizes[1]} in all", *cures.IN_PARTS]
        return [f"`cat` of {sizes[0]} and {sizes[1]} elements" if node.name == "cat" else f"64 bits of each of {sizes[0]} elements", *cures.IN_PIECES]

    def assertion_facts(self, node, frame):
        condition = node.condition
        if not isinstance(condition, tree.Binary) or condition.operator not in clear.COMPARING:
            return ["its condition is false"]
        words = [self.expression(part, frame).words[0] for part in (condition.left, condition.right)]
        return [f"it compares {words[0]} {condition.operator} {words[1]}"]

    def depth_facts(self, node, frame):
        return ["the calls in one another are main, " + ", ".join(self.called[:3]) + f", .. and so on to `{node.name}`"]


def evaluated(text: bytes, inputs, budget: int):
    """A traced evaluation of an accepted program, and its report."""
    evaluation = Traced(clear.runnable_of(verdict.judge(text).program, text), inputs, budget)
    return evaluation, evaluation.report()


def arguments_of(program):
    """All declarations by `argument` in the order of the text, with the function in which they stand."""
    found = []
    for function in program.functions:
        rest = [function.body]
        while rest:
            node = rest.pop()
            rest.extend(node.children())
            if isinstance(node, tree.Declare) and isinstance(node.value, tree.Argument):
                found.append((function, node))
    return sorted(found, key=lambda one: one[1].place)


def asked_type(function, declaration, bound: bool):
    """The type that a declaration asks for; `bound` says whether a domain variable stands for a private domain."""
    written = declaration.type
    variables = {variable.name.text for variable in function.variables}
    private = written.domain is not None and (bound or written.domain.text not in variables)
    return clear.ValueType(private, written.data, written.dimension == 1)


def disagreement(entry, wanted) -> list[str]:
    """How an entry differs from what is asked for."""
    have, found = entry.type, []
    if have.private != wanted.private:
        if have.private:
            found.append("the file has it private: declare it with a domain, as `p uint64`")
        else:
            found.append("the file has it public: declare it without a domain, or write `\"domain\":\"private\"` in the file")
    if have.data is not wanted.data:
        other = f", or `\"type\":\"{wanted.data.value}\"` in the file" if have.data.is_number and wanted.data.is_number else ""
        found.append(f"the file has {have.data.value}: write `{have.data.value}` in the declaration{other}")
    if have.array != wanted.array:
        found.append("the file has an array: write `[[1]]`" if have.array else "the file has a single value: leave `[[1]]` away, or put the value in brackets in the file")
    return found


def of_argument(finding: Finding, path: str, text: bytes, inputs, line: int):
    """Which input was asked for in a line, as what, and what the file has."""
    by_name = {entry.name: entry for entry in inputs}
    for function, declaration in arguments_of(parser.parse(lexer.lex(text))):
        spot = spot_at(path, text, declaration.value.place)
        if spot.line != line or finding.notes:
            continue
        name, wanted = declaration.value.name, asked_type(function, declaration, True)
        entry = by_name.get(name)
        if entry is None:
            near = get_close_matches(name, by_name, 1, 0.6)
            has = "; is `" + near[0] + "` meant?" if near else "; it has " + (", ".join(f"`{one}`" for one in by_name) or "none at all")
            finding.note(f"the input `{name}` was asked for, as {type_text(wanted)}; the file has no entry of this name{has}", spot)
        else:
            for fault in disagreement(entry, wanted):
                size = f" of {len(entry.words)} elements" if entry.type.array else ""
                finding.note(f"the input `{name}` was asked for as {type_text(wanted)}; the file has {type_text(entry.type)}{size}. {fault}", spot)


def of_trap(finding: Finding, call, text: bytes, inputs):
    """Where a run trapped, and what stood there."""
    words = finding.line.split()
    line = int(words[words.index("line") + 1])
    finding.spot = None if text is None else spot_of(call.program, text, line, 1 + len(line_of(text, line)) - len(line_of(text, line).lstrip()))
    if text is None or inputs is None:
        return
    if words[2] == "Argument":
        of_argument(finding, call.program, text, inputs, line)
        if finding.notes:
            finding.spot = finding.notes[0].spot
            finding.notes[0].spot = None
        return
    evaluation, report = evaluated(text, inputs, call.budget())
    if report.end_line().split()[:4] == words[:4] and evaluation.trapped is not None:
        finding.spot = spot_at(call.program, text, evaluation.trapped.place)
        for fact in evaluation.facts:
            finding.note(fact)
    else:
        finding.note(f"evaluated again, this program ends otherwise on these inputs: {report.end_line()}")


def line_of(text: bytes, line: int) -> bytes:
    lines = text.split(b"\n")
    return lines[line - 1] if line <= len(lines) else b""


def asked(words: list[str]) -> str | None:
    """What the program below prints last for these words, or None where there is none or it takes too long."""
    try:
        program = find_program(build=False)
        found = subprocess.run([program, *words], stdout=subprocess.PIPE, stderr=subprocess.DEVNULL, timeout=PATIENCE, text=True)
    except (NoProgram, OSError, subprocess.TimeoutExpired):
        return None
    lines = found.stdout.strip().split("\n")
    return lines[-1] if lines[-1] else None


def of_budget(finding: Finding, call):
    """What the whole run costs."""
    finding.note(f"the budget of this call is {call.budget()}")
    if call.program is None or call.input is None:
        return
    end = asked(["eval", call.program, "--input", call.input, f"--budget={MOST}"])
    if end is None:
        finding.note(f"what it costs in all couldn't be found within {PATIENCE} seconds: does a loop come to its end?")
    elif end.startswith("end done cost "):
        finding.note(f"in all it costs {end.split()[-1]}: give `--budget {end.split()[-1]}`, or more")
    else:
        finding.note(f"with any budget it ends so: {end}")


def of_tape(finding: Finding, call):
    """What words the whole run wants."""
    found = re.search(r"tape (\d) need (\d+) have (\d+)", finding.line)
    if found:
        finding.note(f"{TAPES[int(found[1])]} has {found[3]} words, and {found[2]} were wanted so far")
    if call.program is None or call.input is None or found and cures.of_call(finding, call, [int(found[2])]):
        return
    need = asked(["need", call.program, "--input", call.input, f"--budget={MOST}"])
    if need is not None and need.startswith("need "):
        words = need.removeprefix("need ")
        if cures.of_call(finding, call, [int(one) for one in words.split()]):
            return
        finding.note(f"the whole run takes {words}: `random_tape {words} --to NEW.tape` draws such tapes, and `secrec-job` does all of it")


def explain(line: str, call) -> Finding:
    """All that is known of an end."""
    finding, sign = Finding(line), sign_of(line)
    rows = [row for row in rows_of(sign) if row.kind == "what you wrote"]
    finding.means = ENDS.get(sign, rows[0].means if rows else "")
    finding.row = rows[0] if len(rows) == 1 else None
    text = call.text() if call.program is not None else None
    if sign.startswith("trap"):
        inputs = None
        if call.input is not None and os.path.exists(call.input):
            with open(call.input, "rb") as file:
                inputs = entries.read_inputs(file.read())
        of_trap(finding, call, text, inputs)
    elif sign == "budget":
        of_budget(finding, call)
    elif sign == "tape":
        of_tape(finding, call)
    return finding
