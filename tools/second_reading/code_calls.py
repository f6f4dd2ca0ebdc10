"""The code that is written of a program: read, verified, and held against what its tree fixes and what the program does."""
from __future__ import annotations

import random
from collections.abc import Iterator
from dataclasses import replace
from itertools import chain

import directed_runs
import edges
import programs
import runs
from clear import UNBOUNDED, Input, OpenedShort, Report, dealer_need, evaluate, evaluate_blind
from code_file import CodeFault, Code, Verifier, decode, encode
from code_form import form_faults, forms_of
from code_meaning import StrayRead, code_report
from commands import DEFAULT_BUDGET, runnable
from comparison import Folder
from random_texts import random_graph, random_text, random_typed
from runs import Case
from verdict import judge

RUNS = 6
LARGE_COST = 20_000
TEXT_BUDGET = 1_000


def report_faults(want: Report, have: Report) -> list[str]:
    """Where a run of code isn't that of its program."""
    faults = []
    if (want.end_line(), want.inputs_dealt) != (have.end_line(), have.inputs_dealt):
        faults.append(f"end: model {want.end_line()}, code {have.end_line()}")
    for name in ("events", "opened", "needs"):
        if getattr(want, name) != getattr(have, name):
            faults.append(f"{name}: model {getattr(want, name)}, code {getattr(have, name)}")
    if want.gates != have.gates:
        pairs = enumerate(zip(want.gates, have.gates))
        place = next((place for place, (one, other) in pairs if one != other), min(len(want.gates), len(have.gates)))
        faults.append(f"gates from {place} on: model {want.gates[place:place + 2]}, code {have.gates[place:place + 2]}")
    return faults


class CodeRuns:
    """Runs of a program and of its code on the same inputs, budgets and lengths."""

    def __init__(self, code: Code, case: Case, source: random.Random):
        self.code, self.case, self.source = code, case, source
        self.program = runnable(case.program.encode())
        self.budget = DEFAULT_BUDGET if case.budget is None else case.budget

    def faults(self) -> list[str]:
        """What some runs show."""
        whole = evaluate(self.program, self.case.inputs, self.budget)
        faults = self.compared(self.case.inputs, self.budget, UNBOUNDED)
        for _ in range(1 if whole.cost > LARGE_COST else RUNS):
            inputs, budget, lengths = self.changed_inputs(), self.budget, list(UNBOUNDED)
            if self.source.random() < 0.5:
                budget = self.source.randint(0, whole.cost)
            if self.source.random() < 0.5:
                lengths = [self.source.randint(0, need) if self.source.random() < 0.4 else need for need in whole.needs]
                lengths[0] = max(lengths[0], dealer_need(inputs) - (self.source.random() < 0.1))
            faults += self.compared(inputs, budget, lengths)
            faults += self.compared_blind(inputs, budget, lengths, len(whole.opened))
        return faults

    def changed_inputs(self) -> list[Input]:
        """The inputs with some other words, seldom without one of them or with one of another kind."""
        chosen = list(self.case.inputs)
        for place, entry in enumerate(chosen):
            if entry.words and self.source.random() < 0.4:
                chosen[place] = replace(entry, words=runs.changed_word(self.source, entry))
        if chosen and self.source.random() < 0.1:
            place = self.source.randrange(len(chosen))
            kind = chosen[place].type
            chosen[place] = replace(chosen[place], type=replace(kind, private=not kind.private))
        return chosen

    def compared(self, inputs: list[Input], budget: int, lengths) -> list[str]:
        want = evaluate(self.program, inputs, budget, lengths)
        return report_faults(want, code_report(self.code, inputs, budget, lengths))

    def compared_blind(self, inputs: list[Input], budget: int, lengths, opened: int) -> list[str]:
        """Likewise by answers, of which there may be too few."""
        answers = [runs.random_word(self.source) for _ in range(max(opened + self.source.choice((0, 0, 3, -1)), 0))]
        blinded = [replace(entry, words=(0,) * len(entry.words)) if entry.type.private else entry for entry in inputs]
        try:
            want = evaluate_blind(self.program, inputs, answers, budget, lengths)
        except OpenedShort:
            want = None
        try:
            have = code_report(self.code, blinded, budget, lengths, answers)
        except OpenedShort:
            have = None
        if want is None or have is None:
            return [] if want is have else ["answers are too few for one alone"]
        return report_faults(want, have)


def code_faults(data: bytes, case: Case, source: random.Random) -> list[str]:
    """What is wrong with the bytes that were written of a case's program."""
    text = case.program.encode()
    try:
        code = decode(data)
    except CodeFault as fault:
        return [f"the code is refused: {fault}"]
    if encode(code) != data:
        return ["the code has other bytes when it is written again"]
    fault = Verifier(code).fault()
    if fault is not None:
        return [f"the code is refused: {fault}"]
    faults = form_faults(code, forms_of(judge(text).program, text))
    try:
        return faults + CodeRuns(code, case, source).faults()
    except (StrayRead, TypeError) as stray:
        return [*faults, f"the code does what no program's does: {stray}"]


def play(case: Case, source: random.Random, folder: Folder):
    """Compiles a case's program, and tries the code."""
    words = ["compile", "p.sc", "--code", "code"]
    folder.put("p.sc", case.program.encode())
    if folder.call(*words).status:
        return
    folder.tally.codes += 1
    faults = code_faults(folder.files["code"], case, source)
    if faults:
        folder.tell(words, folder.files, faults[:8])


def by_hand(source: random.Random, count: int) -> Iterator[Case]:
    """The edges, and each operation, however many they are."""
    return chain(edges.cases(), directed_runs.operations(source))


def at_random(source: random.Random, count: int) -> Iterator[Case]:
    return programs.cases(source, count)


def of_texts(source: random.Random, count: int) -> Iterator[Case]:
    """Texts that may be refused, without inputs: of the accepted ones the form of the code shows."""
    for _ in range(count):
        text = source.choice((random_text, random_graph, random_typed))(f"code {source.getrandbits(64)}")
        yield Case((text.encode() if isinstance(text, str) else text).decode("latin-1"), [], TEXT_BUDGET)
