"""The calls of one case of runs, each on both sides."""
from __future__ import annotations

import random
from dataclasses import replace

import runs
from clear import Input, dealer_need, evaluate
from commands import DEFAULT_BUDGET, Answer, runnable
from comparison import Folder
from directed_runs import Begun, Limited
from files import write_inputs, write_loosely, write_schedule, write_tapes
from gates import INTERACTIVE, MASK
from joint import LINKS
from network import random_delivery
from runs import Case
from verdict import judge

READ = ("--input", "--second", "--tape", "--sim", "--public", "--opened", "--published", "--schedule")
WRITTEN = ("--to", "--views", "--record", "--view")
LARGE_ELEMENTS, LARGE_COST = 20_000, 20_000
TAPE_WORDS = 200_000
WRONG_LINES = ("11\n", "\n", "12 \n", " 12\n", "12\r\n", "012\n", "14\n", "x\n", "1\n", "123\n", "\x00\n", "21", "12\n\n")
WRONG_WORDS = (" ", " 01", " 18446744073709551616", "  1", " x", " +1", "\r", " -1", " True", "\n", "\nopen\topen")


PROGRAM_CALLS = (
    ["eval", "p.sc", "--input", "i.json"],
    ["need", "p.sc", "--input", "i.json"],
    ["run", "p.sc", "--input", "i.json", "--tape", "t"],
    ["map", "1", "p.sc", "--input", "i.json", "--tape", "t", "--sim", "m", "--public", "q", "--opened", "o"],
    ["simulate", "2", "p.sc", "--public", "q", "--opened", "o", "--sim", "m", "--view", "w"],
    ["twin", "3", "p.sc", "--input", "i.json", "--second", "j.json", "--tape", "t", "--to", "u"],
)


def random_seed(source: random.Random) -> str:
    return source.getrandbits(256).to_bytes(32, "big").hex()


def same(folder: Folder, made: str, wanted: str):
    """Tells where two files differ that must be the same by what simulation and twins are."""
    if folder.files.get(made) != folder.files.get(wanted):
        folder.tell([made, wanted], folder.files, ["these files of the model should be the same"])


class CaseCalls:
    """All calls of one case whose program is accepted."""

    def __init__(self, source: random.Random, case: Case, folder: Folder):
        self.source, self.case, self.folder = source, case, folder
        self.budget = DEFAULT_BUDGET if case.budget is None else case.budget
        self.budget_words = [] if case.budget is None else ["--budget", str(case.budget)]
        self.program = runnable(case.program.encode())
        self.whole = evaluate(self.program, case.inputs, self.budget)
        elements = sum(gate.size for gate in self.whole.gates if gate.kind in INTERACTIVE)
        self.large = elements > LARGE_ELEMENTS or self.whole.cost > LARGE_COST

    def go(self):
        """All calls, one after the other."""
        self.folder.put("i.json", self.written_inputs(self.case.inputs))
        self.choose_budget()
        self.choose_tapes()
        self.clear()
        self.folder.call("deal", "--input", "i.json", "--tape", "t", "--to", "share")
        self.runs()
        self.refused_schedules()
        miners = [self.source.randint(1, 3)] if self.large else [1, 2, 3]
        for miner in miners:
            self.simulations(miner)
        self.client_simulations()
        self.second_inputs()
        for miner in miners:
            self.twins(miner)
        self.client_twins()
        self.seeded()
        if self.source.random() < 0.4:
            self.odd_paths()
            self.odd_tapes()

    # What is handed in

    def written_inputs(self, inputs: list[Input]) -> bytes:
        data = write_inputs(inputs)
        return write_loosely(data, self.source) if self.source.random() < 0.2 else data

    def choose_budget(self):
        """Mostly none; else one about the cost."""
        choice = self.source.random()
        cost = self.whole.cost
        if choice < 0.7 or self.case.budget is not None:
            return
        self.budget = self.source.choice((cost, max(cost - 1, 0), self.source.randint(0, cost), self.source.randint(0, cost), MASK))
        self.budget_words = ["--budget", str(self.budget)]

    def choose_tapes(self):
        """Tapes that suffice, are too long, or are too short."""
        report = evaluate(self.program, self.case.inputs, self.budget)
        lengths = list(report.needs)
        lengths[0] = dealer_need(self.case.inputs)
        choice = self.source.random()
        if choice < 0.25:
            self.shorten(lengths)
        elif choice < 0.45:
            lengths = [length + self.source.randint(0, 3) for length in lengths]
        lengths = [min(length, TAPE_WORDS) for length in lengths]
        self.tapes = [runs.random_words(self.source, length) for length in lengths]
        self.folder.put("t", write_tapes(self.tapes))
        self.report = evaluate(self.program, self.case.inputs, self.budget, lengths)

    def shorten(self, lengths: list[int]):
        for party in self.source.sample(range(4), self.source.choice((1, 1, 1, 2, 4))):
            if lengths[party] and (party or self.source.random() < 0.3):
                less = 1 if self.source.random() < 0.6 else self.source.randint(1, lengths[party])
                lengths[party] -= less

    # Calls

    def with_budget(self, *words: str) -> list[str]:
        return [*words, *self.budget_words]

    def clear(self):
        self.folder.call(*self.with_budget("eval", "p.sc", "--input", "i.json"))
        self.folder.call(*self.with_budget("need", "p.sc", "--input", "i.json"))

    def run(self, *words: str, tape: str = "t", given: str = "i.json") -> Answer:
        return self.folder.call(*self.with_budget("run", "p.sc", "--input", given, "--tape", tape, *words))

    def runs(self):
        """The run in three orders of delivery."""
        self.run("--views", "view", "--record", "links")
        self.seed = random_seed(self.source)
        self.run("--shuffle", self.seed, "--views", "shuffled", "--record", "shuffled_links")
        self.schedule = random_delivery(self.report.gates, self.source)
        self.folder.put("s", write_schedule(self.schedule))
        self.run("--schedule", "s", "--views", "listed", "--record", "listed_links")
        if self.source.random() < 0.05:
            self.run("--schedule", "s", "--views", "same", "--record", self.source.choice(("same.1", "same.3", "s")))
        if self.source.random() < 0.1:
            self.run()

    def refused_schedules(self):
        """Runs under schedules that are mostly refused."""
        for _ in range(1 if self.large else 4):
            self.folder.put("wrong", self.wrong_schedule())
            self.run("--schedule", "wrong", "--views", "none", "--record", "none")

    def wrong_schedule(self) -> bytes:
        """A schedule changed at one place, or another one."""
        source, links = self.source, list(self.schedule)
        choice = source.randrange(9)
        place = source.randint(0, len(links))
        if choice == 0:
            links = links[: source.randint(0, len(links))]
        elif choice == 1:
            links.append(source.choice(LINKS))
        elif choice == 2:
            links.insert(place, source.choice(LINKS))
        elif choice == 3 and links:
            links.pop(source.randrange(len(links)))
        elif choice == 4 and links:
            links[source.randrange(len(links))] = source.choice(LINKS)
        elif choice == 5 and links:
            first, second = source.randrange(len(links)), source.randrange(len(links))
            links[first], links[second] = links[second], links[first]
        elif choice == 6:
            links = [source.choice(LINKS) for _ in range(source.randint(1, 12))]
        elif choice == 7 and links:
            links.pop()
        else:
            return self.spoiled_schedule(links)
        return write_schedule(links)

    def spoiled_schedule(self, links: list[int]) -> bytes:
        lines = [str(one) + "\n" for one in links]
        place = self.source.randint(0, len(lines))
        lines.insert(place, self.source.choice(WRONG_LINES))
        if self.source.random() < 0.3:
            self.source.shuffle(lines)
        return "".join(lines).encode()

    def simulations(self, miner: int):
        """A miner's view: what the simulator is given, and what it makes of this in three orders of delivery."""
        words = self.with_budget("map", str(miner), "p.sc", "--input", "i.json", "--tape", "t")
        self.folder.call(*words, "--sim", f"sim{miner}", "--public", "public", "--opened", "opened")
        deliveries = (("view", []), ("shuffled", ["--shuffle", self.seed]), ("listed", ["--schedule", "s"]))
        for name, delivery in self.source.sample(deliveries, 1) if self.large else deliveries:
            self.simulate(miner, f"sim{miner}", "opened", f"made.{miner}", *delivery)
            same(self.folder, f"made.{miner}", f"{name}.{miner}")
        self.other_simulation(miner)
        if self.source.random() < 0.3:
            self.simulate(miner, f"sim{miner}", "opened", "none", "--schedule", "wrong")
            self.folder.put("few", self.opened_text(self.source.randint(0, len(self.report.opened))))
            self.simulate(miner, f"sim{miner}", "few", "none", "--schedule", "wrong")
        if self.source.random() < 0.1:
            self.folder.put("public", write_loosely(self.folder.files["public"], self.source))
            self.simulate(miner, f"sim{miner}", "opened", f"made.{miner}")

    def simulate(self, miner: int, tapes: str, opened: str, view: str, *delivery: str) -> Answer:
        words = ["simulate", str(miner), "p.sc", "--public", "public", "--opened", opened, "--sim", tapes, "--view", view]
        return self.folder.call(*self.with_budget(*words), *delivery)

    def client_simulations(self):
        """The client's view: what the simulator is given, and what it makes of this, and of words of no run."""
        words = self.with_budget("client-map", "p.sc", "--input", "i.json", "--tape", "t", "--sim", "client_sim")
        self.folder.call(*words, "--public", "public", "--opened", "opened", "--published", "published")
        self.client_simulate("client_sim", "opened", "published")
        handed = sum(len(event.words) for event in self.report.handed())
        for name, have in (("few", len(self.report.opened)), ("few_handed", handed)):
            count = max(have + self.source.choice((0, 0, 1, 5, -1, -have)), 0)
            text = self.opened_text(count)
            self.folder.put(name, text if name == "few" else text.replace(b"open", b"publish v"))
        self.client_simulate("client_sim", "few", "few_handed")

    def client_simulate(self, tapes: str, opened: str, published: str) -> Answer:
        words = ["client-simulate", "p.sc", "--public", "public", "--opened", opened, "--published", published, "--sim", tapes]
        return self.folder.call(*self.with_budget(*words), "--view", "client_view")

    def client_twins(self):
        """Tapes on which the second inputs give the client the same view, and the way back."""
        given = ["--input", "i.json", "--second", "j.json", "--tape", "t", "--to", "client_twin"]
        if self.folder.call(*self.with_budget("client-twin", "p.sc", *given)).status:
            return
        given = ["--input", "j.json", "--second", "i.json", "--tape", "client_twin", "--to", "client_back"]
        self.folder.call(*self.with_budget("client-twin", "p.sc", *given))
        same(self.folder, "client_back", "t")
        words = self.with_budget("client-map", "p.sc", "--input", "j.json", "--tape", "client_twin", "--sim", "twin_sim")
        self.folder.call(*words, "--public", "twin_public", "--opened", "twin_opened", "--published", "twin_published")
        for made, wanted in (("twin_sim", "client_sim"), ("twin_opened", "opened"), ("twin_published", "published")):
            same(self.folder, made, wanted)

    def other_simulation(self, miner: int):
        """On tapes and opened words of no run."""
        lengths = [len(tape) for tape in self.tapes]
        if self.source.random() < 0.25:
            self.shorten(lengths)
        self.folder.put("other_sim", write_tapes([runs.random_words(self.source, length) for length in lengths]))
        count = len(self.report.opened) + self.source.choice((0, 0, 0, 1, 5, -1))
        self.folder.put("other_opened", self.opened_text(max(count, 0)))
        delivery = self.source.choice(([], ["--shuffle", random_seed(self.source)], ["--schedule", "s"]))
        self.simulate(miner, "other_sim", "other_opened", "other_view", *delivery)

    def opened_text(self, count: int) -> bytes:
        """An opened file of so many words, seldom a spoiled one."""
        source, lines = self.source, ["open"]
        for _ in range(count):
            shown = source.choice(("true", "false", str(runs.random_word(source)), str(runs.random_word(source))))
            lines[-1] += " " + shown
            if source.random() < 0.2:
                lines.append("open")
        if source.random() < 0.08:
            place = source.randrange(len(lines))
            lines[place] += source.choice(WRONG_WORDS)
        text = "".join(line + "\n" for line in lines)
        return (text[:-1] if source.random() < 0.03 else text).encode()

    def second_inputs(self):
        """Inputs that are alike in public, and open the same words where such are found."""
        lengths = [len(tape) for tape in self.tapes]
        chosen = None
        for _ in range(3 if self.large else 12):
            chosen = self.changed_inputs()
            report = evaluate(self.program, chosen, self.budget, lengths)
            if report.opened == self.report.opened and chosen != self.case.inputs:
                break
        self.second = chosen
        self.folder.put("j.json", self.written_inputs(chosen))
        if self.source.random() < 0.1:
            self.folder.put("k.json", write_inputs(self.other_public()))
            words = ["twin", "2", "p.sc", "--input", "i.json", "--second", "k.json", "--tape", "t", "--to", "none"]
            self.folder.call(*self.with_budget(*words))

    def changed_inputs(self) -> list[Input]:
        private = [place for place, entry in enumerate(self.case.inputs) if entry.type.private and entry.words]
        chosen = list(self.case.inputs)
        if private:
            for place in self.source.sample(private, self.source.choice((1, 1, len(private)))):
                chosen[place] = replace(chosen[place], words=runs.changed_word(self.source, chosen[place]))
        return chosen

    def other_public(self) -> list[Input]:
        """Inputs of another public part, mostly."""
        chosen = list(self.second)
        choice = self.source.randrange(5)
        if choice == 0 and chosen:
            chosen.pop(self.source.randrange(len(chosen)))
        elif choice == 1:
            self.source.shuffle(chosen)
        elif choice == 2 and chosen:
            place = self.source.randrange(len(chosen))
            chosen[place] = replace(chosen[place], name=chosen[place].name[:63] + "_")
        elif choice == 3 and chosen:
            place = self.source.randrange(len(chosen))
            kind = chosen[place].type
            chosen[place] = replace(chosen[place], type=replace(kind, private=not kind.private))
        else:
            chosen.append(runs.random_input(self.source, chosen, self.source.randrange(4)))
        return chosen

    def twins(self, miner: int):
        """Tapes on which the second inputs give the same view, and the way back."""
        words = self.with_budget("twin", str(miner), "p.sc", "--input", "i.json", "--second", "j.json", "--tape", "t", "--to", "twin")
        answer = self.folder.call(*words)
        if answer.status:
            return
        self.run("--views", "twin_view", tape="twin", given="j.json")
        self.run("--views", "twin_listed", "--schedule", "s", tape="twin", given="j.json")
        same(self.folder, f"twin_view.{miner}", f"view.{miner}")
        same(self.folder, f"twin_listed.{miner}", f"listed.{miner}")
        words = self.with_budget("twin", str(miner), "p.sc", "--input", "j.json", "--second", "i.json", "--tape", "twin", "--to", "back")
        self.folder.call(*words)
        same(self.folder, "back", "t")

    def full_calls(self) -> list[list[str]]:
        """A call of each command with all of its files."""
        order = self.source.choice(([], ["--schedule", "s"], ["--shuffle", self.seed]))
        miner = str(self.source.randint(1, 3))
        return [
            ["run", "p.sc", "--input", "i.json", "--tape", "t", "--views", "view", "--record", "links", *order],
            ["map", miner, "p.sc", "--input", "i.json", "--tape", "t", "--sim", f"sim{miner}", "--public", "public", "--opened", "opened"],
            ["simulate", miner, "p.sc", "--public", "public", "--opened", "opened", "--sim", "other_sim", "--view", "none", *order],
            ["twin", miner, "p.sc", "--input", "i.json", "--second", "j.json", "--tape", "t", "--to", "twin"],
            ["deal", "--input", "i.json", "--tape", "t", "--to", "share"],
        ]

    def odd_paths(self):
        """Files that are not there, paths that cannot be written, and paths that are one."""
        for words in self.full_calls():
            kept = dict(self.folder.files)
            written = WRITTEN + (("--sim", "--public", "--opened") if words[0] == "map" else ())
            for _ in range(self.source.choice((1, 1, 2))):
                place = self.source.randrange(2, len(words))
                if words[place - 1] in written:
                    others = [word for before, word in zip(words, words[1:]) if before.startswith("--") and before != "--shuffle"]
                    words[place] = self.source.choice((f"nowhere/{place}", "both", "both", *others))
                elif words[place - 1] in READ or words[place] == "p.sc":
                    words[place] = f"gone{place}"
            self.folder.call(*(words if words[0] == "deal" else self.with_budget(*words)))
            self.folder.reset(kept)

    def odd_tapes(self):
        """Tape files of wrong sizes and lengths."""
        for words in self.full_calls():
            if words[0] == "simulate":
                words[words.index("other_sim")] = "odd"
            else:
                words[words.index("t")] = "odd"
            data = bytearray(self.folder.files["t"])
            choice = self.source.randrange(4)
            if choice == 0:
                del data[self.source.randint(0, len(data)) :]
            elif choice == 1:
                data += bytes(self.source.choice((1, 7, 8, 9)))
            elif choice == 2:
                data[8 * self.source.randrange(4) + self.source.randrange(8)] ^= 1 << self.source.randrange(8)
            else:
                data = bytearray(self.source.randrange(40))
            self.folder.put("odd", bytes(data))
            self.folder.call(*words)

    def seeded(self):
        """A run on tapes that are made of a seed."""
        if self.large or max(self.whole.needs[1:]) > 3000:
            return
        count = self.source.choice((None, max(self.whole.needs), max(self.whole.needs[1:]), max(self.whole.needs) - 1, 0))
        if count is not None and count < 0:
            count = 0
        words = [] if count is None else ["--words", str(count)]
        order = self.source.choice(([], ["--shuffle", self.seed]))
        self.folder.call(*self.with_budget("run", "p.sc", "--input", "i.json", "--seed", random_seed(self.source), *words, *order),
                         "--views", "seeded", "--record", "seeded_links")


def whole_case(case: Case, source: random.Random, folder: Folder):
    """All calls of a case; of a program that is refused, what each command says of it."""
    text = case.program.encode()
    folder.put("p.sc", text)
    folder.call("check", "p.sc")
    folder.call("compile", "p.sc", "--code", "code")
    if judge(text).refusal is None:
        folder.remove("code")
        CaseCalls(source, case, folder).go()
        return
    for words in PROGRAM_CALLS:
        folder.call(*words)


def limited_case(limited: Limited, source: random.Random, folder: Folder):
    """All commands on one budget and four lengths."""
    case, budget = limited.case, [] if limited.case.budget is None else ["--budget", str(limited.case.budget)]
    report = evaluate(runnable(case.program.encode()), case.inputs, DEFAULT_BUDGET if case.budget is None else case.budget)
    lengths = limited.lengths or [dealer_need(case.inputs), *report.needs[1:]]
    lengths = [*lengths[:3], max(lengths[3] - limited.missing, 0)]
    folder.put("p.sc", case.program.encode())
    folder.put("i.json", write_inputs(case.inputs))
    huge = max(lengths) > 500_000
    folder.put("t", write_tapes([[0] * length if huge else runs.random_words(source, length) for length in lengths]))
    folder.call("run", "p.sc", "--input", "i.json", "--tape", "t", "--views", "v", "--record", "r", *budget)
    folder.call("deal", "--input", "i.json", "--tape", "t", "--to", "d")
    folder.call("need", "p.sc", "--input", "i.json", *budget)
    miner = str(source.randint(1, 3))
    folder.call("map", miner, "p.sc", "--input", "i.json", "--tape", "t", "--sim", "m", "--public", "q", "--opened", "o", *budget)
    simulate = ["simulate", miner, "p.sc", "--public", "q", "--sim", "m", "--view", "w", *budget]
    folder.call(*simulate, "--opened", "o")
    same(folder, "w", f"v.{miner}")
    folder.put("short", b"".join(folder.files["o"].splitlines(True)[:-1]))
    folder.call(*simulate, "--opened", "short")


def begun_case(begun: Begun, source: random.Random, folder: Folder):
    """A run under a schedule that goes on with one link."""
    case = begun.case
    needs = evaluate(runnable(case.program.encode()), case.inputs, DEFAULT_BUDGET).needs
    folder.put("p.sc", case.program.encode())
    folder.put("i.json", write_inputs(case.inputs))
    folder.put("t", write_tapes([runs.random_words(source, length) for length in needs]))
    folder.put("s", write_schedule(begun.schedule))
    folder.call("run", "p.sc", "--input", "i.json", "--tape", "t", "--schedule", "s", "--record", "r", "--views", "v")


def workload(number: int, source: random.Random, folder: Folder):
    folder.call("load", "--number", str(number))
