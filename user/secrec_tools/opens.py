"""What a program opens, told before it is run: each `declassify` and each `publish` of a private value that can be reached from `main`, in each instance of
its function, and whether what is opened there may decide what the miners do next."""
from __future__ import annotations

from collections import deque
from dataclasses import dataclass
from functools import lru_cache

from .findings import spot_at
from .reading import checker, clear, limits, tree, verdict

LOOPS = (tree.While, tree.DoWhile, tree.For)
DIVISIONS = ("/", "%")
CUTTING = ("&&", "||")
CONDITION, LEFT_SIDE = "the condition of ", "the left side of "
ASSERTION, SIZE, INDEX, DIVISOR = "an assertion", "the size of an array", "an index", "a divisor"
USES = (CONDITION, LEFT_SIDE, ASSERTION, SIZE, INDEX, DIVISOR)


@dataclass(eq=False)
class Reached:
    """An instance of a function: by which call of which instance it is reached first, and whether a loop may reach it again."""

    instance: checker.Instance
    function: tree.Function
    caller: Reached | None = None
    call: tree.Call | None = None
    again: bool = False


@dataclass
class Use:
    """Where a value decides the course: what it is there, and the part of the program."""

    what: str
    node: tree.Node


@dataclass
class Site:
    """A place that opens or hands over a private value: in which instance, the value's type, whether a loop may come here again, and what it decides."""

    reached: Reached
    node: tree.Node
    type: checker.Type
    again: bool
    use: Use | None = None

    def opens(self) -> bool:
        """Whether all miners learn the value; else only who joins their texts does."""
        return isinstance(self.node, tree.Declassify)


class Typed(checker.BodyChecker):
    """The checker, which keeps the type of each expression."""

    def __init__(self, program, names, findings, instance):
        super().__init__(program, names, findings, instance)
        self.types: dict[tree.Node, checker.Typing] = {}

    def typing(self, expression):
        found = super().typing(expression)
        self.types[expression] = found
        return found


def typed_instances(program: tree.Program):
    """The types of all expressions in each instance, and what its calls reach."""
    findings, types = checker.Findings(), {}
    names = checker.Names(program, findings)
    for number, function in enumerate(program.functions):
        if not function.variables:
            findings.reach(checker.Instance(number, ()))
    while findings.waiting:
        body = Typed(program, names, findings, findings.waiting.pop())
        body.check()
        types[body.instance] = body.types
    return types, findings


def calls_in(node: tree.Node, in_loop: bool = False):
    """The calls of a body, with whether a loop holds them."""
    rest = [(node, in_loop)]
    while rest:
        part, again = rest.pop()
        again = again or isinstance(part, LOOPS)
        if isinstance(part, tree.Call):
            yield part, again
        rest.extend((child, again) for child in part.children())


def all_reached(program: tree.Program, findings) -> dict[checker.Instance, Reached]:
    """The instances that `main` reaches, in the order in which they are."""
    found = {one: Reached(one, program.functions[one.number]) for one in limits.reached(program, findings)}
    for one in found.values():
        for call, _ in calls_in(one.function.body):
            callee = found.get(findings.calls[one.instance].get(call))
            if callee is not None and callee.call is None:
                callee.caller, callee.call = one, call
    mark_again(found, findings)
    return found


def mark_again(found: dict[checker.Instance, Reached], findings):
    """Marks the instances that a loop calls, and those that these call."""
    calls = {one: [(findings.calls[one.instance].get(call), again) for call, again in calls_in(one.function.body)] for one in found.values()}
    rest = [found[callee] for inner in calls.values() for callee, again in inner if again and callee is not None]
    while rest:
        one = rest.pop()
        if not one.again:
            one.again = True
            rest.extend(found[callee] for callee, _ in calls[one] if callee is not None)


class Flow:
    """Where the words of values go, as a graph: from the parts of an expression to the whole, from there to variables, parameters and results; and the uses
    that decide the course. A part of the graph is a pair of an instance and a node of its tree, a variable's declaration, or None for its result."""

    def __init__(self, found: dict[checker.Instance, Reached], types, findings):
        self.found, self.types, self.findings = found, types, findings
        self.sources: dict[tuple, list[tuple]] = {}
        self.uses: list[tuple[tuple, Use]] = []
        self.sites: list[Site] = []
        for reached in found.values():
            Walk(self, reached).function()

    def flows(self, source: tuple, target: tuple):
        self.sources.setdefault(target, []).append(source)

    def decided(self) -> dict[tuple, Use]:
        """For each part whose words may decide the course a use of them: of the sort that comes first in USES, the nearest."""
        found: dict[tuple, Use] = {}
        for sort in USES:
            self.reach([one for one in self.uses if one[1].what.startswith(sort)], found)
        return found

    def reach(self, uses: list[tuple[tuple, Use]], found: dict[tuple, Use]):
        """Adds the parts that lead to these uses and to none before."""
        rest = deque()
        for part, use in uses:
            if part not in found:
                found[part] = use
                rest.append(part)
        while rest:
            part = rest.popleft()
            for source in self.sources.get(part, ()):
                if source not in found:
                    found[source] = found[part]
                    rest.append(source)


class Walk:
    """Goes through one instance and tells the flow what it finds."""

    def __init__(self, flow: Flow, reached: Reached):
        self.flow, self.reached, self.me = flow, reached, reached.instance
        self.types = flow.types[self.me]
        self.scopes: list[dict[str, object]] = [{parameter.name.text: parameter for parameter in reached.function.parameters}]
        self.loops = int(reached.again)

    def function(self):
        for statement in self.reached.function.body.statements:
            self.statement(statement)

    def variable(self, name: str) -> tuple:
        return self.me, next(scope[name] for scope in reversed(self.scopes) if name in scope)

    def decides(self, node: tree.Node | None, what: str):
        """The value of this part decides the course."""
        if node is not None:
            self.expression(node)
            self.flow.uses.append(((self.me, node), Use(what, node)))

    def inner(self, *statements):
        """Statements in a block of their own."""
        self.scopes.append({})
        for statement in statements:
            self.statement(statement)
        self.scopes.pop()

    def statement(self, node):
        match node:
            case tree.Block():
                self.inner(*node.statements)
            case tree.If():
                self.decides(node.condition, f"{CONDITION}an `if`")
                self.inner(node.then)
                if node.otherwise is not None:
                    self.inner(node.otherwise)
            case tree.While() | tree.DoWhile() | tree.For():
                self.loop(node)
            case tree.Assert():
                self.decides(node.condition, ASSERTION)
            case tree.Return() if node.value is not None:
                self.into(node.value, (self.me, None))
            case tree.Declare():
                self.declaration(node)
            case tree.Assign():
                self.assignment(node)
            case tree.Evaluate():
                self.expression(node.value)

    def loop(self, node):
        """A loop; what a `for` declares ends with it."""
        self.scopes.append({})
        self.loops += 1
        if isinstance(node, tree.For) and node.first is not None:
            self.statement(node.first)
        self.decides(node.condition, f"{CONDITION}a loop")
        self.inner(node.body)
        if isinstance(node, tree.For) and isinstance(node.step, tree.Assign):
            self.assignment(node.step)
        elif isinstance(node, tree.For) and node.step is not None:
            self.expression(node.step)
        self.loops -= 1
        self.scopes.pop()

    def declaration(self, node: tree.Declare):
        self.decides(node.size, SIZE)
        if node.value is not None and not isinstance(node.value, tree.Argument):
            self.into(node.value, (self.me, node))
        self.scopes[-1][node.name.text] = node

    def assignment(self, node: tree.Assign):
        target = self.variable(node.target.name)
        self.decides(node.target.index, INDEX)
        self.into(node.value, target)

    def into(self, node: tree.Node, target: tuple):
        """The words of an expression go to a variable, a parameter or a result."""
        self.expression(node)
        self.flow.flows((self.me, node), target)

    def expression(self, node: tree.Node):
        """What goes into an expression."""
        whole = (self.me, node)
        match node:
            case tree.Variable():
                self.flow.flows(self.variable(node.name), whole)
            case tree.Parentheses() | tree.Flip() | tree.Cast() | tree.Declassify() | tree.Publish():
                self.into(node.inner, whole)
                self.opening(node)
            case tree.Index():
                self.into(node.array, whole)
                self.decides(node.index, INDEX)
            case tree.Binary():
                self.binary(node, whole)
            case tree.Call():
                self.call(node, whole)

    def opening(self, node):
        """Notes the place where a private value is opened or handed over."""
        if isinstance(node, (tree.Declassify, tree.Publish)) and self.types[node.inner].private:
            self.flow.sites.append(Site(self.reached, node, self.types[node.inner], self.loops > 0))

    def binary(self, node: tree.Binary, whole: tuple):
        self.into(node.left, whole)
        self.into(node.right, whole)
        left, right = self.types[node.left], self.types[node.right]
        if node.operator in DIVISIONS:
            self.flow.uses.append(((self.me, node.right), Use(DIVISOR, node.right)))
        if node.operator in CUTTING and not left.private and left.dimension == 0 and right.dimension == 0:
            self.flow.uses.append(((self.me, node.left), Use(f"{LEFT_SIDE}`{node.operator}`", node.left)))

    def call(self, node: tree.Call, whole: tuple):
        """Of a function of the program the arguments go to its parameters, and its result comes back. A size isn't made of an array's words."""
        callee = self.flow.findings.calls[self.me].get(node)
        for number, argument in enumerate(node.arguments):
            if callee is not None:
                self.into(argument, (callee, self.flow.found[callee].function.parameters[number]))
            elif node.name == "size":
                self.expression(argument)
            else:
                self.into(argument, whole)
        if callee is not None:
            self.flow.flows((callee, None), whole)


@lru_cache(maxsize=4)
def sites(text: bytes) -> tuple[Site, ...]:
    """The places of an accepted program that open or hand over private values, in the order of the text."""
    program = verdict.judge(text).program
    types, findings = typed_instances(program)
    flow = Flow(all_reached(program, findings), types, findings)
    decided = flow.decided()
    for site in flow.sites:
        site.use = decided.get((site.reached.instance, site.node)) if site.opens() else None
    return tuple(sorted(flow.sites, key=lambda one: (one.node.place, one.reached.instance.number, one.reached.instance.binding)))


def steering(text: bytes) -> list[Site]:
    """The places whose opened values decide what the miners do next."""
    return [site for site in sites(text) if site.use is not None]


def type_of(site: Site) -> str:
    return f"{site.type.domain} {site.type.data.value}{'[[1]]' if site.type.dimension else ''}"


def binding_of(reached: Reached) -> dict[str, str]:
    """What the domain variables of an instance stand for."""
    return {variable.name.text: domain for variable, domain in zip(reached.function.variables, reached.instance.binding)}


def line_of(text: bytes, node: tree.Node) -> int:
    return text.count(b"\n", 0, node.place) + 1


def way_to(reached: Reached, text: bytes) -> str:
    """In which instance a place stands, and how that is reached."""
    name, bound = reached.function.name.text, binding_of(reached)
    shown = f"in `{name}`" + (" with " + ", ".join(f"{variable} = {domain}" for variable, domain in bound.items()) if bound else "")
    while reached.caller is not None:
        shown += f", called in line {line_of(text, reached.call)}"
        reached = reached.caller
        shown += f" by `{reached.function.name.text}`" if reached.caller is not None else ""
    return shown


def sentence(site: Site, path: str, text: bytes) -> str:
    """What is told of a place."""
    word = "declassify" if site.opens() else "publish"
    spot = spot_at(path, text, site.node.place, len(word))
    often = ", as often as a loop comes here" if site.again else ""
    if site.opens():
        head = f"all three miners learn a value of type `{type_of(site)}`{often}"
        course = f"it steers the course: it reaches {site.use.what} in line {line_of(text, site.use.node)}" if site.use else "it steers nothing"
        more = [f"    {course}"]
    else:
        head = f"who joins the miners' texts learns `{site.node.name}`, of type `{type_of(site)}`, and no miner does{often}"
        more = []
    where = [f"    {way_to(site.reached, text)}"] if site.reached.caller is not None or site.reached.function.variables else []
    return "\n".join([f"{path}, line {spot.line}, column {spot.column}: {head}", *spot.shown(), *where, *more])


def places(count: int) -> str:
    return f"{count} place" if count == 1 else f"{count} places"


def summary(found) -> str:
    """How many places there are of each sort."""
    opened = [site for site in found if site.opens()]
    steer = sum(site.use is not None for site in opened)
    handed = len(found) - len(opened)
    first = "nothing is opened"
    if opened:
        first = f"private values are opened to all three miners at {places(len(opened))}, and steer the course at {steer or 'none'}"
    return first + (f"; private results go to the reader alone at {places(handed)}" if handed else "; no private result is published")


def told(path: str, text: bytes) -> str:
    """All that is told of what an accepted program opens."""
    found = sites(text)
    return "\n".join([summary(found), *(sentence(site, path, text) for site in found)]) + "\n"


def fields(site: Site, text: bytes) -> dict:
    """The same for a program: places from 1, columns in bytes."""
    spot = spot_at("", text, site.node.place)
    found = {"line": spot.line, "column": spot.column, "opens": site.opens(), "type": type_of(site), "loop": site.again}
    found |= {"function": site.reached.function.name.text, "binding": binding_of(site.reached)}
    found |= {} if site.opens() else {"name": site.node.name}
    use = None if site.use is None else {"what": site.use.what, "line": line_of(text, site.use.node)}
    return found | {"steers": use}
