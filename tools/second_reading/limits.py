"""The counts of a program: instances of templates, and sizes of the functions that `main` reaches."""

from checker import Findings, Instance, is_main
from tree import Call, DoWhile, For, Node, Program, While, node_count

INSTANCE_LIMIT = 1_024
WHOLE_LIMIT = 65_535
FUNCTION_LIMIT = 4_095


def in_code_order(node: Node) -> list[Node]:
    """The parts of a node in the order in which its code has them: of a loop the body, the step, the condition."""
    if isinstance(node, While):
        return [node.body, node.condition]
    if isinstance(node, DoWhile):
        return [node.body, node.condition]
    if isinstance(node, For):
        return [part for part in (node.first, node.body, node.step, node.condition) if part is not None]
    return node.children()


def calls_of(node: Node, found: list[Call]) -> None:
    """All calls below a node in the code's order, arguments before their call."""
    for part in in_code_order(node):
        calls_of(part, found)
    if isinstance(node, Call):
        found.append(node)


def reached(program: Program, findings: Findings) -> list[Instance]:
    """`main` and the instances that calls reach from it, in the order first called."""
    first = next(number for number, function in enumerate(program.functions) if is_main(function))
    order = [Instance(first, ())]
    seen = set(order)
    for instance in order:
        calls: list[Call] = []
        calls_of(program.functions[instance.number].body, calls)
        for call in calls:
            callee = findings.calls[instance].get(call)
            if callee is not None and callee not in seen:
                seen.add(callee)
                order.append(callee)
    return order


def function_size(program: Program, number: int) -> int:
    """Nodes, the function's own among them, and parameters."""
    function = program.functions[number]
    return 1 + node_count(function.body) + len(function.parameters)


def limit_fault(program: Program, findings: Findings) -> tuple[str, int] | None:
    """The first limit that an accepted program passes, with the count."""
    order = reached(program, findings)
    instances = sum(1 for instance in order if program.functions[instance.number].variables)
    if instances > INSTANCE_LIMIT:
        return "X1", instances
    size_of = {number: function_size(program, number) for number in {instance.number for instance in order}}
    sizes = [size_of[instance.number] for instance in order]
    if sum(sizes) > WHOLE_LIMIT:
        return "X2", sum(sizes)
    for size in sizes:
        if size > FUNCTION_LIMIT:
            return "X3", size
    return None
