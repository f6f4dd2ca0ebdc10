"""Which row of the manual is most like the fault of a program: by the tokens around both places, and by the part of the tree that stands there."""
from __future__ import annotations

from functools import lru_cache

from .manual import Row, rows_of
from .reading import lexer, parser, tree

WEIGHTS = {0: (9, 3), -1: (6, 2), 1: (6, 2), -2: (3, 1), 2: (3, 1)}
LEAST = 12
END = "the end of the text"


def offset(text: bytes, place: tuple[int, int]) -> int:
    """The offset of a line and a column, both from 1."""
    lines = text.split(b"\n")
    return sum(len(line) + 1 for line in lines[: place[0] - 1]) + place[1] - 1


def kind_of(character: bytes) -> str:
    """What sort of byte this is."""
    if not character:
        return "end"
    if character.isdigit():
        return "digit"
    if character.isalpha() or character == b"_":
        return "letter"
    return "blank" if character.isspace() else "sign"


def byte_marks(text: bytes, at: int) -> dict[int, tuple[str, str]]:
    """The bytes around a place, exact and by their sort."""
    around = {step: text[at + step : at + step + 1] if at + step >= 0 else b"" for step in (-1, 0, 1)}
    return {step: (one.decode("latin-1"), kind_of(one)) for step, one in around.items()}


def known_tokens(text: bytes, at: int):
    """The tokens of a text, or of what stands before a fault of its tokens."""
    try:
        return lexer.lex(text)
    except lexer.Refused:
        try:
            return lexer.lex(text[:at])
        except lexer.Refused:
            return []


def token_marks(text: bytes, at: int) -> dict[int, tuple[str, str]]:
    """The tokens around a place, exact and by their kind."""
    tokens = known_tokens(text, at)
    here = next((place for place, token in enumerate(tokens) if token.place >= at), len(tokens))
    marks = {}
    for step in WEIGHTS:
        if 0 <= here + step < len(tokens):
            token = tokens[here + step]
            exact = END if token.kind is lexer.Kind.END else token.text
            marks[step] = (exact, token.kind.name if token.kind is not lexer.Kind.WORD else exact)
    return marks


def nodes_at(text: bytes, at: int) -> set[str]:
    """The parts of the tree that begin at a place, by their sort and sign; nothing where there is no tree."""
    try:
        program = parser.parse(lexer.lex(text))
    except lexer.Refused:
        return set()
    found, rest = set(), [function.body for function in program.functions]
    while rest:
        node = rest.pop()
        rest.extend(node.children())
        if node.place == at and not isinstance(node, tree.Evaluate):
            found.add(f"{type(node).__name__} {getattr(node, 'operator', '')}".strip())
    return found


@lru_cache(maxsize=512)
def marks_of(text: bytes, at: int, of_bytes: bool):
    if of_bytes:
        return byte_marks(text, at), set()
    return token_marks(text, at), nodes_at(text, at)


def score(ours, theirs) -> int:
    """How alike two places are."""
    (our_marks, our_nodes), (their_marks, their_nodes) = ours, theirs
    if 0 not in our_marks or our_marks[0][1] != their_marks.get(0, ("", ""))[1]:
        return 0
    points = 2 * len(our_nodes & their_nodes)
    for step, (exact, kind) in our_marks.items():
        if step in their_marks:
            weight, less = WEIGHTS[step]
            same_kind = their_marks[step][1] == kind
            if their_marks[step][0] == exact and same_kind:
                points += weight if kind != "NAME" or len(exact) > 2 else less
            elif same_kind:
                points += less
    return points


def nearest(sign: str, text: bytes, at: int) -> Row | None:
    """The row of what people write that is most like this fault, where one is alike enough."""
    of_bytes = sign.startswith("L")
    ours = marks_of(text, at, of_bytes)
    best, most = None, LEAST - 1
    for row in rows_of(sign):
        if row.kind not in ("what you wrote", "program") or row.place is None:
            continue
        whole = row.whole.encode()
        points = score(ours, marks_of(whole, offset(whole, row.place), of_bytes))
        points += points > 0 and row.kind == "what you wrote"
        if points > most:
            best, most = row, points
    return best
