"""What is known of a refusal of an input file or a public file: I1, I2 and I3, with the place in the text."""
from __future__ import annotations

import re

from .findings import Finding, spot_at
from .manual import form_of, rows_of, sign_of
from .reading import entries, json_text

WORD_END = 1 << 64
SHOWN = 40
LIKE_JSON = re.compile(r"True|False|None|NaN|Infinity|-Infinity|undefined|null")


class PlacedReader(json_text.Reader):
    """A reader that notes where each value begins, by the way to it from the whole."""

    def __init__(self, text: str):
        super().__init__(text)
        self.way: list = []
        self.places: dict[tuple, int] = {}

    def value(self, level: int):
        self.blanks()
        self.places[tuple(self.way)] = self.place
        return super().value(level)

    def array(self, level: int) -> list:
        values: list = []
        self.blanks()
        if self.sees("]"):
            return values
        while True:
            self.way.append(len(values))
            values.append(self.value(level))
            self.way.pop()
            self.blanks()
            if self.sees("]"):
                return values
            self.want(",")

    def object(self, level: int) -> dict:
        values: dict = {}
        self.blanks()
        if self.sees("}"):
            return values
        while True:
            self.blanks()
            self.want('"')
            key = self.string()
            self.blanks()
            self.want(":")
            self.way.append(key)
            values[key] = self.value(level)
            self.way.pop()
            self.blanks()
            if self.sees("}"):
                return values
            self.want(",")


def byte_offset(text: str, place: int) -> int:
    return len(text[:place].encode())


def broken(finding: Finding, path: str, data: bytes):
    """Where a text is no JSON."""
    try:
        text = data.decode()
    except UnicodeDecodeError as fault:
        finding.spot = spot_at(path, data, fault.start)
        finding.note(f"byte {fault.start} is no UTF-8: save the file as UTF-8")
        return
    reader = PlacedReader(text)
    try:
        reader.whole()
        finding.note("this file is good JSON as it stands now")
        return
    except json_text.NoJson:
        pass
    place = reader.place
    finding.spot = spot_at(path, data, byte_offset(text, place))
    finding.note(why_broken(text, place))


def why_broken(text: str, place: int) -> str:
    """What is wrong with JSON at this place, as far as it can be seen."""
    rest, before = text[place:], text[:place].rstrip()
    word = LIKE_JSON.match(rest)
    if text.startswith("\ufeff"):
        return "the file begins with a byte order mark, which an editor wrote: save it as UTF-8 without one"
    if not rest.strip():
        return "the text ends here, with brackets or quotes still open" if text.strip() else "the file is empty"
    if before.endswith(",") and rest[0] in "]}":
        return f"a comma stands before `{rest[0]}`: none stands after the last one"
    if word:
        return f"`{word[0]}` is no JSON: truth values are `true` and `false`, and each element has a value"
    if rest[0] == "'":
        return "strings and names stand in `\"`, not in `'`"
    if rest[0] == "+":
        return "a number has no `+`"
    if before.endswith("0") and rest[0] in "0123456789xX":
        return "a number begins with no 0, and has decimal digits alone"
    if before.endswith(("]", "}", '"')) or before[-1:].isalnum():
        if rest[0] in '"{[' or rest[0].isdigit():
            return f"a comma is missing before `{rest[0]}`"
        return f"`{rest[:1]}` can't follow: a comma, a bracket or the end is missing before it, or it is one too many"
    return f"`{rest[:1]}` can't stand here"


def shown(value) -> str:
    """A value as the file has it, cut where it is long."""
    if isinstance(value, bool):
        return str(value).lower()
    if value is None:
        return "null"
    if isinstance(value, str):
        return f'"{value[:SHOWN]}"'
    if isinstance(value, (list, dict)):
        return "an array" if isinstance(value, list) else "an object"
    return str(value)


def why_no_element(value, data: str) -> str:
    """Why a scalar is no value of a type."""
    if data == "bool":
        return "truth values are `true` and `false`, without quotes"
    if isinstance(value, bool):
        return f"numbers and truth values don't stand in one array, and the type is {data}"
    if isinstance(value, str):
        return "a number has no quotes"
    if data == "int64" and isinstance(value, (int, float)) and abs(value) >= WORD_END // 2:
        return "numbers of the type int64 are from -2^63 to 2^63 - 1"
    if data == "int64" and value == 0:
        return "0 has no sign: write 0"
    if isinstance(value, (int, float)) and value < 0 and data != "int64":
        return 'numbers of the type uint64 are from 0 to 2^64 - 1: those with a sign have the type "int64"'
    if isinstance(value, float) and value >= WORD_END:
        return "numbers are below 2^64"
    if isinstance(value, float):
        return "numbers are whole, written in digits alone: count cents, not euros (`csv_to_input --scale`)"
    return "numbers of this type alone"


def of_field(finding: Finding, path: str, data: bytes, number: int, name: str):
    """What is wrong with a field of an entry."""
    reader = PlacedReader(data.decode())
    whole = reader.whole()
    entry = whole["inputs"][number]
    way = ("inputs", number)
    fields = entry if isinstance(entry, dict) else {}
    title = f"entry {number}" + (f", `{fields['name']}`" if isinstance(fields.get("name"), str) and name != "name" else "")
    value = fields.get(name)
    at = reader.places.get((*way, name), reader.places[way])
    if not isinstance(entry, dict):
        finding.note(f"entry {number} is {shown(entry)}, and an entry is an object in braces")
    elif name not in fields:
        other = "; it has `shape`, as a public file has: give the input file" if name == "value" and "shape" in fields else ""
        finding.note(f"{title} has no field `{name}`{other}")
    elif name == "name":
        finding.note(why_no_name(value, whole["inputs"][:number]))
    elif name in ("domain", "type"):
        wanted = '"public" or "private"' if name == "domain" else '"uint64", "int64" or "bool"'
        finding.note(f"{title} has the {name} {shown(value)}, and in files it is {wanted}")
    elif name == "shape":
        finding.note(f'{title} has the shape {shown(value)}, and it is "scalar" or how many elements there are')
    else:
        at = of_value(finding, title, fields, reader, (*way, name), at)
    finding.spot = spot_at(path, data, byte_offset(reader.text, at))


def why_no_name(value, before) -> str:
    """Why a value is no name of an entry."""
    if not isinstance(value, str):
        return f"the name is {shown(value)}, and it is a string"
    earlier = [place for place, entry in enumerate(before) if isinstance(entry, dict) and entry.get("name") == value]
    if earlier:
        return f"entry {earlier[0]} has the name `{value}` already"
    return f"`{value}` is no name: it has 1 to 64 letters, digits and `_`"


def of_value(finding: Finding, title: str, fields: dict, reader: PlacedReader, way: tuple, at: int) -> int:
    """What is wrong with a value, and where."""
    value, data = fields["value"], fields["type"]
    kind = entries.Data(data)
    scalars = value if isinstance(value, list) else [value]
    bad = [place for place, one in enumerate(scalars) if not entries.is_of(one, kind)]
    if not bad:
        return at
    place = bad[0]
    one = scalars[place]
    where = f"element {place} of {title}" if isinstance(value, list) else title
    more = f"; so are {len(bad) - 1} more elements" if len(bad) > 1 else ""
    finding.note(f"{where} is {shown(one)}: {why_no_element(one, data)}{more}")
    return reader.places.get((*way, place), at) if isinstance(value, list) else at


def facts(line: str, path: str, data: bytes) -> Finding:
    """What the file itself tells of a refusal."""
    finding = Finding(line, means=form_of(line))
    words = line.removeprefix("error: ").split()
    if words == ["I1"]:
        broken(finding, path, data)
    elif words == ["I2", "inputs"]:
        finding.note('the whole is an object with an array of that name: `{"inputs":[..]}`')
        finding.spot = spot_at(path, data, 0)
    elif words[0] == "I2" and len(words) == 4:
        of_field(finding, path, data, int(words[2]), words[3])
    elif words[0] == "I3":
        too_many(finding, path, data, int(words[2]))
    return finding


def too_many(finding: Finding, path: str, data: bytes, number: int):
    """How many elements an entry has."""
    reader = PlacedReader(data.decode())
    entry = reader.whole()["inputs"][number]
    count = len(entry["value"]) if isinstance(entry.get("value"), list) else entry.get("shape")
    finding.note(f"entry {number}, `{entry['name']}`, has {count} elements, and {entries.ELEMENT_LIMIT} is the most: split it into two inputs, and join them by `cat`")
    finding.spot = spot_at(path, data, byte_offset(reader.text, reader.places[("inputs", number)]))


def cause(finding: Finding) -> str:
    """A note without what is of one file alone."""
    text = finding.notes[0].text.split(": ", 1)[-1] if finding.notes else ""
    return re.sub(r"`[^`]*`|\d+|\".*?\"", "", text)


def nearest_entry(ours: Finding):
    """The manual's row of a file with the same mistake, where there is one."""
    for row in rows_of(sign_of(ours.line)):
        if row.kind.startswith("an entry") and row.says.split()[-1] == ours.line.split()[-1]:
            theirs = facts(row.says, "", row.whole.encode())
            if cause(theirs) == cause(ours):
                return row
    return None


def explain(line: str, path: str, data: bytes) -> Finding:
    """All that is known of a refusal of an input file or a public file."""
    if line not in (f"error: {entries.entries_or_fault(data, has_shapes)}" for has_shapes in (False, True)):
        finding = Finding(line, means=form_of(line))
        finding.note("this isn't what is said of the file as it stands now: it may have changed, or it is another one")
        return finding
    finding = facts(line, path, data)
    finding.row = nearest_entry(finding)
    finding.means = finding.row.means if finding.row else finding.means
    return finding
