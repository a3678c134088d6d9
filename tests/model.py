"""A second dfviews, written apart from the first, and small: what the program prints of a document.

It knows each step, expression and aggregate, and computes every view anew with Python's own lists and numbers. Of CSV it
knows what tests write: whole lines, with quotes as Python's own reader takes them (siege.py has the records of its own
files). A table is a dict of columns,
each a type and its cells; null is None, a mean a pair of a sum and a count. Python 3.11 or later, its own library alone
(tomllib is TOML 1.0; the documents of the tests have nothing that TOML 1.1 reads otherwise).
"""

import csv
import io
import re
import tomllib
import unicodedata

RECORDS_OF_CHUNK = 1000


class Fault(Exception):
    """A fault, by its text."""


def tree_of(document):
    try:
        tree = tomllib.loads(document.decode())
    except ValueError:  # no TOML, or no UTF-8
        raise Fault("V1") from None
    for place, frame in enumerate(tree.get("frame", [])):
        if set(frame) not in ({"name", "columns", "path"}, {"name", "columns", "text"}):
            raise Fault(f"V2 frame {place}")
    for place, view in enumerate(tree.get("view", [])):
        if set(view) not in ({"name", "from"}, {"name", "from", "steps"}):
            raise Fault(f"V2 view {place}")
    return tree


# Frames.


def records_of(frame, text):
    """The records' fields in the order of the frame's columns."""
    try:
        lines = [fields for fields in csv.reader(io.StringIO(text.decode())) if fields]
    except UnicodeDecodeError:
        raise Fault(f"{frame['name']}: F3") from None
    header = lines[0] if lines else []
    for name, _ in frame["columns"]:
        if header.count(name) > 1:
            raise Fault(f"{frame['name']}: F6 {name}")
    for name, _ in frame["columns"]:
        if name not in header:
            raise Fault(f"{frame['name']}: F5 {name}")
    for number, fields in enumerate(lines[1:], 1):
        if len(fields) != len(header):
            raise Fault(f"{frame['name']}: F4 {number}")
    places = [header.index(name) for name, _ in frame["columns"]]
    return [[fields[place] for place in places] for fields in lines[1:]]


def cell_of(kind, field):
    if field == "":
        return None
    if kind == "Text":
        return field
    if kind == "Bool" and field.lower() in ("true", "false"):
        return field.lower() == "true"
    if kind == "Int" and re.fullmatch("[+-]?[0-9]+", field) and -(2**63) <= int(field) < 2**63:
        return int(field)
    raise ValueError(field)


def loaded(frame, records, size=RECORDS_OF_CHUNK):
    """The table of a frame's records, which come in chunks of a size, and the lines of the chunks that are refused."""
    rows, refused = [], []
    for first in range(0, len(records), size):
        chunk = []
        try:
            for number, fields in enumerate(records[first : first + size], first + 1):
                row = []
                for (name, kind), field in zip(frame["columns"], fields):
                    row.append(cell_of(kind, field))
                chunk.append(row)
            rows += chunk
        except ValueError:
            refused.append(f"refused {escaped(frame['name'])} {first}: record {number}, column {escaped(name)}\n")
    table = {name: (kind, [row[n] for row in rows]) for n, (name, kind) in enumerate(frame["columns"])}
    return table, refused


# Expressions.


def wrapped(number):
    return (number + 2**63) % 2**64 - 2**63


def conjunction(a, b):
    return False if False in (a, b) else None if None in (a, b) else True


def strict(operation):
    """The operation where both operands are there, else null."""
    return lambda a, b: None if a is None or b is None else operation(a, b)


# Python compares texts by code points, which is the order of their UTF-8 bytes.
OPERATIONS = {
    "+": strict(lambda a, b: wrapped(a + b)),
    "-": strict(lambda a, b: wrapped(a - b)),
    "*": strict(lambda a, b: wrapped(a * b)),
    "==": strict(lambda a, b: a == b),
    "!=": strict(lambda a, b: a != b),
    "<": strict(lambda a, b: a < b),
    "<=": strict(lambda a, b: a <= b),
    ">": strict(lambda a, b: a > b),
    ">=": strict(lambda a, b: a >= b),
    "eq_missing": lambda a, b: a == b,
    "fill_null": lambda a, b: b if a is None else a,
    "&": conjunction,
    "|": lambda a, b: negation(conjunction(negation(a), negation(b))),
    "~": lambda a: negation(a),
    "is_null": lambda a: a is None,
    "is_not_null": lambda a: a is not None,
}


def negation(a):
    return None if a is None else not a


def column_of(table, expression):
    """The type and the cells of an expression."""
    rows = height(table)
    if not isinstance(expression, list):
        return {bool: "Bool", int: "Int", str: "Text"}[type(expression)], [expression] * rows
    word, *operands = expression
    if word == "col":
        return table[operands[0]]
    if word == "null":
        return operands[0], [None] * rows
    columns = [column_of(table, operand) for operand in operands]
    kind = {"+": "Int", "-": "Int", "*": "Int", "fill_null": columns[0][0]}.get(word, "Bool")
    return kind, [OPERATIONS[word](*cells) for cells in zip(*(cells for _, cells in columns))]


# Steps.


def height(table):
    return len(next(iter(table.values()))[1])


def taken(table, rows):
    return {name: (kind, [None if n is None else cells[n] for n in rows]) for name, (kind, cells) in table.items()}


def filtered(table, predicate):
    return taken(table, [n for n, holds in enumerate(column_of(table, predicate)[1]) if holds])


def selected(table, *items):
    return {name: column_of(table, expression) for name, expression in items}


def with_columns(table, *items):
    return table | {name: column_of(table, expression) for name, expression in items}


def mean_of(cells):
    return (sum(cells), len(cells)) if cells else None


def aggregate(table, groups, word, column=None):
    """The type and the cells of an aggregate over groups of rows."""
    if word == "len":
        return "Int", [len(rows) for rows in groups]
    kind, cells = table[column]
    every = [[cells[n] for n in rows] for rows in groups]
    known = [[cell for cell in group if cell is not None] for group in every]
    kind = {"count": "Int", "n_unique": "Int", "sum": "Wide", "mean": "Frac"}.get(word, kind)
    if word in ("first", "last"):
        return kind, [group[{"first": 0, "last": -1}[word]] for group in every]
    if word in ("min", "max"):
        return kind, [{"min": min, "max": max}[word](group, default=None) for group in known]
    if word == "n_unique":
        return kind, [len(set(group)) for group in every]
    return kind, [{"count": len, "sum": sum, "mean": mean_of}[word](group) for group in known]


def grouped(table, keys, *aggregates):
    groups = {}
    for n in range(height(table)):
        groups.setdefault(tuple(table[key][1][n] for key in keys), []).append(n)
    rows = list(groups.values())
    result = taken({key: table[key] for key in keys}, [group[0] for group in rows])
    return result | {output: aggregate(table, rows, *words) for output, *words in aggregates}


def joined(table, kind, keys, right, nulls_equal=None):
    places = {}
    for m in range(height(right)):
        places.setdefault(tuple(right[key][1][m] for key in keys), []).append(m)
    pairs = []
    for n in range(height(table)):
        key = tuple(table[key][1][n] for key in keys)
        matches = places.get(key, []) if nulls_equal or None not in key else []
        pairs += [(n, m) for m in matches or ([None] if kind == "left" else [])]
    rest = {name: column for name, column in right.items() if name not in keys}
    rest = {f"{name}_right" if name in table else name: column for name, column in rest.items()}
    return taken(table, [n for n, _ in pairs]) | taken(rest, [m for _, m in pairs])


def rolled(table, word, output, column, window, wanted=None):
    value = {"rolling_sum": sum, "rolling_min": min, "rolling_max": max}[word]
    cells = table[column][1]
    results = []
    for n in range(len(cells)):
        seen = [cell for cell in cells[max(0, n + 1 - window) : n + 1] if cell is not None]
        results.append(value(seen) if len(seen) >= (wanted or window) else None)
    return table | {output: ("Wide" if value is sum else "Int", results)}


def summed_up(table, output, column):
    sums, total = [], 0
    for cell in table[column][1]:
        total += cell or 0
        sums.append(None if cell is None else total)
    return table | {output: ("Wide", sums)}


def ranked(table, output, kind, column):
    cells = table[column][1]
    order = sorted(cell for cell in cells if cell is not None)
    order = {"dense": sorted(set(order)), "min": order}[kind]
    places = {}
    for place, cell in enumerate(order, 1):
        places.setdefault(cell, place)
    return table | {output: ("Int", [places.get(cell) for cell in cells])}


def right_side(side, frames):
    """The right side of a join: a frame's name, or a name with steps, as a table of TOML or a pair."""
    if isinstance(side, str):
        return frames[side]
    start, steps = side if isinstance(side, tuple) else (side["from"], side.get("steps", []))
    return viewed(start, steps, frames)


def stepped(table, step, frames):
    word, *items = step
    if word == "join":
        return joined(table, items[0], items[1], right_side(items[2], frames), *items[3:])
    if word.startswith("rolling_"):
        return rolled(table, word, *items)
    steps = {"filter": filtered, "select": selected, "with_columns": with_columns, "group_by": grouped, "cum_sum": summed_up, "rank": ranked}
    return steps[word](table, *items)


def viewed(start, steps, frames):
    """The table of a view over these frames."""
    table = frames[start]
    for step in steps:
        table = stepped(table, step, frames)
    return table


# The output.


def escaped(text):
    return "".join(f"\\x{ord(c):02x}" if c < " " or c == "\x7f" else "\\\\" if c == "\\" else c for c in text)


def width(text):
    return sum(2 if unicodedata.east_asian_width(c) in "WF" else 1 for c in text)


def shown(cell):
    if isinstance(cell, tuple):
        return f"{cell[0]}/{cell[1]}"
    if isinstance(cell, str):
        return escaped(cell)
    return {None: "null", True: "true", False: "false"}[cell] if cell is None or isinstance(cell, bool) else str(cell)


def printed(name, table):
    columns = []
    for header, (kind, cells) in table.items():
        texts = [escaped(header)] + [shown(cell) for cell in cells]
        widest = max(map(width, texts))
        fills = [" " * (widest - width(text)) for text in texts]
        columns.append([text + fill if kind == "Text" else fill + text for text, fill in zip(texts, fills)])
    lines = [f"{escaped(name)} ({height(table)} x {len(table)})"] + ["  ".join(line) for line in zip(*columns)]
    return "".join(line + "\n" for line in lines)


def output(tables, refused):
    """What is printed of the tables of views, each behind its name, and of the lines of refused chunks."""
    parts = [printed(name, table) for name, table in tables]
    return "\n".join(parts + ["".join(refused)] * bool(refused))


def answer(document, file_of):
    """Status, standard output and standard error for a document; file_of gives a path's bytes."""
    try:
        tree = tree_of(document)
        frames, refused = {}, []
        for frame in tree.get("frame", []):
            text = frame["text"].encode() if "text" in frame else file_of(frame["path"])
            frames[frame["name"]], lines = loaded(frame, records_of(frame, text))
            refused += lines
    except Fault as fault:
        return 2, b"", f"dfviews: {fault}\n".encode()
    tables = [(view["name"], viewed(view["from"], view.get("steps", []), frames)) for view in tree.get("view", [])]
    return (1 if refused else 0), output(tables, refused).encode(), b""
