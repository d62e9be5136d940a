"""Hints on a run that stopped: the source line, why it stops there, and which cells may be meant."""
from front import flow, grammar, grid
from front.input_hints import OTHER_SEPARATORS, has_other_separators
from front.program_hints import CHANGED, shown_line
from front.screen import code, short
from front.wording import counted, listed

CAUSES = {
    "kind": "a value here isn't of the kind that is asked for",
    "overflow": "a result doesn't fit into 64 bits: numbers go from -9223372036854775808 to 9223372036854775807",
    "divzero": "something is divided by zero here; an if before it can ask whether the divisor is zero",
    "range": "a cell is named here that the grid doesn't have",
    "depth": "calls are nested too deep here (level 300 or more): go through rows by halves, not one after the other",
}
# kind: one of it, and more
ASKED = {
    "int": ("a number", "numbers"),
    "bool": ("true or false", "true or false"),
    "text": ("a text", "texts"),
    "reference": ("a reference (such as cell(..) or rows())", "references (such as cell(..) or rows())"),
    "pair": ("a pair", "pairs"),
}
MOST_CELLS = 3


def fault(source, kind, line, cells, is_edited=False):
    """Hints on 'fault KIND line L'. `cells` is the grid, or None where it isn't known."""
    lines = shown_line(source, line) + [CAUSES.get(kind, "the run stopped here")]
    try:
        functions = grammar.functions_of(source.data)
    except (grammar.Fault, RecursionError):
        return lines + [CHANGED]
    if line not in flow.lines_with_statements(functions):
        return lines + [CHANGED]
    if kind in DETAILS and (cells is not None or kind != "range"):
        lines.extend(DETAILS[kind](flow.Flow(functions), line, grid.Grid([]) if cells is None else cells))
        if is_edited and cells is not None:
            lines.append("only the cells of the file were looked at, and not what the script has set")
    return lines


def matching(cells, places, is_hit):
    """The rows and columns of cells that these places may name and that are a hit, in the grid's order."""
    rows_of = {}
    for row, column in places:
        rows_of.setdefault(column, set()).add(row)
    hits = []
    for row, fields in enumerate(cells.cells):
        for column, field in enumerate(fields):
            rows = rows_of.get(column, set()) | rows_of.get(flow.ANY, set())
            if (row in rows or flow.ANY in rows) and is_hit(field):
                hits.append((row, column))
    return hits


def told(cells, hits):
    """The first cells, with their content."""
    lines = [f"  row {row}, column {column}: {content(cells.cells[row][column])}" for row, column in hits[:MOST_CELLS]]
    return lines + ([f"  and {len(hits) - MOST_CELLS:,} more"] if len(hits) > MOST_CELLS else [])


def content(field):
    """A field, and why it is no number where it looks like one."""
    if field is None:
        return "nil, an empty cell"
    if grid.is_int(field):
        return field.decode()
    why = why_no_number(field)
    return f'"{short(field)}"' + (f", {why}" if why else "")


def why_no_number(field):
    """Why a field is no number, where it looks like one."""
    bare = field.strip()
    digits = bare.lstrip(b"+-")
    if not bare:
        return "blanks" if field else "the empty text"
    if grid.is_int(bare):
        return "a number with blanks around it"
    if grid.is_fraction(bare):
        return f"{'a number with a comma' if b',' in bare else 'a fraction'}, and numbers are whole"
    if not digits.isdigit():
        return ""
    if bare[:1] == b"+":
        return "a number with a plus before it"
    return "a number with zeros before it" if digits[:1] == b"0" else "a number of more than 64 bits"


def kind_details(run, line, cells):
    """Which operand can be of another kind, and which cells hold such values."""
    lines, hits, named = [], [], {}
    for asked, operand, value in run.asked_at(line):
        literal = literal_kind(operand)
        if literal and literal != asked:
            lines.append(f"{short(operand.text)} stands where {ASKED[asked][0]} is asked for")
        found = matching(cells, value.cells, lambda field: is_other_kind(asked, field)) if value.cells else []
        if found:
            named.setdefault(asked, []).append(short(operand.text) if operand.sort == "name" else "a value")
            hits.extend(it for it in found if it not in hits)
    if not hits:
        return lines
    for asked, names in named.items():
        names = list(dict.fromkeys(names))
        lines.append(f"{listed(names)} {'has' if len(names) == 1 else 'have'} to be {ASKED[asked][len(names) > 1]} here")
    hits.sort()
    lines.append("the wrong value may come from these cells (rows and columns count from 0):")
    return lines + told(cells, hits) + header_note(cells, hits) + fraction_note(cells, hits)


def is_other_kind(asked, field):
    """Whether a cell's content is of another kind than is asked for; no cell holds true, a reference or a pair."""
    if asked == "int":
        return field is None or not grid.is_int(field)
    return asked != "text" or field is None or grid.is_int(field)


def literal_kind(operand):
    """The kind of what is written out in the program."""
    if operand.sort in ("int", "text"):
        return operand.sort
    if operand.sort == "constant":
        return {"true": "bool", "false": "bool", "nil": "nil"}.get(operand.text, "int")
    return {"cell": "reference", "rows()": "reference"}.get(operand.sort)


def header_note(cells, hits):
    """That the first row looks like a header, where it does."""
    row, column = hits[0]
    if row > 0 or cells.rows < 2 or any(not it or grid.is_int(it) for it in cells.cells[0]):
        return []
    below = cells.cells[1][column]
    if below is None or not grid.is_int(below):
        return []
    return ["row 0 looks like a header, and psac takes every row as data; psac-table takes a header off"]


def fraction_note(cells, hits):
    """How a column of fractions is made whole, where there is one."""
    for row, column in hits:
        field = cells.cells[row][column]
        if field is not None and grid.is_fraction(field):
            return [code(f"psac-table --scale {column}=1") + f" turns column {column} of a table into tenths"]
    return []


def divzero_details(run, line, cells):
    """Which divisor it can be, and which cells hold a zero."""
    lines, hits = [], []
    for statement, scope in run.at_line[line].values():
        for it in statement.expressions():
            if it.sort != "operator" or it.text not in ("/", "%"):
                continue
            divisor = it.parts[1]
            if divisor.sort in ("name", "int", "constant"):
                lines.append(f"{short(divisor.text)} is a divisor here")
            places = run.value_of(divisor, scope).cells
            hits.extend(it for it in matching(cells, places, lambda field: field == b"0") if it not in hits)
    if hits:
        lines.append("the zero may come from these cells (rows and columns count from 0):")
        lines.extend(told(cells, sorted(hits)))
    return list(dict.fromkeys(lines))


def range_details(run, line, cells):
    """What the grid has, and which cells of the line it hasn't."""
    room = f", with room for {counted(cells.room, 'row')} (option --rows)" if cells.room > cells.had_rows else ""
    size = f"{counted(cells.had_rows, 'row')} and {counted(cells.cols, 'column')}"
    lines = [f"the input has {size}{room}; rows and columns count from 0"]
    lines.extend(missing(run, line, cells)[:MOST_CELLS])
    if cells.rows and has_other_separators(cells.cells[0]):
        lines.append(OTHER_SEPARATORS)
    return lines


def missing(run, line, cells):
    """The rows and columns that the line names and that the grid hasn't."""
    found = []
    for statement, scope in run.at_line[line].values():
        for it in statement.expressions():
            if it.sort == "cell":
                rows, columns = (run.value_of(part, scope).known_numbers() for part in it.parts)
                found.extend(f"there is no row {row}" for row in rows if row >= cells.room)
                found.extend(f"there is no column {column}" for column in columns if column >= cells.cols)
    return list(dict.fromkeys(found))


DETAILS = {"kind": kind_details, "divzero": divzero_details, "range": range_details}
