"""Sessions made at random, whose runs mostly end well, so that most commits have a record to repair.

Programs are typed: a type is "int", "bool" or "text", `("ref", type)` or `("pair", type, type)`. What a cell holds counts as an
int, though now and then it is a text or empty, and the run stops at a fault.
"""
import random

import inputs
import programs
import record
import session
import shapes
import syntax

WORKED = [it for name, it in sorted(vars(programs).items()) if name.isupper() and isinstance(it, str) and it not in programs.REFUSED]
# Programs whose outputs lead to what blocks made.
REACHING = [programs.REFERENCES, programs.PAIR, programs.HANDED_OUT.replace("write out = y", "write out = r")]
TYPES = ["int"] * 8 + [("ref", "int")] * 3 + [("pair", "int", "int"), ("ref", ("ref", "int")), "bool", "text"]
TEXTS = ['""', '"north"', '"a \\"word\\"\\n"', '"caf\u00e9"']
SMALL = [0, 0, 1, 1, 2, 3]
ODD_FIELDS = [b"", b"north", b"007", b"caf\xc3\xa9", b"\xff", b"-9223372036854775808", b"9223372036854775807", b"9223372036854775808"]
ODD_LINES = [b"", b"# a comment", b"comit", b"commit ", b"set 0 0", b"set  0 0 1", b"set 0 0000000001 2", b"rows", b"held", b"hold 0 out",
             b"\0", b"SHOW"]
# The most names that a body sees, below the limit of 24.
NAMES = 16


class Session:
    """A program, an input with its name, a script and the options. Its kinds are those of the program, of most batches and of the
    caps."""

    def __init__(self, program, name, given, script, options, kinds):
        self.program, self.name, self.given, self.script, self.options, self.kinds = program, name, given, script, options, kinds


class Scope:
    """The names that a body sees, each with its type, and the destinations that it has yet to write."""

    def __init__(self, names, owed):
        self.names, self.owed = list(names), list(owed)

    def of(self, its_type):
        return [name for name, other in self.names if other == its_type]

    def is_full(self):
        return len(self.names) + len(self.owed) >= NAMES

    def written(self, some):
        for name, its_type in some:
            self.owed.remove((name, its_type))
            self.names.append((name, ("ref", its_type)))


class Function:
    def __init__(self, name, values, destinations):
        self.name, self.values, self.destinations = name, values, destinations


class Maker:
    """Makes one program over a grid of so many rows and columns."""

    def __init__(self, chance, rows, columns):
        self.chance, self.rows, self.columns = chance, rows, columns
        self.made, self.calls, self.room = 0, 0, 0
        # Whether a run may stop at a fault whatever the cells hold.
        self.has_slips = chance.random() < 0.08
        self.functions = [self.function_head(f"f{it}") for it in range(chance.randrange(4))]

    def type(self):
        return self.chance.choice(TYPES)

    def function_head(self, name):
        values = [self.type() for _ in range(self.chance.randrange(3))]
        return Function(name, values, [self.type() for _ in range(self.chance.randrange(1, 4))])

    def fresh(self, letter):
        self.made += 1
        return f"{letter}{self.made}"

    # Expressions.

    def expression(self, its_type, scope, depth=0):
        """The text of an expression of this type, or None where the scope gives none."""
        names = scope.of(its_type)
        if names and self.chance.random() < 0.7:
            return self.chance.choice(names)
        if isinstance(its_type, str):
            return getattr(self, f"{its_type}_expression")(scope, depth)
        if its_type[0] == "ref":
            return self.reference(its_type[1], scope)
        parts = [self.reference(it, scope) for it in its_type[1:]]
        return f"pair({parts[0]}, {parts[1]})" if all(parts) else None

    def reference(self, its_type, scope):
        found = scope.of(("ref", its_type))
        for name, other in scope.names:
            if other[0] == "pair":
                found += [f"{part}({name})" for part, inner in zip(["fst", "snd"], other[1:]) if inner == its_type]
        if its_type == "int" and not (found and self.chance.random() < 0.6):
            found += [self.cell()] * 3 + ["rows()"]
        return self.chance.choice(found) if found else None

    def cell(self):
        row = self.rows if self.has_slips and self.chance.random() < 0.05 else self.chance.randrange(self.rows)
        return f"cell({row}, {self.chance.randrange(self.columns)})"

    def int_expression(self, scope, depth):
        chance = self.chance
        if depth > 2 or chance.random() < 0.4:
            return str(chance.choice(SMALL)) if chance.random() < 0.9 else chance.choice(["rows", "cols"])
        left, right = self.expression("int", scope, depth + 1), self.expression("int", scope, depth + 1)
        form = chance.randrange(12)
        if form < 6:
            return f"({left} {chance.choice('+-')} {right})"
        if form == 6:
            return f"({left} {chance.choice('*/%')} {right if self.has_slips else chance.choice([1, 2, 3, 7])})"
        if form == 7:
            return f"len({self.expression('text', scope, depth + 1)})"
        return chance.choice([f"min({left}, {right})", f"max({left}, {right})", f"abs({left})", f"neg({left})"])

    def bool_expression(self, scope, depth):
        chance = self.chance
        if depth > 2 or chance.random() < 0.1:
            return chance.choice(["true", "false"])
        one = self.expression(chance.choice(["int", "int", "int", "bool", "text", ("ref", "int")]), scope, depth + 1)
        left, right = self.expression("int", scope, depth + 1), self.expression("int", scope, depth + 1)
        less = f"({left} {chance.choice(['<', '<=', '>', '>='])} {right})"
        if chance.random() < 0.7:
            return less
        whole = self.expression("bool", scope, depth + 1)
        same = f"({one} {chance.choice(['==', '!='])} {left})"
        return chance.choice([same, f"({whole} {chance.choice(['and', 'or'])} {less})", f"not({whole})"])

    def text_expression(self, scope, depth):
        return self.chance.choice(TEXTS)

    # Statements: lists of lines.

    def value(self, its_type, scope, lines):
        """An expression of this type; where the scope gives none, what it refers to is made before."""
        found = self.expression(its_type, scope)
        if found:
            return found
        name = self.fresh("d")
        inner = self.value(its_type[1], scope, lines)
        lines += [f"new {name};", f"write {name} = {inner};"]
        scope.names.append((name, ("ref", its_type[1])))
        return name if its_type[0] == "ref" else self.value(its_type, scope, lines)

    def body(self, names, owed, depth):
        """The statements of a body that sees these names and writes all that is owed."""
        scope, lines = Scope(names, owed), []
        for _ in range(self.chance.randrange(3)):
            self.statement(scope, depth, lines)
        while scope.owed:
            self.settle(scope, depth, lines)
        return lines

    def statement(self, scope, depth, lines):
        chance, name = self.chance, self.fresh("v")
        self.room -= 1
        if scope.is_full() or self.room < 0:
            return
        if chance.random() < 0.3:
            its_type = self.type()
            lines.append(f"let {name} = {self.value(its_type, scope, lines)};")
            scope.names.append((name, its_type))
        elif chance.random() < 0.8:
            scope.owed.append((name, self.type()))
            lines.append(f"new {name};")
        else:
            self.settle(scope, depth, lines)

    def settle(self, scope, depth, lines):
        """A statement that writes some of what is owed."""
        chance = self.chance
        self.room -= 1
        forms = ["write", "read", "read", "read", "read", "if", "par", "par", "call", "call"]
        if depth > 5 or scope.is_full() or self.room < 0:
            forms = ["write"]
        form = chance.choice(forms)
        some = chance.sample(scope.owed, chance.randrange(len(scope.owed) + 1))
        getattr(self, f"{form}_statement")(scope, some, depth, lines)

    def write_statement(self, scope, some, depth, lines):
        for name, its_type in some[:1] or scope.owed[:1]:
            lines.append(f"write {name} = {self.value(its_type, scope, lines)};")
            scope.written([(name, its_type)])

    def read_statement(self, scope, some, depth, lines):
        chance, items, inner = self.chance, [], []
        for _ in range(chance.choice([1, 1, 1, 2, 2, 3, 4])):
            its_type, name = self.type(), self.fresh("r")
            value = self.reference(its_type, scope)
            if not value:
                its_type, value = "int", self.reference("int", scope)
            inner.append((name, its_type))
            items.append(f"{value} as {name}")
        lines += [f"read {', '.join(items)} {{", *self.body([*scope.names, *inner], some, depth + 1), "}"]
        scope.written(some)

    def if_statement(self, scope, some, depth, lines):
        condition = self.expression("bool", scope)
        lines += [f"if {condition} {{", *self.body(scope.names, some, depth + 1), "} else {", *self.body(scope.names, some, depth + 1), "}"]
        scope.written(some)

    def par_statement(self, scope, some, depth, lines):
        cut = self.chance.randrange(len(some) + 1)
        lines += ["par {", *self.body(scope.names, some[:cut], depth + 1), "} {", *self.body(scope.names, some[cut:], depth + 1), "}"]
        scope.written(some)

    def call_statement(self, scope, some, depth, lines):
        if not self.functions or self.calls >= 2 or len(scope.names) > NAMES - 8:
            return
        self.calls += 1
        called = self.chance.choice(self.functions)
        owed = []
        for it in called.destinations:
            fitting = [pair for pair in scope.owed if pair[1] == it and pair not in owed]
            if not fitting or self.chance.random() < 0.3:
                fitting = [(self.fresh("d"), it)]
                lines.append(f"new {fitting[0][0]};")
                scope.owed.append(fitting[0])
            owed.append(fitting[0])
        values = [self.count, *(self.value(it, scope, lines) for it in called.values)]
        lines.append(f"call {called.name}({', '.join(values)}; {', '.join(name for name, _ in owed)});")
        scope.written(owed)

    # Programs.

    def function(self, it):
        values = [(f"p{at}", its_type) for at, its_type in enumerate(it.values)]
        owed = [(f"o{at}", its_type) for at, its_type in enumerate(it.destinations)]
        names = [("n", "int"), *values]
        head = f"func {it.name}({', '.join(name for name, _ in names)}; {', '.join(name for name, _ in owed)}) {{"
        self.calls, self.room = 2, 4
        base = self.body(names, owed, 3)
        self.calls, self.room, self.count = 0, 14, "n - 1"
        return [head, "if n <= 0 {", *base, "} else {", *self.body(names, owed, 2), "}", "}"]

    def program(self):
        self.calls, self.room, self.count = 0, 24, str(self.chance.randrange(1, 5))
        types = [*TYPES, ("ref", "int"), ("ref", "int"), ("pair", "int", "int"), ("pair", "int", "int")]
        outputs = [(f"out{at}", self.chance.choice(types)) for at in range(self.chance.randrange(1, 4))]
        parts = [[f"func main(; {', '.join(name for name, _ in outputs)}) {{", *self.body([], outputs, 0), "}"]]
        parts += [self.function(it) for it in self.functions]
        self.chance.shuffle(parts)
        return "".join(f"{line}\n" for lines in parts for line in lines)


# Scripts.


def field(chance, odd=0.02):
    return chance.choice(ODD_FIELDS) if chance.random() < odd else b"%d" % chance.choice([*SMALL, 4, 5, 9, -1])


class Cells:
    """What a script has staged so far and what it had at its last commit: fields by place, with the number of rows."""

    def __init__(self, chance, grid, room):
        self.chance, self.columns, self.room = chance, len(grid[0]), max(room, len(grid))
        self.rows, self.fields = len(grid), {(row, column): it for row, fields in enumerate(grid) for column, it in enumerate(fields)}
        self.commit()

    def commit(self):
        self.before = self.rows, dict(self.fields)

    def place(self):
        return self.chance.randrange(self.rows or 1), self.chance.randrange(self.columns)

    def set(self, place, given):
        """The line that sets a cell."""
        if place[0] < self.rows and place[1] < self.columns:
            self.fields[place] = given
        return b"set %d %d %s" % (*place, given)

    def set_rows(self, count):
        """The line that makes another number of rows present."""
        if count <= self.room:
            self.rows, self.fields = count, {place: it for place, it in self.fields.items() if place[0] < count}
        return b"rows %d" % count


# Batches, without their commit.


def edit(chance, cells):
    place = cells.place()
    if chance.random() < 0.03:
        place = chance.choice([(cells.rows, place[1]), (place[0], cells.columns), (999999999, 0)])
    return cells.set(place, field(chance))


def edits(chance, cells):
    return [edit(chance, cells) for _ in range(chance.choice([0, 1, 1, 1, 2, 2, 3, 5]))]


def another(chance, cells, place):
    """The line that sets a cell to what it doesn't hold."""
    given = field(chance, 0)
    return cells.set(place, given if given != cells.fields.get(place) else b"%d" % chance.randrange(10, 20))


def single(chance, cells):
    return [another(chance, cells, cells.place())]


def whole(chance, cells):
    """Every cell."""
    return [another(chance, cells, (row, column)) for row in range(cells.rows) for column in range(cells.columns)]


def nothing(chance, cells):
    """Edits that are taken back before the commit."""
    rows, fields = cells.before
    lines = [cells.set(cells.place(), field(chance)) for _ in range(chance.randrange(1, 4))] if cells.rows else []
    if cells.rows == rows and chance.random() < 0.3:
        lines += [cells.set_rows(rows + 1), cells.set_rows(rows)]
    return lines + [cells.set(place, it) for place, it in fields.items() if cells.fields.get(place) not in (it, None)]


def same(chance, cells):
    """Fields that are there already, or two that change places."""
    places = [place for place in (cells.place() for _ in range(3)) if place in cells.fields]
    if len(places) < 2 or chance.random() < 0.4:
        return [cells.set(place, cells.fields[place]) for place in places]
    one, other = places[:2]
    first, second = cells.fields[one], cells.fields[other]
    return [cells.set(one, second), cells.set(other, first)]


def fewer_or_more(chance, cells):
    """Rows that come and go; most that come are filled."""
    old, count = cells.rows, chance.randrange(cells.room + 2)
    lines = [cells.set_rows(count)]
    if count <= cells.room and chance.random() < 0.8:
        lines += [cells.set((row, column), field(chance, 0)) for row in range(old, count) for column in range(cells.columns)]
    return lines + (edits(chance, cells) if chance.random() < 0.3 else [])


def faulty(chance, cells):
    """A field at which many programs stop, and after a commit one at which they go on."""
    place = cells.place()
    wrong = cells.set(place, chance.choice([b"0", b"", b"north", b"9223372036854775807"]))
    cells.commit()
    return [wrong, b"commit", cells.set(place, field(chance, 0))]


BATCHES = {it.__name__: it for it in (edits, single, whole, nothing, same, fewer_or_more, faulty)}


def hold(chance):
    place, other = chance.choice([0, 0, 1, 1, 2, 63]), chance.choice([0, 0, 0, 1, 1, 2])
    if chance.random() < 0.05:
        place = 64
    return b"hold %d %s %d" % (place, chance.choice([b"out", b"out", b"ref", b"ref", b"fst", b"snd"]), other)


def held(chance):
    """Lines that hold an output, and what is reached from there."""
    if chance.random() < 0.3:
        return [hold(chance) for _ in range(3)]
    words = chance.choice([(b"ref", b"ref"), (b"fst", b"snd"), (b"snd", b"fst"), (b"ref", b"fst")])
    first, second = b"hold 1 %s 0" % words[0], b"hold 2 %s %d" % (words[1], chance.randrange(2))
    return [b"hold 0 out %d" % chance.choice([0, 0, 0, 1]), first, second, b"held 1"]


def turn(chance, batch, cells):
    """A few lines."""
    form = chance.random()
    if form < 0.7:
        shown = ([b"show"] if chance.random() < 0.8 else []) + ([b"tree"] if chance.random() < 0.2 else [])
        lines = [*BATCHES[batch](chance, cells), b"commit", *shown]
        cells.commit()
        return lines
    if form < 0.85:
        lines = [*held(chance), *edits(chance, cells), b"commit", b"held 1", b"held %d" % chance.randrange(3)]
        cells.commit()
        return lines
    if form < 0.9:
        return fewer_or_more(chance, cells) if cells.room > cells.rows else [edit(chance, cells)]
    if form < 0.93:
        return [chance.choice(ODD_LINES)]
    other = chance.choice([b"commit", b"show", b"tree", b"held 1", b"held 64", b""])
    if other == b"commit":
        cells.commit()
    return [other or edit(chance, cells)]


def script(chance, batch, cells):
    lines = [b"commit", b"show"] if chance.random() < 0.9 else []
    for _ in range(chance.randrange(2, 12)):
        lines += turn(chance, batch, cells)
    if chance.random() < 0.05:
        lines += [b"quit", b"show"]
    end = chance.choice([b"\n", b"\n", b"\n", b"\r\n"])
    return b"".join(it + end for it in lines) + chance.choice([b"", b"", b"", b"commit", b"show\r"])


# Whole sessions.

SORTS = ["nodes", "mods", "links"]


def first_sizes(opened):
    """The sizes of the first run, where there is one."""
    try:
        its = opened()
    except (inputs.Refused, syntax.Refused):
        return {}
    its.commit()
    return record.Size(its.kept.tree).sorts() if its.kept else {}


def options(chance, caps, opened):
    """The caps of a session. Tight ones follow from what its first run makes."""
    found = dict.fromkeys(SORTS, 2000)
    if caps == "wide":
        return found
    sizes = first_sizes(opened)
    for sort in SORTS:
        if chance.random() < 0.7:
            size = sizes.get(sort, chance.choice([10, 20, 40, 80, 160]))
            found[sort] = max(1, size + chance.choice([-1, 0, 0, 0, 0, 1, 2, 4, 8, 16]))
    return found


def worked(chance, *_):
    return chance.choice(WORKED)


def reaching(chance, *_):
    return chance.choice(REACHING)


def typed(chance, rows, columns, _):
    return Maker(chance, rows, columns).program()


PROGRAMS = {"typed": typed, "worked": worked, "reaching": reaching, **shapes.SHAPES}
# In a hundred; the others share the rest.
SHARES = {"typed": 35, "worked": 6, "reaching": 6}


def chosen_program(chance):
    rest = (100 - sum(SHARES.values())) / (len(PROGRAMS) - len(SHARES))
    return chance.choices(list(PROGRAMS), [SHARES.get(it, rest) for it in PROGRAMS])[0]


def first_field(chance, shape):
    if shape == "texts" and chance.random() < 0.4:
        return chance.choice([b"north", b"south", b""])
    return field(chance, 0.005)


def session_of(seed, number):
    """The session of this number."""
    chance = random.Random(f"{seed} {number}")
    rows, columns, caps = chance.randrange(1, 7), chance.choice([1, 1, 2, 3]), chance.choice(["wide", "wide", "tight"])
    shape, batch = chosen_program(chance), chance.choice(list(BATCHES))
    room = chance.choice([0, 0, 0, rows + 1, rows + 3]) if batch != "fewer_or_more" else rows + chance.randrange(1, 5)
    program = PROGRAMS[shape](chance, rows, columns, room)
    grid = [[first_field(chance, shape) for _ in range(columns)] for _ in range(rows)]
    name = chance.choice(["input.txt", "input.csv"]) if columns == 1 else "input.csv"
    given = b"".join(b",".join(it or (b'""' if name == "input.csv" else b"") for it in fields) + b"\n" for fields in grid)
    settings = session.Settings(True, False, room)
    its = {"rows": room, **options(chance, caps, lambda: session.opened(program.encode(), name, given, settings))}
    return Session(program.encode(), name, given, script(chance, batch, Cells(chance, grid, room)), its, (shape, batch, caps))
