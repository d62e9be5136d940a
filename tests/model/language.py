"""What a program means: values, operators, expressions, and one serial run with the record that it leaves.

A value is a tuple whose first item is its kind: `("nil",)`, `("bool", True)`, `("int", 5)`, `("text", b"north")`,
`("ref", name)` or `("pair", name, name)`. So two values are equal where kind and content are. The name of a modifiable is
`("input", row, column)`, `("rows",)`, `("output", place)`, or `("made", path)`: the path is where it was made, a string of
turns from the root of the record, which are 0 and 1 for the sides of a sequence node or a parallel node, 2 into a read
node, and 3 past what was allocated or written.
"""
from record import Alloc, Parallel, Read, Sequence, Write

LEAST, GREATEST = -(2**63), 2**63 - 1
LEVELS = 300


class Fault(Exception):
    """A fault of an expression, without its line."""


class Full(Exception):
    """The record has more parts of one sort than its cap."""


class Stop:
    """How a run ends that doesn't come to its end: a fault and the line of its statement."""

    def __init__(self, fault, line):
        self.fault, self.line = fault, line


# Operators: the kinds of the arguments, and the result of their contents.


def within(number):
    if not LEAST <= number <= GREATEST:
        raise Fault("overflow")
    return ("int", number)


def quotient(left, right):
    if right == 0:
        raise Fault("divzero")
    whole = abs(left) // abs(right)
    return within(whole if (left < 0) == (right < 0) else -whole)


def remainder(left, right):
    if right == 0:
        raise Fault("divzero")
    rest = abs(left) % abs(right)
    return within(-rest if left < 0 else rest)


def boolean(value):
    return ("bool", value)


OPERATORS = {
    "+": ("int int", lambda a, b: within(a + b)),
    "-": ("int int", lambda a, b: within(a - b)),
    "*": ("int int", lambda a, b: within(a * b)),
    "/": ("int int", quotient),
    "%": ("int int", remainder),
    "<": ("int int", lambda a, b: boolean(a < b)),
    "<=": ("int int", lambda a, b: boolean(a <= b)),
    ">": ("int int", lambda a, b: boolean(a > b)),
    ">=": ("int int", lambda a, b: boolean(a >= b)),
    "and": ("bool bool", lambda a, b: boolean(a and b)),
    "or": ("bool bool", lambda a, b: boolean(a or b)),
    "not": ("bool", lambda a: boolean(not a)),
    "neg": ("int", lambda a: within(-a)),
    "abs": ("int", lambda a: within(abs(a))),
    "min": ("int int", lambda a, b: within(min(a, b))),
    "max": ("int int", lambda a, b: within(max(a, b))),
    "len": ("text", lambda a: within(len(a))),
    "pair": ("ref ref", lambda a, b: ("pair", a, b)),
    "fst": ("pair", lambda both: ("ref", both[0])),
    "snd": ("pair", lambda both: ("ref", both[1])),
}


def content(value):
    return value[1:] if value[0] == "pair" else value[1]


def applied(operator, values):
    """What an operator gives; raises Fault."""
    if operator in {"==", "!="}:
        return boolean((values[0] == values[1]) == (operator == "=="))
    kinds, result = OPERATORS[operator]
    if [it[0] for it in values] != kinds.split():
        raise Fault("kind")
    return result(*map(content, values))


def cell(grid, row, column):
    if row[0] != "int" or column[0] != "int":
        raise Fault("kind")
    if not (0 <= row[1] < grid.room and 0 <= column[1] < grid.columns):
        raise Fault("range")
    return ("ref", ("input", row[1], column[1]))


def value_of(expression, environment, grid):
    """The value of an expression; raises Fault."""
    form = expression[0]
    if form in {"int", "text", "bool", "nil"}:
        return expression
    if form == "name":
        if expression[1] not in environment:
            raise Fault("kind")
        return environment[expression[1]]
    if form == "rows":
        return ("int", grid.opened)
    if form == "cols":
        return ("int", grid.columns)
    if form == "present rows":
        return ("ref", ("rows",))
    if form == "cell":
        return cell(grid, *[value_of(it, environment, grid) for it in expression[1:]])
    return applied(expression[1], [value_of(it, environment, grid) for it in expression[2]])


class Run:
    """One run of a program over a grid: its tree, its heap of words by names, and its end, which is None or a Stop. Where a cap
    is passed it ends at once by Full: what is left of it could only add to the record."""

    def __init__(self, program, grid, caps):
        self.program, self.grid, self.caps = program, grid, caps
        self.left = dict(caps)
        self.heap = {("input", row, column): grid.value(row, column) for row in range(grid.room) for column in range(grid.columns)}
        self.heap["rows",] = ("int", grid.rows)
        main = program.function("main")
        environment = {name: ("ref", ("output", place)) for place, name in enumerate(main.destinations)}
        self.tree, self.end = self.body(main.body, 0, environment, "", 0)

    def count(self, sort, number=1):
        self.left[sort] -= number
        if self.left[sort] < 0:
            raise Full()

    def body(self, statements, at, environment, path, level):
        """The tree and the end of the statements from `at` on."""
        while at < len(statements) and statements[at].kind == "let" and level < LEVELS:
            try:
                value = value_of(statements[at].values[0], environment, self.grid)
            except Fault as fault:
                return None, Stop(str(fault), statements[at].line)
            environment = {**environment, statements[at].name: value}
            at, level = at + 1, level + 1
        if at == len(statements):
            return None, None
        if level >= LEVELS:
            return None, Stop("depth", statements[at].line)
        try:
            step = getattr(self, f"{statements[at].kind}_step")(statements[at], environment)
        except Fault as fault:
            return None, Stop(str(fault), statements[at].line)
        return step(lambda environment, turn: self.body(statements, at + 1, environment, path + turn, level + 1), path, level)

    # A step evaluates what a statement asks for, which may fault, and gives what makes its part of the tree.

    def new_step(self, statement, environment):
        def go(rest, path, _):
            self.count("mods")
            name = ("made", path)
            its, end = rest({**environment, statement.name: ("ref", name)}, "3")
            return Alloc(name, its), end

        return go

    def write_step(self, statement, environment):
        value = value_of(statement.values[0], environment, self.grid)
        name = self.reference(environment.get(statement.name))

        def go(rest, *_):
            self.heap[name] = value
            its, end = rest(environment, "3")
            return Write(name, value, its), end

        return go

    def reference(self, value):
        if not value or value[0] != "ref":
            raise Fault("kind")
        return value[1]

    def if_step(self, statement, environment):
        chosen = value_of(statement.values[0], environment, self.grid)
        if chosen[0] != "bool":
            raise Fault("kind")
        body = statement.bodies[0 if chosen[1] else 1]
        return self.sequence(environment, lambda path, level: self.body(body, 0, environment, path, level))

    def call_step(self, statement, environment):
        values = [value_of(it, environment, self.grid) for it in statement.values]
        destinations = [("ref", self.reference(environment.get(it))) for it in statement.names]
        called = self.program.function(statement.name)
        if not called or len(values) != len(called.values) or len(destinations) != len(called.destinations):
            raise Fault("kind")
        its = dict(zip([*called.values, *called.destinations], [*values, *destinations]))
        return self.sequence(environment, lambda path, level: self.body(called.body, 0, its, path, level))

    def par_step(self, statement, environment):
        def both(path, level):
            self.count("nodes")
            left, end = self.body(statement.bodies[0], 0, environment, path + "0", level)
            right, other = self.body(statement.bodies[1], 0, environment, path + "1", level)
            return Parallel(left, right), end or other

        return self.sequence(environment, both)

    def read_step(self, statement, environment):
        reads = []
        for it in statement.values:
            name = self.reference(value_of(it, environment, self.grid))
            if name not in self.heap:
                raise Fault("kind")
            reads.append((name, self.heap[name]))
        its = {**environment, **dict(zip(statement.names, (value for _, value in reads)))}

        def block(path, level):
            self.count("nodes")
            self.count("links", len(reads))
            part, end = self.body(statement.bodies[0], 0, its, path + "2", level)
            return Read(statement.block, reads, part, environment), end

        return self.sequence(environment, block)

    def sequence(self, environment, part):
        """A sequence node over a part, and what follows it where the part comes to its end."""

        def go(rest, path, level):
            self.count("nodes")
            its, end = part(path + "0", level + 1)
            if end:
                return Sequence(its, None), end
            behind, end = rest(environment, "1")
            return Sequence(its, behind), end

        return go
