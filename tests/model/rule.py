"""The series rule: what a program has to keep, and the line of the first place where it doesn't."""
from syntax import Refused


def refused(text, line):
    return Refused(f"program line {line} {text}")


class Scope:
    """The names that are seen, those of them that are destinations, and those that are written."""

    def __init__(self, names=(), destinations=(), written=()):
        self.names, self.destinations, self.written = set(names), set(destinations), set(written)

    def inner(self):
        return Scope(self.names, self.destinations, self.written)

    def bind(self, name, line, is_destination=False):
        if name in self.names:
            raise refused("rebound", line)
        self.names.add(name)
        if is_destination:
            self.destinations.add(name)

    def is_unwritten(self, name):
        return name in self.destinations and name not in self.written

    def write(self, name, line):
        if name not in self.names:
            raise refused("unknown name", line)
        if name not in self.destinations:
            raise refused("wrong sort", line)
        if name in self.written:
            raise refused("written twice", line)
        self.written.add(name)


def names_of(expression):
    """The names in an expression, from left to right."""
    if expression[0] == "name":
        return [expression[1]]
    inner = expression[2] if expression[0] == "apply" else expression[1:] if expression[0] == "cell" else []
    return [name for it in inner for name in names_of(it)]


class Checker:
    def __init__(self, program):
        self.program = program

    def check(self):
        """Raises Refused at the first fault: of headers, then of main, then of bodies, each in the order of the text."""
        self.headers()
        main = self.program.function("main")
        if not main or main.values:
            raise refused("no main", main.line if main else 1)
        for it in self.program.functions:
            self.function(it)

    def headers(self):
        seen = set()
        for it in self.program.functions:
            if it.name in seen:
                raise refused("rebound", it.line)
            seen.add(it.name)
            scope = Scope()
            for name in [*it.values, *it.destinations]:
                scope.bind(name, it.line)

    def function(self, it):
        scope = Scope([*it.values, *it.destinations], it.destinations)
        written = self.body(it.body, scope)
        if not written.issuperset(it.destinations):
            raise refused("not written", it.line)

    def body(self, statements, outer):
        """Which names of the scope outside are written behind a body."""
        scope, news = outer.inner(), []
        for it in statements:
            getattr(self, f"{it.kind}_statement")(it, scope)
            if it.kind == "new":
                news.append(it)
        for it in news:
            if it.name not in scope.written:
                raise refused("not written", it.line)
        return scope.written & outer.names

    def expression(self, expression, scope, line):
        for name in names_of(expression):
            if name not in scope.names:
                raise refused("unknown name", line)
            if scope.is_unwritten(name):
                raise refused("wrong sort", line)

    def let_statement(self, it, scope):
        before = scope.inner()
        scope.bind(it.name, it.line)
        self.expression(it.values[0], before, it.line)

    def new_statement(self, it, scope):
        scope.bind(it.name, it.line, True)

    def write_statement(self, it, scope):
        before = scope.inner()
        scope.write(it.name, it.line)
        self.expression(it.values[0], before, it.line)

    def read_statement(self, it, scope):
        inner = scope.inner()
        for value, name in zip(it.values, it.names):
            if value[0] == "name" and scope.is_unwritten(value[1]):
                raise refused("read before write", it.line)
            self.expression(value, scope, it.line)
            inner.bind(name, it.line)
        scope.written = self.body(it.bodies[0], inner) & scope.names

    def if_statement(self, it, scope):
        self.expression(it.values[0], scope, it.line)
        yes, no = self.body(it.bodies[0], scope), self.body(it.bodies[1], scope)
        if yes != no:
            raise refused("branches differ", it.line)
        scope.written = yes

    def par_statement(self, it, scope):
        left, right = self.body(it.bodies[0], scope), self.body(it.bodies[1], scope)
        if left & right != scope.written:
            raise refused("written in both sides", it.line)
        scope.written = left | right

    def call_statement(self, it, scope):
        called = self.program.function(it.name)
        if not called:
            raise refused("unknown function", it.line)
        for value in it.values:
            self.expression(value, scope, it.line)
        if len(it.values) != len(called.values):
            raise refused("arity", it.line)
        for name in it.names:
            scope.write(name, it.line)
        if len(it.names) != len(called.destinations):
            raise refused("arity", it.line)


def check(program):
    """Raises Refused where the program breaks the rule."""
    Checker(program).check()
