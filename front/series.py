"""The series rule of docs/LANGUAGE.md: the first fault of a program's functions, with the names that it is about.

It goes through a program in the order of the definition: the headers, then main, then the bodies.
"""


class Fault(Exception):
    """A fault as the program words it, its line, the names it is about, and the names that were in scope there."""

    def __init__(self, text, line, names, scope=None):
        super().__init__(text, line)
        self.text, self.line, self.names = text, line, list(names)
        self.values = list(scope.values) if scope else []
        self.destinations = scope.names() if scope else []
        # The callee, and how many values and destinations it needs and is given.
        self.function = self.needed = self.given = None


class _Scope:
    """The values in scope, and the destinations with the lines of what brought them in."""

    def __init__(self, values, destinations):
        self.values, self.destinations = tuple(values), tuple(destinations)

    def with_value(self, name):
        return _Scope(self.values + (name,), self.destinations)

    def with_destination(self, name, line):
        return _Scope(self.values, self.destinations + ((name, line),))

    def names(self):
        return [name for name, _ in self.destinations]


def first_fault(functions):
    """The first fault, or None."""
    try:
        _Check(functions).program()
    except Fault as fault:
        return fault
    return None


class _Check:
    """Goes through the functions. What was written so far is handed on from statement to statement."""

    def __init__(self, functions):
        self.functions, self.by_name = functions, {}

    def program(self):
        for function in self.functions:
            self.header(function)
        self.main()
        for function in self.functions:
            destinations = [(it.text, function.line) for it in function.destinations]
            scope = _Scope([it.text for it in function.values], destinations)
            all_written(scope, destinations, self.body(function.body, scope, ()))

    def header(self, function):
        if function.name.text in self.by_name:
            raise Fault("rebound", function.line, [function.name.text])
        names = [it.text for it in function.values + function.destinations]
        for at, name in enumerate(names):
            if name in names[at + 1 :]:
                raise Fault("rebound", function.line, [name])
        self.by_name[function.name.text] = function

    def main(self):
        main = self.by_name.get("main")
        if main is None:
            raise Fault("no main", 1, list(self.by_name))
        if main.values:
            raise Fault("no main", main.line, [it.text for it in main.values])

    def body(self, body, scope, written):
        inner = scope
        for statement in body:
            inner, written = getattr(self, f"_{statement.sort}")(statement, inner, written)
        all_written(inner, inner.destinations[len(scope.destinations) :], written)
        return tuple(it for it in written if it in scope.names())

    # Each of these gives the scope behind a statement, and what is written by then.

    def _let(self, statement, scope, written):
        name = statement.name.text
        is_new(name, statement.line, scope)
        has_values(statement.values[0], statement.line, scope, written)
        return scope.with_value(name), written

    def _new(self, statement, scope, written):
        name = statement.name.text
        is_new(name, statement.line, scope)
        return scope.with_destination(name, statement.line), written

    def _write(self, statement, scope, written):
        name = statement.name.text
        can_be_written(name, statement.line, scope, written)
        has_values(statement.values[0], statement.line, scope, written)
        return scope, written + (name,)

    def _read(self, statement, scope, written):
        inner = scope
        for source, name in statement.items:
            if source.sort == "name" and source.text in scope.names() and source.text not in written:
                raise Fault("read before write", statement.line, [source.text], scope)
            has_values(source, statement.line, scope, written)
            is_new(name.text, statement.line, inner)
            inner = inner.with_value(name.text)
        return scope, self.body(statement.bodies[0], inner, written)

    def _if(self, statement, scope, written):
        has_values(statement.values[0], statement.line, scope, written)
        one, other = (self.body(it, scope, written) for it in statement.bodies)
        if set(one) != set(other):
            raise Fault("branches differ", statement.line, sorted(set(one) ^ set(other)), scope)
        return scope, one

    def _par(self, statement, scope, written):
        left, right = (self.body(it, scope, written) for it in statement.bodies)
        both = [it for it in left if it in right and it not in written]
        if both:
            raise Fault("written in both sides", statement.line, both, scope)
        return scope, left + tuple(it for it in right if it not in left)

    def _call(self, statement, scope, written):
        callee = self.by_name.get(statement.name.text)
        if callee is None:
            fault = Fault("unknown function", statement.line, [statement.name.text], scope)
            fault.needed = list(self.by_name)
            raise fault
        for value in statement.values:
            has_values(value, statement.line, scope, written)
        has_number("values", statement, callee, scope)
        for it in statement.destinations:
            can_be_written(it.text, statement.line, scope, written)
            written += (it.text,)
        has_number("destinations", statement, callee, scope)
        return scope, written


def all_written(scope, destinations, written):
    """Each of these destinations is written at the end of its body."""
    for name, line in destinations:
        if name not in written:
            missing = [it for it, its_line in destinations if it not in written and its_line == line]
            raise Fault("not written", line, missing, scope)


def is_new(name, line, scope):
    """Nothing has this name yet."""
    if name in scope.values or name in scope.names():
        raise Fault("rebound", line, [name], scope)


def has_values(expression, line, scope, written):
    """Each name of an expression has a value."""
    for it in expression.names():
        name = it.text
        if name not in scope.values and name not in written:
            raise Fault("wrong sort" if name in scope.names() else "unknown name", line, [name], scope)


def can_be_written(name, line, scope, written):
    """This is a destination, and isn't written yet."""
    if name in written:
        raise Fault("written twice", line, [name], scope)
    if name not in scope.names():
        raise Fault("wrong sort" if name in scope.values else "unknown name", line, [name], scope)


def has_number(part, statement, callee, scope):
    """A call has as many values, or destinations, as the header of what it calls."""
    if len(getattr(statement, part)) != len(getattr(callee, part)):
        fault = Fault("arity", statement.line, [statement.name.text], scope)
        fault.function = callee
        fault.needed, fault.given = ((len(it.values), len(it.destinations)) for it in (callee, statement))
        raise fault
