"""Which input cells a value may come from: what flows through names, destinations and calls, in any order of the run."""
from front.grammar import statements_of

ANY = None  # a row or a column that the text doesn't say
_MOST_NUMBERS = 64

# What each operator asks of its operands.
KINDS = dict.fromkeys("+ - * / % < <= > >= neg abs min max".split(), "int")
KINDS.update({"and": "bool", "or": "bool", "not": "bool", "len": "text", "pair": "reference", "fst": "pair", "snd": "pair"})


class Value:
    """What a value may be: the content of cells, a reference to cells or destinations, one of some numbers, or another."""

    __slots__ = ("cells", "references", "numbers", "is_open")

    def __init__(self, cells=(), references=(), numbers=(), is_open=False):
        self.cells, self.references, self.numbers, self.is_open = set(cells), set(references), set(numbers), is_open

    def add(self, other):
        """Takes in what another may be, and says whether that is more."""
        before = self._size()
        self.cells |= other.cells
        self.references |= other.references
        self.numbers |= other.numbers
        self.is_open |= other.is_open or len(self.numbers) > _MOST_NUMBERS
        return self._size() != before

    def known_numbers(self):
        """The numbers that it may be, in their order, or none where it may be others too."""
        return [] if self.is_open else sorted(self.numbers)

    def _size(self):
        return len(self.cells), len(self.references), len(self.numbers), self.is_open


class Flow:
    """The flow of a program's functions. A place is a function's name, a name in it and where that is brought in."""

    def __init__(self, functions):
        self.functions = {it.name.text: it for it in functions}
        self.values, self.contents = {}, {}
        # The statements that begin at a line, each with its scope.
        self.at_line = {}
        # The functions that looked at the content of a destination, and those that are to be gone through (again).
        self.readers, self.waiting = {}, dict.fromkeys(self.functions)
        while self.waiting:
            function = self.functions[next(iter(self.waiting))]
            del self.waiting[function.name.text]
            scope = {it.text: ("value", _place(function, it)) for it in function.values}
            scope.update({it.text: ("destination", _place(function, it)) for it in function.destinations})
            self._body(function, function.body, scope)

    def _bind(self, place, value):
        if self.values.setdefault(place, Value()).add(value):
            self.waiting[place[0]] = None

    def _fill(self, place, value):
        if self.contents.setdefault(place, Value()).add(value):
            self.waiting.update(dict.fromkeys(self.readers.get(place, ())))

    def _content(self, function, place):
        self.readers.setdefault(place, set()).add(function.name.text)
        return self.contents.get(place, Value())

    def value_of(self, expression, scope):
        """What an expression may be in this scope."""
        sort, text, parts = expression.sort, expression.text, expression.parts
        if sort == "name":
            how, place = scope.get(text, ("value", None))
            return Value(references=[place]) if how == "destination" else self.values.get(place, Value())
        if sort == "int":
            return Value(numbers=[int(text)])
        if sort == "cell":
            rows, columns = (self.value_of(part, scope).known_numbers() or [ANY] for part in parts)
            return Value(references=[("cell", row, column) for row in rows for column in columns])
        made = Value(is_open=True)
        if sort == "operator" and text in ("pair", "fst", "snd"):
            for part in parts:
                made.references |= self.value_of(part, scope).references
        return made

    def _looked_up(self, function, expression, scope):
        """What a reference may refer to."""
        made = Value()
        for place in self.value_of(expression, scope).references:
            if place[0] == "cell":
                made.add(Value(cells=[place[1:]], is_open=True))
            else:
                made.add(self._content(function, place))
        return made

    def _body(self, function, body, scope):
        scope = dict(scope)
        for statement in body:
            self.at_line.setdefault(statement.line, {})[id(statement)] = (statement, dict(scope))
            inner = getattr(self, f"_{statement.sort}")(function, statement, scope)
            for it in statement.bodies:
                self._body(function, it, inner)

    # Each of these takes in a statement, and gives the scope of its bodies. What it brings in is put into the scope.

    def _let(self, function, statement, scope):
        place = _place(function, statement.name)
        self._bind(place, self.value_of(statement.values[0], scope))
        scope[statement.name.text] = ("value", place)
        return scope

    def _new(self, function, statement, scope):
        scope[statement.name.text] = ("destination", _place(function, statement.name))
        return scope

    def _write(self, _function, statement, scope):
        self._fill(_place_of(statement.name, scope), self.value_of(statement.values[0], scope))
        return scope

    def _read(self, function, statement, scope):
        inner = dict(scope)
        for source, name in statement.items:
            self._bind(_place(function, name), self._looked_up(function, source, scope))
            inner[name.text] = ("value", _place(function, name))
        return inner

    def _if(self, _function, _statement, scope):
        return scope

    _par = _if

    def _call(self, function, statement, scope):
        callee = self.functions.get(statement.name.text)
        if callee is not None:
            for value, parameter in zip(statement.values, callee.values):
                self._bind(_place(callee, parameter), self.value_of(value, scope))
            for given, parameter in zip(statement.destinations, callee.destinations):
                self._fill(_place_of(given, scope), self._content(function, _place(callee, parameter)))
        return scope

    def asked_at(self, line):
        """What a line's statements ask for: (kind, expression, what it may be) of each operand, condition and source."""
        asked = []
        for statement, scope in self.at_line.get(line, {}).values():
            for kind, expression in _asked_of(statement):
                asked.append((kind, expression, self.value_of(expression, scope)))
        return asked


def _place(function, token):
    return function.name.text, token.text, token.start


def _place_of(token, scope):
    """The place of a name in a scope."""
    return scope.get(token.text, (None, None))[1]


def _asked_of(statement):
    """The kind that is asked of each condition, source and operand of a statement, and its expression."""
    if statement.sort == "if":
        yield "bool", statement.values[0]
    for source, _ in statement.items:
        yield "reference", source
    for it in statement.expressions():
        kind = KINDS.get(it.text) if it.sort == "operator" else "int" if it.sort == "cell" else None
        if kind:
            yield from ((kind, part) for part in it.parts)


def lines_with_statements(functions):
    """The lines on which statements begin."""
    return {it.line for function in functions for it in statements_of(function.body)}
