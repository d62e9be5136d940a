"""The grammar of docs/LANGUAGE.md: programs as trees, or the first token that no program can have.

Where a text leaves the grammar, what could have stood at that place is told too.
"""
from front.tokens import BAD, END, INT, NAME, TEXT, tokens_of

COMPARISONS = ("==", "!=", "<", "<=", ">", ">=")
NAMED = {"not": 1, "neg": 1, "abs": 1, "len": 1, "fst": 1, "snd": 1, "min": 2, "max": 2, "pair": 2}
VALUE_STARTS = frozenset((INT, TEXT, NAME, "true", "false", "nil", "rows", "cols", "cell", "(", *NAMED))
MOST_ITEMS = 4  # of a read
STATEMENT_STARTS = frozenset(("let", "new", "write", "read", "if", "par", "call"))


class Fault(Exception):
    """The token that can't stand where it does, the one before it, what could, and the part that was being read."""

    def __init__(self, token, before, wanted, rule):
        super().__init__(token.line, token.column)
        self.token, self.before, self.wanted, self.rule = token, before, frozenset(wanted), rule


class Expression:
    """An expression. `sort` is 'int', 'text', 'name', 'constant', 'rows()', 'cell' or 'operator'."""

    __slots__ = ("sort", "text", "parts", "token")

    def __init__(self, sort, text, parts, token):
        self.sort, self.text, self.parts, self.token = sort, text, parts, token

    def names(self):
        """The names in it, in the order in which they stand."""
        if self.sort == "name":
            yield self
        for part in self.parts:
            yield from part.names()


class Statement:
    """A statement. `name` is the token of what it binds, writes or calls; a `read` has items of (expression, token)."""

    __slots__ = ("sort", "line", "name", "values", "destinations", "items", "bodies")

    def __init__(self, sort, line):
        self.sort, self.line, self.name = sort, line, None
        self.values, self.destinations, self.items, self.bodies = [], [], [], []

    def expressions(self):
        """The expressions of the statement itself, each before its parts."""
        waiting = [*self.values, *(source for source, _ in self.items)]
        while waiting:
            it = waiting.pop(0)
            yield it
            waiting.extend(it.parts)


class Function:
    """A function: the line of its `func`, and the tokens of its name, values and destinations."""

    __slots__ = ("line", "name", "values", "destinations", "body")

    def __init__(self, line, name, values, destinations, body):
        self.line, self.name, self.values, self.destinations, self.body = line, name, values, destinations, body


def functions_of(text):
    """The functions of a program's text. Raises Fault where the text leaves the grammar."""
    return _Reader(tokens_of(text)).program()


def statements_of(body):
    """All statements of a body and of the bodies in it, in text order."""
    for statement in body:
        yield statement
        for inner in statement.bodies:
            yield from statements_of(inner)


class _Reader:
    def __init__(self, tokens):
        self.tokens, self.at, self.wanted, self.rule = tokens, 0, set(), "program"

    @property
    def token(self):
        return self.tokens[self.at]

    def sees(self, *symbols):
        """Whether the next token is one of these. What is asked for here is what could stand here."""
        self.wanted.update(symbols)
        return self.token.symbol in symbols

    def fail(self):
        raise Fault(self.token, self.tokens[self.at - 1] if self.at else None, self.wanted, self.rule)

    def take(self, *symbols):
        if not self.sees(*symbols):
            self.fail()
        token = self.token
        self.at += 1
        self.wanted = set()
        return token

    def program(self):
        functions = [self.function()]
        while not self.sees(END):
            self.rule = "program"
            functions.append(self.function())
        return functions

    def function(self):
        line = self.take("func").line
        self.rule = "header"
        name = self.take(NAME)
        self.take("(")
        values = self.names(";")
        self.take(";")
        destinations = self.names(")")
        self.take(")")
        return Function(line, name, values, destinations, self.body())

    def names(self, close):
        names = []
        if not self.sees(close):
            names.append(self.take(NAME))
            while self.sees(","):
                self.take(",")
                names.append(self.take(NAME))
        return names

    def body(self):
        self.take("{")
        statements = []
        self.rule = "body"
        while not self.sees("}"):
            statements.append(self.statement())
            self.rule = "body"
        self.take("}")
        return statements

    def statement(self):
        token = self.take(*STATEMENT_STARTS)
        self.rule = token.symbol
        made = Statement(token.symbol, token.line)
        getattr(self, f"_{token.symbol}")(made)
        return made

    def _let(self, made):
        made.name = self.take(NAME)
        self.take("=")
        made.values.append(self.expression())
        self.take(";")

    _write = _let

    def _new(self, made):
        made.name = self.take(NAME)
        self.take(";")

    def _read(self, made):
        made.items.append(self.item())
        while len(made.items) < MOST_ITEMS and self.sees(","):
            self.take(",")
            made.items.append(self.item())
        made.bodies.append(self.body())

    def _if(self, made):
        made.values.append(self.expression())
        made.bodies.append(self.body())
        self.rule = "else"
        self.take("else")
        made.bodies.append(self.body())

    def _par(self, made):
        made.bodies.append(self.body())
        self.rule = "side"
        made.bodies.append(self.body())

    def _call(self, made):
        made.name = self.take(NAME)
        self.take("(")
        if not self.sees(";"):
            made.values.append(self.expression())
            while self.sees(","):
                self.take(",")
                made.values.append(self.expression())
        self.take(";")
        made.destinations = self.names(")")
        self.take(")")
        self.take(";")

    def item(self):
        source = self.expression()
        self.take("as")
        return source, self.take(NAME)

    def chain(self, part, *operators):
        left = part()
        while self.sees(*operators):
            token = self.take(*operators)
            left = Expression("operator", token.symbol, (left, part()), token)
        return left

    def expression(self):
        return self.chain(lambda: self.chain(self.comparison, "and"), "or")

    def comparison(self):
        left = self.sum()
        if self.sees(*COMPARISONS):
            token = self.take(*COMPARISONS)
            left = Expression("operator", token.symbol, (left, self.sum()), token)
        return left

    def sum(self):
        return self.chain(lambda: self.chain(self.fact, "*", "/", "%"), "+", "-")

    def fact(self):
        token = self.take(*VALUE_STARTS)
        symbol = token.symbol
        if symbol == "(":
            inner = self.expression()
            self.take(")")
            return inner
        if symbol == "rows":
            return self._rows(token)
        if symbol == "cell" or symbol in NAMED:
            return self._applied(token)
        sort = {INT: "int", TEXT: "text", NAME: "name"}.get(symbol, "constant")
        return Expression(sort, token.text, (), token)

    def _rows(self, token):
        """The number of rows that the input had, or a reference to the present one."""
        if not self.sees("("):
            return Expression("constant", token.symbol, (), token)
        self.take("(")
        self.take(")")
        return Expression("rows()", token.symbol, (), token)

    def _applied(self, token):
        """A cell, or an operator that stands before its operands."""
        self.take("(")
        parts = [self.expression()]
        for _ in range(1, NAMED.get(token.symbol, 2)):
            self.take(",")
            parts.append(self.expression())
        self.take(")")
        return Expression("cell" if token.symbol == "cell" else "operator", token.symbol, tuple(parts), token)
