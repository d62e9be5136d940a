"""The text of a program: its tokens, its tree, and the place of the first fault. Nothing here knows the program's sources.

An expression is a tuple whose first item names its form: `("int", 5)`, `("name", "x")`, `("cell", row, column)`,
`("apply", "+", [left, right])`, and so on. `refused` of a fault is the line that is printed for it.
"""
import re

RESERVED = set(
    "func let new write read as if else par call true false nil rows cols cell and or not neg abs min max len pair fst snd".split()
)
NAMED = {"not": 1, "neg": 1, "abs": 1, "len": 1, "fst": 1, "snd": 1, "min": 2, "max": 2, "pair": 2}
COMPARISONS = {"==", "!=", "<", "<=", ">", ">="}
STATEMENTS = {"let", "new", "write", "read", "if", "par", "call"}
BLANK = re.compile(rb"(?:[ \t\r\n]|#[^\n]*)*")
TEXT = rb'"(?:[ !#-\[\]-~\x80-\xff]|\\["\\n])*"'
TOKEN = re.compile(rb"(?P<word>[a-z_][a-z0-9_]*)|(?P<int>[0-9]+)|(?P<text>" + TEXT + rb")|(?P<mark>[=!<>]=|[{}();,=<>+\-*/%])")
ESCAPES = {b'"': b'"', b"\\": b"\\", b"n": b"\n"}

BYTES, FUNCTIONS, STATEMENTS_OF_A_BODY, BODIES, DEPTH, NAME_BYTES, NAMES, ARGUMENTS = 65536, 256, 64, 32, 64, 32, 24, 24
GREATEST = 2**63 - 1


class Refused(Exception):
    """The program is refused with this line."""


def limit(which, line):
    return Refused(f"program line {line} limit {which}")


class Token:
    """A token. Its kind is word, int, text or mark; or `end`, or `none` where no token can be read."""

    def __init__(self, kind, content, line, column):
        self.kind, self.content, self.line, self.column = kind, content, line, column

    def is_name(self):
        return self.kind == "word" and self.content not in RESERVED

    def begins_an_expression(self):
        if self.kind == "word":
            return self.is_name() or self.content in NAMED or self.content in {"true", "false", "nil", "rows", "cols", "cell"}
        return self.kind in {"int", "text"} or self.content == "("


def text_of(token):
    """The bytes that a text stands for, or None where they aren't UTF-8."""
    content = re.sub(rb"\\(.)", lambda it: ESCAPES[it[1]], token[1:-1])
    try:
        content.decode("utf-8")
    except UnicodeDecodeError:
        return None
    return content


def tokens_of(given):
    """The tokens, up to the end or to the first place where none can be read."""
    found, at, line, begin = [], 0, 1, 0
    while True:
        blank = BLANK.match(given, at)
        line += blank[0].count(b"\n")
        if b"\n" in blank[0]:
            begin = at + blank[0].rindex(b"\n") + 1
        at = blank.end()
        column = at - begin + 1
        got = TOKEN.match(given, at)
        if not got:
            found.append(Token("end" if at == len(given) else "none", None, line, column))
            return found
        content = text_of(got[0]) if got.lastgroup == "text" else got[0].decode()
        found.append(Token("none" if content is None else got.lastgroup, content, line, column))
        if content is None:
            return found
        at = got.end()


class Function:
    def __init__(self, name, line):
        self.name, self.line = name, line
        self.values, self.destinations, self.body = [], [], []


class Statement:
    """A statement: `name` is what it binds or writes, or the function that it calls; `values` are its expressions in their order,
    `names` those that a read binds or the destinations of a call, `bodies` what stands in braces."""

    def __init__(self, kind, line):
        self.kind, self.line, self.name, self.block = kind, line, None, None
        self.values, self.names, self.bodies = [], [], []


class Program:
    def __init__(self):
        self.functions, self.texts, self.blocks = [], [], 0

    def function(self, name):
        """The first function of this name, or None."""
        return next((it for it in self.functions if it.name == name), None)


class Parser:
    """Reads a program, token by token. Of an operand that is too long or too great it tells one token later, since the depth of an
    expression that ends there goes before."""

    def __init__(self, given):
        if len(given) > BYTES:
            raise limit(1, 1)
        self.tokens, self.at, self.late = tokens_of(given), 0, None
        self.scope, self.depth_of_bodies, self.open = [], 0, 0
        self.program = Program()

    # Tokens.

    def next(self):
        return self.tokens[self.at]

    def tell_late(self):
        if self.late:
            raise self.late

    def wrong(self):
        self.tell_late()
        token = self.next()
        raise Refused(f"program line {token.line} column {token.column} syntax")

    def take(self):
        self.tell_late()
        token = self.next()
        if token.kind in {"end", "none"}:
            self.wrong()
        self.at += 1
        return token

    def is_next(self, *contents):
        token = self.next()
        return token.kind in {"word", "mark"} and token.content in contents

    def want(self, content):
        if not self.is_next(content):
            self.wrong()
        return self.take()

    def want_name(self, which=None, is_over=False):
        """A name; where it's over a limit it says which, unless the name itself is too long."""
        if not self.next().is_name():
            self.wrong()
        token = self.take()
        if len(token.content) > NAME_BYTES:
            raise limit(6, token.line)
        if is_over:
            raise limit(which, token.line)
        return token.content

    def bind(self):
        """A name that is bound here."""
        name = self.want_name(8, len(self.scope) >= NAMES)
        self.scope.append(name)
        return name

    # Functions, bodies and statements.

    def parse(self):
        self.function()
        while self.next().kind != "end":
            self.function()
        return self.program

    def function(self):
        line = self.want("func").line
        if len(self.program.functions) == FUNCTIONS:
            raise limit(2, line)
        found = Function(self.want_name(), line)
        self.program.functions.append(found)
        self.scope = []
        self.want("(")
        found.values = self.names(";", self.bind)
        self.want(";")
        found.destinations = self.names(")", self.bind)
        self.want(")")
        found.body = self.body()

    def names(self, end, one):
        """Names with commas between them, up to a mark that isn't taken."""
        found = []
        while not self.is_next(end):
            if found:
                self.want(",")
            found.append(one())
        return found

    def body(self):
        line = self.want("{").line
        if self.depth_of_bodies == BODIES:
            raise limit(4, line)
        self.depth_of_bodies += 1
        names, found = len(self.scope), []
        while not self.is_next("}"):
            if not self.is_next(*STATEMENTS):
                self.wrong()
            if len(found) == STATEMENTS_OF_A_BODY:
                raise limit(3, self.next().line)
            found.append(self.statement())
        self.take()
        del self.scope[names:]
        self.depth_of_bodies -= 1
        return found

    def statement(self):
        token = self.take()
        found = Statement(token.content, token.line)
        getattr(self, f"{found.kind}_statement")(found)
        return found

    def let_statement(self, found):
        found.name = self.bind()
        self.want("=")
        found.values = [self.expression()]
        self.want(";")

    def new_statement(self, found):
        found.name = self.bind()
        self.want(";")

    def write_statement(self, found):
        found.name = self.want_name()
        self.want("=")
        found.values = [self.expression()]
        self.want(";")

    def read_statement(self, found):
        found.block = self.program.blocks
        self.program.blocks += 1
        names = len(self.scope)
        while not found.names or (len(found.names) < 4 and self.is_next(",")):
            if found.names:
                self.want(",")
            found.values.append(self.expression())
            self.want("as")
            found.names.append(self.bind())
        found.bodies = [self.body()]
        del self.scope[names:]

    def if_statement(self, found):
        found.values = [self.expression()]
        found.bodies.append(self.body())
        self.want("else")
        found.bodies.append(self.body())

    def par_statement(self, found):
        found.bodies.append(self.body())
        found.bodies.append(self.body())

    def call_statement(self, found):
        found.name = self.want_name()
        self.want("(")
        while not self.is_next(";"):
            if found.values:
                self.want(",")
            if len(found.values) == ARGUMENTS:
                self.one_value_too_many()
            found.values.append(self.expression())
        self.want(";")
        while not self.is_next(")"):
            if found.names:
                self.want(",")
            found.names.append(self.want_name(9, len(found.names) == ARGUMENTS))
        self.want(")")
        self.want(";")

    def one_value_too_many(self):
        token = self.next()
        if not token.begins_an_expression():
            self.wrong()
        self.late = self.operand_over(token)
        self.tell_late()
        raise limit(9, token.line)

    # Expressions. Each rule gives an expression and its depth.

    def expression(self):
        opened, self.open = self.open, 0
        found, _ = self.disjunction()
        self.open = opened
        return found

    def chain(self, operators, part):
        left, depth = part()
        while self.is_next(*operators):
            left, depth = self.infix(left, depth, part)
        return left, depth

    def infix(self, left, depth, part):
        operator = self.take().content
        right, its = part()
        return self.applied(operator, [left, right], 1 + max(depth, its))

    def applied(self, operator, parts, depth):
        """An expression that ends at the last token that was taken."""
        if depth > DEPTH:
            raise limit(5, self.tokens[self.at - 1].line)
        return (("cell", *parts) if operator == "cell" else ("apply", operator, parts)), depth

    def disjunction(self):
        return self.chain(["or"], self.conjunction)

    def conjunction(self):
        return self.chain(["and"], self.comparison)

    def comparison(self):
        left, depth = self.sum()
        if self.is_next(*COMPARISONS):
            return self.infix(left, depth, self.sum)
        return left, depth

    def sum(self):
        return self.chain(["+", "-"], self.term)

    def term(self):
        return self.chain(["*", "/", "%"], self.fact)

    def open_one(self):
        line = self.want("(").line
        self.open += 1
        if self.open > DEPTH:
            raise limit(5, line)

    def close_one(self):
        self.want(")")
        self.open -= 1

    def operand_over(self, token):
        """The limit that an operand passes, or None."""
        if token.is_name() and len(token.content) > NAME_BYTES:
            return limit(6, token.line)
        if token.kind == "int" and int(token.content) > GREATEST:
            return limit(7, token.line)
        return None

    def fact(self):
        if not self.next().begins_an_expression():
            self.wrong()
        if self.is_next("("):
            self.open_one()
            found = self.disjunction()
            self.close_one()
            return found
        token = self.take()
        self.late = self.operand_over(token)
        if token.kind == "int":
            return ("int", int(token.content)), 1
        if token.kind == "text":
            if token.content not in self.program.texts:
                self.program.texts.append(token.content)
            return ("text", token.content), 1
        if token.content in NAMED or token.content == "cell":
            return self.call_of(token.content, NAMED.get(token.content, 2))
        return self.word(token)

    def call_of(self, operator, arity):
        self.open_one()
        parts = [self.disjunction()]
        for _ in range(arity - 1):
            self.want(",")
            parts.append(self.disjunction())
        self.close_one()
        return self.applied(operator, [it for it, _ in parts], 1 + max(depth for _, depth in parts))

    def word(self, token):
        if token.content in {"true", "false"}:
            return ("bool", token.content == "true"), 1
        if token.content == "nil":
            return ("nil",), 1
        if token.content == "rows" and self.is_next("("):
            self.open_one()
            self.close_one()
            return ("present rows",), 1
        if token.content in {"rows", "cols"}:
            return (token.content,), 1
        return ("name", token.content), 1


def parse(given):
    """The program of these bytes; raises Refused."""
    return Parser(given).parse()
