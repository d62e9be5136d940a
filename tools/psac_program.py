"""Programs: which statement of the text made which part of a record.

A dump names a block by its number and says nothing of `if`, `call` and lines. `place` walks a record beside the program's
text. Which branch of an `if` was run is worked out from the values that are known, or else seen from the branches' shapes;
where neither tells, the parts below have no statement until the next block, whose number does.
"""
import re

from psac_record import A, E, P, R, S, W, shown_text

_TOKEN = re.compile(rb'(?:[ \t\r\n]|#[^\n]*)*(?:([a-z_][a-z0-9_]*)|([0-9]+)|("(?:[^"\\]|\\.)*")|([=!<>]=|[{}();,=<>+*/%-])|\Z)', re.S)
_LEVELS = [("or",), ("and",), ("==", "!=", "<", "<=", ">", ">="), ("+", "-"), ("*", "/", "%")]
_NAMED = ("not", "neg", "abs", "min", "max", "len", "pair", "fst", "snd", "cell")


class BadProgram(Exception):
    """The text is no program, or no program of this record."""


class Statement:
    def __init__(self, kind, line):
        self.kind, self.line = kind, line
        self.name = None               # of let, new, write; the function of a call
        self.exprs = []                # of let, write, read, if; the values of a call
        self.says = []                 # the same as texts
        self.names = []                # that a read binds; the destinations of a call
        self.bodies = []
        self.block = None              # the number of a read's block


class Function:
    def __init__(self, name, line):
        self.name, self.line = name, line
        self.values, self.dests, self.body = [], [], []


class Program:
    def __init__(self, data, title="the program"):
        self.title = title
        self.functions = {}
        self.blocks = []               # (statement, function) of each block
        self._data = data
        self._tokens = []
        at, line, counted = 0, 1, 0
        while True:
            m = _TOKEN.match(data, at)
            start = m.start(m.lastindex) if m and m.lastindex else len(data)
            line += data.count(b"\n", counted, start)
            counted = start
            if not m:
                raise BadProgram("%s: line %d: no token" % (title, line))
            if not m.lastindex:
                self._tokens.append(("end", "", line, start))
                break
            text = m[m.lastindex]
            self._tokens.append((m.lastindex, text if m.lastindex == 3 else text.decode(), line, start))
            at = m.end()
        self._at = 0
        while self._tokens[self._at][0] != "end":
            self._function()
        if "main" not in self.functions:
            raise BadProgram("%s: no main" % title)
        self.main = self.functions["main"]

    # -- the text
    def _next(self):
        return self._tokens[self._at][1]

    def _take(self, want=None):
        token = self._tokens[self._at]
        if token[0] == "end" or want is not None and token[1] != want:
            raise BadProgram("%s: line %d: %s" % (self.title, token[2], "want " + want if want else "it ends too early"))
        self._at += 1
        return token[1]

    def _names(self, until):
        out = []
        while self._next() != until:
            if out:
                self._take(",")
            out.append(self._take())
        self._take(until)
        return out

    def _function(self):
        line = self._tokens[self._at][2]
        self._take("func")
        f = Function(self._take(), line)
        self._take("(")
        f.values, f.dests = self._names(";"), self._names(")")
        f.body = self._body(f)
        self.functions.setdefault(f.name, f)

    def _body(self, f):
        self._take("{")
        out = []
        while self._next() != "}":
            st = Statement(self._take(), self._tokens[self._at - 1][2])
            out.append(st)
            if st.kind in ("let", "new", "write"):
                st.name = self._take()
                if st.kind != "new":
                    self._take("=")
                    self._expr_of(st)
                self._take(";")
            elif st.kind == "call":
                st.name = self._take()
                self._take("(")
                while self._next() != ";":
                    if st.exprs:
                        self._take(",")
                    self._expr_of(st)
                self._take(";")
                st.names = self._names(")")
                self._take(";")
            elif st.kind == "read":
                st.block = len(self.blocks)
                self.blocks.append((st, f))
                while True:
                    self._expr_of(st)
                    self._take("as")
                    st.names.append(self._take())
                    if self._next() != ",":
                        break
                    self._take(",")
                st.bodies = [self._body(f)]
            elif st.kind == "if":
                self._expr_of(st)
                st.bodies = [self._body(f)]
                self._take("else")
                st.bodies.append(self._body(f))
            elif st.kind == "par":
                st.bodies = [self._body(f), self._body(f)]
            else:
                raise BadProgram("%s: line %d: no statement" % (self.title, st.line))
        self._take("}")
        return out

    def _expr_of(self, st):
        start = self._tokens[self._at][3]
        st.exprs.append(self._infix(0))
        end = self._tokens[self._at][3]
        st.says.append(" ".join(re.sub(rb"#[^\n]*", b"", self._data[start:end]).decode("utf-8", "replace").split()))

    def _infix(self, level):
        if level == len(_LEVELS):
            return self._fact()
        left = self._infix(level + 1)
        while self._tokens[self._at][0] in (1, 4) and self._next() in _LEVELS[level]:
            op = self._take()
            left = (op, left, self._infix(level + 1))
        return left

    def _fact(self):
        kind = self._tokens[self._at][0]
        word = self._take()
        if kind == 2:
            return int(word)
        if kind == 3:
            return ("text", shown_text(re.sub(rb"\\(.)", lambda m: b"\n" if m[1] == b"n" else m[1], word[1:-1], flags=re.S)))
        if word == "(":
            inner = self._infix(0)
            self._take(")")
            return inner
        if word in _NAMED or word == "rows" and self._next() == "(":
            self._take("(")
            args = []
            while self._next() != ")":
                if args:
                    self._take(",")
                args.append(self._infix(0))
            self._take(")")
            return (word,) + tuple(args)
        return ("name", word)


# -- values: Ints as int, all others as they are printed; None for what isn't known

def known(printed):
    """A value of a dump."""
    return int(printed) if printed[:1] in b"-0123456789" else printed


def _boolean(x):
    return b"true" if x else b"false"


def _quotient(a, b):
    return None if b == 0 else abs(a) // abs(b) * (1 if (a < 0) == (b < 0) else -1)


def _remainder(a, b):
    return None if b == 0 else abs(a) % abs(b) * (-1 if a < 0 else 1)


_OPS = {
    "+": lambda a, b: a + b, "-": lambda a, b: a - b, "*": lambda a, b: a * b, "/": _quotient, "%": _remainder,
    "<": lambda a, b: _boolean(a < b), "<=": lambda a, b: _boolean(a <= b),
    ">": lambda a, b: _boolean(a > b), ">=": lambda a, b: _boolean(a >= b),
    "==": lambda a, b: _boolean(a == b), "!=": lambda a, b: _boolean(a != b),
    "and": lambda a, b: _boolean(a == b == b"true"), "or": lambda a, b: _boolean(b"true" in (a, b)),
    "not": lambda a: _boolean(a == b"false"), "neg": lambda a: -a, "abs": abs, "min": min, "max": max,
    "len": lambda a: len(re.sub(rb"\\x..|\\.", b".", a)) - 2,
    "cell": lambda a, b: b"&c/%d/%d" % (a, b), "rows": lambda: b"&r",
    "pair": lambda a, b: a + b"," + b[1:], "fst": lambda a: a.split(b",")[0], "snd": lambda a: b"&" + a.split(b",")[1],
}


def value(expr, env):
    """The value of an expression, or None where it isn't known."""
    if type(expr) is int:
        return expr
    if expr[0] == "text":
        return expr[1]
    if expr[0] == "name":
        word = expr[1]
        return word.encode() if word in ("true", "false", "nil") else env.get(word)
    args = [value(x, env) for x in expr[1:]]
    if None in args:
        return None
    try:
        return _OPS[expr[0]](*args)
    except (TypeError, IndexError):    # a fault, so this isn't the program of the record
        return None


# -- the record beside the text

class Spot:
    """Where a part comes from: its statement, the function that it stands in and the calls that led there."""
    __slots__ = ("statement", "function", "calls")

    def __init__(self, statement, function, calls):
        self.statement, self.function, self.calls = statement, function, calls

    def call_path(self):
        """As 'main:2 > sum:12 > sum': in each function the line of the call."""
        out = []
        calls = self.calls
        while calls:
            name, line, calls = calls
            out.append("%s:%s" % (name, line))
        out.reverse()
        text = []
        for x in out:
            if text and text[-1][0] == x:
                text[-1][1] += 1
            else:
                text.append([x, 1])
        return " > ".join([x if n == 1 else "%s (%d times)" % (x, n) for x, n in text] + [self.function.name])


def _fits(program, record, body, i, depth, budget):
    """Whether the parts from i on can be those of this body, as far as a short look tells."""
    for st in body:
        if st.kind == "let":
            continue
        budget[0] -= 1
        k = record.kind[i]
        if st.kind in ("new", "write"):
            if k != (A if st.kind == "new" else W):
                return False
            i += 1
            continue
        if k != S:
            return False
        t = record.kind[i + 1]
        if (t == R) != (st.kind == "read") or (t == P) != (st.kind == "par"):
            return False
        if st.kind == "read":
            if record.block(i + 1).number != st.block:
                return False
        elif depth and budget[0] > 0:
            if st.kind == "par":
                sides = [(st.bodies[0], i + 2), (st.bodies[1], record.end[i + 2])]
                fits = all(_fits(program, record, b, j, depth - 1, budget) for b, j in sides)
            else:
                bodies = st.bodies if st.kind == "if" else [program.functions[st.name].body]
                fits = any(_fits(program, record, b, i + 1, depth - 1, budget) for b in bodies)
            if not fits:
                return False
        i = record.end[i + 1]
    return record.kind[i] == E


def place(program, record, wanted):
    """The Spot of each part in `wanted` that can be told, as a dict. `wanted` has with a part all parts above it."""
    spots = {}
    env = {d: b"&o/%d" % n for n, d in enumerate(program.main.dests)}
    # a part, then its body from a statement on, or None; names, function, calls; the part's path
    todo = [(0, program.main.body, 0, env, program.main, None, b"")]
    while todo:
        i, body, at, env, f, calls, path = todo.pop()
        while i in wanted:
            k = record.kind[i]
            st = None
            if body is not None:
                while at < len(body) and body[at].kind == "let":
                    env = dict(env)
                    env[body[at].name] = value(body[at].exprs[0], env)
                    at += 1
                st = body[at] if at < len(body) else None
                at += 1
                t = record.kind[i + 1] if k == S else None
                if (st is None) != (k == E) or st and (
                        {"new": A, "write": W}.get(st.kind, S) != k
                        or k == S and ((t == R) != (st.kind == "read") or (t == P) != (st.kind == "par"))):
                    body = st = None      # a branch was taken for another one
            if st:
                spots[i] = Spot(st, f, calls)
            if k == E:
                break
            if k in (A, W):
                if k == W and st:
                    name, written = record.write(i)
                    if (env.get(st.name) not in (None, b"&" + name)
                            or value(st.exprs[0], env) not in (None, known(written))):
                        raise BadProgram("%s line %d writes something else than %s line %d: it is another program"
                                         % (program.title, st.line, record.title, i + 2))
                if k == A and st:
                    env = dict(env)
                    env[st.name] = b"&m/" + path
                i += 1
                path += b"3"
                continue
            rest, rest_path = record.end[i + 1], path + b"1"
            todo.append((rest, body, at, env, f, calls, rest_path))
            i += 1
            path += b"0"
            if record.kind[i] == R:
                block = record.block(i)
                if block.number >= len(program.blocks):
                    raise BadProgram("%s has no block %d, which %s has in line %d: it is another program"
                                     % (program.title, block.number, record.title, i + 2))
                read, g = program.blocks[block.number]
                if len(read.names) != len(block.reads) or st and st is not read:
                    raise BadProgram("block %d of %s isn't that of %s line %d: it is another program"
                                     % (block.number, program.title, record.title, i + 2))
                if not st:
                    calls = None if f is g and calls is None else ("..", "?", None)
                    f = g
                spots[i] = Spot(read, f, calls)
                env = {x: known(v) for x, v in block.env}
                if not st:
                    # behind a block, its own body's next statements are known again
                    todo[-1] = (rest,) + _behind(read, f) + (env, f, calls, rest_path)
                env = dict(env, **{x: known(v) for x, (_, v) in zip(read.names, block.reads)})
                i, body, at, path = i + 1, read.bodies[0], 0, path + b"2"
            elif record.kind[i] == P:
                if st:
                    spots[i] = Spot(st, f, calls)
                sides = st.bodies if st else (None, None)
                todo.append((record.end[i + 1], sides[1], 0, env, f, calls, path + b"1"))
                i, body, at, path = i + 1, sides[0], 0, path + b"0"
            elif st is None:
                body = None
            elif st.kind == "call":
                g = program.functions.get(st.name)
                if g is None:
                    raise BadProgram("%s: line %d: unknown function" % (program.title, st.line))
                inner = {x: value(e, env) for x, e in zip(g.values, st.exprs)}
                inner.update((x, env.get(d)) for x, d in zip(g.dests, st.names))
                calls = (f.name, st.line, calls)
                env, f, body, at = inner, g, g.body, 0
            else:
                chosen = value(st.exprs[0], env)
                if chosen in (b"true", b"false"):
                    body = st.bodies[chosen == b"false"]
                else:
                    fits = [b for b in st.bodies if _fits(program, record, b, i, 4, [200])]
                    body = fits[0] if len(fits) == 1 else None
                at = 0
    return spots


def _behind(read, f):
    """The body in which a statement stands, and the place behind it."""
    todo = [f.body]
    while todo:
        body = todo.pop()
        for n, st in enumerate(body):
            if st is read:
                return body, n + 1
            todo += st.bodies
    return None, 0
