"""Programs, inputs, scripts and words that follow their grammars, made at random.

Most programs keep the series rule too, and most values are of the kind that is asked for, so that runs come far. Every function
has a value that counts down, so most programs end soon however their functions call each other; some leave that out, and end
where the levels or a cap ends them.
"""

INTS = [0, 0, 1, 1, 2, 3, 5, 7, 10, 100, 1000]
# Numbers at the edges of a limit or of what is stored.
EDGES = [0, 1, 2, 23, 24, 25, 31, 32, 33, 63, 64, 65, 255, 256, 257, 298, 299, 300, 301, 4095, 4096, 65535, 65536, 65537, 262144, 1048575,
         1048576, 1048577, 16777215, 16777216, 999999999, 1000000000, 2**31 - 1, 2**31, 2**32 - 1, 2**32, 2**63 - 1, 2**63, 2**64]
TEXTS = ['""', '"a"', '"north"', '"south"', '"two\\nlines"', '"a \\"word\\""', '"\\\\"', '"caf\u00e9"', '"\U0001f600"']
CELLS = [b"", b"0", b"1", b"-1", b"7", b"42", b"007", b"+5", b"1.5", b"-0", b"a", b"north", b"south", b"two words", b"caf\xc3\xa9",
         b"9223372036854775807", b"-9223372036854775808", b"9223372036854775808"]
KINDS = ["int"] * 6 + ["ref", "ref", "bool", "text", "pair"]
INFIX = {"int": ["+", "-", "*", "/", "%"], "bool": ["<", "<=", ">", ">=", "and", "or"]}
# The most names that a body sees, below the limit of 24.
NAMES = 18


class Function:
    """A header: its name, the kinds of its values behind the one that counts down, and its number of destinations."""

    def __init__(self, name, kinds, destinations):
        self.name, self.kinds, self.destinations = name, kinds, destinations


class Maker:
    """Makes one program."""

    def __init__(self, chance, count_down=True):
        self.chance, self.count_down = chance, count_down
        # How often a name, a writing or a kind is wrong. One of them in a program is enough for a refusal or a fault.
        self.slips, self.kind_slips = chance.choice([0, 0, 0, 0, 0.01]), chance.choice([0, 0, 0.02])
        self.names, self.calls = 0, 0
        self.inside = False  # whether this is the part of a function that may call functions
        many = chance.randrange(1, 5)
        self.functions = [Function(f"f{it}", [self.kind() for _ in range(chance.randrange(3))], chance.randrange(4)) for it in range(many)]

    def kind(self):
        return self.chance.choice(KINDS)

    def fresh(self, letter):
        if self.chance.random() < self.slips:
            return "twice"
        self.names += 1
        return f"{letter}{self.names}"

    # Expressions. A scope is a list of names with their kinds.

    def known(self, kind, scope):
        """A name of this kind, or None."""
        names = [name for name, its in scope if its == kind]
        return self.chance.choice(names) if names else None

    def expression(self, kind, scope, depth=0):
        """The text of an expression, nearly always of this kind."""
        chance = self.chance
        if chance.random() < self.kind_slips:
            kind = self.kind()
        name = self.known(kind, scope)
        if name and chance.random() < 0.6:
            return name
        if chance.random() < self.slips:
            return chance.choice(["nil", "absent", "main", name or "rows"])
        return getattr(self, f"{kind}_expression")(scope, depth + 1)

    def int_expression(self, scope, depth):
        chance = self.chance
        if depth > 3 or chance.random() < 0.6:
            number = chance.choice(EDGES[:-2] if chance.random() < 0.05 else INTS)
            return chance.choice([str(number)] * 6 + ["rows", "cols"])
        first, second = self.expression("int", scope, depth), self.expression("int", scope, depth)
        form = chance.randrange(8)
        if form < 4:
            return f"{first} {chance.choice(INFIX['int'][:3] if form else INFIX['int'])} {second}"
        if form == 4:
            return f"len({self.expression('text', scope, depth)})"
        return chance.choice([f"neg({first})", f"abs({first})", f"min({first}, {second})", f"max({first}, {second})", f"({first})"])

    def bool_expression(self, scope, depth):
        chance = self.chance
        if depth > 3 or chance.random() < 0.2:
            return chance.choice(["true", "false"])
        kind = self.kind()
        same = f"({self.expression(kind, scope, depth)} {chance.choice(['==', '!='])} {self.expression(kind, scope, depth)})"
        less = f"({self.expression('int', scope, depth)} {chance.choice(INFIX['bool'][:4])} {self.expression('int', scope, depth)})"
        both = f"({self.expression('bool', scope, depth)} {chance.choice(INFIX['bool'][4:])} {self.expression('bool', scope, depth)})"
        return chance.choice([same, less, less, both, f"not({self.expression('bool', scope, depth)})"])

    def text_expression(self, scope, depth):
        return self.chance.choice(TEXTS)

    def ref_expression(self, scope, depth):
        chance = self.chance
        form = chance.randrange(8)
        if form == 0:
            return "rows()"
        if form == 1 and depth < 3:
            return f"{chance.choice(['fst', 'snd'])}({self.expression('pair', scope, depth)})"
        row = f"abs({self.expression('int', scope, depth)}) % 4" if form == 2 else f"{chance.randrange(4)}"
        return f"cell({row}, {0 if form < 7 else chance.randrange(3)})"

    def pair_expression(self, scope, depth):
        return f"pair({self.expression('ref', scope, depth + 1)}, {self.expression('ref', scope, depth + 1)})"

    # Statements. What is owed are the destinations that the body has yet to write.

    def body(self, scope, owed, depth):
        """The statements of a body that sees these names, and writes all that is owed."""
        scope, owed, lines = list(scope), list(owed), []
        for _ in range(self.chance.randrange(4)):
            lines += self.statement(scope, owed, depth)
        while owed:
            if self.chance.random() < self.slips:
                break
            lines += self.settle(scope, owed, depth)
        return lines

    def statement(self, scope, owed, depth):
        chance = self.chance
        if len(scope) + len(owed) < NAMES:
            if chance.random() < 0.4:
                kind, name = self.kind(), self.fresh("v")
                line = f"let {name} = {self.expression(kind, scope)};"
                scope.append((name, kind))
                return [line]
            if chance.random() < 0.6:
                name = self.fresh("d")
                owed.append(name)
                return [f"new {name};"]
        return self.settle(scope, owed, depth)

    def settle(self, scope, owed, depth):
        """A statement that writes some of what is owed."""
        chance = self.chance
        form = chance.choice(["write", "write", "call", "call", "read", "read", "read", "if", "par", "par"])
        if depth > 4 or (form == "write" and owed):
            return self.write(scope, owed)
        some = chance.sample(owed, chance.randrange(len(owed) + 1))
        lines = getattr(self, f"{form}_statement")(scope, some, depth) if form != "write" else []
        if lines:
            for it in some:
                owed.remove(it)
                scope.append((it, "ref"))
        return lines

    def write(self, scope, owed):
        if not owed:
            return []
        name = self.chance.choice(owed)
        line = f"write {name} = {self.expression(self.kind(), scope)};"
        if self.chance.random() >= self.slips:
            owed.remove(name)
            scope.append((name, "ref"))
        return [line]

    def if_statement(self, scope, some, depth):
        condition = self.expression("bool", scope)
        return [f"if {condition} {{", *self.body(scope, some, depth + 1), "} else {", *self.body(scope, some, depth + 1), "}"]

    def par_statement(self, scope, some, depth):
        cut = self.chance.randrange(len(some) + 1)
        return ["par {", *self.body(scope, some[:cut], depth + 1), "} {", *self.body(scope, some[cut:], depth + 1), "}"]

    def read_statement(self, scope, some, depth):
        chance = self.chance
        items, inner = [], list(scope)
        for _ in range(chance.choice([1, 1, 1, 2, 2, 3, 4])):
            name = self.fresh("r")
            items.append(f"{self.expression('ref', scope)} as {name}")
            inner.append((name, chance.choice(["int", "int", "int", "text", "ref"])))
        return [f"read {', '.join(items)} {{", *self.body(inner, some, depth + 1), "}"]

    def call_statement(self, scope, some, depth):
        fitting = [it for it in self.functions if it.destinations == len(some)]
        if not self.inside or not fitting or self.calls >= 3:
            return []
        self.calls += 1
        callee = self.chance.choice(fitting)
        values = ["n - 1" if self.count_down or self.chance.random() < 0.9 else "n", *(self.expression(it, scope) for it in callee.kinds)]
        return [f"call {callee.name}({', '.join(values)}; {', '.join(some)});"]

    def function(self, it):
        values = [f"p{at}" for at in range(len(it.kinds))]
        destinations = [f"o{at}" for at in range(it.destinations)]
        scope = [("n", "int"), *zip(values, it.kinds)]
        lines = [f"func {it.name}({', '.join(['n', *values])}; {', '.join(destinations)}) {{"]
        self.inside = False
        lines += ["if n <= 0 {", *self.body(scope, destinations, 1), "} else {"]
        self.inside, self.calls = True, 0
        lines += [*self.body(scope, destinations, 1), "}", "}"]
        return lines, self.calls

    def program(self):
        """The text of a program."""
        chance, parts, calls = self.chance, [], 0
        for it in self.functions:
            lines, its = self.function(it)
            parts.append(lines)
            calls = max(calls, its)
        first = self.functions[0]
        most = 5 if calls > 1 else chance.choice([5, 20, 60, 149, 300])
        names = [f"out{at}" for at in range(first.destinations)]
        values = [str(chance.randrange(1, most + 1)), *(self.expression(it, []) for it in first.kinds)]
        main = [f"func main(; {', '.join(names)}) {{", f"call f0({', '.join(values)}; {', '.join(names)});", "}"]
        parts.insert(chance.randrange(len(parts) + 1), main)
        return "\n".join(line for lines in parts for line in lines).encode() + b"\n"


def grid(chance):
    """The bytes of an input."""
    rows, columns = chance.choice([0, 1, 2, 3, 4, 4, 4, 5, 8, 17]), chance.choice([1, 1, 1, 2, 3, 3])
    end = chance.choice([b"\n", b"\n", b"\n", b"\r\n"])
    cells = CELLS if chance.random() < 0.3 else CELLS[1:6]
    return b"".join(b",".join(chance.choice(cells) for _ in range(columns)) + end for _ in range(rows))


def command(chance):
    """One line of a script."""
    row, place = chance.choice([0, 0, 1, 1, 2, 3, 5]), chance.choice([0, 0, 1, 2, 63, 64])
    other, form = chance.choice([0, 1, 2]), chance.randrange(20)
    if form < 9:
        return b"set %d %d %s" % (row, chance.choice([0, 0, 0, 0, 1, 2]), chance.choice(CELLS if chance.random() < 0.4 else CELLS[1:6]))
    if form < 13:
        return b"commit\nshow"
    plain = [b"commit", b"tree", b"show", b"# nothing", b"", b"rows %d" % chance.choice([0, 1, 2, 3, 5, 8])]
    held = [b"hold %d %s %d" % (place, chance.choice([b"out", b"out", b"ref", b"fst", b"snd"]), other), b"held %d" % place]
    return chance.choice(plain + held + [b"quit" if chance.random() < 0.2 else b"commit"])


def script(chance):
    """The bytes of a script."""
    lines = [b"commit", b"show"] if chance.random() < 0.8 else []
    lines += [command(chance) for _ in range(chance.randrange(14))]
    end = chance.choice([b"\n", b"\n", b"\n", b"\r\n"])
    return b"".join(it + end for it in lines) + chance.choice([b"", b"commit\nshow\n", b"commit"])


def caps(chance, is_session):
    """Words for the caps: mostly small ones, at times, where there is one run alone, those without options or the greatest."""
    size = 1 if is_session else chance.random()
    if size < 0.1:
        return []
    if size < 0.12:
        return [b"--nodes", b"1048576", b"--mods", b"1048576", b"--links", b"1048576"]
    words = []
    for name in (b"--nodes", b"--mods", b"--links"):
        words += [name, b"%d" % chance.choice([1, 2, 5, 10, 20, 50, 100, 200, 500, 1000, 2000, 5000, 5000])]
    if chance.random() < 0.2:
        words += [b"--rows", b"%d" % chance.choice([0, 1, 4, 5, 20, 100])]
    return words


def words(chance, program, given):
    """Words of the command line, most of them well formed."""
    right = chance.random() < 0.5
    modes = [b"once", b"session"] if right else [b"once", b"session", b"bench", b"Once", b"help", b"", b"\xff"]
    got = [chance.choice(modes), program, given]
    names = [b"--workers", b"--nodes", b"--mods", b"--links", b"--rows"]
    if right:
        for name in chance.sample(names, chance.randrange(6)):
            got += chance.choice([[name, b"%d" % chance.choice([1, 2, 8, 64])], [name + b"=%d" % chance.choice([1, 4, 64])]])
        return got
    for _ in range(chance.randrange(6)):
        name, number = chance.choice([*names, b"--rows", b"--help", b"-h", b"--", b"--work", b"x"]), b"%d" % chance.choice(EDGES)
        got += chance.choice([[name, number], [name, number], [name + b"=" + number], [name], [number]])
    return got
