"""Programs of the kinds that sessions mostly run, with their details at random. Each takes a source of chance and the numbers of
rows and columns, and gives a program whose main has the output `out`. Some end at a fault for some cells, and are meant to."""

HEAD = "func main(; out) {\n"
PART = ["x", "x", "x / 10", "x % 3", "min(x, 2)", "x * 2 - 1", "abs(x)"]
JOIN = ["x + y", "x + y", "max(x, y)", "min(x, y)", "x * 2 + y", "(x + y) % 7"]


def cell(chance, rows, columns):
    return f"cell({chance.randrange(rows)}, {chance.randrange(columns)})"


def both(chance, left, right):
    """Two calls, in a par or one after the other."""
    return f"par {{ {left} }} {{ {right} }}" if chance.random() < 0.8 else f"{left} {right}"


def over_halves(chance, leaf, join, room):
    """A fold by halves over all rows. Now and then it has no case for no rows."""
    begin = "read rows() as n {\n" if room and chance.random() < 0.7 else "let n = rows;\n"
    end = "}\n" if begin.startswith("read") else ""
    whole = "call f(0, n; out);" if chance.random() < 0.05 else "if n == 0 { write out = 0; } else { call f(0, n; out); }"
    calls = both(chance, "call f(lo, mid; a);", "call f(mid, hi; b);")
    return (
        f"{HEAD}{begin}{whole}\n{end}}}\nfunc f(lo, hi; d) {{\nif hi - lo == 1 {{\n{leaf}\n}} else {{\nlet mid = (lo + hi) / 2;\n"
        f"new a;\nnew b;\n{calls}\nread a as x, b as y {{ write d = {join}; }}\n}}\n}}\n"
    )


def halves(chance, _, columns, room):
    at = chance.randrange(columns)
    leaf = f"read cell(lo, {at}) as x {{ write d = {chance.choice(PART)}; }}"
    return over_halves(chance, leaf, chance.choice(JOIN), room)


def choices(chance, _, columns, room):
    """Blocks that make more or fewer modifiables, by the values that they read."""
    at, than = chance.randrange(columns), chance.randrange(4)
    inner = "new q;\nwrite q = x;\nread q as y { write d = y; }"
    for it in range(chance.randrange(3)):
        more = f"new p{it};\nwrite p{it} = x;\n{inner}"
        inner = more if chance.random() < 0.5 else f"if x > {it + 5} {{ {inner} }} else {{ write d = {it}; }}"
    leaf = f"read cell(lo, {at}) as x {{\nif x > {than} {{\n{inner}\n}} else {{ write d = {chance.choice(['x', '0', 'neg(x)'])}; }}\n}}"
    return over_halves(chance, leaf, chance.choice(JOIN), room)


def texts(chance, _, columns, room):
    at = chance.randrange(columns)
    same = chance.choice(['x == "north"', 'x != "north"', 'x == ""', 'x == "a,b"'])
    counted = chance.choice(["1", "1", 'len("north")'])
    leaf = f"read cell(lo, {at}) as x {{ if {same} {{ write d = {counted}; }} else {{ write d = 0; }} }}"
    return over_halves(chance, leaf, chance.choice(JOIN), room)


def quotients(chance, _, columns, room):
    """A fault where a cell is 0, a text or empty, on whichever side it is."""
    at = chance.randrange(columns)
    leaf = f"read cell(lo, {at}) as x {{ write d = {chance.choice(['10 / x', '7 % x', '9223372036854775807 / x + 1'])}; }}"
    return over_halves(chance, leaf, chance.choice(JOIN), room)


def pars(chance, rows, columns, _):
    """Pars within pars, each of which joins what its sides wrote."""
    made = [0]

    def part(name, depth):
        made[0] += 1
        left, right, mine = f"l{made[0]}", f"r{made[0]}", made[0]
        if depth == 0 or chance.random() < 0.2:
            own = chance.choice(PART).replace("x", f"x{mine}")
            return f"read {cell(chance, rows, columns)} as x{mine} {{ write {name} = {own}; }}\n"
        sides = part(left, depth - 1), part(right, depth - 1)
        joined = f"read {left} as y{mine}, {right} as z{mine} {{ write {name} = y{mine} {chance.choice(['+', '-'])} z{mine}; }}\n"
        return f"new {left};\nnew {right};\npar {{\n{sides[0]}}} {{\n{sides[1]}}}\n{joined}"

    return f"{HEAD}{part('out', chance.randrange(1, 5))}}}\n"


def reads(chance, rows, columns, _):
    """Blocks inside blocks. The inner ones read cells again, or what the outer ones made."""
    depth = chance.randrange(2, 7)
    lines, values, made = [], [], []
    for it in range(depth):
        items = [cell(chance, rows, columns) for _ in range(chance.choice([1, 1, 2]))]
        if made and chance.random() < 0.5:
            items[0] = chance.choice(made)
        names = [f"x{it}", f"y{it}"][: len(items)]
        lines.append(f"read {', '.join(f'{item} as {name}' for item, name in zip(items, names))} {{")
        values += names
        if chance.random() < 0.5:
            lines.append(f"new m{it};\nwrite m{it} = {chance.choice(values)} {chance.choice(['+', '/'])} {chance.choice([1, 2, 10])};")
            made.append(f"m{it}")
    result = " + ".join(chance.sample(values, min(len(values), 3)))
    return HEAD + "\n".join(lines) + f"\nwrite out = {result};\n" + "}" * depth + "\n}\n"


def handed(chance, rows, columns, _):
    """A reference that goes through several modifiables, to one that a block makes."""
    steps = chance.randrange(1, 4)
    made = f"new q;\nwrite q = {chance.choice(['x / 10', 'x', '1'])};\nwrite p0 = q;"
    lines = ["new p0;", f"read {cell(chance, rows, columns)} as x {{\n{made}\n}}"]
    for it in range(steps):
        lines.append(f"new p{it + 1};\nread p{it} as r{it} {{ write p{it + 1} = r{it}; }}")
    last = f"p{steps}"
    lines.append(chance.choice([f"read {last} as r {{\nread r as y {{ write out = y; }}\n}}", f"read {last} as r {{ write out = r; }}"]))
    return HEAD + "\n".join(lines) + "\n}\n"


def lists(chance, _, columns, room):
    """A list of pairs, a row each, and a walk along it."""
    at = chance.randrange(columns)
    count = "read rows() as n { call list(0, n; first); }" if room and chance.random() < 0.6 else "call list(0, rows; first);"
    kept = chance.choice(["true", "x > 1", "x % 2 == 0"])
    more = "write v = x;\ncall list(at + 1, n; rest);\nwrite d = pair(v, rest);"
    return (
        f"{HEAD}new first;\n{count}\ncall total(first; out);\n}}\nfunc list(at, n; d) {{\nif at >= n {{ write d = nil; }} else {{\n"
        f"read cell(at, {at}) as x {{\nif {kept} {{\nnew v;\nnew rest;\n{more}\n}} else {{ call list(at + 1, n; d); }}\n}}\n}}\n}}\n"
        "func total(l; d) {\nread l as p {\nif p == nil { write d = 0; } else {\nnew t;\ncall total(snd(p); t);\n"
        "read fst(p) as x, t as y { write d = x + y; }\n}\n}\n}\n"
    )


def deep(chance, rows, columns, _):
    """Calls near the last level, with a read of a cell on the way or at the end."""
    end, at = chance.choice([140, 146, 147, 148, 149]), chance.choice([0, 70, 139])
    block = f"read {cell(chance, rows, columns)} as x {{ write d = x; }}"
    if chance.random() < 0.5:
        return f"{HEAD}call f(0; out);\n}}\nfunc f(n; d) {{\nif n == {end} {{ {block} }} else {{ call f(n + 1; d); }}\n}}\n"
    turn = f"read {cell(chance, rows, columns)} as x {{ call g(x, n + 1; d); }}"
    return (
        f"{HEAD}call f(0; out);\n}}\nfunc f(n; d) {{\nif n == {at} {{ {turn} }} else {{ call f(n + 1; d); }}\n}}\n"
        f"func g(x, n; d) {{\nif n >= {end - 3} {{ write d = x; }} else {{ call g(x, n + 1; d); }}\n}}\n"
    )


SHAPES = {it.__name__: it for it in (halves, choices, texts, quotients, pars, reads, handed, lists, deep)}
