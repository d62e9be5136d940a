"""What the front reads for itself, held to the program: the grammar, the series rule, inputs and words."""
import random
import re

import support
from front import grammar, grid, series, words

PIECES = (
    b'{ } ( ) ; , = == != < <= - / * % rows if else x a 5 " A . \\ neg( # ! & new let write read call func as and or nil true '
    b"north cell(0,0) write~a=1; new~a; let~x=1; par{}{} \xc3 \xff"
).split()
PROGRAMS = (
    support.DOUBLE,
    'func main(; a, b) { par { write a = 1; } { write b = len("x") + rows; } }',
    "func main(; a) { new t; call f(1, 2; t); read t as x { write a = x; } } "
    "func f(x, y; d) { if x < y { write d = x; } else { write d = neg(y); } }",
    "func main(; a, b) {\n  new c;\n  par { call f(; a); } { call f(; c); }\n"
    "  read c as x, a as y { write b = x * (y + 2) - min(x, y) % 3; }\n}\nfunc f(; d) { # one\n  write d = 1;\n}\n",
    "func main(; a) { if rows == 0 or 100 / rows > 9 and not(true) { let y = cell(0, 1); read y as z { write a = z; } } "
    "else { write a = nil; } }",
)
# One for each fault of the series rule, where there are several ways to it.
FAULTS = """
func main(; a) { write a = b; }
func main(; a) { let x = 1; let x = 2; write a = x; }
func main(; a) { read a as x { write a = x; } }
func main(; a) { write a = 1; write a = 2; }
func main(; a) { }
func main(; a) { if rows == 0 { write a = 1; } else { } }
func main(; a) { par { write a = 1; } { write a = 2; } }
func main(; a) { call f(; a); }
func other(; a) { write a = 1; }
func main(; a) { call f(1; a); } func f(; d) { write d = 1; }
func main(; a) { call f(; a, a); } func f(; d) { write d = 1; }
func main(; a) { let x = a; write a = x; }
func main(x; a) { write a = x; }
func main(; a, b) { if true { write a = 1; } else { write b = 1; } }
func main(; a, a) { write a = 1; }
func main(;) { } func main(;) { }
"""
# At the @ the text leaves the grammar.
PLACES = """
func main(; out) { write out = @
func main(; out) { write out = 1 @
func main(; out) { write out = 1 < 2 @
func main(; @
func main(@
func main(; a @
func main(; out) { @
func main(; out) { if true { } @
func main(; out) { par { } @
@
func main(;) { } @
func main(; out) { read rows() @
func main(; out) { read rows() as a, rows() as b, rows() as c, rows() as d @
func main(;) { call f(@
func main(;) { call f(1 @
func main(;) { call f(1; @
func main(;) { let x = rows @
func main(;) { let x = min(1 @
func main(;) { let @
"""
OTHER_SYMBOLS = "func as else and or + - * / % { } ( ) ; , =".split()
# Fields of an input that are, or look like, numbers.
FIELDS = (
    b"0 -0 +5 007 9223372036854775807 9223372036854775808 -9223372036854775808 -9223372036854775809 1.5 - -5 5-".split(b" ")
) + [b"", b" 5"]
# Words of the command line, some of which are of its form.
WORDS = """
once p i.txt | session p i.txt | once p | once | | bench p i.txt | bench p 4x1 | bench p 65536x1000 | bench p 65537x1 | bench p 1x1001
bench p 0x1 | bench p 4x | bench p x1 | bench p 4x1x1 | bench p 0000000004x1 | bench p 000000004x000000001 | bench p 4X1 | once p 4x1 | twice p i.txt | once p i.txt more | --rows 5 once p i.txt
once --rows=5 p i.txt | once p i.txt --rows | once p i.txt --rows= | once p i.txt --rows 5 --rows 6 | once p i.txt --rows 65537
once p i.txt --rows 65536 | once p i.txt --nodes 0 | once p i.txt --nodes 0001 | once p i.txt --nodes 0000000001
once p i.txt --workers 64 | once p i.txt --workers 65 | once p i.txt --rows -5 | once p i.txt -r 5 | once p i.txt --row 5
once -- p i.txt | once p -- i.txt --rows | once p i.txt --rows 5x | once p i.txt --links 1 --mods 1 --nodes 2
once p i.txt --help | -- once p i.txt | --rows=5 -- once p i.txt
"""


def mutated(chance, text):
    """A text with one to three small changes."""
    for _ in range(chance.randint(1, 3)):
        at, how = chance.randint(0, len(text)), chance.random()
        if how < 0.3:
            text = text[:at] + b" " * chance.randint(0, 1) + chance.choice(PIECES).replace(b"~", b" ") + text[at:]
        elif how < 0.45:
            text = text[:at] + text[at + chance.randint(1, 5) :]
        elif how < 0.5:
            text = text[:at]
        else:
            text = with_one_for_another(chance, text, rb"[a-z_0-9]+|[^\sa-z0-9_]" if how < 0.75 else rb"\b[a-z]\b")
    return text


def with_one_for_another(chance, text, pattern):
    """A text with one of the pieces of a pattern in the place of another one."""
    pieces = list(re.finditer(pattern, text))
    if len(pieces) < 2:
        return text
    one, other = chance.choice(pieces), chance.choice(pieces)
    return text[: one.start()] + other.group() + text[one.end() :]


def verdict(text):
    """The refusal that the front would give."""
    try:
        fault = series.first_fault(grammar.functions_of(text))
    except grammar.Fault as it:
        return f"program line {it.token.line} column {it.token.column} syntax"
    return f"program line {fault.line} {fault.text}" if fault else None


def printed(field):
    """A field as the program prints it."""
    if field is None:
        return b"nil"
    if grid.is_int(field):
        return field
    for byte, escape in ((b"\\", b"\\\\"), (b'"', b'\\"'), (b"\n", b"\\n"), (b"\r", b"\\x0d")):
        field = field.replace(byte, escape)
    return b'"' + field + b'"'


def showing(names):
    """A program that shows cells, by a name for each (row, column)."""
    reads = " ".join(f"read cell({row}, {column}) as x {{ write {name} = x; }}" for name, (row, column) in names.items())
    return f"func main(; r, c{''.join(f', {it}' for it in names)}) {{ write r = rows; write c = cols; {reads} }}"


class Programs(support.Case):
    def setUp(self):
        super().setUp()
        self.save("it.csv", "1,2\n")

    def refusal(self, text):
        """The line by which the program refuses a text, or None."""
        self.save("it.psac", text)
        output = support.bare(["once", "it.psac", "it.csv"], self.folder)[1].decode("utf-8", "replace")
        return output.rstrip("\n") if output.startswith("program ") else None

    def test_changed_programs(self):
        chance, seen = random.Random(1), {}
        for _ in range(700):
            text = mutated(chance, chance.choice(PROGRAMS).encode())
            wanted = self.refusal(text)
            if wanted is None or " limit " not in wanted:
                self.assertEqual(verdict(text), wanted, text)
            sort = re.sub(r"\d+", "", wanted or "none")
            seen[sort] = seen.get(sort, 0) + 1
        self.assertGreaterEqual(len(seen), 9, seen)

    def test_faults_of_the_rule(self):
        for text in FAULTS.strip().split("\n"):
            wanted = self.refusal(text.encode())
            self.assertIsNotNone(wanted, text)
            self.assertEqual(verdict(text.encode()), wanted, text)

    def test_what_may_stand_there(self):
        # Each symbol that the front says may stand at a fault can, and every other one is the fault itself.
        spelled = {grammar.NAME: "x", grammar.INT: "5", grammar.TEXT: '"t"'}
        symbols = {*grammar.VALUE_STARTS, *grammar.STATEMENT_STARTS, *grammar.COMPARISONS, *OTHER_SYMBOLS}
        for text in PLACES.strip().split("\n"):
            with self.assertRaises(grammar.Fault) as told:
                grammar.functions_of(text.encode())
            place = text.index("@") + 1
            self.assertEqual(told.exception.token.column, place, text)
            for symbol in symbols:
                refusal = self.refusal(text.replace("@", spelled.get(symbol, symbol)).encode())
                is_refused = refusal == f"program line 1 column {place} syntax"
                self.assertEqual(is_refused, symbol not in told.exception.wanted, (text, symbol))


class Inputs(support.Case):
    def shown(self, name, cells):
        """What the program should say of these cells, and the program that shows the first ones."""
        ragged = next((at for at, it in enumerate(cells.cells) if len(it) != cells.cols), None)
        if ragged is not None:
            return f"input record {ragged + 1} ragged\n".encode(), "func main(;) { }"
        places = [(row, column) for row in range(cells.rows) for column in range(cells.cols)][:9]
        names = {f"o{at}": place for at, place in enumerate(places)}
        wanted = f"r = {cells.rows}\nc = {cells.cols}\n".encode()
        for it, (row, column) in names.items():
            wanted += it.encode() + b" = " + printed(cells.cells[row][column]) + b"\n"
        return wanted, showing(names)

    def test_records(self):
        chance = random.Random(2)
        pieces = [b"a", b"7", b"-1", b"007", b"-0", b",", b",", b'"', b'"', b"\n", b"\n", b"\r", b" "]
        for name in ("it.csv", "it.txt"):
            for _ in range(150):
                data = b"".join(chance.choice(pieces) for _ in range(chance.randint(0, 14)))
                if chance.random() < 0.1:
                    data = b"\xef\xbb\xbf" + data
                self.save(name, data)
                wanted, program = self.shown(name, grid.Grid(grid.read(name, data)))
                self.save("it.psac", program)
                self.assertEqual(support.bare(["once", "it.psac", name], self.folder)[1], wanted, data)

    def test_edits(self):
        # The grid after staged and committed edits, as the program shows it.
        names = {f"c{row}{column}": (row, column) for row in range(4) for column in range(2)}
        self.save("all.psac", showing(names))
        self.save("it.csv", "1,2\n3,4\n")
        chance = random.Random(6)
        for _ in range(40):
            cells, rows, script, wanted = grid.Grid(grid.read("it.csv", b"1,2\n3,4\n"), 4), 2, b"", b""
            for _ in range(25):
                how = chance.random()
                if how < 0.2:
                    rows = chance.randint(0, 4)
                    line = b"rows %d" % rows
                elif how < 0.45 or not rows:
                    cells.commit()
                    script += b"commit\nshow\n"
                    wanted += b"r = 2\nc = 2\n" + self.outputs(names, cells)
                    continue
                else:
                    field = chance.choice([b"7", b"-3", b"", b"a b", b" 5", b"x"])
                    line = b"set %d %d " % (chance.randrange(rows), chance.randrange(2)) + field
                cells.stage(line)
                script += line + b"\n"
            output = support.bare(["session", "all.psac", "it.csv", "--rows", "4"], self.folder, script)[1]
            replies = b"".join(it + b"\n" for it in output.splitlines() if not it.startswith(b"mode="))
            self.assertEqual(replies, wanted, script)

    def outputs(self, names, cells):
        """What the program shows of cells, of which those of rows that aren't present are empty."""
        fields = {it: cells.cells[row][column] if row < cells.rows else None for it, (row, column) in names.items()}
        return b"".join(it.encode() + b" = " + printed(field) + b"\n" for it, field in fields.items())

    def test_room(self):
        self.save("any.psac", "func main(;) { }")
        for data in (b"", b"1\n", b"1,2,3\n", b"1\n2\n3\n"):
            self.save("it.csv", data)
            for rows in (0, 2, 5, 30000, 65536):
                room = grid.Grid(grid.read("it.csv", data), rows).room
                script = f"rows {room}\nrows {room + 1}\n".encode()
                output = support.bare(["session", "any.psac", "it.csv", "--rows", str(rows)], self.folder, script)[1]
                self.assertEqual(output, b"refused range\n", (data, rows))

    def test_numbers(self):
        self.save("it.psac", "func main(; a) { read cell(0, 0) as x { write a = x; } }")
        for field in FIELDS:
            self.save("it.txt", field + b"\n")
            output = support.bare(["once", "it.psac", "it.txt"], self.folder)[1]
            self.assertEqual(grid.is_int(field), not output.startswith(b'a = "'), field)


class Words(support.Case):
    def test_words(self):
        self.save("p", support.DOUBLE)
        self.save("i.txt", "4\n")
        for line in WORDS.strip("\n").replace("\n", "|").split("|"):
            given = line.split()
            status = support.bare(given, self.folder)[0]
            try:
                words.read(given)
                is_read = True
            except words.Wrong:
                is_read = False
            self.assertEqual(is_read, status != 2, line)
