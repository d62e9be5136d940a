"""psac-table: inputs, legends, skeletons, fractions and the way back."""
import random
import sys

import support
from front import grid

TABLE = f"{support.ROOT}/tools/table"
GRADES = 'Name;Grade 1;Grade 2;Remark\nann;80;70;\nbob;95;60;"a;b"\n\ncyd;70;65,5;x,y\n'
LEGEND = """column 0: Name: texts
column 1: Grade 1: whole numbers
column 2: Grade 2: numbers with up to 1 digit behind the point; --scale 2=1 makes them whole
column 3: Remark: texts
"""


def quoted(records, separator):
    """Records with quotes around each field."""
    lines = (separator.join(b'"' + it.replace(b'"', b'""') + b'"' for it in record) for record in records)
    return b"".join(it + b"\n" for it in lines)


class Case(support.Case):
    def table(self, *words, given=b""):
        status, output, said = support.ran([sys.executable, TABLE, *words], cwd=self.folder, input=given)
        return status, output, said.decode()


class Table(Case):
    def test_grade_sheet(self):
        self.save("grades.csv", GRADES)
        status, rows, said = self.table("grades.csv")
        self.assertEqual((status, said), (0, ""))
        self.assertEqual(rows, b'ann,80,70,\nbob,95,60,a;b\ncyd,70,"65,5","x,y"\n')
        self.assertEqual(self.table("--legend", "grades.csv"), (0, rows, LEGEND))
        self.save("program.psac", self.table("--skeleton", "grades.csv")[1])
        self.save("input.csv", rows)
        got = support.bare(["once", "program.psac", "input.csv"], self.folder)
        self.assertEqual(got, (0, b"count = 3\ngrade_1 = 245\n", b""))
        back = self.table("--names", "grades.csv", "input.csv")[1]
        self.assertEqual(back, GRADES.replace("\n\n", "\n").encode())

    def test_separators(self):
        for mark, word in ((",", "comma"), (";", "semicolon"), ("\t", "tab")):
            self.save("t", f"a{mark}b\n1{mark}2\n")
            self.assertEqual(self.table("t"), (0, b"1,2\n", ""))
            self.save("t", f"only\n1{mark}2\n")
            self.assertEqual(self.table("t", "--separator", word)[0], 1)
        self.save("t", "a;b,c;d\n1;2;3\n")
        said = "psac-table: the header of t is taken with the separator semicolon, and has comma too; --separator names one\n"
        self.assertEqual(self.table("t"), (0, b"1,2,3\n", said))

    def test_edges(self):
        for text, rows in (
            ("a\n\n", b""),
            ("a\n", b""),
            ('a\n""\n', b'""\n'),
            ('a,b\n"x\ny",\r\n', b'"x\ny",\n'),
            ("\ufeffa\n1\n", b"1\n"),
            ('a,b\n"q""r", 7 \n', b'"q""r", 7 \n'),
        ):
            self.save("t.csv", text)
            self.assertEqual(self.table("t.csv"), (0, rows, ""), text)
        self.save("t.csv", "a,b\n q , 7 \n")
        self.assertEqual(self.table("--trim", "t.csv")[1], b"q,7\n")
        self.assertEqual(self.table("-", given=b"a\n1\n"), (0, b"1\n", ""))

    def test_encodings(self):
        self.save("t.csv", "a;ä\n1;2\n".encode("utf-16"))
        self.assertEqual(self.table("t.csv"), (0, b"1,2\n", ""))
        self.save("t.csv", "a;b\n1;ä\n".encode("latin-1"))
        status, _, said = self.table("t.csv")
        self.assertEqual((status, said), (1, "psac-table: t.csv isn't in UTF-8; --encoding names another, such as latin-1\n"))
        self.assertEqual(self.table("--encoding", "latin-1", "t.csv")[1], "1,ä\n".encode())

    def test_refusals(self):
        self.save("empty.csv", "")
        self.save("ragged.csv", "a,b\n1,2\n\n3\n")
        for words, said in (
            (["none.csv"], "psac-table: none.csv: no such file or directory\n"),
            (["empty.csv"], "psac-table: empty.csv is empty, and a header is needed\n"),
            (["ragged.csv"], "psac-table: ragged.csv, line 4: 1 field, and the header has 2\n"),
        ):
            self.assertEqual(self.table(*words), (1, b"", said))
        for words in ([], ["a", "b"], ["--names", "a"], ["--legend", "--skeleton", "a"], ["--scale", "1", "a"]):
            self.assertEqual(self.table(*words)[0], 2, words)
        status, page, said = self.table("--help")
        self.assertEqual((status, said), (0, ""))
        self.assertIn(b"psac-table --skeleton FILE", page)

    def test_skeletons_run(self):
        # Odd names, no rows, and many columns.
        chance = random.Random(3)
        names = "|rows|Main|count|count|1st|a b|a-b|ä|# {|q\"|low|new\nline|total|_|sum|neg|d".split("|") + ["x" * 50]
        for rows in (0, 1, 2, 5):
            for _ in range(4):
                header = [chance.choice(names) for _ in range(chance.randint(1, 30))]
                numbers = [[chance.randint(-50, 50) for _ in header] for _ in range(rows)]
                records = [[str(it).encode() for it in record] for record in (header, *numbers)]
                self.save("t.csv", quoted(records, b","))
                self.save("p.psac", self.table("--skeleton", "t.csv")[1])
                self.save("i.csv", self.table("t.csv")[1])
                output = support.bare(["once", "p.psac", "i.csv"], self.folder)[1].decode()
                wanted = [rows] + [sum(column) for column in zip(*numbers)][:20] if rows else [0] * min(len(header) + 1, 21)
                self.assertEqual([int(line.split(" = ")[1]) for line in output.splitlines()], wanted, header)

    def test_round_trip(self):
        chance = random.Random(4)
        for _ in range(20):
            columns = chance.randint(1, 4)
            texts = ["".join(chance.choice('ab7,;\t"\n\r ') for _ in range(chance.randint(0, 5))) for _ in range(3 * columns)]
            records = [[b"h%d" % at for at in range(columns)]]
            records += [[it.encode() for it in texts[at :: 3]] for at in range(3)]
            self.save("t.csv", quoted(records, b";"))
            rows = self.table("t.csv", "--separator", "semicolon")[1]
            self.assertEqual([it for _, it in grid.records_of(rows)], records[1:])
            self.save("i.csv", rows)
            back = self.table("--names", "t.csv", "i.csv", "--separator", "semicolon")[1]
            self.assertEqual([it for _, it in grid.records_of(back, b";")], records)


class Fractions(Case):
    def test_there_and_back(self):
        self.save("t.csv", "name,mark\na,95.5\nb,80\nc,-0.25\nd,n/a\ne,\n")
        status, rows, legend = self.table("--legend", "--scale", "1=2", "t.csv")
        self.assertEqual((status, rows), (0, b"a,9550\nb,8000\nc,-25\nd,n/a\ne,\n"))
        self.assertIn('column 1: mark, times 100: whole numbers, but for 2 of 5: row 3 has "n/a"\n', legend)
        self.save("i.csv", rows)
        back = self.table("--names", "--scale", "1=2", "t.csv", "i.csv")[1]
        self.assertEqual(back, b"name,mark\na,95.50\nb,80.00\nc,-0.25\nd,n/a\ne,\n")

    def test_commas_and_sums(self):
        self.save("t.csv", "name;mark\na;1,5\nb;+002\nc; -,25 \n")
        self.assertEqual(self.table("--scale", "1=2", "t.csv")[1], b"a,150\nb,200\nc,-25\n")
        self.save("i.csv", self.table("--scale", "1=2", "t.csv")[1])
        self.save("p.psac", self.table("--skeleton", "--scale", "1=2", "t.csv")[1])
        self.assertEqual(support.bare(["once", "p.psac", "i.csv"], self.folder)[1], b"count = 3\nmark = 325\n")
        back = self.table("--names", "--scale", "1=2", "t.csv", "i.csv")[1]
        self.assertEqual(back, b"name;mark\na;1,50\nb;2,00\nc;-0,25\n")

    def test_digits_that_would_be_lost(self):
        self.save("t.csv", "a\n1.50\n1.25\n")
        said = 'psac-table: t.csv, line 3, column 0: "1.25" has more than 1 digit behind the point\n'
        self.assertEqual(self.table("--scale", "0=1", "t.csv"), (1, b"", said))
        self.save("t.csv", "a\n92233720368547758\n")
        self.assertEqual(self.table("--scale", "0=3", "t.csv")[0], 1)
        self.assertEqual(self.table("--scale", "1=3", "t.csv")[0], 1)

    def test_by_chance(self):
        chance = random.Random(8)
        for _ in range(15):
            digits = chance.randint(0, 4)
            numbers = [chance.randint(-(10**6), 10**6) for _ in range(6)]
            fields = [f"{it / 10**digits:.{digits}f}" for it in numbers]
            self.save("t.csv", "\n".join(["n", *fields, ""]))
            rows = self.table("--scale", f"0={digits}", "t.csv")[1]
            self.assertEqual([int(it) for it in rows.split()], numbers, fields)
            self.save("i.csv", rows)
            back = self.table("--names", "--scale", f"0={digits}", "t.csv", "i.csv")[1].decode().split("\n")
            self.assertEqual(back[1:-1], fields)
