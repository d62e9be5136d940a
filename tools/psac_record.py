"""Records of runs: reading a dump, names and paths in it, and what changed between two of them.

A record is held as lists over its parts in the order of the dump's lines, so part i stands in line i + 2. The part behind
i is its first child; `end[i]` is the part behind everything under i, so the second child of an S or P is `end[i + 1]`.
Nothing here recurses, since a record may be hundreds of levels deep and have millions of parts.
"""
import re
from array import array

E, A, W, S, P, R = b"EAWSPR"
CHILDREN = {E: 0, A: 1, W: 1, S: 2, P: 2, R: 1}
NODES = (S, P, R)

_NAME = rb"(?:c/[0-9]+/[0-9]+|o/[0-9]+|r|m/[0-3]*)"
_TEXT = rb'"(?:[^"\\]|\\.)*"'
_VALUE = rb"(?:nil|true|false|-?[0-9]+|" + _TEXT + rb"|&" + _NAME + rb"(?:," + _NAME + rb")?)"
_WRITE = re.compile(rb"W (" + _NAME + rb") (" + _VALUE + rb")", re.S)
_READS = re.compile(rb"R ([0-9]+)((?: [a-z_][a-z0-9_]*=" + _VALUE + rb")*) \|((?: " + _NAME + rb"=" + _VALUE + rb")+)", re.S)
_PAIR = re.compile(rb" ([^= ]+)=(" + _VALUE + rb")", re.S)


class BadRecord(Exception):
    """The text isn't the dump of a record."""


def read_file(path):
    with open(path, "rb") as f:
        return f.read()


def shown_text(data):
    """A text as a dump prints it."""
    names = {b'"': b'\\"', b"\\": b"\\\\", b"\n": b"\\n"}
    return b'"' + re.sub(rb'["\\\x00-\x1f\x7f]', lambda m: names.get(m[0], b"\\x%02x" % m[0][0]), data) + b'"'


class Apart(Exception):
    """Two records that no edit of cells leads from one to the other."""


class Block:
    """What the line of an R says: block number, environment and reads, values and names as they are printed."""

    def __init__(self, line):
        m = _READS.fullmatch(line)
        if not m:
            raise ValueError
        self.number = int(m[1])
        self.env = [(x.decode(), v) for x, v in _PAIR.findall(m[2])]
        self.reads = _PAIR.findall(m[3])


class Record:
    def __init__(self, data, title="the record"):
        self.title = title
        lines = data.split(b"\n")
        if lines[0] != b"psac record 1":
            first = lines[0][:60].decode("utf-8", "replace")
            raise BadRecord("%s: no record, which would begin with 'psac record 1'; it begins with '%s'" % (title, first))
        if lines[-1] != b"":
            self._fail(len(lines) - 2, "the last line has no end")
        self.line = lines[1:-1]
        self.kind = bytes(x[0] if x else 0 for x in self.line)
        n = len(self.line)
        self.up = array("i", bytes(4 * n))
        self.end = array("i", bytes(4 * n))
        up, end, kind = self.up, self.end, self.kind
        open_parts = []                # each part as often as children of it are to come
        for i, k in enumerate(kind):
            if i and not open_parts:
                self._fail(i, "the record ended above")
            up[i] = open_parts[-1] if open_parts else -1
            children = CHILDREN.get(k)
            if children is None or (len(self.line[i]) == 1) == (k in (W, R)):
                self._fail(i, "no part of a record")
            if k in (P, R) and (i == 0 or kind[i - 1] != S):
                self._fail(i, "a P or R stands behind its S")
            if children:
                open_parts.append(i)
                if children == 2:
                    open_parts.append(i)
                continue
            end[i] = i + 1
            while open_parts:
                p = open_parts.pop()
                if open_parts and open_parts[-1] == p:
                    break
                end[p] = i + 1
        if open_parts or not n:
            self._fail(n, "the record ends too early")

    def _fail(self, i, why):
        raise BadRecord("%s: line %d: %s" % (self.title, i + 2, why))

    def block(self, i):
        try:
            return Block(self.line[i])
        except ValueError:
            self._fail(i, "no line of an R")

    def write(self, i):
        """The name and the value of a W."""
        m = _WRITE.fullmatch(self.line[i])
        if not m:
            self._fail(i, "no line of a W")
        return m[1], m[2]

    def below(self, i, kind):
        """How many parts of this kind stand strictly under part i."""
        return self.kind.count(kind, i + 1, self.end[i])

    def nodes_below(self, i):
        return sum(self.below(i, k) for k in NODES)

    def parts_below(self, i, kind):
        """The parts of this kind strictly under part i, in order."""
        j = self.kind.find(kind, i + 1, self.end[i])
        while j >= 0:
            yield j
            j = self.kind.find(kind, j + 1, self.end[i])

    def all(self, kind):
        j = self.kind.find(kind)
        while j >= 0:
            yield j
            j = self.kind.find(kind, j + 1)

    def links_below(self, i):
        return sum(len(self.block(j).reads) for j in self.parts_below(i, R))

    def way(self, i):
        """Part i and the parts above it, upwards."""
        while i >= 0:
            yield i
            i = self.up[i]

    def turns(self, i):
        """The path of part i."""
        out = []
        while self.up[i] >= 0:
            p = self.up[i]
            k = self.kind[p]
            out.append("2" if k == R else "3" if k in (A, W) else "0" if i == p + 1 else "1")
            i = p
        return "".join(reversed(out)).encode()

    def along(self, turns):
        """The parts on a path from the root, its last part included, as far as the record has it."""
        i = 0
        yield i
        for turn in turns:
            k = self.kind[i]
            if k in (S, P) and turn == 48:
                i += 1
            elif k in (S, P) and turn == 49:
                i = self.end[i + 1]
            elif k == R and turn == 50 or k in (A, W) and turn == 51:
                i += 1
            else:
                return
            yield i

    def maker(self, name):
        """The A part of a made name."""
        i = -1
        for i in self.along(name[2:]):
            pass
        return i


def names_in(value):
    """The names of a reference or a pair, and none of another value."""
    return value[1:].split(b",") if value[:1] == b"&" else []


def plain_name(name):
    """A name in words, but for a made one."""
    parts = name.decode().split("/")
    if parts[0] == "c":
        return "cell(%s, %s)" % (parts[1], parts[2])
    if parts[0] == "o":
        return "output %s" % parts[1]
    return "rows()" if parts[0] == "r" else name.decode()


def plain_value(value, most=60):
    """A value as it is shown to people; long texts are cut in the middle."""
    if value is None:
        return "nothing"
    if value[:1] == b"&":
        return "pair" if b"," in value else "ref"
    text = value.decode("utf-8", "replace")
    return text if len(text) <= most else text[:most - 12] + "..." + text[-9:]


class Changes:
    """From one record to the next: the outermost blocks that ran again, and the counts of the repair.

    `again` lists (part of old, part of new, the places of the reads that differ) in the order of the run."""

    def __init__(self, old, new):
        self.old, self.new = old, new
        self.again = []
        self.number = {}               # part of new -> its place in `again`
        todo = [(0, 0)]
        while todo:
            i, j = todo.pop()
            while True:
                k = old.kind[i]
                if k != new.kind[j]:
                    self._apart(i, j)
                if k == E:
                    break
                if k == R:
                    places = self._differ(i, j)
                    if places:
                        self.number[j] = len(self.again)
                        self.again.append((i, j, places))
                        break
                elif k == W:
                    if old.line[i] != new.line[j]:
                        self._apart(i, j)
                elif k != A:
                    todo.append((old.end[i + 1], new.end[j + 1]))
                i += 1
                j += 1

    def _apart(self, i, j):
        raise Apart("%s line %d and %s line %d differ below no changed read: these are no records of one program over one "
                    "opening grid (the number of rows of the input counts too)"
                    % (self.old.title, i + 2, self.new.title, j + 2))

    def _differ(self, i, j):
        a, b = self.old.line[i], self.new.line[j]
        if a == b and not (self.again and b"&" in b):
            return []
        a, b = self.old.block(i), self.new.block(j)
        if a.number != b.number or a.env != b.env or [r[0] for r in a.reads] != [r[0] for r in b.reads]:
            self._apart(i, j)
        return [n for n, (x, y) in enumerate(zip(a.reads, b.reads)) if self.differ(x[1], y[1])]

    def differ(self, was, now):
        return was != now or any(self.made_by(name) is not None for name in names_in(now))

    def made_by(self, name):
        """The place in `again` of the block that made this modifiable anew, or None."""
        if name[:2] == b"m/" and self.again:
            last = len(name) - 2
            for depth, j in enumerate(self.new.along(name[2:])):
                if j in self.number and depth < last:
                    return self.number[j]
        return None

    def block_of(self, j):
        """The place in `again` of the block in which part j of the new record stands, or None."""
        for p in self.new.way(j):
            if p in self.number:
                return self.number[p]
        return None

    def counts(self):
        old, new = self.old, self.new
        seen = set()
        for i, _, _ in self.again:
            for p in old.way(i):
                if p in seen:
                    break
                seen.add(p)
        return {
            "visited": sum(old.kind[p] in NODES for p in seen),
            "rerun": len(self.again),
            "inside": sum(new.below(j, R) for _, j, _ in self.again),
            "dropped": sum(old.below(i, R) for i, _, _ in self.again),
            "nodes": sum(new.nodes_below(j) for _, j, _ in self.again),
            "mods": sum(new.below(j, A) for _, j, _ in self.again),
            "links": sum(new.links_below(j) for _, j, _ in self.again),
        }

    def work_line(self):
        return "mode=repair " + " ".join("%s=%d" % x for x in self.counts().items())
