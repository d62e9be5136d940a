"""Records of runs, their sizes, and what a repair does by its definition: two finished records are walked side by side.

The tree of a body is None at its end, else one of the five kinds of part below.
"""


class Alloc:
    """A modifiable was made."""

    def __init__(self, name, rest):
        self.name, self.rest = name, rest

    def children(self):
        return [("3", self.rest)]


class Write:
    """A modifiable was written."""

    def __init__(self, name, value, rest):
        self.name, self.value, self.rest = name, value, rest

    def children(self):
        return [("3", self.rest)]


class Sequence:
    """An `if`, a call, a parallel node or a read node, and what follows it."""

    def __init__(self, part, rest):
        self.part, self.rest = part, rest

    def children(self):
        return [("0", self.part), ("1", self.rest)]


class Parallel:
    """The two sides of a `par`."""

    def __init__(self, left, right):
        self.left, self.right = left, right

    def children(self):
        return [("0", self.left), ("1", self.right)]


class Read:
    """A read block: its number, its reads as pairs of a name and a value, what its body left, and the names in scope before it."""

    def __init__(self, block, reads, part, environment):
        self.block, self.reads, self.part, self.environment = block, reads, part, environment

    def children(self):
        return [("2", self.part)]


NODES = (Sequence, Parallel, Read)


def parts(tree):
    """All parts of a tree."""
    left = [tree]
    while left:
        it = left.pop()
        if it is not None:
            yield it
            left += [child for _, child in it.children()]


class Size:
    """How many sequence nodes, parallel nodes, read nodes, modifiables and links a tree has."""

    def __init__(self, *trees):
        self.sequences = self.parallels = self.reads = self.mods = self.links = 0
        for tree in trees:
            for it in parts(tree):
                self.add(it)

    def add(self, part):
        if isinstance(part, Sequence):
            self.sequences += 1
        elif isinstance(part, Parallel):
            self.parallels += 1
        elif isinstance(part, Read):
            self.reads += 1
            self.links += len(part.reads)
        elif isinstance(part, Alloc):
            self.mods += 1

    def nodes(self):
        return self.sequences + self.parallels + self.reads

    def sorts(self):
        """Its three numbers that have a cap."""
        return {"nodes": self.nodes(), "mods": self.mods, "links": self.links}


def names_in(value):
    return value[1:] if value[0] in {"ref", "pair"} else ()


def was_made_inside(path, blocks):
    """Whether what was made at this path was made strictly below one of the blocks."""
    return any(path[:it] in blocks for it in range(len(path)))


def differ(old, new, blocks):
    """Whether a block that read the old value has to run again over the new one, where the blocks at these paths run again."""
    if old != new:
        return True
    return any(name[0] == "made" and was_made_inside(name[1], blocks) for name in names_in(new))


class Redone:
    """The outermost blocks that run again between two records: by path, the old one and the new one."""

    def __init__(self, old, new):
        self.blocks = {}
        self.visited = 0
        self.walk(old, new, "")

    def walk(self, old, new, path):
        """Goes through both trees; gives whether a block below here runs again, and counts the old nodes on the way to one."""
        if type(old) is not type(new) or old is None:
            return False
        if isinstance(old, Read) and any(differ(was[1], now[1], self.blocks) for was, now in zip(old.reads, new.reads)):
            self.blocks[path] = (old, new)
            self.visited += 1
            return True
        found = False
        for (turn, its), (_, other) in zip(old.children(), new.children()):
            found = self.walk(its, other, path + turn) or found
        if found and isinstance(old, NODES):
            self.visited += 1
        return found


class Work:
    """What a commit did, and its line."""

    FIELDS = "visited rerun inside dropped nodes mods links".split()

    def __init__(self, mode, **counts):
        self.mode, self.counts = mode, {it: counts.get(it, 0) for it in self.FIELDS}

    def line(self):
        return f"mode={self.mode} " + " ".join(f"{name}={count}" for name, count in self.counts.items())


def anew(tree):
    """The work of a run that made this whole record."""
    size = Size(tree)
    return Work("anew", inside=size.reads, **size.sorts())


def repair(old, redone, caps):
    """The work of a repair, or None where its new parts beside the old record have no room."""
    created = Size(*[new.part for _, new in redone.blocks.values()])
    removed = Size(*[was.part for was, _ in redone.blocks.values()])
    had = Size(old).sorts()
    if any(had[sort] + number > caps[sort] for sort, number in created.sorts().items()):
        return None
    return Work("repair", visited=redone.visited, rerun=len(redone.blocks), inside=created.reads, dropped=removed.reads, **created.sorts())
