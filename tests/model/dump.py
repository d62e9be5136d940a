"""Records as text, as the mode `dump` writes them, and what the mode `certify` finds of such a text."""
import os

import session
from record import Alloc, Parallel, Read, Sequence, Write

LETTERS = {Alloc: b"A", Sequence: b"S", Parallel: b"P"}


def named(name):
    """The name of a modifiable."""
    kind, *rest = name
    if kind == "made":
        return b"m/" + rest[0].encode()
    return b"/".join([{"input": b"c", "rows": b"r", "output": b"o"}[kind], *(b"%d" % it for it in rest)])


def value_text(value):
    """A value as a session shows it, but for references and pairs, which have their names."""
    if value[0] in {"ref", "pair"}:
        return b"&" + b",".join(map(named, value[1:]))
    return session.shown(value)


def line(part):
    """The line of a part of a record."""
    if part is None:
        return b"E"
    if isinstance(part, Write):
        return b"W " + named(part.name) + b" " + value_text(part.value)
    if isinstance(part, Read):
        seen = b"".join(b" " + name.encode() + b"=" + value_text(value) for name, value in part.environment.items())
        reads = b"".join(b" " + named(name) + b"=" + value_text(value) for name, value in part.reads)
        return b"R %d" % part.block + seen + b" |" + reads
    return LETTERS[type(part)]


def dump(tree):
    """The dump of a record: a part stands before what it holds."""
    lines, left = [b"psac record 1"], [tree]
    while left:
        part = left.pop()
        lines.append(line(part))
        if part is not None:
            left += [child for _, child in reversed(part.children())]
    return b"".join(it + b"\n" for it in lines)


def verdict(text, wanted):
    """What is found of a text that is to be this dump."""
    return b"yes\n" if text == wanted else b"no %d\n" % len(os.path.commonprefix([text, wanted]))


def dump_report(its):
    """What the mode `dump` prints of a session that is opened."""
    reply = its.commit()
    return dump(its.kept.tree) if its.kept else reply


def certify_report(its, text):
    """What the mode `certify` prints of it."""
    reply = dump_report(its)
    return verdict(text, reply) if its.kept else reply


def report(mode, program_text, input_name, input_bytes, settings, text=b""):
    """The status and the whole report of one of these modes."""
    how = dump_report if mode == "dump" else lambda its: certify_report(its, text)
    return session.answered(how, program_text, input_name, input_bytes, settings)
