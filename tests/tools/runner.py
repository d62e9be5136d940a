#!/usr/bin/env python3
"""Runs a program over an input, and writes the dump of its record.

  tests/tools/runner.py PROGRAM INPUT

It is a second implementation, made for the tests: the record's definition in the fewest words, whatever time that takes. It
knows nothing of limits, and where the program stops it says so and writes nothing.
"""
import sys

from common import tool
from psac_program import Program, value


class Stopped(Exception):
    """The run stops at a line."""


class Run:
    def __init__(self, program, rows):
        self.program = program
        self.sizes = {"rows": len(rows), "cols": len(rows[0]) if rows else 0}
        shown = tool("explain").shown_field
        self.heap = {b"c/%d/%d" % (r, c): shown(field) for r, row in enumerate(rows) for c, field in enumerate(row)}
        self.heap[b"r"] = b"%d" % len(rows)
        self.lines = [b"psac record 1"]
        main = program.main
        self.body(main.body, {d: b"&o/%d" % n for n, d in enumerate(main.dests)}, b"")

    def known(self, st, expr, env):
        got = value(expr, {**self.sizes, **env})
        if got is None:
            raise Stopped("the program stops at line %d" % st.line)
        return got

    def body(self, body, env, path):
        """The statements of a body from its path on, each behind the one before it."""
        env = dict(env)
        for st in body:
            values = [] if st.kind == "read" else [self.known(st, e, env) for e in st.exprs]
            if st.kind == "let":
                env[st.name] = values[0]
            elif st.kind in ("new", "write"):
                if st.kind == "new":
                    self.lines.append(b"A")
                    env[st.name] = b"&m/" + path
                else:
                    name = env[st.name][1:]
                    self.heap[name] = printed(values[0])
                    self.lines.append(b"W %s %s" % (name, self.heap[name]))
                path += b"3"
            else:
                self.lines.append(b"S")
                self.compound(st, values, env, path + b"0")
                path += b"1"
        self.lines.append(b"E")

    def compound(self, st, values, env, path):
        if st.kind == "par":
            self.lines.append(b"P")
            for turn, side in zip((b"0", b"1"), st.bodies):
                self.body(side, env, path + turn)
        elif st.kind == "if":
            self.body(st.bodies[values[0] == b"false"], env, path)
        elif st.kind == "call":
            f = self.program.functions[st.name]
            inner = dict(zip(f.values, values))
            inner.update((d, env[x]) for d, x in zip(f.dests, st.names))
            self.body(f.body, inner, path)
        else:
            self.read(st, env, path)

    def read(self, st, env, path):
        names = [self.known(st, e, env)[1:] for e in st.exprs]
        for name in names:
            if name not in self.heap:
                raise Stopped("the program stops at line %d" % st.line)
        reads = [(name, self.heap[name]) for name in names]
        self.lines.append(b"R %d%s |%s" % (st.block, b"".join(b" %s=%s" % (x.encode(), printed(v)) for x, v in env.items()),
                                           b"".join(b" %s=%s" % r for r in reads)))
        inner = dict(env)
        for x, (_, v) in zip(st.names, reads):
            inner[x] = int(v) if v[:1] in b"-0123456789" else v
        self.body(st.bodies[0], inner, path + b"2")


def printed(v):
    return b"%d" % v if type(v) is int else v


def dump_of(program, rows):
    """The dump of a run of a program, given as text, over these rows of fields."""
    return b"\n".join(Run(Program(program), rows).lines) + b"\n"


def main():
    program, given = sys.argv[1:]
    try:
        with open(program, "rb") as p, open(given, "rb") as i:
            sys.stdout.buffer.write(dump_of(p.read(), tool("edits").load(given, i.read())))
    except Stopped as why:
        sys.exit("runner: %s" % why)


if __name__ == "__main__":
    main()
