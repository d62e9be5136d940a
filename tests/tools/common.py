"""What the tests share: the tools as modules, the stored files, and records of sums of any size."""
import importlib.machinery
import importlib.util
import os
import subprocess
import sys
import zipfile

HERE = os.path.dirname(os.path.abspath(__file__))
ROOT = os.path.dirname(os.path.dirname(HERE))
TOP = os.path.join(ROOT, "tools")
DATA = os.path.join(HERE, "data")
PICTURES = os.path.join(HERE, "pictures")
sys.path.insert(0, TOP)
PROGRAM = os.path.abspath(os.environ.get("PSAC_PROGRAM") or os.path.join(ROOT, "crates/psac/out/psac"))
sys.dont_write_bytecode = True


def tool(name):
    """A tool as a module."""
    loader = importlib.machinery.SourceFileLoader(name.replace("-", "_"), os.path.join(TOP, name))
    module = importlib.util.module_from_spec(importlib.util.spec_from_loader(loader.name, loader))
    loader.exec_module(module)
    return module


def data(name):
    with open(os.path.join(DATA, name), "rb") as f:
        return f.read()


def cases():
    """(program, record before, record after, work line) of 200 repairs of random programs."""
    with zipfile.ZipFile(os.path.join(DATA, "cases.zip")) as z:
        for name in sorted({n.split("/")[0] for n in z.namelist()}):
            yield (name,) + tuple(z.read("%s/%s" % (name, f)) for f in ("program.psac", "before.dump", "after.dump", "work"))


def run(words, stdin=b"", folder=DATA):
    """(standard output, standard error, status) of a tool."""
    r = subprocess.run([sys.executable, os.path.join(TOP, words[0])] + words[1:], input=stdin, cwd=folder,
                       stdout=subprocess.PIPE, stderr=subprocess.PIPE)
    return r.stdout, r.stderr, r.returncode


def sum_dump(values):
    """The dump of sum.psac over these numbers, as its definition gives it."""
    out = ["psac record 1", "S"]

    def walk(low, high, path, name):
        """A call's body at a path; it writes to a name. Gives the sum."""
        out.append("S")
        path += "0"
        if high - low == 1:
            v = values[low]
            out.extend(["S", "R 0 lo=%d hi=%d d=&%s | c/%d/0=%d" % (low, high, name, low, v), "W %s %d" % (name, v)] + ["E"] * 3)
            return v
        middle = (low + high) // 2
        a, b = "m/" + path, "m/" + path + "3"
        out.extend(["A", "A", "S", "P", "S"])
        x = walk(low, middle, path + "33" + "00" + "0", a)
        out.extend(["E", "S"])
        y = walk(middle, high, path + "33" + "01" + "0", b)
        out.extend(["E", "S", "R 1 lo=%d hi=%d d=&%s mid=%d a=&%s b=&%s | %s=%d %s=%d"
                    % (low, high, name, middle, a, b, a, x, b, y), "W %s %d" % (name, x + y)] + ["E"] * 3)
        return x + y

    walk(0, len(values), "0", "o/0")
    return ("\n".join(out + ["E"]) + "\n").encode()
