"""Files and words with changes: bits flipped, lines and tokens dropped or doubled, pieces spliced, numbers put at an edge."""
import re

from made import EDGES

# A token of a program, a script or an input, as far as changes are concerned.
TOKEN = re.compile(rb"[a-z_][a-z_0-9]*|[0-9]+|\"[^\"\n]*\"|[^\sa-z0-9]")
WORDS = b"func let new write read as if else par call true false nil rows cols cell and or not neg abs min max len pair fst snd".split()
MARKS = b"{ } ( ) ; , = == != < <= > >= + - * / %".split()
COMMANDS = b"set commit show tree hold held quit out ref fst snd rows".split()
PIECES = [b"\0", b"\xff", b"\xc3", b"\xe2\x82", b"\xf0\x9f\x98\x80", b"\xef\xbb\xbf", b"\r", b"\r\n", b"\n", b"\n\n",
          b'"', b'""', b",", b",,", b"\\", b"#", b"\x7f", b"\x1b[2J", b" ", b"\t"]


def flip(chance, data, others):
    """Some bits are flipped."""
    got = bytearray(data)
    for _ in range(chance.choice([1, 1, 1, 2, 4, 16])):
        if got:
            got[chance.randrange(len(got))] ^= 1 << chance.randrange(8)
    return bytes(got)


def lines(chance, data, others):
    """A line is dropped, doubled, or changes places with another one."""
    got = data.split(b"\n")
    at, to = chance.randrange(len(got)), chance.randrange(len(got))
    form = chance.randrange(3)
    if form == 0:
        del got[at]
    elif form == 1:
        got.insert(to, got[at])
    else:
        got[at], got[to] = got[to], got[at]
    return b"\n".join(got)


def cut(chance, data, others):
    """A piece is left out, at times the whole end."""
    at = chance.randrange(len(data) + 1)
    return data[:at] + data[at + chance.choice([1, 4, 40, len(data)]):]


def splice(chance, data, others):
    """A piece of another file, or of this one, comes in."""
    other = chance.choice([*others, data])
    begin, at = chance.randrange(len(other) + 1), chance.randrange(len(data) + 1)
    return data[:at] + other[begin:begin + chance.choice([1, 8, 60, 400])] + data[at + chance.choice([0, 0, 8, 60]):]


def insert(chance, data, others):
    """A byte that may surprise comes in, at times very often."""
    at = chance.randrange(len(data) + 1)
    return data[:at] + chance.choice(PIECES) * chance.choice([1, 1, 1, 2, 30, 3000]) + data[at:]


def number(chance, data, others):
    """A number becomes another one."""
    places = [it.span() for it in re.finditer(rb"-?[0-9]+", data)]
    if not places:
        return data + b"%d" % chance.choice(EDGES)
    begin, end = chance.choice(places)
    return data[:begin] + b"%d" % (chance.choice(EDGES) * chance.choice([1, 1, 1, -1])) + data[end:]


def token(chance, data, others):
    """A token is dropped or doubled, or becomes another one."""
    places = [it.span() for it in TOKEN.finditer(data)]
    if not places:
        return data + chance.choice(WORDS)
    begin, end = chance.choice(places)
    one, two = chance.choice(places)
    if chance.random() < 0.4:
        return data[:begin] + data[one:two] + data[end:]
    others = [chance.choice(it) for it in (WORDS, MARKS, COMMANDS)]
    put = chance.choice([b"", data[begin:end] * 2, data[one:two], data[one:two], *others])
    return data[:begin] + put + data[end:]


def repeat(chance, data, others):
    """A piece stands there many times."""
    begin = chance.randrange(len(data) + 1)
    piece = data[begin:begin + chance.choice([1, 5, 40])]
    return data[:begin] + piece * chance.choice([3, 30, 70, 300, 300, 70000]) + data[begin:]


CHANGES = [flip, lines, cut, splice, insert, number, number, token, token, token, repeat]
# What often leaves a text of its grammar.
SOFT = [lines, number, number, token]


def changed(chance, data, others):
    """The bytes with one to four changes."""
    changes = chance.choice([CHANGES, SOFT, SOFT])
    for _ in range(chance.choice([1, 1, 1, 2, 3, 4])):
        data = chance.choice(changes)(chance, data, others)
    return data[:200000]


def changed_words(chance, words):
    """Words of a command line, some of them changed; no word of a command line has a zero byte."""
    got = list(words)
    for _ in range(chance.choice([1, 1, 2, 3])):
        at = chance.randrange(len(got)) if got else 0
        form = chance.randrange(4)
        if form == 0:
            del got[at:at + 1]
        elif form == 1:
            got[at:at] = got[at:at + 1]
        elif form == 2 and got:
            got[at] = chance.choice(CHANGES)(chance, got[at], got).replace(b"\0", b"0")[:200]
        else:
            chance.shuffle(got)
    return got


def random_bytes(chance):
    """Bytes of no form, or of a few kinds of bytes."""
    size = chance.choice([0, 1, 2, 10, 100, 1000, 5000])
    every, plain = bytes(range(256)), bytes(range(32, 127)) + b"\n"
    alphabet = chance.choice([every, plain, b'0123456789,\n"-', b"(){};,=<>+-*/%\"#ab01 \n", b"\0\xff\n"])
    if chance.random() < 0.3:
        pieces = [*WORDS, *MARKS, *COMMANDS, b"x", b"1", b'"t"', b"\n"]
        return b" ".join(chance.choice(pieces) for _ in range(size))
    return bytes(chance.choice(alphabet) for _ in range(size))
