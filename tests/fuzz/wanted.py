"""What is wanted of a run: a status of the table of docs/MESSAGES.md, and the text that belongs to it."""
import os
import re

ROOT = os.path.dirname(os.path.dirname(os.path.dirname(os.path.abspath(__file__))))
NO_MEMORY = 9

VALUE = rb'(?:nil|true|false|ref|pair|-?[0-9]+|"(?:[^"\\\x00-\x1f\x7f]|\\["\\n]|\\x[0-9a-f]{2})*")'
COUNTS = b" ".join(name + rb"=[0-9]+" for name in b"visited rerun inside dropped nodes mods links".split())
OUTPUT = rb"[a-z_][a-z_0-9]* = " + VALUE
FAULT = rb"fault (?:kind|overflow|divzero|range|depth) line [0-9]+|full"
REPLY = b"|".join([rb"mode=(?:anew|repair) " + COUNTS, FAULT, OUTPUT, rb"none|stale|refused (?:form|range|utf8|limit|empty|kind)",
                   rb"held [0-9]+ = " + VALUE, rb"S=[0-9]+ P=[0-9]+ R=[0-9]+ mods=[0-9]+ links=[0-9]+"])
REFUSED = rb"program line [1-9][0-9]* (?:column [1-9][0-9]* syntax|limit [1-9]|TEXT)\n"
INPUT = rb"input record [1-9][0-9]* (?:not utf-8|ragged|too many cells|too many texts)\n"


def page():
    with open(f"{ROOT}/docs/MESSAGES.md", encoding="utf-8") as it:
        return it.read()


def statuses(text):
    """The statuses of the table, but for those that say that the outside failed, which it doesn't here."""
    table = text.partition("\n## Statuses\n")[2].partition("\n## ")[0]
    return {int(it) for it in re.findall(r"^\| ([0-9]+) \|", table, flags=re.M)} - {6, 7}


def check_texts(text):
    """The texts of the table of refusals by the series rule."""
    return re.findall(r"^\| `([a-z ]+)` \|.*`func ", text, flags=re.M)


class Wanted:
    """The statuses, and for each of them the form of the whole text."""

    def __init__(self):
        text = page()
        self.statuses = statuses(text)
        usage = re.search(r"^usage: .*$", text, flags=re.M)[0].encode()
        refused = REFUSED.replace(b"TEXT", "|".join(check_texts(text)).encode())
        once = rb"(?:(?:" + OUTPUT + rb"\n)*|(?:" + FAULT + rb")\n)"
        replies = rb"(?:(?:" + REPLY + rb")\n)*"
        forms = {0: (once, replies), 2: re.escape(usage) + b"\n", 3: b"", 4: refused, 5: INPUT, 8: replies, NO_MEMORY: rb"(?s:.*)"}
        self.forms = {status: form if isinstance(form, tuple) else (form, form) for status, form in forms.items()}

    def lacks(self, ran, is_session):
        """What isn't as it is wanted of one run, or None."""
        if ran.status is None:
            return "it took too long"
        if ran.status < 0:
            return f"it was ended by signal {-ran.status}"
        if ran.errors:
            return f"it wrote to standard error: {ran.errors[:200]!r}"
        if ran.status not in self.statuses:
            return f"its status {ran.status} is none of the table"
        if not re.fullmatch(self.forms[ran.status][is_session], ran.output):
            return f"with status {ran.status} it wrote {ran.output[:200]!r}"
        return None


def differs(first, second):
    """What differs between two runs of one case, or None. Where memory ran out, a first part of the other's text is right."""
    if NO_MEMORY in (first.status, second.status):
        short, whole = sorted((first.output, second.output), key=len)
        return None if whole.startswith(short) else "the texts of two runs differ, one of which ran out of memory"
    if first.status != second.status:
        return f"one run has status {first.status}, and another {second.status}"
    if first.output != second.output:
        return f"one run wrote {first.output[:200]!r}, and another {second.output[:200]!r}"
    return None
