"""Hints on a program that is refused: what stands at the place, what may stand there, and what is often meant."""
import difflib

from front import causes, grammar, series
from front.screen import short, with_caret
from front.tokens import BAD, END, INT, NAME, RESERVED, TEXT, is_utf8, tokens_of
from front.wording import counted, listed

OPERATORS = frozenset(("or", "and", "+", "-", "*", "/", "%", *grammar.COMPARISONS))
CHANGED = "the file reads otherwise than the program read it, so it was changed since, and nothing more can be told"
LIMITS = {
    1: ("a program has at most 65,536 bytes", "shorten it"),
    2: ("a program has at most 256 functions", "join some"),
    3: ("a body has at most 64 statements", "move some into a function"),
    4: ("bodies nest at most 32 deep, a function's being the first", "move the inner ones into a function, and call it"),
    5: ("an expression is at most 64 deep, with at most 64 open parentheses", "give a part of it a name by let"),
    6: ("a name has at most 32 bytes", "take a shorter one"),
    7: ("the greatest number is 9223372036854775807", "take a smaller one"),
    8: ("at most 24 names are in scope, parameters among them", "move some statements into a function"),
    9: ("a call has at most 24 values and 24 destinations", "hand over fewer"),
}


def shown_line(source, line, column=None):
    """The source line with its place, and a caret where the column is known."""
    place = f"{short(source.name, 60)}, line {line}" + (f", column {column}:" if column else ":")
    text, caret = with_caret(source.line(line).rstrip(b"\r"), column or 1)
    return [place, "  " + text] + (["  " + caret] if column else [])


def syntax(source, line, column):
    """Hints on 'program line L column C syntax'."""
    lines = shown_line(source, line, column)
    try:
        grammar.functions_of(source.data)
    except grammar.Fault as fault:
        if (fault.token.line, fault.token.column) == (line, column):
            return at_end(source, fault) if fault.token.symbol == END else lines + at_token(source, fault)
    except RecursionError:
        return lines
    return lines + [CHANGED]


def at_end(source, fault):
    """Where the text ends too early there is nothing to be seen; what is open is."""
    return [f"{short(source.name, 60)} ends too early; {wanted(fault.wanted)}", *still_open(source)]


def at_token(source, fault):
    """What stands there, what may stand there, and what is often meant."""
    likely = causes.likely(fault, source.data)
    told = found(fault.token)
    return [f"here {told}" if is_open_text(fault.token) else f"here {told}; {wanted(fault.wanted)}", *likely]


def is_open_text(token):
    """Whether this is the quote of a text that can't be read."""
    return token.symbol == BAD and token.bytes == b'"'


def found(token):
    """What stands there, in words."""
    if is_open_text(token):
        return "begins a text that can't be read"
    if token.symbol == BAD:
        return f"is {character_shown(token.bytes)}, which begins no word or mark of the language"
    if token.symbol in RESERVED:
        return f"is the reserved word {token.symbol}"
    names = {NAME: "the name ", INT: "the number ", TEXT: "the text "}
    return f"is {names[token.symbol]}{short(token.text)}" if token.symbol in names else f"is the mark '{token.text}'"


def character_shown(content):
    """A character that begins no token, as itself where it can be seen, else as a number."""
    text = content.decode("utf-8", "replace")
    if not is_utf8(content) or not text.isprintable():
        return f"the byte 0x{content[0]:02x}"
    return f"the {'letter' if text.isalpha() else 'character'} {text}"


def wanted(symbols):
    """What the grammar takes there, in words. It is said to be expected only where it is one thing."""
    parts, rest, such = [], set(symbols), ""
    if grammar.VALUE_STARTS <= rest:
        parts.append("a value")
        such = ", such as a number, a text, a name, cell(..) or neg(..)"
        rest -= grammar.VALUE_STARTS
    if grammar.STATEMENT_STARTS <= rest:
        parts.append("a statement (let, new, write, read, if, par, call)")
        rest -= grammar.STATEMENT_STARTS
    if rest & OPERATORS:
        parts.append("an operator" if "<" in rest else "an operator that is no comparison")
        rest -= OPERATORS
    spoken = {NAME: "a name", END: "the end of the text"}
    parts.extend(spoken.get(it, it if it.isalpha() else f"'{it}'") for it in sorted(rest))
    return f"{parts[0]} was expected{such}" if len(parts) == 1 else f"what may stand here is {listed(parts, 'or')}"


def still_open(source):
    """Which parenthesis or body is open where the text ends."""
    opened = []
    for token in tokens_of(source.data):
        if token.symbol in ("(", "{"):
            opened.append(token)
        elif token.symbol in (")", "}") and opened:
            opened.pop()
    if not opened:
        return []
    last = opened[-1]
    close = {"(": ")", "{": "}"}[last.symbol]
    return [f"this '{last.symbol}' has no matching '{close}':", *shown_line(source, last.line, last.column)]


def limit(source, line, number):
    """Hints on 'program line L limit W'."""
    what, cure = LIMITS.get(number, ("a limit is passed", "see the limits in docs/LANGUAGE.md"))
    return (shown_line(source, line) if number != 1 else []) + [f"{what}: {cure}"]


def rule(source, line, text):
    """Hints on 'program line L TEXT', a fault of the series rule."""
    if text not in RULES:
        return []
    lines = shown_line(source, line) if text != "no main" or line > 1 else []
    try:
        fault = series.first_fault(grammar.functions_of(source.data))
    except (grammar.Fault, RecursionError):
        fault = None
    if fault is None or (fault.text, fault.line) != (text, line):
        return lines + [CHANGED]
    return lines + RULES[text](fault)


def names_of(names, most=12):
    """Names of a program, joined."""
    return listed(short(it) for it in names[:most])


def unknown_name(fault):
    name, known = fault.names[0], fault.values + fault.destinations
    lines = [f"there is no name {short(name)} here; a name is known up to the end of the body that it comes from"]
    close = difflib.get_close_matches(name, known, 3, 0.6)
    if close:
        return [*lines, f"a similar name is known here: {names_of(close)}"]
    return [*lines, f"known here: {names_of(sorted(set(known)))}"] if known else lines


def rebound(fault):
    return [f"something is called {short(fault.names[0])} already; take another name, since none can be hidden by a new one"]


def read_early(fault):
    return [
        f"{short(fault.names[0])} isn't written yet where it is read",
        "what one side of a par writes can be read after the par, but not in the other side",
    ]


def written_twice(fault):
    return [f"{short(fault.names[0])} is written already; each destination is written once, by write or by a call"]


def not_written(fault):
    return [f"{names_of(fault.names)}, from this line, isn't written on every path to the end of its body"]


def branches_differ(fault):
    return [f"only one branch writes {names_of(fault.names)}; both branches have to write the same destinations"]


def in_both_sides(fault):
    return [f"both sides of the par write {names_of(fault.names)}; only one side can"]


def unknown_function(fault):
    name = fault.names[0]
    close = difflib.get_close_matches(name, fault.needed, 3, 0.6) or fault.needed
    return [f"there is no function {short(name)}; there is {names_of(close)}"]


def arity(fault):
    header = fault.function
    values, destinations = (", ".join(it.text for it in names) for names in (header.values, header.destinations))
    lines = [f"the header in line {header.line} is {short(f'{header.name.text}({values}; {destinations})', 60)}"]
    for what, given, needed in zip(("value", "destination"), fault.given, fault.needed):
        if given != needed:
            lines.append(f"the call has {counted(given, what)} and needs {needed}")
    return lines


def no_main(fault):
    if fault.line > 1 or "main" in fault.names:
        return [f"main takes no values: nothing stands before its ';', and here {names_of(fault.names)} does"]
    return [f"a program begins at a function called main, and there is only {names_of(fault.names)}"]


def wrong_sort(fault):
    name = fault.names[0]
    if name in fault.values:
        lack = "a destination is needed here: an output, a new, or a name behind a header's ';'"
        return [f"{short(name)} is a value, and {lack}"]
    why = "isn't written yet, so it has no value; a call takes destinations behind its ';'"
    return [f"{short(name)} is a destination that {why}"]


RULES = {
    "unknown name": unknown_name,
    "rebound": rebound,
    "read before write": read_early,
    "written twice": written_twice,
    "not written": not_written,
    "branches differ": branches_differ,
    "written in both sides": in_both_sides,
    "unknown function": unknown_function,
    "arity": arity,
    "no main": no_main,
    "wrong sort": wrong_sort,
}
