"""What is often meant by what a program has at a place where the grammar doesn't take it.

Each function of CAUSES looks at the place, and gives a sentence or nothing. The first sentence is told.
"""
from front import grammar
from front.screen import code, short
from front.tokens import BAD, INT, NAME, RESERVED, tokens_of

NO_ELSE_IF = "there is no else if: write " + code("else { if .. { .. } else { .. } }")
NO_LOOPS = "there are no loops: a function that calls itself does something again"
BY_LET = "a value gets its name by let, as in: " + code("let x = 1;")
BY_FUNC = "a function begins with func"
UNKNOWN_WORDS = {
    "return": "there is no return: a function writes its destinations by write",
    "while": NO_LOOPS,
    "for": NO_LOOPS,
    "var": BY_LET,
    "const": BY_LET,
    "print": "there is no print: what is written to a destination of main is shown",
    "elif": NO_ELSE_IF,
    "def": BY_FUNC,
    "fn": BY_FUNC,
    "function": BY_FUNC,
}
UNKNOWN_BYTES = {
    b"'": 'a text stands between double quotes, as in "north"',
    b"&": "both of two conditions is written with the word and",
    b"|": "one of two conditions is written with the word or",
    b"!": "not equal is written !=, and the opposite of a condition not(..)",
    b"[": "a cell is written " + code("cell(row, column)"),
    b":": BY_LET,
}
BYTE_ORDER_MARKS = b"\xef\xbb\xbf", b"\xff\xfe", b"\xfe\xff"


class Place:
    """A fault of the grammar, with what stands before it and behind it."""

    def __init__(self, fault, text):
        self.token, self.wanted, self.rule, self.text = fault.token, fault.wanted, fault.rule, text
        self.symbol, self.word = fault.token.symbol, fault.token.text
        self.before = fault.before
        self.symbol_before = fault.before.symbol if fault.before else None
        self.wants_value = grammar.VALUE_STARTS <= fault.wanted
        self.wants_statement = grammar.STATEMENT_STARTS <= fault.wanted
        self.wants_operator = "+" in fault.wanted

    def is_joined(self):
        """Whether nothing stands between the token and the one before it."""
        return self.before is not None and self.before.end == self.token.start

    def next_token(self):
        """The token behind this one, where there is one."""
        rest = tokens_of(self.text[self.token.end : self.token.end + 200])
        return rest[0] if rest else None


def likely(fault, text):
    """What is often meant, as a list of one sentence or none."""
    place = Place(fault, text)
    for cause in BAD_CAUSES if place.symbol == BAD else CAUSES:
        said = cause(place)
        if said:
            return [said]
    return []


def slashes(place):
    text, token = place.text, place.token
    is_comment = text[token.end : token.end + 1] in (b"/", b"*") or text[token.start - 1 : token.start] == b"/"
    return "a comment begins with # and ends with its line" if place.symbol == "/" and is_comment else None


def minus(place):
    if place.symbol != "-" or not place.wants_value:
        return None
    behind = place.next_token()
    operand = short(behind.text) if behind and behind.symbol in (INT, NAME) else "5"
    return f"a minus stands only between two values; a number below zero is written neg({operand})"


def else_if(place):
    return NO_ELSE_IF if place.symbol_before == "else" and place.symbol == "if" else None


def no_else(place):
    if place.rule != "else" or place.wanted != {"else"}:
        return None
    if place.symbol == NAME and place.word in ("elif", "elsif", "elseif"):
        return NO_ELSE_IF
    return "every if has an else, and both branches write the same destinations; " + code("else { }") + " does nothing"


def one_side(place):
    return "a par has two sides: " + code("par { .. } { .. }") if place.rule == "side" and place.wanted == {"{"} else None


def reserved_name(place):
    if NAME in place.wanted and place.symbol in RESERVED and not place.wants_value:
        return f"{place.symbol} is a word of the language and can't be a name; {place.symbol}_1 can"
    return None


def no_separator(place):
    if place.rule not in ("header", "call") or ";" not in place.wanted or place.symbol != ")":
        return None
    some, none = {"header": ("func f(a, b; d)", "func f(; d)"), "call": ("call f(x, y; d);", "call f(; d);")}[place.rule]
    return f"a ';' stands between values and destinations, even where there are no values: {code(some)} or {code(none)}"


def no_semicolon(place):
    if place.before is None or ";" not in place.wanted or ")" in place.wanted:
        return None
    line = place.before.line
    if place.token.line == line and place.symbol != "}" and place.symbol not in grammar.STATEMENT_STARTS:
        return None
    ended = short(place.text.split(b"\n", line)[line - 1].strip(), 50)
    return f"often a ';' is missing at the end of line {line}, which is: {code(ended)}"


def one_equal(place):
    return "equal is written ==" if "==" in place.wanted and place.symbol == "=" else None


def two_comparisons(place):
    if place.symbol in grammar.COMPARISONS and place.wants_operator:
        return "two comparisons don't stand side by side: join them by and, as in: " + code("0 < x and x < 9")
    return None


def odd_comparison(place):
    if place.symbol in ("<", ">", "=") and place.symbol_before in ("=", "<", ">", "!="):
        return "the comparisons are == != < <= > >="
    return None


def function_in_expression(place):
    if place.symbol_before == NAME and place.symbol == "(" and place.wants_operator:
        return "a function is run by a statement of its own, as in: " + code(f"call {short(place.before.text)}(x; d);")
    return None


def digit_first(place):
    if place.symbol_before == INT and place.symbol == NAME and place.is_joined():
        return "a name begins with a letter or _"
    return None


def no_as(place):
    if "as" in place.wanted and place.rule == "read":
        return "a read names what it reads, as in: " + code("read cell(0, 0) as x { .. }")
    return None


def fifth_read(place):
    if place.rule == "read" and place.symbol == ",":
        return f"a read takes at most {grammar.MOST_ITEMS} references; another read may stand in its body"
    return None


def semicolon_behind_body(place):
    return "no ';' stands behind a body" if place.symbol == ";" and place.symbol_before == "}" else None


def brace_too_much(place):
    return "there may be a '}' too much above" if place.symbol == "}" and "func" in place.wanted else None


def unknown_word(place):
    return UNKNOWN_WORDS.get(place.word) if place.symbol == NAME else None


def no_statement(place):
    if place.symbol != NAME or not place.wants_statement:
        return None
    name, behind = short(place.word), place.next_token()
    if behind is not None and behind.symbol == "(":
        return "a function is run by call, as in: " + code(f"call {name}(x; d);")
    binding, writing = code(f"let {name} = ..;"), code(f"write {name} = ..;")
    return f"a value gets its name by {binding} and a destination is written by {writing}"


def no_function(place):
    if "func" not in place.wanted:
        return None
    return "a program is a list of functions, as in: " + code("func main(; out) { .. }")


def open_text(place):
    """Why a text that begins with a quote can't be read."""
    if place.token.bytes != b'"':
        return None
    rest, at = place.text[place.token.start + 1 :], 0
    while at < len(rest) and rest[at] != 0x22:
        if rest[at] == 0x5C:
            if rest[at + 1 : at + 2] not in (b'"', b"\\", b"n"):
                return r"a backslash in a text stands only in \" \\ and \n"
            at += 1
        elif rest[at] == 0x0A or rest[at : at + 2] == b"\r\n":
            return "the text has no closing quote on its line; a line feed in a text is written \\n"
        elif rest[at] < 0x20 or rest[at] == 0x7F:
            return f"a text has no byte 0x{rest[at]:02x}" + ("; a tab can't be written" if rest[at] == 9 else "")
        at += 1
    return "the text has no closing quote" if at >= len(rest) else "the text isn't UTF-8: save the file as UTF-8"


def capital(place):
    text, end = place.text, place.token.start
    if not (place.token.bytes.isalpha() and place.token.bytes.isupper()):
        return None
    while text[end : end + 1].isalnum() or text[end : end + 1] == b"_":
        end += 1
    return f"names and words have small letters: write {short(text[place.token.start : end].decode('ascii').lower())}"


def fraction(place):
    if place.token.bytes == b"." and place.symbol_before == INT and place.is_joined():
        return "numbers are whole: there are no fractions, so count in tenths or hundredths"
    return None


def unknown_byte(place):
    return UNKNOWN_BYTES.get(place.token.bytes)


def byte_order_mark(place):
    if place.token.start == 0 and place.text.startswith(BYTE_ORDER_MARKS):
        return "the file begins with a byte order mark: save it as UTF-8 without one"
    return None


def foreign_letter(place):
    if place.token.bytes[0] >= 0x80:
        return 'letters beyond a to z, and quotes other than ", stand only in texts and comments'
    return None


CAUSES = (
    slashes,
    minus,
    else_if,
    no_else,
    one_side,
    reserved_name,
    no_separator,
    no_semicolon,
    one_equal,
    two_comparisons,
    odd_comparison,
    function_in_expression,
    digit_first,
    no_as,
    fifth_read,
    semicolon_behind_body,
    brace_too_much,
    unknown_word,
    no_statement,
    no_function,
)
BAD_CAUSES = (open_text, capital, fraction, unknown_byte, byte_order_mark, foreign_letter)
