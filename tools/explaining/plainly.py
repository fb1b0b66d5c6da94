"""Writes a row, a goal or a proposition again as the manual has it, where it was written as other languages do.

`sums` takes what modelling languages allow in linear expressions: products with numbers, parentheses, both sides of a relation, labels
and end marks. `propositions` takes connectives between their arguments. Both give None where they don't understand the line; and what
they give is shown only where the program reads it.
"""

import re
from fractions import Fraction

MOST_LENGTH, MOST_DEPTH = 2000, 50
SIGNS = {"\u2264": "<=", "\u2265": ">=", "\u2212": "-", "\u2013": "-", "\u00d7": "*", "\u00b7": "*", "\u22c5": "*", "\u00a0": " ", "=<": "<=", "=>": ">=", "==": "="}
GOALS = {"minimize": "min", "minimise": "min", "minimum": "min", "maximize": "max", "maximise": "max", "maximum": "max"}
NAME = r"[A-Za-z_][A-Za-z0-9_.]*"
SUM_TOKEN = re.compile(rf"\s*(?:(?P<thousands>\d{{1,3}}(?:,\d{{3}})+(?![\d,]))|(?P<number>\d+(?:\.\d*)?|\.\d+)(?P<power>[eE][+-]?\d+)?(?![.\d])|(?P<name>{NAME})|(?P<mark><=|>=|[-+*/()=<>]))")
TOO_MUCH = (IndexError, KeyError, ValueError, ZeroDivisionError, RecursionError)


def sums(line: str, variables: list[str]) -> str | None:
    """A row or a goal written again, a range as two rows; None where it isn't understood."""
    for old, new in SIGNS.items():
        line = line.replace(old, new)
    found = re.fullmatch(rf"(\s*)(?:(row)\s+(?:({NAME})\s*:\s*)?|(?i:(min|max|minimi[sz]e|maximi[sz]e|minimum|maximum))(?:\s*:|\s)\s*)([^;]*?)[;,.\s]*", line)
    if not found or len(line) > MOST_LENGTH:
        return None
    indent, is_row, label, goal, body = found.groups()
    try:
        sides, relations = sides_of(body, set(variables))
        if is_row:
            comment = f"  # {label}" if label else ""
            return "\n".join(f"{indent}row {one}{comment}" for one in rows(sides, relations))
        return f"{indent}{GOALS.get(goal.lower(), goal.lower())} {sum_text(sides[0], True)}" if not relations else None
    except TOO_MUCH:
        return None


def sides_of(body: str, variables: set[str]) -> tuple[list[dict[str, Fraction]], list[str]]:
    """The sums between the relations, as coefficients by name, the constant under the empty name."""
    tokens: list[re.Match[str]] = []
    at = 0
    while body[at:].strip():
        found = SUM_TOKEN.match(body, at)
        if found is None:
            raise ValueError("a piece of another kind")
        tokens.append(found)
        # Where e3 is a variable, 2e3 is 2 times it.
        at = found.start("power") if found["power"] and found["power"] in variables else found.end()
    pieces = [piece_of(found, variables) for found in tokens] + [("mark", "end")]
    reader = Reader(pieces)
    sides, relations = [reader.sum(0)], []
    while reader.pieces[reader.at][1] in ("<=", ">=", "=", "<", ">"):
        relations.append(reader.next()[1])
        sides.append(reader.sum(0))
    if reader.pieces[reader.at][1] != "end":
        raise ValueError("more than a row")
    return sides, relations


def piece_of(found: re.Match[str], variables: set[str]) -> tuple[str, str]:
    """A token's kind and text; a number's is that of its value."""
    if found["thousands"]:
        return "number", found["thousands"].replace(",", "")
    if found["number"]:
        power = found["power"] if found["power"] not in variables else ""
        if power and abs(int(power[1:])) > 40:
            raise ValueError("a great power")
        return "number", ("0" + found["number"] + "0" if "." in found["number"] else found["number"]) + (power or "")
    return ("name", found["name"]) if found["name"] else ("mark", found["mark"])


class Reader:
    """Reads linear expressions."""

    def __init__(self, pieces: list[tuple[str, str]]):
        self.pieces, self.at = pieces, 0

    def next(self) -> tuple[str, str]:
        self.at += 1
        return self.pieces[self.at - 1]

    def sum(self, depth: int) -> dict[str, Fraction]:
        total: dict[str, Fraction] = {}
        sign = 1
        while True:
            while self.pieces[self.at][1] in ("+", "-"):
                sign = -sign if self.next()[1] == "-" else sign
            for name, number in self.product(depth).items():
                total[name] = total.get(name, Fraction(0)) + sign * number
            if self.pieces[self.at][1] not in ("+", "-"):
                return total
            sign = 1

    def product(self, depth: int) -> dict[str, Fraction]:
        made = self.factor(depth)
        while True:
            kind, text = self.pieces[self.at]
            if text == "/":
                self.next()
                by = self.factor(depth)
                made = {name: number / only_number(by) for name, number in made.items()}
            elif text == "*" or kind == "name" or text == "(":
                self.at += text == "*"
                by = self.factor(depth)
                made, by = (by, made) if set(made) == {""} else (made, by)
                made = {name: number * only_number(by) for name, number in made.items()}
            else:
                return made

    def factor(self, depth: int) -> dict[str, Fraction]:
        kind, text = self.next()
        if kind == "number":
            return {"": Fraction(text)}
        if kind == "name":
            return {text: Fraction(1)}
        if text != "(" or depth == MOST_DEPTH:
            raise ValueError("no factor")
        inner = self.sum(depth + 1)
        if self.next()[1] != ")":
            raise ValueError("a parenthesis is open")
        return inner


def only_number(side: dict[str, Fraction]) -> Fraction:
    if set(side) != {""}:
        raise ValueError("a product of variables")
    return side[""]


def rows(sides: list[dict[str, Fraction]], relations: list[str]) -> list[str]:
    """One row for each relation, variables on the left and the number on the right."""
    if not 1 <= len(relations) <= 2:
        raise ValueError("no relation, or many")
    made = []
    for left, relation, right in zip(sides, relations, sides[1:]):
        relation = {"<": "<=", ">": ">="}.get(relation, relation)
        if not set(left) - {""} and set(right) - {""}:
            left, right = right, left
            relation = {"<=": ">=", ">=": "<="}.get(relation, relation)
        total = dict(left)
        for name, number in right.items():
            total[name] = total.get(name, Fraction(0)) - number
        made.append(f"{sum_text({name: number for name, number in total.items() if name}, False)} {relation} {number_text(-total.get('', Fraction(0)))}")
    return made


def sum_text(side: dict[str, Fraction], with_constant: bool) -> str:
    terms = [(name, number) for name, number in side.items() if name and number]
    if with_constant and side.get(""):
        terms.append(("", side[""]))
    text = ""
    for name, number in terms:
        sign = ("- " if number < 0 else "") if not text else (" - " if number < 0 else " + ")
        size = "" if abs(number) == 1 and name else number_text(abs(number)) + (" " if name else "")
        text += sign + size + name
    return text or "0"


def number_text(number: Fraction) -> str:
    """A whole number, a decimal of few places, or a fraction."""
    if number.denominator == 1:
        return str(number)
    for places in range(1, 7):
        if 10**places % number.denominator == 0:
            digits = str(abs(number.numerator) * (10**places // number.denominator)).zfill(places + 1)
            return f"{'-' if number < 0 else ''}{digits[:-places]}.{digits[-places:]}"
    return str(number)


# Propositions. Each infix connective with how tightly it binds and the word that the manual has for it.

INFIX = {
    "<->": (1, "equivalent"), "<=>": (1, "equivalent"), "iff": (1, "equivalent"), "equivalent": (1, "equivalent"), "==": (1, "equivalent"), "=": (1, "equivalent"),
    "->": (2, "implies"), "==>": (2, "implies"), "=>": (2, "implies"), "implies": (2, "implies"), "<=": (2, "implies"),
    "xor": (3, "xor"), "^": (3, "xor"), "!=": (3, "xor"),
    "or": (4, "or"), "||": (4, "or"), "|": (4, "or"), "\u2228": (4, "or"),
    "and": (5, "and"), "&&": (5, "and"), "&": (5, "and"), "\u2227": (5, "and"),
}  # fmt: skip
NOT = ("not", "!", "~", "\u00ac")
CALLED = {"iff": "equivalent", "equiv": "equivalent", "imply": "implies", "land": "and", "lor": "or", "lnot": "not", "exactlyone": "exactly", "all": "and", "any": "or"}
CONNECTIVES = ("not", "and", "or", "implies", "equivalent", "xor", "exactly", "atleast", "atmost")
COUNTING = ("exactly", "atleast", "atmost")
PROPOSITION_TOKEN = re.compile(rf"\s*(?P<one>{NAME}|\d+|<->|<=>|==>|==|!=|->|=>|<=|\|\||&&|[-!~^|&=(),;\[\]\u00ac\u2227\u2228])")


def propositions(line: str, known: list[str]) -> str | None:
    """A proposition written again with its connectives in front; None where it isn't understood."""
    found = re.fullmatch(rf"(\s*)logic\b\s*(?:{NAME}\s*:\s*)?(.*?)[;.\s]*", line)
    if not found or len(line) > MOST_LENGTH:
        return None
    pieces, at, body = [], 0, found[2]
    while body[at:].strip():
        one = PROPOSITION_TOKEN.match(body, at)
        if one is None:
            return None
        pieces.append({"[": "(", "]": ")", ";": ","}.get(one["one"], one["one"]))
        at = one.end()
    try:
        reader = Propositions([*pieces, "", "", ""], set(known))
        made = reader.infix(0, 0)
        return f"{found[1]}logic {made}" if reader.pieces[reader.at] == "" else None
    except TOO_MUCH:
        return None


class Propositions:
    """Reads propositions with connectives before or between their arguments, and gives them as the manual writes them."""

    def __init__(self, pieces: list[str], known: set[str]):
        self.pieces, self.at, self.known = pieces, 0, known

    def next(self) -> str:
        self.at += 1
        return self.pieces[self.at - 1]

    def operator(self) -> tuple[int, str]:
        """How tightly the next connective binds, and its word; (0, "") where none is next."""
        one = self.pieces[self.at]
        return (0, "") if one in self.known else INFIX.get(one.lower(), (0, ""))

    def infix(self, least: int, depth: int) -> str:
        if depth > MOST_DEPTH:
            raise ValueError("deep")
        parts = [self.prefix(depth)]
        while True:
            binds, word = self.operator()
            if binds <= least:
                return parts[0]
            symbol = self.next()
            truth = self.pieces[self.at].lower()
            if symbol in ("=", "==") and truth in ("0", "1", "true", "false") and truth not in self.known:
                self.next()
                parts = [parts[0] if truth in ("1", "true") else f"not({parts[0]})"]
                continue
            # Of implications the right one is read first; and and or take all that follow.
            parts.append(self.infix(binds - 1 if word == "implies" else binds, depth + 1))
            while word in ("and", "or") and self.operator() == (binds, word):
                self.next()
                parts.append(self.infix(binds, depth + 1))
            parts = [f"{word}({', '.join(parts)})"]

    def prefix(self, depth: int) -> str:
        one = self.next()
        if one == "(":
            inner = self.infix(0, depth + 1)
            if self.next() != ")":
                raise ValueError("open")
            return inner
        if one in self.known:
            return one
        word = CALLED.get(one.lower(), one.lower())
        if word in CONNECTIVES and self.pieces[self.at] == "(":
            return self.call(word, depth)
        if one.lower() in NOT:
            return f"not({self.infix(5, depth + 1)})"
        raise ValueError("no Boolean")

    def call(self, word: str, depth: int) -> str:
        """A connective before its arguments: a count that is missing is 1, and several to choose one of are counted."""
        self.next()
        is_counted = word in COUNTING
        count = self.next() if is_counted and self.pieces[self.at].isdigit() else "1"
        if is_counted and self.pieces[self.at] == ",":
            self.next()
        parts: list[str] = []
        while not parts or self.pieces[self.at] == ",":
            self.at += bool(parts)
            parts.append(self.infix(0, depth + 1))
        if self.next() != ")":
            raise ValueError("open")
        if word == "xor" and len(parts) > 2:
            word, is_counted = "exactly", True
        return f"{word}({', '.join([count] * is_counted + parts)})"
