"""Finds the place in a refused line of a model.

All lines above the refused one are the program's to judge, and it read them: so what is declared and what is open is told by their
first words. `find` gives a finding for each cause.
"""

import dataclasses
import re
from collections.abc import Callable
from fractions import Fraction
from math import lcm

from .finding import Finding, Stop, near, quoted
from .lines import bare
from .tokens import Cursor, Token

MOST = 10**15
MOST_TEXT = "1,000,000,000,000,000"
RELATIONS = ("<=", ">=", "=")
COUNTING = ("exactly", "atleast", "atmost")
ARGUMENTS = {"not": (1, 1), "implies": (2, 2), "equivalent": (2, 2), "xor": (2, 2)} | dict.fromkeys(("and", "or", *COUNTING), (1, 0))
HEAD = re.compile(rb"[ \t]*([a-z]+)(?![A-Za-z0-9_.])[ \t]*([A-Za-z_][A-Za-z0-9_.]*)?")
VARIABLES: tuple[str, ...] = ("variable",)
TRUTHS: tuple[str, ...] = ("boolean", "indicator")


@dataclasses.dataclass
class Open:
    """A block that isn't closed: its word, its line, its name or mode, and how many disjuncts it has."""

    word: str
    line: int
    name: str
    disjuncts: int = 0

    def __str__(self) -> str:
        return f"`{self.word} {self.name}` of line {self.line}"


@dataclasses.dataclass
class Context:
    """What the lines above say: names with their kind and line, the goal's line, the first disjunction's, and the open blocks."""

    names: dict[str, tuple[str, int]] = dataclasses.field(default_factory=dict)
    opened: list[Open] = dataclasses.field(default_factory=list)
    goal: int = 0
    disjunction: int = 0
    header: int = 0
    nodes: int = 0

    def of_kind(self, *kinds: str) -> list[str]:
        return [name for name, (kind, _) in self.names.items() if kind in kinds]

    def called(self, name: str) -> str:
        """What a name is: `x`, a variable since line 2."""
        kind, line = self.names[name]
        return f"{quoted(name)}, {'an' if kind == 'indicator' else 'a'} {'Boolean' if kind == 'boolean' else kind} since line {line}"

    def may_stand(self) -> list[str]:
        """The words that a line may begin with."""
        if self.opened and self.opened[-1].word == "disjunction":
            return ["`disjunct`", "`end`"]
        inner = ["`row`", "`logic`", "`disjunction`"]
        if self.opened:
            return [*inner, "`end`"]
        return ["`var`", *([] if self.disjunction else ["`boolean`"]), *([] if self.goal else ["`min`", "`max`"]), *inner]

    def add(self, number: int, word: str, name: str) -> None:
        """Takes a line that the program read."""
        if word == "var":
            self.names[name] = ("variable", number)
        elif word == "boolean":
            self.names[name] = ("boolean", number)
        elif word in ("min", "max"):
            self.goal = number
        elif word in ("disjunction", "disjunct"):
            if word == "disjunct":
                self.names[name] = ("indicator", number)
                self.opened[-1].disjuncts += 1
            self.disjunction = self.disjunction or number
            self.opened.append(Open(word, number, name))
        elif word == "end":
            self.opened.pop()


def context_of(lines: list[bytes]) -> Context:
    """What the lines say; all of them were read."""
    context = Context()
    for number, line in enumerate(lines, 1):
        found = HEAD.match(line) if line else None
        if found and not context.header:
            context.header = number
        elif found:
            context.add(number, found[1].decode(), (found[2] or b"").decode())
            if found[1] == b"logic":
                context.nodes += len(re.findall(rb"[A-Za-z_][A-Za-z0-9_.]*", bare(line))) - 1
    return context


# The shapes of lines. Each goes along a cursor, and stops where the line can't go on.


def signed(cursor: Cursor, what: str) -> tuple[int, Token]:
    """An optional sign and a number."""
    sign, wanted = 1, ["a number, with a sign or without"]
    if cursor.peek().text in ("+", "-"):
        sign, wanted = -1 if cursor.next().text == "-" else 1, ["a number"]
    return sign, cursor.take("number", (), wanted, what)


def bound(cursor: Cursor, is_low: bool) -> tuple[int, Token] | None:
    """LOW or HIGH; None where it is open."""
    if is_low and cursor.peek().text == "-" and cursor.peek(1).text == "inf":
        cursor.next()
        cursor.next()
        return None
    if not is_low and cursor.peek().text == "inf":
        cursor.next()
        return None
    sign = 1
    wanted = ["a number, with a sign or without", "`-inf`" if is_low else "`inf`"]
    if cursor.peek().text in ("+", "-"):
        is_minus = cursor.next().text == "-"
        sign, wanted = -1 if is_minus else 1, ["a number", *(["`inf`"] if is_low and is_minus else [])]
    return sign, cursor.take("number", (), wanted, "low" if is_low else "high")


@dataclasses.dataclass
class Sum:
    """Terms of sign, number and name, and a constant or a right side."""

    terms: list[tuple[int, Token | None, Token]] = dataclasses.field(default_factory=list)
    right: tuple[int, Token] | None = None


def terms(cursor: Cursor, found: Sum, with_constant: bool) -> None:
    """Terms joined by signs; a goal may end with a constant."""
    sign, wanted = 1, ["a sign", "a number", "a variable"]
    while True:
        if cursor.peek().text in ("+", "-"):
            sign, wanted = -1 if cursor.next().text == "-" else 1, ["a number", "a variable"]
        number = cursor.next() if cursor.peek().kind == "number" else None
        if number and with_constant and found.terms and cursor.peek().kind == "end":
            found.right = sign, number
            return
        found.terms.append((sign, number, cursor.name("a variable", "after a coefficient") if number else variable(cursor, wanted)))
        if cursor.peek().text not in ("+", "-"):
            return


def variable(cursor: Cursor, wanted: list[str]) -> Token:
    """A name, where a sign or a number may stand too."""
    token = cursor.peek()
    if token.kind != "word" or cursor.met(token).startswith("the reserved"):
        cursor.stop(wanted, "first term" if len(wanted) == 3 else "term")
    return cursor.next()


def row(cursor: Cursor) -> Sum:
    found, relations = Sum(), [f"`{one}`" for one in RELATIONS]
    if (cursor.peek().kind, cursor.peek().text) == ("number", "0") and cursor.peek(1).kind != "word":
        cursor.next()
        cursor.take("mark", RELATIONS, [*relations, "a variable"], "after 0")
    else:
        terms(cursor, found, False)
        cursor.take("mark", RELATIONS, ["`+`", "`-`", *relations], "after a term")
    found.right = signed(cursor, "right side")
    cursor.end([], "after the right side")
    return found


def goal(cursor: Cursor) -> Sum:
    found = Sum()
    ahead = 1 if cursor.peek().text in ("+", "-") else 0
    if cursor.peek(ahead).kind == "number" and cursor.peek(ahead + 1).kind == "end":
        found.right = signed(cursor, "goal")
        return found
    terms(cursor, found, True)
    cursor.end([] if found.right else ["`+`", "`-`"], "after a term")
    return found


@dataclasses.dataclass
class Variable:
    name: Token
    low: tuple[int, Token] | None
    high: tuple[int, Token] | None


def var(cursor: Cursor) -> Variable:
    name = cursor.name("a name", "name")
    cursor.take("word", ("real", "int"), ["`real`", "`int`"], "kind")
    found = Variable(name, bound(cursor, True), bound(cursor, False))
    cursor.end([], "after the bounds")
    return found


def named(cursor: Cursor) -> Token:
    name = cursor.name("a name", "name")
    cursor.end([], "after the name")
    return name


def mode(cursor: Cursor) -> None:
    cursor.take("word", ("xor", "or"), ["`xor`", "`or`"], "mode")
    cursor.end([], "after the mode")


@dataclasses.dataclass
class Proposition:
    """The names with their depth, the connectives with theirs, the counts, and the first argument too many."""

    names: list[tuple[Token, int]] = dataclasses.field(default_factory=list)
    nodes: list[tuple[Token, int]] = dataclasses.field(default_factory=list)
    counts: list[Token] = dataclasses.field(default_factory=list)
    past: list[Token] = dataclasses.field(default_factory=list)


def proposition(cursor: Cursor) -> Proposition:
    """Names and connectives with their arguments, without recursion."""
    found = Proposition()
    words: list[str] = []
    given: list[int] = []
    while True:
        token = cursor.peek()
        if token.text in ARGUMENTS:
            cursor.next()
            found.nodes.append((token, len(words) + 1))
            cursor.take("mark", ("(",), ["`(`"], "after a connective")
            if token.text in COUNTING:
                number = cursor.peek()
                if number.kind != "number" or not number.text.isdigit():
                    cursor.stop(["a whole number"], "count")
                found.counts.append(cursor.next())
                cursor.take("mark", (",",), ["`,` and what is counted"], "after a count")
            words.append(token.text)
            given.append(0)
            continue
        found.nodes.append((argument(cursor), len(words) + 1))
        found.names.append(found.nodes[-1])
        while words:
            given[-1] += 1
            word, count = words[-1], given[-1]
            least, most = ARGUMENTS[word]
            if count == 201:
                found.past.append(found.nodes[-1][0])
            may = [*(["`,`"] if not most or count < most else []), *(["`)`"] if count >= least else [])]
            token = cursor.take("mark", tuple(one.strip("`") for one in may), may, f"after argument {count} of {word}")
            if token.text == ",":
                break
            words.pop()
            given.pop()
        else:
            cursor.end([], "after a proposition")
            return found


def argument(cursor: Cursor) -> Token:
    """A Boolean's name, where a connective may stand too."""
    token = cursor.peek()
    if token.kind != "word" or cursor.met(token).startswith("the reserved"):
        cursor.stop(["a Boolean", "a connective"], "argument")
    return cursor.next()


SHAPES: dict[str, Callable[[Cursor], object]] = {
    "var": var,
    "boolean": named,
    "disjunct": named,
    "disjunction": mode,
    "min": goal,
    "max": goal,
    "row": row,
    "logic": proposition,
    "end": lambda cursor: cursor.end([], "after end"),
}


def read(line: bytes, context: Context) -> tuple[Token, object]:
    """The first word of a line and what its shape holds, or Stop where it has none."""
    cursor = Cursor(bare(line))
    word = cursor.peek()
    if word.kind != "word" or word.text not in SHAPES:
        cursor.stop(context.may_stand(), "first word")
    cursor.next()
    return word, SHAPES[word.text](cursor)


def misplaced(word: Token, context: Context) -> Finding:
    """Why a line of a good shape may not stand here."""
    inner = context.opened[-1] if context.opened else None
    if inner:
        met, what = f"`{word.text}` directly in {inner}", f"{word.text} in a {inner.word}"
    elif word.text in ("min", "max"):
        met, what = f"a second goal; the first is on line {context.goal}", "second goal"
    elif word.text == "boolean":
        met, what = f"a Boolean after the first disjunction, which is on line {context.disjunction}", "boolean after a disjunction"
    else:
        met, what = f"`{word.text}` where no {'block' if word.text == 'end' else 'disjunction'} is open", f"{word.text} outside"
    return Finding(word.start, met, context.may_stand(), what)


def form(line: bytes, context: Context) -> Finding:
    try:
        word, _ = read(line, context)
    except Stop as stop:
        return stop.finding
    return misplaced(word, context)


def taken_twice(word: Token, shape: object, context: Context) -> Finding | None:
    """A name that is declared again, or a variable that stands twice in a sum."""
    if isinstance(shape, Sum):
        seen: set[str] = set()
        for _, _, name in shape.terms:
            if name.text in seen and name.text in context.of_kind("variable"):
                return Finding(name.start, f"{quoted(name.text)}, which stands in this sum already", ["a variable that does not"], "twice in a sum")
            seen.add(name.text)
        return None
    declared = shape.name if isinstance(shape, Variable) else shape
    if not isinstance(declared, Token) or declared.text not in context.names:
        return None
    kind = context.names[declared.text][0]
    return Finding(declared.start, context.called(declared.text), ["a new name"], f"{word.text} of a {kind}")


def unknown(name: Token, kinds: tuple[str, ...], context: Context, below: dict[str, int]) -> Finding:
    """A name that isn't one of these kinds."""
    wanted = "a variable declared above" if kinds == VARIABLES else "a Boolean or an indicator declared above"
    what = "unknown"
    if name.text in context.names:
        met, what = context.called(name.text), context.names[name.text][0]
    elif name.text in below:
        met, what = f"{quoted(name.text)}, which is declared below, on line {below[name.text]}", "declared below"
    else:
        like = near(name.text, context.of_kind(*kinds))
        met = f"{quoted(name.text)}, which is not declared{f'; there is {quoted(like)}' if like else ''}"
        what = "misspelled" if like else "unknown"
    return Finding(name.start, met, [wanted], what)


def unknown_name(word: Token, shape: object, context: Context, below: dict[str, int]) -> Finding | None:
    if isinstance(shape, Sum):
        names, kinds = [name for _, _, name in shape.terms], VARIABLES
    elif isinstance(shape, Proposition):
        names, kinds = [name for name, _ in shape.names], TRUTHS
    else:
        return None
    known = set(context.of_kind(*kinds))
    return next((unknown(name, kinds, context, below) for name in names if name.text not in known), None)


def value(signed_number: tuple[int, Token]) -> Fraction | None:
    """The value of a number, or None where a part of it is past its limit."""
    sign, token = signed_number
    over, mark, under = token.text.partition("/")
    if not mark:
        whole, _, places = token.text.partition(".")
        over, under = whole + places, "1" + "0" * len(places)
    over, under = over.lstrip("0") or "0", under.lstrip("0") or "0"
    if max(len(over), len(under)) > 16 or int(over) > MOST or not 1 <= int(under) <= MOST:
        return None
    return Fraction(sign * int(over), int(under))


def bad_number(token: Token) -> Finding:
    """A number whose own parts are past a limit."""
    _, mark, under = token.text.partition("/")
    if mark and not under.strip("0"):
        return Finding(token.start, f"{quoted(token.text)}, with a denominator of 0", ["a denominator of at least 1"], "denominator of 0")
    parts = f"numerators and denominators up to {MOST_TEXT}"
    return Finding(token.start, quoted(token.text), [parts + ("; a decimal has at most 15 places" if "." in token.text else "")], "great number")


def great_in_sum(shape: Sum) -> Finding | None:
    """The number of a sum that is out of range, by itself or once the sum is in whole numbers."""
    numbers = [(sign, number or Token("number", "1", name.start)) for sign, number, name in shape.terms]
    listed = [*numbers, *([shape.right] if shape.right else [])]
    values = [(value(one), one[1]) for one in listed]
    known = [(one, token) for one, token in values if one is not None]
    if len(known) < len(values):
        return bad_number(next(token for one, token in values if one is None))
    for one, token in known[: len(numbers)]:
        if one == 0:
            return Finding(token.start, f"a coefficient of {quoted(token.text)}", ["a number other than 0"], "coefficient of 0")
    scale = lcm(*(one.denominator for one, _ in known))
    for one, token in known:
        if abs(one * scale) > MOST:
            met = f"{quoted(token.text)}, which is {quoted(str(one * scale))} once all numbers are times {scale}, so that they are whole"
            return Finding(token.start, met, [f"numbers up to {MOST_TEXT} even then"], "scaled number")
    met = f"denominators whose least common multiple is {quoted(str(scale))}"
    return Finding(listed[0][1].start, met, [f"one up to {MOST_TEXT}"], "scale of a goal") if scale > MOST else None


def number_of(word: Token, shape: object) -> Finding | None:
    if isinstance(shape, Sum):
        return great_in_sum(shape)
    if isinstance(shape, Proposition):
        past = next((one for one in shape.counts if len(one.text.lstrip("0")) > 4 or int(one.text.lstrip("0") or 0) > 1000), None)
        return Finding(past.start, quoted(past.text), ["a number up to 1,000"], "great count") if past else None
    if isinstance(shape, Variable):
        ends = [end for end in (shape.low, shape.high) if end]
        values = [value(end) for end in ends]
        if None in values:
            return bad_number(ends[values.index(None)][1])
        low_value, high_value = [*values, None, None][:2]
        if low_value is not None and high_value is not None and low_value > high_value:
            low, high = (f"{'-' if sign < 0 else ''}{token.text}" for sign, token in ends)
            return Finding(ends[0][1].start, f"LOW is {quoted(low)} and HIGH is {quoted(high)}", ["a LOW that does not exceed HIGH"], "crossed bounds")
    return None


def nesting(word: Token, shape: object, context: Context) -> Finding | None:
    if isinstance(shape, Proposition):
        deep = next((token for token, depth in shape.nodes if depth > 16), None)
        return Finding(deep.start, f"{quoted(deep.text)} at the 17th level", ["up to 16 levels in a proposition"], "deep proposition") if deep else None
    met = f"a disjunct that would stand nine deep; the outermost disjunction is on line {context.opened[0].line}"
    return Finding(word.start, met, ["up to eight disjuncts within one another"], "deep disjunct")


def limit(word: Token, shape: object, context: Context) -> Finding | None:
    name = shape.name if isinstance(shape, Variable) else shape
    if isinstance(name, Token) and len(name.text) > 64:
        return Finding(name.start, f"a name of {len(name.text)} bytes", ["up to 64"], "long name")
    if isinstance(shape, Variable):
        return Finding(shape.name.start, "the 501st variable", ["up to 500 in a model"], "many variables")
    if isinstance(shape, Sum):
        return Finding(word.start, "the 1,001st row", ["up to 1,000 in a model"], "many rows")
    if isinstance(shape, Proposition):
        if shape.past:
            return Finding(shape.past[0].start, "the 201st argument", ["up to 200 of one connective"], "many arguments")
        at = max(0, min(5000 - context.nodes, len(shape.nodes) - 1))
        return Finding(shape.nodes[at][0].start, "the 5,001st node of all propositions", ["up to 5,000 names and connectives in a model"], "many nodes")
    return Finding(word.start, "the 201st Boolean, indicators among them", ["up to 200 in a model"], "many booleans")


def header(line: bytes, text: bytes) -> Finding:
    words = bare(line).split()
    if not words:
        return Finding(0, "the end of the text, which has no line with a word", ["`gdp 1` as the first line"], "empty text")
    place = len(line) - len(line.lstrip(b" \t"))
    what = "byte order mark" if text.startswith(b"\xef\xbb\xbf") else "utf-16" if text.startswith((b"\xff\xfe", b"\xfe\xff")) or b"\0" in text[:20] else "header"
    if what == "header" and words[0] == b"gdp":
        place, what = (line.find(b"gdp") + 3, "version")
        place += len(line[place:]) - len(line[place:].lstrip(b" \t"))
    if what == "byte order mark":
        return Finding(0, "a byte order mark (the bytes ef bb bf), which editors don't show", ["`gdp 1`"], what)
    if what == "utf-16":
        return Finding(0, "a text of two bytes a character (UTF-16)", ["`gdp 1` in ASCII or UTF-8"], what)
    return Finding(place, quoted(line[place:].decode("utf-8", "surrogateescape").rstrip(), 30) if place < len(line) else "the end of the line", ["`gdp 1`" if what == "header" else "`1`"], what)


def at_end(cause: str, context: Context) -> Finding:
    if cause == "Unclosed":
        count = len(context.opened)
        listed = ", ".join(str(one) for one in reversed(context.opened[-5:])) + (", .." if count > 5 else "")
        met = f"the end of the text, and {'a block is' if count == 1 else f'{count} blocks are'} open: {listed}"
        return Finding(0, met, ["`end`" if count == 1 else f"`end`, {count} times"], "unclosed")
    return Finding(0, "the end of the text, and no variable is declared", ["a `var` line"], "no variable")


def declared_below(lines: list[bytes], number: int) -> dict[str, int]:
    """The names that lines below the refused one seem to declare."""
    names: dict[str, int] = {}
    for at, line in enumerate(lines[number:], number + 1):
        found = HEAD.match(line)
        if found and found[1] in (b"var", b"boolean", b"disjunct") and found[2]:
            names.setdefault(found[2].decode(), at)
    return names


def find(text: bytes, lines: list[bytes], number: int, cause: str) -> Finding | None:
    """The place in the refused line, or None where nothing is found that has this cause."""
    is_past = number > len(lines)
    line = b"" if is_past else lines[number - 1]
    if cause == "Header":
        return header(line, text)
    context = context_of(lines[: number - 1])
    if is_past:
        return at_end(cause, context)
    if cause == "Form":
        return form(line, context)
    try:
        word, shape = read(line, context)
    except Stop:
        return None
    if cause == "Missing":
        inner = context.opened[-1]
        return Finding(word.start, f"`end` of {inner}, which has no disjunct", ["`disjunct`"], "no disjunct")
    below = declared_below(lines, number) if cause == "NameUnknown" else {}
    return {
        "NameTwice": lambda: taken_twice(word, shape, context),
        "NameUnknown": lambda: unknown_name(word, shape, context, below),
        "Number": lambda: number_of(word, shape),
        "Nesting": lambda: nesting(word, shape, context),
        "Limit": lambda: limit(word, shape, context),
    }.get(cause, lambda: None)()
