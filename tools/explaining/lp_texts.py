"""Finds the place in a refused line of an LP text.

The tokens up to that line are cut into sections, and these are gone along as the program's profile says, until one can't go on.
"""

import re
from typing import NamedTuple

from .finding import Finding, Stop, character_at, quoted

LETTERS = r"A-Za-z!\"#$%&(),;?@_`'{}~"
TOKEN = re.compile(rf"[ \t]*(?:((?:[0-9]+\.?[0-9]*|\.[0-9]+)(?:[eE][-+]?[0-9]+)?)|([{LETTERS}][{LETTERS}0-9.\[\]]*)|(<->|->|[\^*\[])|(<=|=<|>=|=>|[<>=:+-])|([^ \t]))", re.DOTALL)
KINDS = ("number", "name", "barred", "mark", "stray")
RELATIONS = ("<", "<=", "=<", ">", ">=", "=>", "=")
AT_MOST, AT_LEAST = ("<", "<=", "=<"), (">", ">=", "=>")
SECTIONS = dict.fromkeys(("minimize", "minimum", "min", "maximize", "maximum", "max"), "objective")
SECTIONS |= dict.fromkeys(("subject to", "such that", "st", "st.", "s.t."), "rows") | dict.fromkeys(("bounds", "bound"), "bounds") | {"end": "end"}
SECTIONS |= dict.fromkeys(("general", "generals", "gen", "binary", "binaries", "bin"), "names")
BARRED = ("lazy constraints", "user cuts", "sos", "sos1", "sos2", "semi", "semis")
CALLED = {"objective": "the objective", "rows": "the constraints (`Subject To`)", "bounds": "the bounds", "names": "a general or binary section", "end": "`End`"}
INFINITE = ("inf", "infinity")
# Section words of other programs, which are names here.
UNREAD = ("integer", "integers", "int", "ints")
MOST, MOST_TEXT = 10**15, "1,000,000,000,000,000"


class Token(NamedTuple):
    line: int
    place: int
    kind: str
    text: str

    def is_word(self, *words: str) -> bool:
        return self.kind == "name" and self.text.lower() in words


def tokens_of(lines: list[bytes], last: int) -> list[Token]:
    """The tokens to the line `last`, and those of the next line that has any."""
    tokens: list[Token] = []
    for number, line in enumerate(lines, 1):
        if number > last and tokens and tokens[-1].line > last:
            break
        text = line.partition(b"\\")[0].decode("latin-1")
        found = [(one, one.lastindex or 1) for one in TOKEN.finditer(text)]
        tokens += [Token(number, one.start(group), KINDS[group - 1], one[group]) for one, group in found]
    return tokens


def phrase(tokens: list[Token], at: int, words: tuple[str, ...]) -> str:
    """Which of these words, of one part or of two, the line's first tokens are; nothing where none."""
    if at and tokens[at - 1].line == tokens[at].line or tokens[at].kind != "name":
        return ""
    rest = [one for one in tokens[at : at + 2] if one.line == tokens[at].line and one.kind == "name"]
    both, first = " ".join(one.text.lower() for one in rest), rest[0].text.lower()
    return both if both in words else first if first in words else ""


def section_at(tokens: list[Token], at: int) -> tuple[str, int]:
    """The section that a line's first token opens, and how many tokens its word has; ("", 0) where it opens none."""
    word = phrase(tokens, at, tuple(SECTIONS))
    count = 1 + word.count(" ")
    is_label = at + count < len(tokens) and tokens[at + count].text == ":"
    return ("", 0) if not word or is_label else (SECTIONS[word], count)


class Section:
    """Goes along the tokens of a section. Where they end the next token is the section word that ends them, or the text's end."""

    def __init__(self, kind: str, lines: list[bytes]):
        self.kind, self.lines, self.at = kind, lines, 0
        self.tokens: list[Token] = []
        self.end = Token(len(lines) + 1, 0, "end", "")

    def peek(self, ahead: int = 0) -> Token:
        return self.tokens[self.at + ahead] if self.at + ahead < len(self.tokens) else self.end

    def is_over(self) -> bool:
        return self.at >= len(self.tokens)

    def next(self) -> Token:
        self.at += 1
        return self.tokens[self.at - 1]

    def skip(self, *texts: str) -> str:
        """The text of the next token, which is passed, if it is a mark of these."""
        return self.next().text if self.peek().kind == "mark" and self.peek().text in texts else ""

    def stop(self, wanted: list[str], what: str) -> None:
        token = self.peek()
        if token.kind == "stray":
            met = character_at(self.lines[token.line - 1], token.place)
        else:
            met = quoted(token.text) if token.text else "the end of the text"
        before = self.tokens[self.at - 1] if self.at else token
        if before.is_word(*UNREAD) and before.line < token.line:
            met, what = f"{met}, after {quoted(before.text)} of line {before.line}, which is taken for a variable", "unread section"
        raise Stop(Placed(token.place, met, wanted, "open " + self.kind if self.is_over() else what, token.line))

    def take(self, kind: str, texts: tuple[str, ...], wanted: list[str], what: str) -> Token:
        if self.peek().kind != kind or texts and self.peek().text not in texts:
            self.stop(wanted, what)
        return self.next()

    def label(self) -> None:
        if self.peek().kind == "name" and self.peek(1).text == ":":
            self.at += 2

    def term(self, seen: set[str], what: str) -> None:
        name = self.peek()
        if name.text in seen:
            raise Stop(Placed(name.place, f"{quoted(name.text)}, which stands here already", ["a variable that does not"], "twice", name.line))
        seen.add(self.take("name", (), ["a variable"], what).text)

    def objective(self) -> None:
        seen: set[str] = set()
        has_constant = False
        self.label()
        while not self.is_over():
            while self.skip("+", "-"):
                pass
            number = self.next() if self.peek().kind == "number" else None
            if self.peek().kind == "name":
                self.term(seen, "objective")
            elif number is None or has_constant:
                self.stop(["a variable"] if number else ["a term", "one number alone", "`Subject To`"], "after a coefficient" if number else "objective")
            else:
                has_constant = True

    def rows(self) -> None:
        while not self.is_over():
            seen: set[str] = set()
            self.label()
            while not seen or self.peek().text not in RELATIONS:
                is_first = not seen
                while self.skip("+", "-"):
                    pass
                has_number = self.peek().kind == "number" and bool(self.next())
                if not has_number and self.peek().kind != "name":
                    self.stop(["a term"] if is_first else ["a term", "a relation"], "first term" if is_first else "term")
                self.term(seen, "after a coefficient")
            self.next()
            self.skip("+", "-")
            self.take("number", (), ["a number, with a sign or without"], "right side")

    def limit(self) -> None:
        self.skip("+", "-")
        if self.peek().is_word(*INFINITE):
            self.next()
        else:
            self.take("number", (), ["a number", "`inf`"], "bound")

    def bounded(self) -> None:
        if self.peek().is_word("free", *INFINITE):
            self.stop(["a variable"], "bound")
        self.take("name", (), ["a variable"], "bound")

    def bounds(self) -> None:
        relations = ["`<=`", "`>=`", "`=`"]
        while not self.is_over():
            if self.peek().kind == "name" and not self.peek().is_word(*INFINITE):
                self.bounded()
                if self.peek().is_word("free"):
                    self.next()
                    continue
                self.take("mark", RELATIONS, [*relations, "`free`"], "after a bounded variable")
                self.limit()
                continue
            self.limit()
            relation = self.take("mark", RELATIONS, relations, "after a bound").text
            self.bounded()
            if relation in AT_MOST and self.skip(*AT_MOST):
                self.limit()

    def names(self) -> None:
        while not self.is_over():
            self.take("name", (), ["a variable", "a section", "`End`"], "whole variables")

    def nothing(self) -> None:
        if not self.is_over():
            self.stop(["a comment", "the end of the text"] if self.kind == "end" else ["`Minimize`", "`Maximize`"], "after end" if self.kind == "end" else "objective first")

    def read(self) -> None:
        {"objective": self.objective, "rows": self.rows, "bounds": self.bounds, "names": self.names}.get(self.kind, self.nothing)()


class Placed(Finding):
    """A finding with its line."""

    def __init__(self, place: int, met: str, wanted: list[str], what: str, line: int):
        super().__init__(place, met, wanted, what)
        self.line = line


def sections_of(tokens: list[Token], lines: list[bytes]) -> list[Section]:
    sections, at = [Section("", lines)], 0
    while at < len(tokens):
        kind, count = section_at(tokens, at) if sections[-1].kind != "end" else ("", 0)
        if kind:
            sections[-1].end = tokens[at]._replace(kind="end")
            sections.append(Section(kind, lines))
            at += count
        else:
            sections[-1].tokens.append(tokens[at])
            at += 1
    return sections


def form(tokens: list[Token], lines: list[bytes], number: int) -> Finding | None:
    sections = sections_of(tokens, lines)
    for section in sections:
        try:
            section.read()
        except Stop as stop:
            if getattr(stop.finding, "line", 0) == number:
                return stop.finding
    if number > len(lines):
        kinds = {section.kind for section in sections}
        met = "the end of the text" + ("" if "rows" in kinds else ", and the constraints aren't opened") + (", and there is no variable" if "rows" in kinds else "")
        return Finding(0, met, ["a variable" if "rows" in kinds else "`Subject To`"], "no variable" if "rows" in kinds else "no rows")
    return None


def barred(tokens: list[Token], number: int) -> Finding | None:
    for at, token in enumerate(tokens):
        if token.line == number and (token.kind == "barred" or phrase(tokens, at, BARRED)):
            return Finding(token.place, quoted(token.text), [], "unsupported")
    return None


def misplaced(tokens: list[Token], lines: list[bytes], number: int) -> Finding | None:
    """The section word of the line, and the section that is due."""
    opened = 0
    for at, token in enumerate(tokens):
        kind, _ = section_at(tokens, at)
        if kind and token.line == number:
            due = ["the objective (`Minimize` or `Maximize`)", "the constraints (`Subject To`)"][opened] if opened < 2 else "bounds, general, binary or `End`"
            return Finding(token.place, f"{quoted(token.text)}, which opens {CALLED[kind]}", [due], "section")
        opened += bool(kind)
    return None


def great_number(tokens: list[Token], number: int) -> Finding | None:
    """The first number of the line whose parts are out of range; else one that scaling may make so."""
    numbers = [token for token in tokens if token.line == number and token.kind == "number"]
    for token in numbers:
        mantissa, _, power = token.text.lower().partition("e")
        digits, places = mantissa.replace(".", "").strip("0"), len(mantissa.partition(".")[2].rstrip("0"))
        if len(digits) > 15 or places > 15 or len(power) > 5 or abs(int(power or 0)) > 15 or len(mantissa.partition(".")[0].lstrip("0")) > 15:
            return Finding(token.place, quoted(token.text), [f"in lowest terms parts up to {MOST_TEXT}, and a power up to 40"], "great number")
    place = numbers[-1].place if numbers else 0
    return Finding(place, "numbers that pass their limit once the row, or the objective, is in whole numbers", [f"numbers up to {MOST_TEXT} even then"], "scaled number")


def limit(tokens: list[Token], number: int, lines: list[bytes]) -> Finding:
    here = [token for token in tokens if token.line == number]
    long = next((token for token in here if token.kind == "name" and len(token.text) > 255), None)
    if long:
        return Finding(long.place, f"a name of {len(long.text)} bytes", ["up to 255"], "long name")
    met = "more rows or columns than may be" + (", bounds and free columns counted" if number > len(lines) else "")
    return Finding(here[0].place if here else 0, met, [], "many")


def find(lines: list[bytes], number: int, cause: str) -> Finding | None:
    """The place in the refused line, or None where nothing is found that has this cause."""
    tokens = tokens_of(lines, number)
    if cause == "Form":
        return form(tokens, lines, number)
    if cause == "Unsupported":
        return barred(tokens, number)
    if cause == "Section":
        return misplaced(tokens, lines, number)
    return great_number(tokens, number) if cause == "Number" else limit(tokens, number, lines) if cause == "Limit" else None
