"""LP text: reading a mixed-integer program from it.

The text is cut into tokens, these into sections by their words, and each section is read by itself. Every fault is noted with
its line; the first line that has one is told, with the first of its causes.
"""

import re
import typing
from fractions import Fraction
from math import lcm

from .programs import COLUMNS, MOST, OPPOSITE, ROWS, Column, Program
from .texts import Refused, split_lines

LETTERS = rb"A-Za-z!\"#$%&(),;?@_`'{}~"
TOKEN = re.compile(
    rb"[ \t]*(?:((?:[0-9]+\.?[0-9]*|\.[0-9]+)(?:[eE][-+]?[0-9]+)?)"
    rb"|([" + LETTERS + rb"][" + LETTERS + rb"0-9.\[\]]*)"
    rb"|(<->|->|[\^*\[])"
    rb"|(<=|=<|>=|=>|[<>=:+-])"
    rb"|(.))",
    re.DOTALL,
)
KINDS = ("number", "name", "barred", "mark", "stray")
RELATIONS = {"<": "<=", "<=": "<=", "=<": "<=", ">": ">=", ">=": ">=", "=>": ">=", "=": "="}
OBJECTIVE = {"minimize": "min", "minimum": "min", "min": "min", "maximize": "max", "maximum": "max", "max": "max"}
SECTIONS = {word: "objective" for word in OBJECTIVE}
SECTIONS |= {"subject to": "rows", "such that": "rows", "st": "rows", "st.": "rows", "s.t.": "rows", "bounds": "bounds", "bound": "bounds"}
SECTIONS |= {"general": "general", "generals": "general", "gen": "general", "binary": "binary", "binaries": "binary", "bin": "binary", "end": "end"}
# The sections that come first, each once.
FIRST = ("objective", "rows")
BARRED_WORDS = ("sos", "sos1", "sos2", "semi", "semis", "lazy constraints", "user cuts")
INFINITE = ("inf", "infinity")
NAME_BYTES = 255
EXPONENT = 40
# In the bounds a number of this many digits before its point, or more, is infinite.
INFINITE_DIGITS = 21
# More digits than these, or a point moved further, and no number in lowest terms keeps the limit.
FAR = 100
# The causes in the order in which they are told of a line.
CAUSES = ("Unsupported", "Form", "Section", "Number", "Limit")


class NoForm(Exception):
    """What is read doesn't go on as it has to, at a line."""


class Token(typing.NamedTuple):
    line: int
    kind: str
    text: str

    def has(self, kind, *texts):
        return self.kind == kind and (not texts or self.text in texts)

    def folded(self):
        """A name in lower case, as section words are compared; nothing where it is no name."""
        return self.text.lower() if self.kind == "name" else ""


def tokens_of(number, line):
    """The tokens of a line; a byte that begins none is a stray one."""
    line = line.split(b"\\")[0].rstrip(b" \t")
    return [Token(number, KINDS[found.lastindex - 1], found.group(found.lastindex).decode("latin-1")) for found in TOKEN.finditer(line)]


class Numeral:
    """A number as written: whether it counts as infinite in the bounds, and its value, None where that is out of range."""

    def __init__(self, text):
        mantissa, _, power = text.lower().partition("e")
        whole, _, places = mantissa.partition(".")
        shift, digits = exponent(power), (whole + places).lstrip("0")
        before_point = len(digits) - len(places) + shift
        self.is_infinite = bool(digits) and before_point >= INFINITE_DIGITS
        self.value = None
        stripped = digits.rstrip("0")
        shift_last = shift - len(places) + len(digits) - len(stripped)
        if abs(shift) > EXPONENT or len(stripped) > FAR or digits and abs(shift_last) > FAR:
            return
        value = int(stripped) * Fraction(10) ** shift_last if digits else Fraction(0)
        if value.numerator <= MOST and value.denominator <= MOST:
            self.value = value


def exponent(text):
    """The exponent written, or one far beyond every limit of the same sign."""
    digits = text.lstrip("+-").lstrip("0")
    size = int(digits or "0") if len(digits) < 10 else 10**9
    return -size if text.startswith("-") else size


class Section:
    """The tokens of a section, taken one after the other; `end` is the line on which it ends."""

    def __init__(self, kind, word, line):
        self.kind, self.word, self.line = kind, word, line
        self.tokens, self.at, self.end = [], 0, line

    def peek(self, ahead=0):
        return self.tokens[self.at + ahead] if self.at + ahead < len(self.tokens) else Token(self.end, "end", "")

    def has(self, kind, *texts):
        return self.peek().has(kind, *texts)

    def is_over(self):
        return self.at == len(self.tokens)

    def take(self, kind, *texts):
        if not self.has(kind, *texts):
            raise NoForm(self.peek().line)
        self.at += 1
        return self.tokens[self.at - 1]

    def label(self):
        if self.has("name") and self.peek(1).has("mark", ":"):
            self.at += 2

    def sign(self):
        """One optional sign."""
        return -1 if self.has("mark", "+", "-") and self.take("mark").text == "-" else 1

    def signs(self):
        """Any run of signs."""
        sign = 1
        while self.has("mark", "+", "-"):
            sign *= self.sign()
        return sign

    def relation(self):
        return RELATIONS[self.take("mark", *RELATIONS).text]

    def has_relation(self, relation):
        return self.has("mark", *(text for text, meant in RELATIONS.items() if meant == relation))


class LpFile:
    """A program with the names of its columns; the objective's value is its terms and the constant over the scale."""

    def __init__(self):
        self.program, self.names, self.constant, self.scale = Program(), {}, 0, 1


def scaled(numbers):
    """The least whole number that makes all of these whole, and they times that; None where one passes the limit."""
    scale = lcm(*(number.denominator for number in numbers))
    made = [int(number * scale) for number in numbers]
    return scale, None if any(abs(number) > MOST for number in made) else made


class Reader:
    """What is read so far, and the faults found: a set of pairs of a line and the place of the cause in `CAUSES`."""

    def __init__(self, end):
        self.file, self.end, self.faults = LpFile(), end, set()
        self.lows, self.highs, self.whole = [], [], set()
        self.row_count = 0

    def fault(self, line, cause):
        self.faults.add((line, CAUSES.index(cause)))

    def fault_if(self, holds, line, cause):
        if holds:
            self.fault(line, cause)

    def column(self, token):
        """The column of a name, made where it is first read."""
        names = self.file.names
        if token.text not in names:
            names[token.text] = len(names)
            self.lows.append(Fraction(0))
            self.highs.append(None)
            self.fault_if(len(names) > COLUMNS, token.line, "Limit")
        return names[token.text]

    def number(self, section):
        """The value of a number; one out of range is noted, and counts as 1."""
        token = section.take("number")
        value = Numeral(token.text).value
        self.fault_if(value is None, token.line, "Number")
        return 1 if value is None else value

    def term(self, section, terms, sign, number):
        token = section.take("name")
        column = self.column(token)
        if column in terms:
            raise NoForm(token.line)
        terms[column] = sign * Fraction(number)

    def objective(self, section):
        terms, constant = {}, None
        section.label()
        while not section.is_over():
            sign, number = section.signs(), None
            if section.has("number"):
                number = self.number(section)
            if section.has("name"):
                self.term(section, terms, sign, 1 if number is None else number)
            elif number is None or constant is not None:
                raise NoForm(section.peek().line)
            else:
                constant = sign * Fraction(number)
        self.store_objective(section, terms, constant or Fraction(0))

    def store_objective(self, section, terms, constant):
        columns = sorted(terms)
        scale, numbers = scaled([*(terms[at] for at in columns), constant])
        self.fault_if(numbers is None or scale > MOST, section.end, "Number")
        if numbers:
            self.file.scale, self.file.constant = scale, numbers.pop()
            self.file.program.sense = OBJECTIVE[section.word]
            self.file.program.goal = [(at, c) for at, c in zip(columns, numbers) if c]

    def rows(self, section):
        while not section.is_over():
            terms = {}
            section.label()
            while not terms or not section.has("mark", *RELATIONS):
                sign = section.signs()
                self.term(section, terms, sign, self.number(section) if section.has("number") else 1)
            relation, sign, line = section.relation(), section.sign(), section.peek().line
            self.store_row(line, terms, relation, sign * Fraction(self.number(section)))

    def store_row(self, line, terms, relation, right):
        columns = sorted(terms)
        _, numbers = scaled([*(terms[at] for at in columns), right])
        self.fault_if(numbers is None, line, "Number")
        self.count_rows(2 if relation == "=" else 1, line)
        if numbers:
            right = numbers.pop()
            self.file.program.rows.append(([(at, c) for at, c in zip(columns, numbers) if c], relation, right))

    def count_rows(self, count, line):
        self.row_count += count
        self.fault_if(self.row_count > ROWS, line, "Limit")

    def limit(self, section):
        """The number of a bound; None where it is infinite."""
        sign, token = section.sign(), section.peek()
        if token.folded() in INFINITE:
            section.take("name")
            return None
        if token.kind == "number" and Numeral(token.text).is_infinite:
            section.take("number")
            return None
        return sign * Fraction(self.number(section))

    def bounded(self, section):
        """The column of a bound."""
        if section.peek().folded() in (*INFINITE, "free"):
            raise NoForm(section.peek().line)
        return self.column(section.take("name"))

    def set_bound(self, column, relation, limit):
        if relation in (">=", "="):
            self.lows[column] = limit
        if relation in ("<=", "="):
            self.highs[column] = limit

    def bounds(self, section):
        while not section.is_over():
            if section.has("name") and section.peek().folded() not in INFINITE:
                column = self.bounded(section)
                if section.peek().folded() == "free":
                    section.take("name")
                    self.lows[column] = self.highs[column] = None
                else:
                    relation = section.relation()
                    self.set_bound(column, relation, self.limit(section))
                continue
            limit, relation = self.limit(section), section.relation()
            column = self.bounded(section)
            self.set_bound(column, OPPOSITE[relation], limit)
            if relation == "<=" and section.has_relation("<="):
                section.relation()
                self.set_bound(column, "<=", self.limit(section))

    def integers(self, section):
        while not section.is_over():
            token = section.take("name")
            column = self.column(token)
            if column not in self.whole:
                self.whole.add(column)
                self.count_rows(2, token.line)
            if section.kind == "binary":
                self.lows[column], self.highs[column] = Fraction(0), Fraction(1)

    def nothing(self, section):
        if not section.is_over():
            raise NoForm(section.peek().line)

    def read(self, section):
        reading = {"objective": self.objective, "rows": self.rows, "bounds": self.bounds, "end": self.nothing, "none": self.nothing}
        try:
            reading.get(section.kind, self.integers)(section)
        except NoForm as at:
            self.fault(at.args[0], "Form")

    def finish(self):
        """The columns, and the rows of their bounds."""
        program = self.file.program
        for column, (low, high) in enumerate(zip(self.lows, self.highs)):
            program.columns.append(Column(column in self.whole, low != 0))
            for relation, bound in ((">=", low or None), ("<=", high)):
                if bound is not None:
                    self.count_rows(1, self.end)
                    program.rows.append(([(column, bound.denominator)], relation, bound.numerator))
        split = sum(2 if column.is_free else 1 for column in program.columns)
        self.fault_if(split > COLUMNS, self.end, "Limit")


def phrase(tokens, at):
    """The first word of a line, or the first two where there are two on it, in lower case, longest first, with their count."""
    first, second = tokens[at], tokens[at + 1] if at + 1 < len(tokens) else None
    if second is not None and second.line == first.line and second.kind == "name" and first.kind == "name":
        yield f"{first.folded()} {second.folded()}", 2
    yield first.folded(), 1


def section_word(tokens, at):
    """The section word at a place and how many tokens it has, where no colon follows it."""
    for word, count in phrase(tokens, at):
        is_label = at + count < len(tokens) and tokens[at + count].has("mark", ":")
        if word in SECTIONS and not is_label:
            return word, count
    return None


def is_first(tokens, at):
    return at == 0 or tokens[at - 1].line != tokens[at].line


def sections_of(tokens, end):
    """The sections in order, the first with what stands before a section word; what stands after `end` is of that section."""
    sections, at = [Section("none", "", 0)], 0
    while at < len(tokens):
        found = section_word(tokens, at) if is_first(tokens, at) and sections[-1].kind != "end" else None
        if found:
            word, count = found
            sections[-1].end = tokens[at].line
            sections.append(Section(SECTIONS[word], word, tokens[at].line))
            at += count
        else:
            sections[-1].tokens.append(tokens[at])
            at += 1
    sections[-1].end = end
    return sections


def may_stand(place, kind):
    """Whether a section may stand at this place: the objective first, then the constraints, then any of the others."""
    return kind == FIRST[place] if place < len(FIRST) else kind not in FIRST


def is_barred(tokens, at):
    return tokens[at].kind == "barred" or is_first(tokens, at) and any(word in BARRED_WORDS for word, _ in phrase(tokens, at))


def read_lp(text):
    """The program of an LP text; `Refused` with the first bad line and its cause."""
    lines = split_lines(text)
    end = len(lines) + 1
    tokens = [token for number, line in enumerate(lines, 1) for token in tokens_of(number, line)]
    reader, sections = Reader(end), sections_of(tokens, end)
    for at, token in enumerate(tokens):
        reader.fault_if(is_barred(tokens, at), token.line, "Unsupported")
        reader.fault_if(token.kind == "name" and len(token.text) > NAME_BYTES, token.line, "Limit")
    for place, section in enumerate(sections[1:]):
        reader.fault_if(not may_stand(place, section.kind), section.line, "Section")
    for section in sections:
        reader.read(section)
    reader.finish()
    reader.fault_if("rows" not in [section.kind for section in sections] or not reader.file.names, end, "Form")
    if reader.faults:
        line, cause = min(reader.faults)
        raise Refused(line, CAUSES[cause])
    return reader.file
