"""Reads models, points, answers and logs that the program accepts, for the tools that show them.

A small reader of texts by docs/FORMATS.md. It refuses nothing: a caller first asks the program whether a text is one. It is no part of
what is proved, and nothing that is proved stands on it.
"""

import re
from collections.abc import Iterator
from dataclasses import dataclass, field
from fractions import Fraction

TOKEN = re.compile(r"[A-Za-z_][A-Za-z0-9_.]*|[0-9]+(?:[./][0-9]+)?|<=|>=|[-+=(),]")
SIGNS = {"<=": "≤", ">=": "≥", "=": "="}


@dataclass
class Variable:
    """A quantity: its name, its bounds (None where open), whether it is whole, and the number of its line."""

    name: str
    low: Fraction | None
    high: Fraction | None
    is_whole: bool
    line: int


@dataclass
class Sum:
    """Terms as they are written: a sign, the digits (empty for 1) and the name; and a constant."""

    terms: list[tuple[str, str, str]]
    constant: str = ""

    def value(self, values: dict[str, Fraction]) -> Fraction:
        """What the sum is at the values."""
        total = Fraction(self.constant or 0)
        for sign, digits, name in self.terms:
            size: int | Fraction = int(digits or "1") if digits.isdigit() or not digits else Fraction(digits)
            total += (size if sign == "+" else -size) * values[name]
        return total

    def words(self) -> list[str]:
        """The terms, each with its sign, as they are shown."""
        told = []
        for sign, digits, name in self.terms:
            told.append(("−" if sign == "-" else "+") + " " + (digits + " " if digits else "") + name)
        if self.constant:
            told.append(("− " if self.constant.startswith("-") else "+ ") + self.constant.lstrip("+-"))
        if told and told[0].startswith("+ "):
            told[0] = told[0][2:]
        return told or ["0"]


@dataclass
class Row:
    """A constraint: a sum, a relation and a number, and the number of its line."""

    sum: Sum
    relation: str
    right: str
    line: int

    def spare(self, values: dict[str, Fraction]) -> Fraction:
        """How far the sum is from the right side: negative where the row fails; of an equation minus the distance."""
        left, right = self.sum.value(values), Fraction(self.right)
        return {"<=": right - left, ">=": left - right, "=": -abs(left - right)}[self.relation]

    def words(self) -> list[str]:
        """The parts of the row as they are shown, which a line may be broken between."""
        return [*self.sum.words(), f"{SIGNS[self.relation]} {self.right.replace('-', '−').lstrip('+')}"]


@dataclass
class Logic:
    """A proposition: its tokens, and the number of its line."""

    tokens: list[str]
    line: int

    def holds(self, truths: set[str]) -> bool:
        """Whether it is true where exactly these Booleans are."""
        found, rest = truth(self.tokens, truths)
        assert not rest
        return found

    def words(self) -> list[str]:
        """The parts of the proposition as they are shown."""
        return "".join(token + " " if token == "," else token for token in self.tokens).split()


@dataclass
class Block:
    """What holds together: rows, logic and choices."""

    rows: list[Row] = field(default_factory=list)
    logic: list[Logic] = field(default_factory=list)
    choices: list["Choice"] = field(default_factory=list)


@dataclass
class Option(Block):
    """A disjunct: its indicator, and the number of its line."""

    name: str = ""
    line: int = 0


@dataclass
class Choice:
    """A disjunction: its mode, its disjuncts, and the number of its line."""

    mode: str
    line: int
    options: list[Option] = field(default_factory=list)


@dataclass
class Model(Block):
    """A model: the comment at its top, its variables, its Booleans with the indicators, in order, and its goal."""

    title: str = ""
    variables: list[Variable] = field(default_factory=list)
    booleans: list[str] = field(default_factory=list)
    plain: list[str] = field(default_factory=list)
    sense: str = ""
    goal: Sum = field(default_factory=lambda: Sum([]))


@dataclass
class Point:
    """Values and truths; of an answer also its route, its claim, its steps and the nodes of its proof."""

    values: dict[str, Fraction] = field(default_factory=dict)
    truths: set[str] = field(default_factory=set)
    route: str = ""
    claim: str = ""
    steps: dict[str, Fraction] = field(default_factory=dict)
    nodes: list[list[str]] = field(default_factory=list)


def truth(tokens: list[str], truths: set[str]) -> tuple[bool, list[str]]:
    """Whether the proposition at the front is true, and the tokens after it."""
    head, rest = tokens[0], tokens[1:]
    if not rest or rest[0] != "(":
        return head in truths, rest
    rest, count = rest[1:], 0
    if head in ("exactly", "atleast", "atmost"):
        count, rest = int(rest[0]), rest[2:]
    found = []
    while True:
        holds, rest = truth(rest, truths)
        found.append(holds)
        mark, rest = rest[0], rest[1:]
        if mark == ")":
            break
    number = sum(found)
    told = {
        "not": number == 0,
        "and": number == len(found),
        "or": number > 0,
        "implies": not found[0] or found[-1],
        "equivalent": found[0] == found[-1],
        "xor": found[0] != found[-1],
        "exactly": number == count,
        "atleast": number >= count,
        "atmost": number <= count,
    }
    return told[head], rest


def lines_of(text: str) -> Iterator[tuple[int, list[str]]]:
    """The lines with a word, each with its number and its tokens."""
    for at, line in enumerate(text.split("\n"), 1):
        tokens = TOKEN.findall(line.partition("#")[0])
        if tokens:
            yield at, tokens


def title_of(text: str) -> str:
    """The first sentence of the comment that stands at the top of a model."""
    told = []
    for line in text.split("\n")[:40]:
        if line.strip().startswith("#"):
            told.append(line.strip().lstrip("#").strip())
        elif line.strip() and line.split()[0] != "gdp":
            break
    words = "".join(letter if letter.isprintable() else " " for letter in " ".join(told))
    first = re.match(r".*?[.?!:](?= |$)", words)
    return first[0].rstrip(":") if first else words


def sum_of(tokens: list[str]) -> Sum:
    """The sum that the tokens spell."""
    found, sign, digits = Sum([]), "", ""
    for token in tokens:
        if token in "+-":
            found.constant = sign + digits if digits else found.constant
            sign, digits = token, ""
        elif token[0].isdigit():
            digits = token
        else:
            found.terms.append((sign or "+", digits, token))
            sign = digits = ""
    if digits and (digits != "0" or found.terms):
        found.constant = sign + digits
    return found


def bound_of(tokens: list[str]) -> Fraction | None:
    """A bound, None where it is open."""
    return None if tokens[-1] == "inf" else Fraction("".join(tokens))


def variable_of(tokens: list[str], at: int) -> Variable:
    """The variable that a line declares."""
    middle = 4 if tokens[3] in "+-" else 3
    return Variable(tokens[1], bound_of(tokens[3 : middle + 1]), bound_of(tokens[middle + 1 :]), tokens[2] == "int", at)


def read_model(text: str) -> Model:
    """The model that a text spells."""
    model = Model(title=title_of(text))
    opened: list[Block | Choice] = [model]
    for at, tokens in lines_of(text):
        word, top = tokens[0], opened[-1]
        if word == "var":
            model.variables.append(variable_of(tokens, at))
        elif word == "boolean":
            model.booleans.append(tokens[1])
            model.plain.append(tokens[1])
        elif word in ("min", "max"):
            model.sense, model.goal = word, sum_of(tokens[1:])
        elif word == "end":
            opened.pop()
        elif word == "disjunct" and isinstance(top, Choice):
            model.booleans.append(tokens[1])
            top.options.append(Option(name=tokens[1], line=at))
            opened.append(top.options[-1])
        elif isinstance(top, Block):
            if word == "row":
                relation = next(place for place, token in enumerate(tokens) if token in SIGNS)
                top.rows.append(Row(sum_of(tokens[1:relation]), tokens[relation], "".join(tokens[relation + 1 :]), at))
            elif word == "logic":
                top.logic.append(Logic(tokens[1:], at))
            elif word == "disjunction":
                top.choices.append(Choice(tokens[1], at))
                opened.append(top.choices[-1])
    return model


def words_of(text: str) -> list[list[str]]:
    """The words of each line that has one, without its comment."""
    return [words for line in text.split("\n") if (words := line.partition("#")[0].split())]


def read_point(text: str) -> Point:
    """The point or the answer that a text spells."""
    point, over, is_tree = Point(), 1, False
    for words in words_of(text):
        match words:
            case [("gdp-point" | "gdp-answer" | "end"), *_]:
                pass
            case ["tree"]:
                is_tree = True
            case _ if is_tree:
                point.nodes.append(words)
            case ["route", route]:
                point.route = route
            case ["over", number]:
                over = int(number)
            case ["val", name, number]:
                point.values[name] = Fraction(int(number), over)
            case ["step", name, number]:
                point.steps[name] = Fraction(int(number))
            case ["on", name]:
                point.truths.add(name)
            case _:
                point.claim = " ".join(words)
    return point
