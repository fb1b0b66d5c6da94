"""Finds the place in a refused line of an answer, whose lines are exact to the byte."""

import re

from .finding import Finding, quoted
from .models import Context

PLAIN, WHOLE, FRACTION = r"(?:0|[1-9][0-9]*)", r"(?:0|-?[1-9][0-9]*)", r"(?:0|-?[1-9][0-9]*(?:/[1-9][0-9]*)?)"
NAME = r"[A-Za-z_][A-Za-z0-9_.]*"
# The words of a line, and what each is followed by: what it is called, and its pattern.
SHAPES: dict[str, list[tuple[str, str]]] = {
    "route": [("`bigm`, `hull`, `hybrid` or `logic`", "bigm|hull|hybrid|logic")],
    "best": [("a value, `p` or `p/q` in lowest terms", FRACTION)],
    "empty": [],
    "endless": [],
    "over": [("a whole number, at least 1", WHOLE)],
    "val": [("a variable", NAME), ("a whole number", WHOLE)],
    "on": [("a Boolean or an indicator", NAME)],
    "step": [("a variable", NAME), ("a whole number", WHOLE)],
    "tree": [],
    "int": [("a column", PLAIN), ("a whole number", WHOLE)],
    "truth": [("the number of a Boolean", PLAIN)],
    "bounded": [("a scale", WHOLE)],
    "refuted": [],
    "logic": [("the place of a condition", PLAIN)],
    "end": [],
}
NODES = ("int", "truth", "bounded", "refuted", "logic")
PAIR = re.compile(rf"{PLAIN}:{WHOLE}")


def due(lines: list[bytes], context: Context) -> list[str]:
    """The words that the next line may begin with, after these, which were read."""
    words = [line.split(b" ")[0].decode("latin-1") for line in lines]
    if len(words) < 3:
        return [["gdp-answer 1", "route", "best, empty or endless"][len(words)]]
    claim, rest = words[2], words[3:]
    if rest and rest[-1] == "end":
        return []
    if "tree" in rest:
        return [*NODES, "end"]
    if claim == "empty":
        return ["tree"]
    if not rest:
        return ["over"]
    count = len(context.of_kind("variable"))
    if rest.count("val") < count:
        return ["val"]
    after = "tree" if claim == "best" else "step" if rest.count("step") < count else "end"
    return [*([] if "step" in rest else ["on"]), after]


def shape(line: str, word: str) -> Finding:
    """Where a line that begins with a word that may stand here leaves its shape."""
    parts = line.split(" ")
    place = len(word)
    for (wanted, pattern), part in zip(SHAPES[word], [*parts[1:], *[None] * 3]):
        if part is None or not re.fullmatch(pattern, part):
            met = "the end of the line" if part is None else quoted(part) if part else "a blank"
            is_number = part is not None and re.fullmatch(r"[-+]?[0-9]+(/[0-9]+)?", part) is not None
            return Finding(min(place + 1, len(line)), met, [wanted], "lowest terms" if is_number else "blanks" if part == "" else "part")
        place += 1 + len(part)
    rest = parts[1 + len(SHAPES[word]) :]
    last = -1
    for part in rest:
        if word not in ("bounded", "refuted"):
            return Finding(place, quoted(line[place:]), ["the end of the line"], "blanks" if not line[place:].strip() else "comment" if "#" in line else "rest")
        is_pair = PAIR.fullmatch(part) is not None
        if not is_pair or int(part.split(":")[0]) <= last or int(part.split(":")[1]) == 0:
            return Finding(place + 1, quoted(part) if part else "a blank", ["a pair I:M, I greater than those before, M not 0", "the end of the line"], "pairs" if part else "blanks")
        last = int(part.split(":")[0])
        place += 1 + len(part)
    if word == "best":
        return Finding(5, quoted(parts[1]), ["a fraction in lowest terms, with a denominator of 2 or more"], "lowest terms")
    return Finding(0, quoted(line), [], "")


def form(line: str, lines: list[bytes], context: Context) -> Finding:
    may = due(lines, context)
    word = line.split(" ")[0]
    starts = [one for choice in may for one in re.split(", | or ", choice)]
    if line.endswith("\r") or line.strip() != line or "  " in line or "\t" in line:
        place = re.search(r"^ |\t|  |\s$", line)
        if place:
            return Finding(place.start(), "a carriage return" if line[place.start()] == "\r" else "a tab" if "\t" == line[place.start()] else "a blank", ["single blanks between words alone"], "blanks")
    if not may:
        return Finding(0, quoted(line), ["the end of the text"], "rest")
    if word in SHAPES and word in starts:
        return shape(line, word)
    what = "header" if may[0] == "gdp-answer 1" else "comment" if "#" in line else "first word"
    return Finding(0, quoted(line), [f"`{one}`" for one in starts] if may[0] != "gdp-answer 1" else ["`gdp-answer 1`"], what)


def number_of(line: str) -> Finding:
    """The first number past its range."""
    parts, place = line.split(" "), 0
    for at, part in enumerate(parts):
        digits = part.split(":")[-1] if ":" in part else part
        if re.fullmatch(WHOLE + r"(/[0-9]+)?", digits):
            numbers = [int(one[:60]) for one in digits.split("/")]
            is_index = at == 1 and parts[0] in ("int", "truth", "logic") or ":" in part and int(part.split(":")[0][:60]) >= 2**32
            if any(not -(2**127) <= one < 2**127 for one in numbers) or is_index and not 0 <= numbers[0] < 2**32 or ":" in part and is_index:
                wanted = "0 to 2^32 - 1" if is_index else "-2^127 to 2^127 - 1"
                return Finding(place, quoted(part), [f"a number from {wanted}"], "great number")
            if parts[0] == "over" and numbers[0] < 1:
                return Finding(place, quoted(part), ["a number of at least 1"], "great number")
        place += len(part) + 1
    return Finding(0, quoted(line), [], "great number")


def find(text: bytes, number: int, cause: str, context: Context) -> Finding | None:
    """The place in the refused line of an answer to the model that the context is of."""
    lines = text.split(b"\n")
    is_last = number == len(lines)
    line = lines[number - 1].decode("latin-1") if number <= len(lines) else ""
    above = lines[: number - 1]
    if cause == "Form" and is_last and not line:
        may = due(above, context)
        wanted = [f"`{one}`" for one in may] or ["nothing"]
        return Finding(0, "the end of the text", wanted, "early end" if above else "empty text")
    if cause == "Form":
        found = form(line, above, context)
        return Finding(len(line), "the end of the text", ["a newline"], "no newline") if is_last and found.what == "" else found
    if cause == "Name":
        word = line.split(" ")[0]
        place = len(word) + 1
        met = quoted(line[place:].split(" ")[0])
        if word == "on":
            order = context.of_kind("boolean", "indicator")
            return Finding(place, met, ["a Boolean or an indicator, in the order of the model" if line[place:] in order else "a Boolean or an indicator of the model"], "due name")
        names = context.of_kind("variable")
        at = sum(one.startswith(word.encode() + b" ") for one in above)
        return Finding(place, met, [quoted(names[at]) if at < len(names) else "the name that is due"], "due name")
    if cause == "Number":
        return number_of(line)
    if cause == "Shape":
        is_end = line == "end"
        return Finding(0, quoted(line), ["a node: " + ", ".join(f"`{one}`" for one in NODES) if is_end else "`end`"], "open tree" if is_end else "complete tree")
    return None
