#!/usr/bin/env python3
"""Checks the answer to a model, and shares no code with the program: `check_certificate.py MODEL ANSWER`.

It says `accepted` (status 0), `rejected: ` and why (1), at which line a text is bad (2), where a number leaves 128 bits
(3), or why the model can't be rewritten for the answer's route (4). What it accepts is true: the point satisfies the
model and has the value, each leaf adds up rows that hold there, times numbers that aren't negative, to a row that no
point satisfies or that bounds the objective, and the halves of a node leave no point out.
"""

import pathlib
import re
import sys
from collections import Counter, namedtuple
from fractions import Fraction
from math import ceil, floor, lcm

MOST, LEAST, TOP, TOP_ID, NO_BOUND = 10**15, -(2**127), 2**127 - 1, 2**32 - 1, 10**100
LIMITS = {"var": 500, "boolean": 200, "row": 1000, "node": 5000}
Var = namedtuple("Var", "name is_int low high")
Row = namedtuple("Row", "terms right relation")
Connective = namedtuple("Connective", "word counts parts")
Goal = namedtuple("Goal", "sign terms constant scale mark", defaults=(1, [], 0, 1, 0))
# Where the Boolean `own` is true (None always is), a row or proposition holds. Keys sort, and end with the line.
Item = namedtuple("Item", "word key own test")
ORDER = ("bound", "row", "logic", "choice", "disjunct")

# What texts are made of. The tokens of a model's line are matched with single blanks between them.
TOKEN = re.compile(r"[ \t]*(?:([A-Za-z_][A-Za-z0-9_.]*|[0-9]+(?:[./][0-9]+)?|<=|>=|[-+=(),])|(.))", re.DOTALL)
NUMBER, SIGNED = r"\d+(?:[./]\d+)?", r"(?:[-+] )?\d+(?:[./]\d+)?"
NAME = r"(?!(?:not|and|or|implies|equivalent|xor|exactly|atleast|atmost|inf|end)(?: |$))[A-Za-z_][\w.]{0,63}(?![\w.])"
SUM = rf"(?:[-+] )?(?:{NUMBER} )?{NAME}(?: [-+] (?:{NUMBER} )?{NAME})*"
GOAL = rf"(min|max) (?:({SUM})(?: ([-+] {NUMBER}))?|({SIGNED}))"
COUNTED, PLAIN = r"(exactly|atleast|atmost) \( 0*(\d{1,4}) ,", r"(not|and|or|implies|equivalent|xor) \("
INMOST = rf"(?:{COUNTED}|{PLAIN}) ([^ (),]+(?: , [^ (),]+)*) \)"
WHOLE, PLACE, NAMED = "(0|-?[1-9][0-9]*)", "(?:0|[1-9][0-9]*)", "([^ ]+) (0|-?[1-9][0-9]*)"
NODE = f"int {PLACE} {WHOLE}|(?:truth|logic) {PLACE}|(?:refuted|bounded {WHOLE})(?: {PLACE}:-?[1-9][0-9]*)*|end"
ONE = [(None, 1)]


class Verdict(Exception):
    """The line that ends the run, and the status."""


def need(holds, line, status=1):
    if not holds:
        raise Verdict(line, status)


def total(products, what):
    """The sum of products of two numbers. The program forms each, and each sum on the way, in 128 bits."""
    found = 0
    for a, b in products:
        found += a * b
        need(LEAST <= a * b <= TOP and LEAST <= found <= TOP, f"wide: {what}", 3)
    return found


def times(factor, expression):
    """An expression is a list of columns with numbers, to be added up; the column None stands for the number 1."""
    return [(column, factor * c) for column, c in expression]


def at_most(row):
    """A row as rows of at most, of terms and a right side; an equality is two."""
    signs = {"<=": [1], ">=": [-1], "=": [1, -1]}[row.relation]
    return [(times(sign, row.terms), sign * row.right) for sign in signs]


def connective(word, parts, count=1):
    """One of `not`, `and`, `or`, `equivalent`, `atleast` and `exactly`, with how many of its parts are to be true."""
    if word == "implies":
        return connective("or", [connective("not", parts[:1]), parts[1]])
    if word in ("xor", "atmost"):
        return connective("not", [connective("equivalent" if word == "xor" else "atleast", parts, count + 1)])
    counts = {"not": [0], "and": [len(parts)], "equivalent": [0, 2], "exactly": [count]}
    return Connective(word, counts.get(word, range(count, NO_BOUND)), parts)


def truth(part, known):
    """The truth of a proposition where these Booleans are known: True, False, or None where it is open."""
    if not isinstance(part, Connective):
        return known.get(part)
    told = [truth(one, known) for one in part.parts]
    holds = {count in part.counts for count in range(told.count(True), len(told) - told.count(False) + 1)}
    return holds.pop() if len(holds) == 1 else None


class Text:
    def need(self, holds, cause="refused"):
        """Where this fails the text of this name is bad, at the line at hand."""
        need(holds, f"{self.name}: line {self.at}: {cause}", 2)


class Model(Text):
    """Variables, the goal, and items in the order of tests: bounds, then of each block its rows, logic and choices."""

    def __init__(self, name, contents):
        self.name, self.vars, self.items, self.goal, self.columns, self.logic = name, [], [], Goal(), {}, {}
        self.counts, self.open, lines = Counter(), [], contents.replace(b"\r\n", b"\n").split(b"\n")
        for self.at, line in enumerate(lines, 1):
            tokens = TOKEN.findall(line.split(b"#")[0].decode("latin-1").rstrip(" \t"))
            text = " ".join(token or "?" for token, _ in tokens)
            self.need(self.open or text in ("", "gdp 1"))
            if text and self.open:
                self.line(text, *self.open[-1])
            elif text:
                self.open.append(Item("disjunct", (), None, None))
        self.at += lines[-1] != b""
        self.need(len(self.open) == 1 and self.vars)
        self.items.sort(key=lambda item: item.key)

    def line(self, text, opened, _, own, test):
        """Reads a line, below what was opened last: a disjunct, or a choice, whose test is how many are to be true."""
        in_block, at_root = opened == "disjunct", len(self.open) == 1
        if at_root and (found := re.fullmatch(rf"var ({NAME}) (real|int) (- inf|{SIGNED}) (inf|{SIGNED})", text)):
            at, low, high = self.declare("var", self.columns, found[1]), self.number(found[3]), self.number(found[4])
            self.need(low <= high)
            self.vars.append(Var(found[1], found[2] == "int", low, high))
            for end, relation in [(low, ">="), (high, "<="), (0, "whole")][: 2 + self.vars[at].is_int]:
                if abs(end) < NO_BOUND:
                    self.add("bound", None, Row([(at, end.denominator)], end.numerator, relation))
        elif at_root and not self.goal.mark and (found := re.fullmatch(GOAL, text)):
            goal = self.scaled(found[2] or "", found[3] or found[4] or "0")
            self.goal = Goal(1 if found[1] == "min" else -1, *goal, self.at)
        elif in_block and (found := re.fullmatch(rf"row (0|{SUM}) (<=|>=|=) ({SIGNED})", text)):
            self.add("row", own, Row(*self.scaled(found[1], found[3])[:2], found[2]))
        elif in_block and text.startswith("logic "):
            self.counts["node"] += len(re.findall(r"(?<= )[A-Za-z_]", text))
            self.need(self.counts["node"] <= LIMITS["node"])
            for _ in range(15):
                text = re.sub(INMOST, self.fold, text)
            self.need(text[6:] in self.logic)
            self.add("logic", own, self.logic[text[6:]])
        elif in_block and text in ("disjunction xor", "disjunction or"):
            self.open.append(self.add("choice", own, connective("exactly" if "xor" in text else "atleast", [])))
        elif not in_block and len(self.open) <= 16 and (found := re.fullmatch(f"disjunct ({NAME})", text)):
            test.parts.append(self.declare("boolean", self.logic, found[1]))
            self.open.append(self.add("disjunct", test.parts[-1], own))
        elif at_root and not self.counts["choice"] and (found := re.fullmatch(f"boolean ({NAME})", text)):
            self.declare("boolean", self.logic, found[1])
        else:
            self.need(text == "end" and not at_root and (in_block or test.parts))
            self.open.pop()
        self.need(self.goal.scale <= MOST and all(self.counts[what] <= most for what, most in LIMITS.items()))

    def declare(self, kind, places, name):
        self.need(name not in self.columns and name not in self.logic)
        places[name], self.counts[kind] = self.counts[kind], self.counts[kind] + 1
        return places[name]

    def add(self, word, own, test):
        self.counts[word] += 1
        self.items.append(Item(word, self.open[-1].key + (ORDER.index(word), self.at), own, test))
        return self.items[-1]

    def fold(self, found):
        """Keeps a connective whose parts have names under a name of its own, which stands for it from there on."""
        word, parts = found[1] or found[3], [self.logic.get(name) for name in found[4].split(" , ")]
        arity, name = {"not": 1, "implies": 2, "equivalent": 2, "xor": 2}.get(word, len(parts)), f"#{len(self.logic)}"
        self.need(None not in parts and len(parts) == arity and len(parts) <= 200 and int(found[2] or 1) <= 1000)
        self.logic[name] = connective(word, parts, int(found[2] or 1))
        return name

    def number(self, text):
        """The value of a number, of whose parts 17 digits tell whether they are too large."""
        if "inf" in text:
            return -NO_BOUND if "-" in text else NO_BOUND
        sign, over, mark, under = re.fullmatch(r"([-+]?) ?(\d+)([./]?)(\d*)", text).groups()
        over, under = (over, under) if mark == "/" else (over + under, "1" + "0" * len(under))
        over, under = (int(digits.lstrip("0")[:17] or "0") for digits in (over, under))
        self.need(over <= MOST and 1 <= under <= MOST)
        return Fraction(-over if sign == "-" else over, under)

    def scaled(self, text, right):
        """The terms of a sum and the right side in whole numbers, and the factor that makes them whole."""
        found = re.findall(rf"([-+]?) ?((?:{NUMBER} )?)({NAME})(?= |$)", text)
        places = [self.columns.get(name) for *_, name in found]
        self.need(None not in places and len(set(places)) == len(places))
        numbers = [self.number(sign + (digits.strip() or "1")) for sign, digits, _ in found] + [self.number(right)]
        factor = lcm(*(number.denominator for number in numbers))
        *whole, right = (int(number * factor) for number in numbers)
        self.need(all(whole) and all(abs(number) <= MOST for number in [*whole, right]))
        return sorted(zip(places, whole)), right, factor

    def box(self):
        """Whole bounds of each variable after eight rounds over the rows outside all blocks."""
        box = [[floor(var.low), ceil(var.high)] for var in self.vars]
        new = [[ceil(var.low), floor(var.high)] if var.is_int else ends for var, ends in zip(self.vars, box)]
        rows = [one for item in self.items if item.word == "row" and item.own is None for one in at_most(item.test)]
        for _ in range(9):
            box = [ends if ends[0] <= ends[1] else old for old, ends in zip(box, new)]
            new = [list(ends) for ends in box]
            for terms, right in rows:
                least = sum(c * box[at][c < 0] for at, c in terms)
                for at, c in terms:
                    limit = Fraction(right - least + c * box[at][c < 0], c)
                    limit = ceil(limit) if (c > 0) != self.vars[at].is_int else floor(limit)
                    if abs(limit) <= MOST:
                        new[at][c > 0] = min(new[at][1], limit) if c > 0 else max(new[at][0], limit)
        return box


class Program:
    """What nodes speak of: columns as (is_whole, is_free), rows of at most, and the terms of a goal to be minimised."""

    def __init__(self, model, route):
        self.model, self.route, self.rows, self.columns, goal = model, route, [], [], model.goal
        self.goal = times(goal.sign, goal.terms)
        for var in model.vars:
            self.column(var.is_int, var.low, var.high, ONE)
        if route == "logic":
            return
        # By Boolean, as in items: its column, and for the rows of its block the columns of variables and a factor.
        self.truths = {None: ONE} | {at: self.column(True, 0, 1, ONE) for at in range(model.counts["boolean"])}
        self.frames, self.box = {None: (range(len(model.vars)), ONE)}, model.box()
        for word, key, own, test in model.items:
            if word == "row":
                place = key[-1], self.truths[own], *self.frames[own]
                for row in [self.switched(*one, *place) for one in at_most(test)]:
                    self.row(*row)
            elif word == "logic":
                self.row(self.truths[own], "<=", self.literal(test))
            elif word == "choice":
                self.choice(key, test, self.truths[own], *self.frames[own])
        if (goal.constant, goal.scale) != (0, 1):
            value = self.column(False, -NO_BOUND, NO_BOUND, ONE)
            self.row(times(goal.scale, value), "=", goal.terms + times(goal.constant, ONE))
            self.goal = times(goal.sign, value)

    def column(self, is_whole, low, high, factor):
        """A new column, between these ends times a factor. It takes no row to be at least 0."""
        self.columns.append((is_whole, low != 0))
        own = [(len(self.columns) - 1, 1)]
        for end, relation in ((low, ">="), (high, "<=")):
            if abs(end) < NO_BOUND and (end or relation == "<="):
                self.row(times(end.denominator, own), relation, times(end.numerator, factor))
        return own

    def row(self, left, relation, right):
        """Adds a row: an expression is at most, at least or equal to another. Rows reach their limit before columns."""
        found = Counter()
        for column, c in left + times(-1, right):
            found[column] += c
        right = -found.pop(None, 0)
        self.rows += at_most(Row(sorted((column, c) for column, c in found.items() if c), right, relation))
        need(len(self.rows) + 2 * sum(is_whole for is_whole, _ in self.columns) <= 3000, "too big", 4)

    def switched(self, terms, right, mark, switch, frame, scale):
        """A row that holds where the switch is 1, times the scale; where it is 0 it leaves all that the box leaves."""
        ends = [(c, self.box[at][c > 0], self.model.vars[at].name) for at, c in terms if scale != switch]
        for _, end, name in ends:
            need(abs(end) < NO_BOUND, f"no bound at line {mark} for {name}", 4)
        most = sum(c * end for c, end, _ in ends)
        need(max(abs(most), abs(most - right)) <= MOST, f"too wide at line {mark}", 4)
        return [(frame[at], c) for at, c in terms] + times(most - right, switch), "<=", times(most, scale)

    def choice(self, key, some, switch, frame, scale):
        """The rows of a choice, and the frames of its disjuncts: in a hull these are copies of variables."""
        own, is_xor = [self.truths[at] for at in some.parts], some.word == "exactly"
        self.row(sum(own, []), "=" if is_xor else ">=", switch)
        for one in own if not is_xor and switch != ONE else []:
            self.row(one, "<=", switch)
        rows = (item.test for item in self.model.items if item.word == "row" and item.key[: len(key)] == key)
        used = sorted({at for row in rows for at, _ in row.terms})
        unbounded = [self.model.vars[at].name for at in used if NO_BOUND in map(abs, self.box[at])]
        self.frames |= dict.fromkeys(some.parts, (frame, scale))
        is_small = not unbounded and len(used) * len(own) <= 12
        if is_xor and (self.route == "hull" or self.route == "hybrid" and is_small):
            need(not unbounded, f"no bound at line {key[-1]} for {''.join(unbounded[:1])}", 4)
            factors = own + ([] if scale == switch else [scale + times(-1, switch)])
            frames = [{at: self.column(False, *self.box[at], factor)[0][0] for at in used} for factor in factors]
            self.frames |= zip(some.parts, zip(frames, own))
            for at in used:
                self.row([(frame[at], 1)], "=", [(copies[at], 1) for copies in frames])

    def literal(self, part):
        """The truth of a proposition, 0 or 1: of a connective in general a new column, after the rows of its parts."""
        if not isinstance(part, Connective):
            return part if isinstance(part, list) else self.truths[part]
        told, count = [self.literal(one) for one in part.parts], part.counts[0]
        if part.word == "exactly":
            return self.literal(connective("and", [connective(word, told, count) for word in ("atleast", "atmost")]))
        if part.word == "not":
            return ONE + times(-1, told[0])
        z, every, p, q = self.column(True, 0, 1, ONE), sum(told, []), told[0], told[-1]
        for left, right in {
            "and": [*((z, one) for one in told), (every, z + times(len(told) - 1, ONE))],
            "or": [*((one, z) for one in told), (z, every)],
            "equivalent": [(z + p, q + ONE), (z + q, p + ONE), (p + q, z + ONE), (ONE, p + q + z)],
            "atleast": [(times(count, z), every), (every, times(len(told) - count + 1, z) + times(count - 1, ONE))],
        }[part.word]:
            self.row(left, "<=", right)
        return z

    def closes(self, rows, scale, pairs, best, what):
        """Whether rows, times numbers, leave no point, or with a scale for the goal none better than the best."""
        if any(m < 0 or i >= len(rows) for i, m in pairs) or scale and (best is None or scale[0] < 1):
            return False
        products = {column: [(c, *scale)] for column, c in self.goal if scale}
        for i, m in pairs:
            for column, c in rows[i][0]:
                products.setdefault(column, []).append((c, m))
        for column in sorted(products):
            found = total(products[column], what)
            if found < 0 or found and self.columns[column][1]:
                return False
        found = total([(rows[i][1], m) for i, m in pairs], what)
        return Fraction(total([(-1, found)], what), *scale) >= best if scale else found < 0


class Answer(Text):
    """An answer text: route, claim, value, point, and its steps, or its nodes of a word, numbers and pairs."""

    def __init__(self, name, contents, model):
        self.name, self.at, self.lines = name, 0, contents.decode("latin-1").split("\n")
        self.truths, last = {None: True} | dict.fromkeys(range(model.counts["boolean"]), False), -1
        self.take("gdp-answer 1")
        (self.route,) = self.take("route (bigm|hull|hybrid|logic)")
        self.claim, over, under = self.take(f"(empty|endless)|best {WHOLE}(?:/(?!1$)([1-9][0-9]*))?")
        if over:
            self.value = Fraction(self.whole(over), self.whole(under or "1"))
            self.need(self.value.denominator == int(under or "1"), "Form")
        if self.claim != "empty":
            self.over = self.whole(*self.take(f"over {WHOLE}"), least=1)
            self.numbers = [self.whole(self.take(f"val {NAMED}", var.name)[1]) for var in model.vars]
            while self.lines[self.at].startswith("on "):
                at = model.logic.get(*self.take("on ([^ ]+)"))
                self.need(isinstance(at, int) and at > last, "Name")
                last, self.truths[at] = at, True
        if self.claim == "endless":
            self.steps = [self.whole(self.take(f"step {NAMED}", var.name)[1]) for var in model.vars]
            self.take("end")
        else:
            self.take("tree")
            self.nodes = list(self.tree())
        self.at += 1
        self.need(self.lines[self.at - 1 :] == [""], "Form")

    def take(self, shape, due=None):
        """The parts of the next line, which a newline ends. The first is the name that is due, if there is one."""
        self.at += 1
        found = self.at < len(self.lines) and re.fullmatch(shape, self.lines[self.at - 1])
        self.need(found, "Form")
        self.need(due is None or found[1] == due, "Name")
        return found.groups()

    def whole(self, digits, most=TOP, least=LEAST):
        self.need(len(digits) <= 40 and least <= int(digits) <= most, "Number")
        return int(digits)

    def tree(self):
        """The nodes up to the end."""
        due, word = 1, ""
        while word != "end":
            self.take(NODE)
            word, *parts = self.lines[self.at - 1].split(" ")
            numbers, pairs = [n for n in parts if ":" not in n], [pair.split(":") for pair in parts if ":" in pair]
            self.need(all((len(i), i) < (len(j), j) for (i, _), (j, _) in zip(pairs, pairs[1:])), "Form")
            numbers = [self.whole(n, TOP if k or word == "bounded" else TOP_ID) for k, n in enumerate(numbers)]
            pairs = [(self.whole(i, TOP_ID), self.whole(m)) for i, m in pairs]
            self.need((due == 0) == (word == "end"), "Shape")
            due += 1 if word in ("int", "truth") else -1
            yield word, numbers, pairs


def test_all(kind, items, truths, numbers, over):
    """Tests items, as far as they hold where these Booleans are true, of numbers over a denominator."""
    for _, key, _, test in (item for item in items if truths[item.own]):
        what = f"{kind} at line {key[-1]}"
        if isinstance(test, Row):
            left, right = total([(c, numbers[at]) for at, c in test.terms], what), total([(test.right, over)], what)
            holds = {"<=": left <= right, ">=": left >= right, "=": left == right, "<": left < right}
            need(holds.get(test.relation, left % over == 0), f"rejected: {what}")
        else:
            need(truth(test, truths), f"rejected: {what}")


def test_nodes(model, answer, program, best):
    """Goes through the nodes. What the splits above say of Booleans and ends is `known`, and `trail` takes it back."""
    rows, fixed, by_logic = program.rows, len(program.rows), answer.route == "logic"
    known, trail, waiting = {}, [], [(0, None, True)]
    guarded = [(item.own, one) for item in model.items if by_logic and item.word == "row" for one in at_most(item.test)]
    # Of a choice it is a condition too that no disjunct is true in a block that isn't.
    conditions = [[(own, test), *((one, own) for one in (test.parts if word == "choice" else []))]
                  for word, _, own, test in model.items if word in ("logic", "choice")]
    for k, (word, numbers, pairs) in enumerate(answer.nodes[:-1]):
        depth, key, value = waiting.pop()
        while len(trail) > depth:
            changed, old = trail.pop()
            del known[changed]
            known.update(old)
        trail.append((key, {key: known[key]} if key in known else {}))
        known[key] = value
        first, at = (numbers or [0])[0], (numbers or [0])[-1]
        if word == "int":
            holds = first < len(program.columns) and program.columns[first][0] and LEAST < at < TOP
            for end, right in (((first, -1), -at - 1), ((first, 1), at)):
                waiting.append((len(trail), end, min(right, known.get(end, right))))
        elif word == "truth":
            holds = by_logic and at < model.counts["boolean"] and at not in known
            waiting += [(len(trail), at, half) for half in (False, True)]
        elif word == "logic":
            tests = conditions[at] if by_logic and at < len(conditions) else []
            holds = any(known.get(own) and truth(test, known) is False for own, test in tests)
        else:
            rows[fixed:] = [row for own, row in guarded if known.get(own)]
            rows += [([end], right) for end, right in sorted(one for one in known.items() if isinstance(one[0], tuple))]
            holds = program.closes(rows, numbers, pairs, best, f"node {k}")
        need(holds, f"rejected: {'tree' if word in ('int', 'truth') else 'leaf'} at node {k}")


def check(model, answer):
    """Makes the tests of an answer, in order."""
    best, goal, truths = None, model.goal, answer.truths
    if answer.claim != "empty":
        test_all("point", model.items, truths, answer.numbers, answer.over)
    if answer.claim == "endless":
        items = [item._replace(test=item.test._replace(right=0)) for item in model.items if isinstance(item.test, Row)]
        items.append(Item("goal", (goal.mark,), None, Row(times(goal.sign, goal.terms), 0, "<")))
        return test_all("ray", items, truths, answer.steps, 1)
    if answer.claim is None:
        found = [(c, answer.numbers[at]) for at, c in goal.terms] + [(goal.constant, answer.over)]
        value = Fraction(total(found, "value"), total([(goal.scale, answer.over)], "value"))
        need(value == answer.value, "rejected: value")
        best = goal.sign * (value * goal.scale - goal.constant if answer.route == "logic" else value)
    return test_nodes(model, answer, Program(model, answer.route), best)


def main(names):
    """Prints the line that is said, and gives the status."""
    texts, line, status = [], "accepted", 0
    try:
        need(len(names) == 2, "usage: check_certificate.py MODEL ANSWER", 7)
        for name, most in zip(names, (8_388_608, 2**40)):
            texts.append(pathlib.Path(name).read_bytes())
            need(len(texts[-1]) <= most, f"{name}: too long", 2)
        model = Model(names[0], texts[0])
        check(model, Answer(names[1], texts[1], model))
    except OSError as fault:
        line, status = f"read fault: {fault.filename}", 5
    except Verdict as verdict:
        line, status = verdict.args
    print(line, file=sys.stderr if status in (2, 4, 5, 7) else sys.stdout)
    return status


if __name__ == "__main__":
    sys.exit(main(sys.argv[1:]))
