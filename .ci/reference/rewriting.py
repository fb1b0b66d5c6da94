"""A model rewritten as a mixed-integer linear program, each of its disjunctions by big-M or by its hull.

`compiled(model, choice)` gives the program, or raises `Refusal` with the words of the first refusal. Columns are the variables
(not negative where the declared low is 0, else free), the Booleans, and then what rows need.
"""

from math import ceil, floor

from .programs import MOST, Program, TooBig, at_most, merged

ROUNDS = 8
# A disjunction takes its hull under the choice `hybrid` where variables times disjuncts are no more than this.
HYBRID_MOST = 12
# The scale and the switch outside all blocks: the number 1.
ONE = None


class Refusal(Exception):
    """A model that isn't compiled, with the line that says why."""


class Box:
    """Whole bounds of each variable, None where there is none."""

    def __init__(self, model):
        self.names = list(model.vars)
        self.is_whole = [kind == "int" for kind, *_ in model.vars.values()]
        self.lows, self.highs = [], []
        for kind, low, high, _ in model.vars.values():
            ends = rounded(low, high, kind == "int")
            if None not in ends and ends[0] > ends[1]:
                ends = rounded(low, high, False)
            self.lows.append(ends[0])
            self.highs.append(ends[1])
        place = {name: at for at, name in enumerate(self.names)}
        rows = [([(place[name], c) for name, c in terms], relation, right) for terms, relation, right, _ in model.root.rows]
        listed = [pair for row in rows for pair in at_most(*row)]
        for _ in range(ROUNDS):
            self.tighten(listed)

    def tighten(self, rows):
        """One round: what the rows say of each variable, where all others lie in the box."""
        lows, highs = list(self.lows), list(self.highs)
        for terms, right in rows:
            least = [c * end if end is not None else None for c, end in ((c, (self.lows if c > 0 else self.highs)[at]) for at, c in terms)]
            missing, total = least.count(None), sum(end for end in least if end is not None)
            for (at, c), own in zip(terms, least):
                if missing > (own is None):
                    continue
                over = right - (total - (own or 0))
                # -(-n // d) is the ceiling.
                if c > 0:
                    high = over // c if self.is_whole[at] else -(-over // c)
                    if abs(high) <= MOST and (highs[at] is None or high < highs[at]):
                        highs[at] = high
                else:
                    low = -(over // -c) if self.is_whole[at] else -over // -c
                    if abs(low) <= MOST and (lows[at] is None or low > lows[at]):
                        lows[at] = low
        for at, (low, high) in enumerate(zip(lows, highs)):
            if low is None or high is None or low <= high:
                self.lows[at], self.highs[at] = low, high

    def greatest(self, terms):
        """The greatest value of a sum over the box, or the first variable whose bound is missing, as a pair."""
        total = 0
        for at, c in terms:
            end = (self.highs if c > 0 else self.lows)[at]
            if end is None:
                return None, at
            total += c * end
        return total, None


def rounded(low, high, is_inward):
    """Whole ends of a bound: the whole numbers in it, or the narrowest whole bound round it."""
    down, up = (ceil, floor) if is_inward else (floor, ceil)
    return None if low is None else down(low), None if high is None else up(high)


def disjunctions_of(block):
    """The disjunctions at and below a block, in the order of the text."""
    for disjunction in block.disjunctions:
        yield disjunction
        for disjunct in disjunction.disjuncts:
            yield from disjunctions_of(disjunct)


def occurring(disjunction):
    """The names of the variables in rows of a disjunction's disjuncts or below."""
    found = set()
    for disjunct in disjunction.disjuncts:
        for terms, *_ in disjunct.rows:
            found.update(name for name, _ in terms)
        for below in disjunct.disjunctions:
            found |= occurring(below)
    return found


class Rewriter:
    def __init__(self, model, choice):
        self.model, self.box, self.program = model, Box(model), Program()
        self.place = {name: at for at, name in enumerate(model.vars)}
        self.boolean = {name: len(self.place) + at for at, name in enumerate(model.booleans)}
        self.choice = choice
        self.hulled = [disjunction for disjunction in disjunctions_of(model.root) if self.is_hulled(disjunction)]

    def is_hulled(self, disjunction):
        if disjunction.mode != "xor" or self.choice == "bigm":
            return False
        places = [self.place[name] for name in occurring(disjunction)]
        is_bounded = all(None not in (self.box.lows[at], self.box.highs[at]) for at in places)
        return self.choice == "hull" or is_bounded and len(places) * len(disjunction.disjuncts) <= HYBRID_MOST

    def run(self):
        model, program = self.model, self.program
        for kind, low, _, _ in model.vars.values():
            program.add_column(kind == "int", low != 0)
        for _ in model.booleans:
            program.add_column(True, False)
        for at, (_, low, high, _) in enumerate(model.vars.values()):
            for end, relation in ((low or None, ">="), (high, "<=")):
                if end is not None:
                    program.add_row([(at, end.denominator)], relation, end.numerator)
        for at in self.boolean.values():
            program.add_row([(at, 1)], "<=", 1)
        self.block(model.root, list(range(len(self.place))), ONE, ONE)
        sense, terms, constant, scale = model.goal or ("min", [], 0, 1)
        goal = [(self.place[name], c) for name, c in terms]
        if scale != 1 or constant != 0:
            own = program.add_column(False, True)
            program.add_row([(own, scale), *((at, -c) for at, c in goal)], "=", constant)
            goal = [(own, 1)]
        program.sense, program.goal = sense, goal
        return program

    def block(self, block, frame, scale, switch):
        """A block whose variables stand at the frame's columns, times the scale, and whose rows hold where the switch is 1."""
        for terms, relation, right, mark in block.rows:
            for row in self.relaxed([(self.place[name], c) for name, c in terms], relation, right, mark, frame, scale, switch):
                self.program.add_row(*row)
        for proposition, _ in block.propositions:
            at, is_flipped = self.literal(proposition)
            if switch is ONE:
                self.program.add_row([(at, 1)], *(("<=", 0) if is_flipped else (">=", 1)))
            else:
                self.program.add_row([(switch, 1), (at, 1 if is_flipped else -1)], "<=", int(is_flipped))
        for disjunction in block.disjunctions:
            self.disjunction(disjunction, frame, scale, switch)

    def relaxed(self, terms, relation, right, mark, frame, scale, switch):
        """The rows that say of a row that it holds where the switch is 1."""
        placed = [(frame[at], c) for at, c in terms]
        if switch == scale:
            return [(placed, relation, right) if scale is ONE else (placed + [(scale, -right)], relation, 0)]
        rows = []
        for signed, bound in at_most(terms, relation, right):
            most, missing = self.box.greatest(signed)
            if missing is not None:
                raise Refusal(f"no bound at line {mark} for {self.box.names[missing]}")
            row = [(frame[at], c) for at, c in signed] + [(switch, most - bound)]
            row, most = (row, most) if scale is ONE else (row + [(scale, -most)], 0)
            if any(abs(number) > MOST for number in [most, *(c for _, c in merged(row))]):
                raise Refusal(f"too wide at line {mark}")
            rows.append((row, "<=", most))
        return rows

    def disjunction(self, disjunction, frame, scale, switch):
        indicators = [self.boolean[disjunct.indicator] for disjunct in disjunction.disjuncts]
        total = [(at, 1) for at in indicators]
        relation = "=" if disjunction.mode == "xor" else ">="
        if switch is ONE:
            self.program.add_row(total, relation, 1)
        else:
            self.program.add_row(total + [(switch, -1)], relation, 0)
            for at in indicators if disjunction.mode == "or" else []:
                self.program.add_row([(at, 1), (switch, -1)], "<=", 0)
        if not any(disjunction is hulled for hulled in self.hulled):
            for disjunct, at in zip(disjunction.disjuncts, indicators):
                self.block(disjunct, frame, scale, at)
            return
        frames = self.copies(disjunction, indicators, frame, scale, switch)
        for disjunct, at, copies in zip(disjunction.disjuncts, indicators, frames):
            self.block(disjunct, copies, at, at)

    def copies(self, disjunction, indicators, frame, scale, switch):
        """A copy of each occurring variable for each disjunct, and one for where none is taken; they add up to the variable."""
        places = sorted(self.place[name] for name in occurring(disjunction))
        for at in places:
            if self.box.lows[at] is None or self.box.highs[at] is None:
                raise Refusal(f"no bound at line {disjunction.mark} for {self.box.names[at]}")

        def copy(at, factor, right):
            """A column between low and high times what the terms and the right side make together."""
            low, high = self.box.lows[at], self.box.highs[at]
            column = self.program.add_column(False, low != 0)
            for end, relation in ((low, ">="), (high, "<=")):
                if relation == "<=" or end != 0:
                    self.program.add_row([(column, 1), *((other, -sign * end) for other, sign in factor)], relation, right * end)
            return column

        frames, parts = [], {at: [] for at in places}
        for indicator in indicators:
            copies = [None] * len(self.place)
            for at in places:
                copies[at] = copy(at, [(indicator, 1)], 0)
                parts[at].append(copies[at])
            frames.append(copies)
        if switch != scale:
            for at in places:
                rest = [(switch, -1)] if scale is ONE else [(scale, 1), (switch, -1)]
                parts[at].append(copy(at, rest, 1 if scale is ONE else 0))
        for at in places:
            self.program.add_row([(frame[at], 1), *((part, -1) for part in parts[at])], "=", 0)
        return frames

    def literal(self, proposition):
        """Emits what a proposition needs, and gives the column of its truth, and whether that is flipped."""
        if isinstance(proposition, str):
            return self.boolean[proposition], False
        word, digits, arguments = proposition
        literals = [self.literal(argument) for argument in arguments]
        if word == "not":
            return flipped(literals[0])
        if word == "and":
            return self.all_of(literals)
        if word == "or":
            return self.any_of(literals)
        if word == "implies":
            return self.any_of([flipped(literals[0]), literals[1]])
        if word == "equivalent":
            return self.same(*literals)
        if word == "xor":
            return flipped(self.same(*literals))
        number = int(digits)
        if word == "atleast":
            return self.at_least(number, literals)
        if word == "atmost":
            return flipped(self.at_least(number + 1, literals))
        enough = self.at_least(number, literals)
        return self.all_of([enough, flipped(self.at_least(number + 1, literals))])

    def truth_column(self):
        column = self.program.add_column(True, False)
        self.program.add_row([(column, 1)], "<=", 1)
        return column

    def truth_row(self, plain, weighted, right):
        """A row of at most: plain terms, and literals with their weights."""
        terms = list(plain)
        for weight, (at, is_flipped) in weighted:
            terms.append((at, -weight if is_flipped else weight))
            right -= weight if is_flipped else 0
        self.program.add_row(terms, "<=", right)

    def all_of(self, literals):
        z = self.truth_column()
        for literal in literals:
            self.truth_row([(z, 1)], [(-1, literal)], 0)
        self.truth_row([(z, -1)], [(1, literal) for literal in literals], len(literals) - 1)
        return z, False

    def any_of(self, literals):
        z = self.truth_column()
        for literal in literals:
            self.truth_row([(z, -1)], [(1, literal)], 0)
        self.truth_row([(z, 1)], [(-1, literal) for literal in literals], 0)
        return z, False

    def same(self, p, q):
        z = self.truth_column()
        for own, first, second, right in ((1, 1, -1, 1), (1, -1, 1, 1), (-1, 1, 1, 1), (-1, -1, -1, -1)):
            self.truth_row([(z, own)], [(first, p), (second, q)], right)
        return z, False

    def at_least(self, number, literals):
        z = self.truth_column()
        self.truth_row([(z, number)], [(-1, literal) for literal in literals], 0)
        self.truth_row([(z, number - 1 - len(literals))], [(1, literal) for literal in literals], number - 1)
        return z, False


def flipped(literal):
    return literal[0], not literal[1]


def compiled(model, choice):
    try:
        return Rewriter(model, choice).run()
    except TooBig:
        raise Refusal("too big") from None
