"""A model text, read by the second implementation, made again in Python, each row in another spelling."""

from decimal import Decimal
from fractions import Fraction
from math import gcd

import datemound
from datemound import Boolean, Disjunct, Disjunction, Model, Var, quicksum

CONNECTIVES = {"and": datemound.land, "or": datemound.lor, "not": datemound.lnot}
CONNECTIVES |= {word: getattr(datemound, word) for word in ("implies", "equivalent", "xor", "exactly", "atleast", "atmost")}


class Rebuilding:
    """Makes one model again; `draw` decides how its numbers and rows are spelled."""

    def __init__(self, read, draw):
        self.read, self.draw = read, draw
        self.variables = {name: self.variable(name, *told[:3]) for name, told in read.vars.items()}
        self.atoms = {name: Boolean(name) for name in read.plain}

    def number(self, value):
        """The value as an int, a Fraction, a Decimal or a text."""
        value = Fraction(value)
        spelled = [value, str(value)]
        if value.denominator == 1:
            spelled += [int(value), int(value)]
        if gcd(value.denominator, 10**15) == value.denominator:
            spelled.append(Decimal(value.numerator) / Decimal(value.denominator))
        return self.draw.choice(spelled)

    def variable(self, name, kind, low, high):
        low, high = (None if end is None else self.number(end) for end in (low, high))
        return Var(name, bounds=(low, high), whole=kind == "int") if self.draw.randint(0, 1) else Var(name, low, high, whole=kind == "int")

    def sum(self, terms):
        """The sum of pairs of a name and a number, in any order, some in two parts, added in one of several ways."""
        parts = []
        for name, number in self.draw.sample(terms, len(terms)):
            piece = self.draw.randint(-3, 3) if self.draw.randint(0, 3) == 0 else 0
            parts += [self.number(number - piece) * self.variables[name]] if number != piece else []
            parts += [self.variables[name] * self.number(piece)] if piece else []
        return quicksum(parts) if self.draw.randint(0, 1) else sum(parts)

    def row(self, terms, relation, right):
        """The row, divided by a number that its scaling brings back, with terms on either side."""
        common = gcd(right, *(number for _, number in terms))
        factor = self.draw.choice([number for number in (1, 1, 2, 3, 5, 7) if gcd(number, common) == 1])
        terms, right = [(name, Fraction(number, factor)) for name, number in terms], Fraction(right, factor)
        there = [term for term in terms if self.draw.randint(0, 3) == 0]
        here = [term for term in terms if term not in there]
        added = self.draw.choice([0, 0, 2, Fraction(1, factor)])
        left = quicksum([self.sum(here), self.number(added)])
        over = self.number(right + added)
        if there:
            over = quicksum([over, -quicksum([self.sum(there)])])
        elif self.draw.randint(0, 1):
            return {"<=": lambda: over >= left, ">=": lambda: over <= left, "=": lambda: over == left}[relation]()
        return {"<=": lambda: left <= over, ">=": lambda: left >= over, "=": lambda: left == over}[relation]()

    def proposition(self, read):
        if isinstance(read, str):
            return self.atoms[read]
        word, digits, arguments = read
        made = [self.proposition(argument) for argument in arguments]
        return CONNECTIVES[word](*([] if digits is None else [int(digits)]), *made)

    def fill(self, block, read):
        """Adds what a block has, disjuncts before or after they are filled."""
        block.add([self.row(*told[:3]) for told in read.rows])
        for disjunction in read.disjunctions:
            disjuncts = [Disjunct(disjunct.indicator) for disjunct in disjunction.disjuncts]
            self.atoms |= {disjunct.name: disjunct for disjunct in disjuncts}
            is_first = self.draw.randint(0, 1)
            if is_first:
                block.add(Disjunction(disjuncts, xor=disjunction.mode == "xor"))
            for disjunct, below in zip(disjuncts, disjunction.disjuncts):
                self.fill(disjunct, below)
            if not is_first:
                block.add(Disjunction(*disjuncts, xor=disjunction.mode == "xor"))
        for proposition, _ in read.propositions:
            block.add(self.proposition(proposition))

    def model(self):
        model = Model()
        model.declare(*self.variables.values(), *self.atoms.values())
        if self.read.goal:
            sense, terms, constant, scale = self.read.goal
            goal = quicksum([self.sum([(name, Fraction(number, scale)) for name, number in terms]), self.number(Fraction(constant, scale))])
            (model.minimize if sense == "min" else model.maximize)(goal)
        self.fill(model, self.read.root)
        return model
