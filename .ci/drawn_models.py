"""Small models drawn by chance, always the same ones, for compiling and solving: variables that mostly have bounds, and few
Booleans, so that every setting of the whole ones can be tried."""

import random
from fractions import Fraction

from drawn_texts import RELATIONS, Texts

# No more indicators than this, so that trying all of their settings stays quick.
INDICATORS = 6


class Models(Texts):
    """One draw of a model, around a plan that satisfies most of its rows."""

    def __init__(self, draw):
        super().__init__(draw)
        self.names = self.names[:3]
        self.values = [draw.randint(0, 8) if draw.randint(0, 2) else draw.randint(-6, 6) for _ in self.names]
        self.over = draw.choice([1, 1, 2])
        self.is_odd = False

    def row(self, holds):
        if self.draw.randint(0, 60) == 0:
            name, right = self.draw.choice(self.names), self.draw.randint(0, 9)
            return f"row 1000000000000000 {name} {self.draw.choice(RELATIONS)} {right}"
        return super().row(holds)

    def bound(self, at, sign, is_whole):
        """An end of a variable's bound, open once in fourteen times."""
        if self.draw.randint(0, 13) == 0:
            return "-inf" if sign < 0 else "inf"
        away = self.draw.choice([0, 1, 2] if is_whole else [0, 1, 3, 10, Fraction(1, 3)])
        if sign < 0 and at >= 0 and self.draw.randint(0, 3):
            return "0"
        slack = self.draw.choice([0, 0, Fraction(1, 3)]) if is_whole else 0
        return str(at + sign * (away + slack))

    def block(self, depth, is_on):
        """The lines of a block; no disjunction is opened that could pass the number of indicators."""
        lines = [self.row(not is_on or self.draw.randint(0, 9) > 0) for _ in range(self.draw.choice([0, 1, 1, 2]))]
        lines += self.logic(is_on)
        for _ in range(self.draw.choice([1, 1, 2]) if depth == 0 else self.draw.choice([0, 0, 1])):
            count = self.draw.randint(1, 3)
            if depth == 3 or self.indicators + count > INDICATORS:
                break
            mode = self.draw.choice(["xor", "xor", "or"])
            chosen = {self.draw.randrange(count)} | ({self.draw.randrange(count)} if mode == "or" else set())
            names = [f"b{self.indicators + i}" for i in range(count)]
            self.indicators += count
            lines.append(f"disjunction {mode}")
            for i, name in enumerate(names):
                self.named.append(name)
                self.truths += [name] if is_on and i in chosen else []
                lines += [f"disjunct {name}", *self.block(depth + 1, is_on and i in chosen), "end"]
            lines.append("end")
        return lines + self.logic(is_on)

    def model(self):
        lines = ["gdp 1"]
        for name, value in zip(self.names, self.values):
            at = Fraction(value, self.over)
            is_whole = at.denominator == 1 and self.draw.randint(0, 2) == 0
            low, high = self.bound(at, -1, is_whole), self.bound(at, 1, is_whole)
            lines.append(f"var {name} {'int' if is_whole else 'real'} {low} {high}")
        if self.has_logic:
            lines.append("boolean free")
            self.named.append("free")
            self.truths += ["free"] if self.draw.randint(0, 1) else []
        if self.draw.randint(0, 5):
            lines.append(f"{self.draw.choice(['min', 'max'])} {self.sum()[0]}{self.draw.choice(['', '', '+ 2', '- 7/4'])}")
        return "".join(line + "\n" for line in lines + self.block(0, True)).encode()


def drawn_models(count):
    draw = random.Random(11)
    for _ in range(count):
        yield Models(draw).model()
