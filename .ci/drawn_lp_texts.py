"""LP texts drawn by chance, always the same ones: small programs in any layout, of which about half are damaged at a place or two."""

import random
from fractions import Fraction

NAMES = ["x", "y", "z", "X", "steam", "unit.2", "_n", "x(1)", "a[1,2]", "#", "free", "inf", "e1", "st", "end", "to", "sos1"]
OBJECTIVES = {"min": ["minimize", "minimum", "min", "MIN", "Minimize"], "max": ["maximize", "maximum", "max", "MAX", "Maximize"]}
CONSTRAINTS = ["subject to", "Subject To", "such that", "st", "ST", "st.", "s.t.", "S.T."]
RELATIONS = {"<=": ["<=", "<", "=<"], ">=": [">=", ">", "=>"], "=": ["="]}
OPPOSITE = {"<=": ">=", ">=": "<=", "=": "="}
# What a damaged text gets at some place: pieces of the language, and what it doesn't have.
PIECES = ["<=", "=>", "=", "<", "+", "-", "- -", ":", "c:", "x", "y", "7", "0", "2.5e1", "1e41", "1e-41", "1e20", "inf", "-inf", "free", "1000000000000001", "0.0000000000000001"]
PIECES += ["->", "<->", "^", "*", "[", "]", "|", "\xe9", "\\", "\r", "\t", ".", "/", "n" * 256, "1e", "e5", "q", "3 <= x <= 4", "x <= 1e19", "0 x"]
# Numbers at a limit, and past it.
FAR = ["1e15", "1000000000000001", "1e16", "1e20", "99999999999999999999", "1e-15", "1e-16", "1e41", "1e-41", "0e41", "3e40", "1" + "0" * 40 + "e-40", "0.5e-15", "5e-1000000000000"]
LINES = ["st", "bounds", "bound", "general", "gen", "binary", "end", "min", "max", "sos2", "semi-continuous", "lazy constraints", "user cuts", "subject", "integers", "end :", "general :"]


class LpTexts:
    """One draw of a program, as tokens; a token that begins a line has a newline in front."""

    def __init__(self, draw):
        self.draw = draw
        self.names = draw.sample(NAMES, draw.randint(1, 4))
        self.values = {name: Fraction(draw.randint(-2, 8), draw.choice([1, 1, 1, 2])) for name in self.names}
        self.tokens = []

    def chance(self, count):
        return self.draw.randrange(count) == 0

    def number(self, value):
        """A magnitude in one of its spellings; now and then another, near a limit or past it."""
        if self.chance(60):
            return self.draw.choice(FAR)
        digits = f"{float(value):.10f}".rstrip("0").rstrip(".") if value else "0"
        assert Fraction(digits) == value
        spellings = [digits, digits, digits, "0" + digits, digits + ("0" if "." in digits else "."), digits + "e0", digits + "E+00"]
        spellings += [digits.lstrip("0")] if digits.startswith("0.") else []
        spellings += [f"{Fraction(value) * 10}e-1", f"{value}.0"] if Fraction(value).denominator == 1 else []
        return self.draw.choice(spellings)

    def signed(self, value, is_first=True):
        sign = "-" if value < 0 else "+" if not is_first or self.chance(4) else ""
        return ([sign] if sign else []) + [self.number(abs(value))]

    def some(self):
        return Fraction(self.draw.choice([-1, 1, 1]) * self.draw.randint(1, 9), self.draw.choice([1, 1, 1, 2, 4, 5]))

    def terms(self):
        """Terms of a few names, and their sum at the point round which the program is drawn."""
        tokens, total = [], Fraction(0)
        for name in self.draw.sample(self.names, self.draw.randint(1, len(self.names))):
            c = Fraction(0) if self.chance(25) else Fraction(1) if self.chance(3) else self.some()
            signed = self.signed(c, not tokens and not self.chance(4))
            signed = ["-", *("+-" if self.chance(2) else "-+"), "-" if c >= 0 else "+", signed[-1]] if self.chance(20) else signed
            tokens += [*(signed[:-1] if c == 1 and self.chance(2) else signed), name]
            total += c * self.values[name]
        return tokens, total

    def relation(self, relation):
        return self.draw.choice(RELATIONS[relation])

    def label(self):
        return [self.draw.choice([*self.names, "c1", "row", "end", "bounds", "c.2"]), ":"] if self.chance(3) else []

    def objective(self, sense):
        tokens, _ = self.terms() if not self.chance(12) else ([], 0)
        if self.chance(4):
            tokens = tokens + self.signed(self.some(), False) if self.chance(2) else self.signed(self.some()) + ["+"] * bool(tokens) + tokens
        return ["\n" + self.draw.choice(OBJECTIVES[sense]), *self.label(), *tokens]

    def row(self):
        tokens, total = self.terms()
        relation = self.draw.choice(["<=", "<=", ">=", ">=", "="])
        room = 0 if relation == "=" else self.draw.randint(0, 4) * (1 if relation == "<=" else -1)
        room += 0 if not self.chance(15) else self.draw.randint(-9, 9)
        right = total + room
        return [*self.label(), *tokens, self.relation(relation), *self.signed(right)]

    def limit(self, value):
        if self.chance(6):
            return self.draw.choice([["inf"], ["-", "inf"], ["+", "Infinity"], ["1e30"], ["-", "1E+20"]])
        return self.signed(value)

    def bound(self):
        name = self.draw.choice(self.names)
        low, high = self.values[name] - self.draw.randint(0, 5), self.values[name] + self.draw.randint(0, 5)
        kind, relation, value = self.draw.randint(0, 6), *self.draw.choice([("<=", high), (">=", low), ("<=", high), ("=", self.values[name])])
        if name in ("free", "inf"):
            return []
        if kind == 0:
            return [name, self.draw.choice(["free", "Free"])]
        if kind < 3:
            return [*self.limit(low), self.relation("<="), name, self.relation("<="), *self.limit(high)]
        if kind < 4:
            return [*self.limit(value), self.relation(OPPOSITE[relation]), name]
        return [name, self.relation(relation), *self.limit(value)]

    def program(self):
        """The tokens of a text."""
        tokens = self.objective(self.draw.choice(["min", "max"])) + ["\n" + self.draw.choice(CONSTRAINTS)]
        for _ in range(self.draw.randint(0, 4)):
            tokens += self.row()
        for _ in range(self.draw.randint(0, 4)):
            kind = self.draw.randint(0, 3)
            if kind < 2:
                tokens += ["\n" + self.draw.choice(["bounds", "BOUNDS", "bound"])]
                for _ in range(self.draw.randint(0, 4)):
                    tokens += self.bound()
            else:
                words = ["general", "generals", "GEN"] if kind == 2 else ["binary", "Binaries", "bin"]
                tokens += ["\n" + self.draw.choice(words), *self.draw.choices(self.names, k=self.draw.randint(0, 2))]
        return tokens + (["\n" + self.draw.choice(["end", "End", "END"])] if self.draw.randint(0, 2) else [])

    def space(self, before, after):
        """What stands between two tokens: nothing only where they don't run together."""
        if after.startswith("\n"):
            return self.draw.choice(["", " ", " \\ so", "\r", "\n\n"])
        apart = not before or not after or before[-1] in "<>=+-:" or after[0] in "<>=+-:"
        kinds = [" "] * 8 + ["\t", "  ", "\n", " \n ", "\\ and so\n\t"] + ([""] * 4 if apart and before[-1:] + after[:1] not in ("->", "<-", "=>", "=<", "<=", ">=") else [])
        return self.draw.choice(kinds)

    def text(self, tokens):
        parts, before = [], ""
        for token in tokens:
            parts += [self.space(before, token), token]
            before = token
        return "".join(parts).lstrip("\n") + self.draw.choice(["\n", "\n", "", "\r\n", " \\ done"])

    def damaged(self, tokens):
        """The tokens with one put in, left out, moved or taken for another; or with a line put in."""
        kind, at = self.draw.randint(0, 5), self.draw.randrange(len(tokens))
        if kind == 0:
            return [*tokens[:at], *tokens[at + 1 :]]
        if kind == 1:
            line = ["\n" + self.draw.choice(LINES), "\n" if self.chance(2) else ""]
            return [*tokens[:at], *line, *tokens[at:]]
        if kind == 2:
            other = self.draw.randrange(len(tokens))
            tokens = list(tokens)
            tokens[at], tokens[other] = tokens[other], tokens[at]
            return tokens
        piece = self.draw.choice(PIECES)
        return [*tokens[:at], piece, *tokens[at + (kind == 3) :]]


def drawn_lp_texts(count):
    """So many texts."""
    draw = random.Random(17)
    for at in range(count):
        texts = LpTexts(draw)
        tokens = texts.program()
        for _ in range(draw.choice([0, 0, 1, 1, 2]) if at % 2 else 0):
            tokens = texts.damaged(tokens)
        yield texts.text(tokens).encode("latin-1")
