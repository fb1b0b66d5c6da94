"""Model and point texts drawn by chance, always the same ones: most are whole, some are damaged at a place; about a third
have propositions, of which some are spelled wrongly or pass a limit."""

import random
from fractions import Fraction

NAMES = ["x", "y", "z", "steam", "unit.2", "_n"]
RELATIONS = ["<=", ">=", "="]
# What a damaged text gets at some place: pieces of the language, and bytes that it doesn't have.
PIECES = [b"end\n", b"\n", b"\r", b"\t", b" ", b"#", b"-", b"+", b"0", b"7", b"/", b".", b"1/0", b"x", b"inf", b"<=", b"=", b"\xc8", b"row 1 x <= 5\n"]
PIECES += [b"disjunction xor\n", b"disjunct q\n", b"boolean b\n", b"min 0\n", b"logic x\n", b"var w int 0 1\n", b"on x\n", b"val x 1\n", b"1000000000000001"]
PIECES += [b"(", b")", b",", b"not(", b"logic not(b0)\n", b"logic and(b0, free)\n", b"exactly(1, ", b"implies"]
# What is no proposition, or none of a Boolean that is there; and what may stand before the arguments of a counting one.
ODD = ["and()", "or( )", "not()", "exactly(1)", "atmost(1,)", "exactly()", "atleast(b0)", "inf", "end", "not", "nobody", "7", "(b0)", "b0(b0)"]
ODD += ["not(b0, b0)", "implies(b0)", "xor(b0, b0, b0)", "equivalent(b0,, b0)", "and(b0 b0)", "and(b0", "b0)", "not b0", "b0 or b0", "exactly(-1, b0)"]
ODD += ["n" * 65, "And(b0)", "exactly(1; b0)", "atleast(b0, 1)", "atmost 1 (b0)", "not((b0))", "exactly(1 b0)", "and(,b0)", "xor(1, b0, b0)"]
COUNTS = ["0", "1", "1", "2", "2", "3", "01", "007", "999", "1000", "01000"]
ODD_COUNTS = ["1001", "1000", "100000000000000000000", "00000000000001", "1.0", "1/1", "+1", "x"]


class Texts:
    """One draw of a model and of a point of it."""

    def __init__(self, draw):
        self.draw = draw
        self.names = draw.sample(NAMES, draw.randint(1, 4))
        self.values = [draw.randint(-12, 12) for _ in self.names]
        self.over = draw.choice([1, 1, 1, 2, 3, 10])
        self.indicators = 0
        self.truths = []
        self.named = []
        self.has_logic = draw.randint(0, 2) == 0
        self.is_odd = self.has_logic and draw.randint(0, 2) == 0

    def number(self, value):
        """The magnitude of a value, in one of its spellings."""
        value = abs(Fraction(value))
        if value.denominator > 1:
            return f"{value.numerator}/{value.denominator}"
        return self.draw.choice([str(value), f"0{value}", f"{value}.0", f"{2 * value}/2", str(value)])

    def blank(self):
        return self.draw.choice([" ", " ", " ", "  ", "\t"])

    def sum(self):
        names = self.draw.sample(range(len(self.names)), self.draw.randint(1, len(self.names)))
        terms = {place: Fraction(self.draw.choice([-1, 1]) * self.draw.randint(1, 9), self.draw.choice([1, 1, 1, 2, 3, 5])) for place in names}
        text = ""
        for place, c in terms.items():
            sign = "-" if c < 0 else "+" if text or self.draw.randint(0, 3) == 0 else ""
            text += f"{sign} {'' if abs(c) == 1 and self.draw.randint(0, 1) else self.number(c)} {self.names[place]} "
        return text, sum(c * Fraction(self.values[place], self.over) for place, c in terms.items())

    def row(self, holds):
        text, value = self.sum()
        relation = self.draw.choice(RELATIONS)
        gap = 0 if relation == "=" else self.draw.randint(0, 3) * (1 if relation == "<=" else -1)
        right = value + gap + (0 if holds else self.draw.choice([-1, 1, Fraction(1, 3)]))
        return f"row{self.blank()}{text}{relation} {'-' if right < 0 else ''}{self.number(right)}"

    def listed(self, start, parts):
        """Parts in parentheses, with blanks here and there."""
        space = [self.draw.choice(["", "", "", " ", "\t"]) for _ in range(4)]
        return f"{start}{space[0]}({space[1]}{(space[2] + ',' + space[3]).join(parts)})"

    def proposition(self, depth):
        """A proposition no deeper than this, and whether it is true at the point."""
        if depth < 2 or self.draw.randint(0, 3) == 0:
            name = self.draw.choice(self.named)
            return name, name in self.truths
        word = self.draw.choice(["not", "and", "or", "implies", "equivalent", "xor", "exactly", "atleast", "atmost"])
        count = {"not": 1, "implies": 2, "equivalent": 2, "xor": 2}.get(word) or self.draw.randint(1, 4)
        drawn = [self.proposition(depth - 1) for _ in range(count)]
        parts, truths = [text for text, _ in drawn], [is_true for _, is_true in drawn]
        if word in ("exactly", "atleast", "atmost"):
            number = self.draw.choice(COUNTS)
            sign = (sum(truths) > int(number)) - (sum(truths) < int(number))
            return self.listed(word, [number, *parts]), sign == 0 or sign == {"atleast": 1, "atmost": -1}.get(word)
        if word == "not":
            return self.listed(word, parts), not truths[0]
        if word == "implies":
            return self.listed(word, parts), truths[0] <= truths[1]
        if word in ("xor", "equivalent"):
            return self.listed(word, parts), (truths[0] != truths[1]) == (word == "xor")
        return self.listed(word, parts), all(truths) if word == "and" else any(truths)

    def odd_proposition(self):
        """A proposition that has no form, names what isn't there, or is at a limit or past it; or two of them."""
        kind = self.draw.randint(0, 9)
        inner = self.proposition(2)[0]
        if kind < 3:
            odd = self.draw.choice([*ODD, *self.names])
            return self.draw.choice([odd, odd, f"not({odd})", f"and({inner}, {odd})"])
        if kind < 5:
            return self.listed(self.draw.choice(["exactly", "atleast", "atmost"]), [self.draw.choice(ODD_COUNTS), inner])
        if kind < 7:
            depth = self.draw.randint(13, 18)
            return self.draw.choice(["not({})", "and({}, free)", "or(free, {})"]).format("not(" * depth + self.draw.choice(self.named) + ")" * depth)
        if kind == 7:
            return self.listed(self.draw.choice(["and", "or", "exactly(1,or"]), [inner] * self.draw.randint(198, 202))
        if kind == 8:
            return self.listed("or", [self.listed("and", [self.draw.choice(self.named)] * 198)] * self.draw.randint(24, 26))
        return self.listed("xor", [self.odd_proposition(), self.odd_proposition()])

    def logic(self, is_on):
        """The lines of a block's propositions, most of which are true where the block is on."""
        lines = []
        for _ in range(self.draw.choice([0, 1, 1, 2, 3]) if self.has_logic and self.named else 0):
            text, is_true = self.proposition(self.draw.choice([1, 2, 2, 3, 3, 4]))
            if is_on and not is_true and self.draw.randint(0, 9) > 0:
                text = f"not({text})"
            if self.is_odd and self.draw.randint(0, 4) == 0:
                text = self.odd_proposition()
            lines.append(f"logic{self.blank()}{text}")
        return lines

    def block(self, depth, is_on):
        """The lines of a block, and what of it is on is kept for the point."""
        lines = [self.row(not is_on or self.draw.randint(0, 9) > 0) for _ in range(self.draw.randint(0, 2))]
        lines += self.logic(is_on)
        for _ in range(self.draw.randint(0, 2) if depth < 3 else 0):
            mode = self.draw.choice(["xor", "or"])
            count = self.draw.randint(1, 3)
            chosen = {self.draw.randrange(count)} | ({self.draw.randrange(count)} if mode == "or" else set())
            lines.append(f"disjunction {mode}")
            for i in range(count):
                name = f"b{self.indicators}"
                self.indicators += 1
                self.named.append(name)
                below = is_on and i in chosen
                if below != (self.draw.randint(0, 40) == 0):
                    self.truths.append(name)
                lines += [f"disjunct {name}", *self.block(depth + 1, below), "end"]
            lines.append("end")
            lines += self.logic(is_on)
        return lines

    def model(self):
        lines = [self.draw.choice(["gdp 1", " gdp\t1 ", "# a plan\n\ngdp 1"])]
        for name, value in zip(self.names, self.values):
            at = Fraction(value, self.over)
            low = self.draw.choice(["-inf", None])
            high = self.draw.choice(["inf", None])
            low = low or str(at - self.draw.choice([0, 1, Fraction(1, 7)]))
            high = high or str(at + self.draw.choice([0, 2, Fraction(1, 7)]))
            lines.append(f"var {name} {self.draw.choice(['real', 'real', 'int'] if at.denominator == 1 else ['real'])} {low} {high}")
        if self.has_logic or self.draw.randint(0, 2) == 0:
            lines.append("boolean free")
            self.named.append("free")
            self.truths += ["free"] if self.draw.randint(0, 1) else []
        goal = [f"{self.draw.choice(['min', 'max'])} {self.sum()[0]}{self.draw.choice(['', '+ 2', '- 7/4'])}"] if self.draw.randint(0, 1) else []
        lines += self.block(0, True)
        lines.insert(self.draw.choice([len(lines), 1 + len(self.names)]), *goal) if goal else None
        return "".join(line + self.draw.choice(["\n", "\n", "\n", " # so\n", "\r\n", "\n\n"]) for line in lines).encode()

    def point(self):
        lines = [f"val {name} {value}" for name, value in zip(self.names, self.values)] + [f"on {name}" for name in self.truths]
        self.draw.shuffle(lines)
        return ("gdp-point 1\nover %d\n" % self.over + "\n".join(lines) + "\nend\n").encode()

    def damaged(self, text):
        """The text with a piece put in or in another's place, or with a line left out, doubled or moved."""
        if self.draw.randint(0, 1):
            at = self.draw.randrange(len(text) + 1)
            return text[:at] + self.draw.choice([b"", *PIECES]) + text[at + self.draw.choice([0, 0, 1, 1, 2, 9]) :]
        lines = text.splitlines(keepends=True)
        line = lines.pop(self.draw.randrange(len(lines)))
        for _ in range(self.draw.randint(0, 2)):
            lines.insert(self.draw.randrange(len(lines) + 1), line)
        return b"".join(lines)


def drawn_texts(count):
    """Words and files, so many times."""
    draw = random.Random(7)
    for i in range(count):
        texts = Texts(draw)
        model = texts.model()
        point = texts.point()
        if i % 3 == 0:
            model = texts.damaged(model)
        if i % 6 == 1:
            point = texts.damaged(point)
        yield (["format", "M"], {"M": model}) if i % 4 == 3 else (["test", "M", "P"], {"M": model, "P": point})
