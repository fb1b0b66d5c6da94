"""Model and point texts: reading them, testing a point, and the canonical form."""

import re
from fractions import Fraction
from math import gcd, lcm

MOST = 10**15
BYTES = 8_388_608
RESERVED = set("not and or implies equivalent xor exactly atleast atmost inf end".split())
# The operators, and the least and the most arguments that each takes; those of `COUNTING` have a number before them.
COUNTING = ("exactly", "atleast", "atmost")
ARGUMENTS = {"not": (1, 1), "implies": (2, 2), "equivalent": (2, 2), "xor": (2, 2)}
ARGUMENTS |= {word: (1, None) for word in ("and", "or", *COUNTING)}
TOKEN = re.compile(rb"[ \t]*(?:([A-Za-z_][A-Za-z0-9_.]*)|([0-9]+(?:[./][0-9]+)?)|(<=|>=|[-+=(),]))")


class Refused(Exception):
    """A text is refused at a line for a cause."""

    def __init__(self, line, cause):
        self.line, self.cause = line, cause


class Cause(Exception):
    """A line is refused for a cause."""


def refuse_if(holds, cause):
    if holds:
        raise Cause(cause)


def split_lines(text):
    """The lines, without the carriage returns before their newlines."""
    lines = text.split(b"\n")
    ended, last = lines[:-1], lines[-1]
    return [line[:-1] if line.endswith(b"\r") else line for line in ended] + ([last] if last else [])


def lines_of(text):
    """The lines without their comments."""
    return [line.split(b"#")[0] for line in split_lines(text)]


def words_of(line):
    return re.findall(rb"[^ \t]+", line)


def tokens_of(line):
    """The tokens as pairs of kind and text; a byte that begins none is a stray one."""
    line, at, tokens = line.rstrip(b" \t"), 0, []
    while at < len(line):
        found = TOKEN.match(line, at)
        if not found:
            return tokens + [("stray", "")]
        tokens.append((("word", "number", "mark")[found.lastindex - 1], found.group(found.lastindex).decode()))
        at = found.end()
    return tokens


class Tokens:
    """Takes a line's tokens one after the other; what doesn't fit is Form."""

    def __init__(self, tokens):
        self.tokens, self.at = tokens, 0

    def peek(self, ahead=0):
        return self.tokens[self.at + ahead] if self.at + ahead < len(self.tokens) else (None, None)

    def take(self, kind, *texts):
        refuse_if(self.peek()[0] != kind or texts and self.peek()[1] not in texts, "Form")
        self.at += 1
        return self.tokens[self.at - 1][1]

    def name(self):
        refuse_if(self.peek()[1] in RESERVED, "Form")
        return self.take("word")

    def sign(self):
        """The optional sign before a number or a term."""
        return -1 if self.peek() in (("mark", "+"), ("mark", "-")) and self.take("mark") == "-" else 1

    def signed(self):
        sign = self.sign()
        return sign, self.take("number")

    def bound(self, sign):
        """An end of a bound; None where it is open."""
        open_end = [("mark", "-"), ("word", "inf")] if sign < 0 else [("word", "inf")]
        if self.tokens[self.at : self.at + len(open_end)] == open_end:
            self.at += len(open_end)
            return None
        return self.signed()

    def sum(self, with_constant):
        """Terms of sign, number and name; where it may have one, also a constant at the end."""
        terms, sign = [], self.sign()
        while True:
            number = self.take("number") if self.peek()[0] == "number" else None
            if number is not None and with_constant and terms and self.peek()[0] is None:
                return terms, (sign, number)
            terms.append((sign, number or "1", self.name()))
            if self.peek() not in (("mark", "+"), ("mark", "-")):
                return terms, (1, "0")
            sign = -1 if self.take("mark") == "-" else 1

    def proposition(self):
        """A name, or an operator with its digits, if any, and its arguments; read without recursion, of any depth."""
        opened = []
        while True:
            word, digits = self.take("word"), None
            if word in ARGUMENTS:
                self.take("mark", "(")
                if word in COUNTING:
                    digits = self.take("number")
                    refuse_if(not digits.isdigit(), "Form")
                    digits = digits.lstrip("0") or "0"
                    self.take("mark", ",")
                opened.append((word, digits, []))
                continue
            refuse_if(word in RESERVED, "Form")
            made = word
            while opened:
                word, digits, arguments = opened[-1]
                arguments.append(made)
                if self.take("mark", ",", ")") == ",":
                    break
                least, most = ARGUMENTS[word]
                refuse_if(len(arguments) < least or most and len(arguments) > most, "Form")
                made = opened.pop()
            else:
                return made

    def end(self):
        refuse_if(self.at < len(self.tokens), "Form")


def nodes_of(proposition):
    """Each name and each operator with what is under it, beside its depth."""
    waiting, found = [(proposition, 1)], []
    while waiting:
        found.append(waiting.pop())
        part, depth = found[-1]
        if not isinstance(part, str):
            waiting += [(argument, depth + 1) for argument in part[2]]
    return found


def truth(proposition, truths):
    if isinstance(proposition, str):
        return proposition in truths
    word, digits, arguments = proposition
    told = [truth(argument, truths) for argument in arguments]
    if word in ("equivalent", "xor"):
        return (told[0] == told[1]) == (word == "equivalent")
    if word in COUNTING:
        number, count = int(digits), sum(told)
        return {"exactly": count == number, "atleast": count >= number, "atmost": count <= number}[word]
    return {"not": not told[0], "and": all(told), "or": any(told), "implies": not told[0] or told[-1]}[word]


def proposition_text(proposition):
    if isinstance(proposition, str):
        return proposition
    word, digits, arguments = proposition
    number = [] if digits is None else [digits]
    return f"{word}({', '.join(number + [proposition_text(argument) for argument in arguments])})"


def value(signed):
    """The value of a number with its sign, or Number where a part passes the limit."""
    sign, digits = signed
    if "/" in digits:
        over, under = map(int, digits.split("/"))
    else:
        whole, _, places = digits.partition(".")
        over, under = int(whole + places), 10 ** len(places)
    refuse_if(over > MOST or not 1 <= under <= MOST, "Number")
    return Fraction(sign * over, under)


class Block:
    def __init__(self, indicator=None, mark=0):
        self.indicator, self.mark = indicator, mark
        self.rows, self.propositions, self.disjunctions = [], [], []


class Disjunction:
    def __init__(self, mode, mark):
        self.mode, self.mark, self.disjuncts = mode, mark, []


class Model:
    def __init__(self):
        self.vars, self.booleans, self.goal, self.row_count, self.node_count = {}, {}, None, 0, 0
        self.goal_mark = 0
        self.plain = []
        self.opened = [Block()]

    @property
    def root(self):
        return self.opened[0]

    def taken(self, name):
        return name in self.vars or name in self.booleans

    def scaled(self, terms, number):
        """Terms by name and a number, times the least whole number that makes all whole; and that number."""
        names = [name for _, _, name in terms if name in self.vars]
        refuse_if(len(set(names)) < len(names), "NameTwice")
        refuse_if(len(names) < len(terms), "NameUnknown")
        coefficients = {name: value((sign, digits)) for sign, digits, name in terms}
        number = value(number)
        scale = lcm(number.denominator, *(c.denominator for c in coefficients.values()))
        refuse_if(any(c == 0 or abs(c * scale) > MOST for c in coefficients.values()), "Number")
        refuse_if(abs(number * scale) > MOST, "Number")
        order = {name: place for place, name in enumerate(self.vars)}
        stored = sorted(((name, int(c * scale)) for name, c in coefficients.items()), key=lambda t: order[t[0]])
        return stored, int(number * scale), scale

    def line(self, line, tokens):
        word = tokens.take("word")
        at = self.opened[-1]
        in_block, at_root = isinstance(at, Block), len(self.opened) == 1
        if word == "var":
            name, kind = tokens.name(), tokens.take("word", "real", "int")
            low, high = tokens.bound(-1), tokens.bound(1)
            tokens.end()
            refuse_if(not at_root, "Form")
            refuse_if(self.taken(name), "NameTwice")
            low, high = (end and value(end) for end in (low, high))
            refuse_if(low is not None and high is not None and low > high, "Number")
            refuse_if(len(self.vars) == 500 or len(name) > 64, "Limit")
            self.vars[name] = (kind, low, high, line)
        elif word == "boolean":
            name = tokens.name()
            tokens.end()
            refuse_if(not at_root or self.root.disjunctions, "Form")
            self.declare(name, line)
            self.plain.append(name)
        elif word in ("min", "max"):
            ahead = 1 if tokens.peek()[0] == "mark" else 0
            if tokens.peek(ahead)[0] == "number" and tokens.peek(ahead + 1)[0] is None:
                terms, constant = [], tokens.signed()
            else:
                terms, constant = tokens.sum(True)
            tokens.end()
            refuse_if(not at_root or self.goal, "Form")
            stored, constant, scale = self.scaled(terms, constant)
            refuse_if(scale > MOST, "Number")
            self.goal, self.goal_mark = (word, stored, constant, scale), line
        elif word == "row":
            if tokens.peek() == ("number", "0") and tokens.peek(1)[0] != "word":
                tokens.take("number")
                terms = []
            else:
                terms, _ = tokens.sum(False)
            relation, right = tokens.take("mark", "<=", ">=", "="), tokens.signed()
            tokens.end()
            refuse_if(not in_block, "Form")
            stored, right, _ = self.scaled(terms, right)
            refuse_if(self.row_count == 1000, "Limit")
            self.row_count += 1
            at.rows.append((stored, relation, right, line))
        elif word == "logic":
            proposition = tokens.proposition()
            tokens.end()
            refuse_if(not in_block, "Form")
            nodes = nodes_of(proposition)
            operators = [part for part, _ in nodes if not isinstance(part, str)]
            refuse_if(any(isinstance(part, str) and part not in self.booleans for part, _ in nodes), "NameUnknown")
            numbers = [digits for _, digits, _ in operators if digits]
            refuse_if(any(len(digits) > 4 or int(digits) > 1000 for digits in numbers), "Number")
            refuse_if(any(depth > 16 for _, depth in nodes), "Nesting")
            refuse_if(any(len(arguments) > 200 for _, _, arguments in operators), "Limit")
            refuse_if(self.node_count + len(nodes) > 5000, "Limit")
            self.node_count += len(nodes)
            at.propositions.append((proposition, line))
        elif word == "disjunction":
            mode = tokens.take("word", "xor", "or")
            tokens.end()
            refuse_if(not in_block, "Form")
            at.disjunctions.append(Disjunction(mode, line))
            self.opened.append(at.disjunctions[-1])
        elif word == "disjunct":
            name = tokens.name()
            tokens.end()
            refuse_if(in_block, "Form")
            refuse_if(self.taken(name), "NameTwice")
            refuse_if(len(self.opened) > 16, "Nesting")
            self.declare(name, line)
            at.disjuncts.append(Block(name, line))
            self.opened.append(at.disjuncts[-1])
        elif word == "end":
            tokens.end()
            refuse_if(at_root, "Form")
            refuse_if(not in_block and not at.disjuncts, "Missing")
            self.opened.pop()
        else:
            raise Cause("Form")

    def declare(self, name, line):
        refuse_if(self.taken(name), "NameTwice")
        refuse_if(len(self.booleans) == 200 or len(name) > 64, "Limit")
        self.booleans[name] = line


def read_model(text):
    model, lines, headed = Model(), lines_of(text), False
    for number, line in enumerate(lines, 1):
        try:
            tokens = tokens_of(line)
            if headed and tokens:
                model.line(number, Tokens(tokens))
            elif tokens:
                refuse_if(words_of(line) != [b"gdp", b"1"], "Header")
                headed = True
        except Cause as cause:
            raise Refused(number, str(cause)) from None
    for holds, cause in ((not headed, "Header"), (len(model.opened) > 1, "Unclosed"), (not model.vars, "Missing")):
        if holds:
            raise Refused(len(lines) + 1, cause)
    return model


def read_point(model, text):
    """The values over which number, and the names of the true Booleans."""
    values, truths, over, seen, state = {}, set(), None, set(), "header"
    lines = lines_of(text)

    def line_is(words):
        nonlocal over, state
        if state == "header":
            refuse_if(words != [b"gdp-point", b"1"], "Header")
            state = "over"
        elif state == "over":
            refuse_if(len(words) != 2 or words[0] != b"over" or not re.fullmatch(rb"[0-9]+", words[1]), "Form")
            refuse_if(not 1 <= int(words[1]) < 2**127, "Number")
            over, state = int(words[1]), "values"
        elif state == "values" and words == [b"end"]:
            refuse_if(len(values) < len(model.vars), "Missing")
            state = "ended"
        else:
            is_val = len(words) == 3 and words[0] == b"val" and re.fullmatch(rb"-?[0-9]+", words[2])
            refuse_if(state == "ended" or not is_val and (len(words) != 2 or words[0] != b"on"), "Form")
            refuse_if(not re.fullmatch(rb"[A-Za-z_][A-Za-z0-9_.]*", words[1]) or words[1].decode() in RESERVED, "Form")
            name = words[1].decode()
            refuse_if(name in seen, "NameTwice")
            refuse_if(name not in (model.vars if is_val else model.booleans), "NameUnknown")
            refuse_if(is_val and not -(2**127) <= int(words[2]) < 2**127, "Number")
            seen.add(name)
            if is_val:
                values[name] = int(words[2])
            else:
                truths.add(name)

    for number, line in enumerate(lines, 1):
        try:
            if words_of(line):
                line_is(words_of(line))
        except Cause as cause:
            raise Refused(number, str(cause)) from None
    if state != "ended":
        raise Refused(len(lines) + 1, "Header" if state == "header" else "Missing")
    return values, over, truths


class Decided(Exception):
    """A test failed, or a number left 128 bits: the line that is told."""


def fits(number, mark):
    if not -(2**127) <= number < 2**127:
        raise Decided(3, f"wide at line {mark}")
    return number


def fail_if(fails, mark):
    if fails:
        raise Decided(1, f"fails at line {mark}")


def verdict(model, values, over, truths):
    def below(block):
        for disjunction in block.disjunctions:
            for disjunct in disjunction.disjuncts:
                yield disjunct
                yield from below(disjunct)

    def test(block):
        for terms, relation, right, mark in block.rows:
            left = 0
            for name, coefficient in terms:
                left = fits(left + fits(coefficient * values[name], mark), mark)
            right = fits(right * over, mark)
            fail_if(not {"<=": left <= right, ">=": left >= right, "=": left == right}[relation], mark)
        for proposition, mark in block.propositions:
            fail_if(not truth(proposition, truths), mark)
        for disjunction in block.disjunctions:
            count = sum(d.indicator in truths for d in disjunction.disjuncts)
            fail_if(count != 1 if disjunction.mode == "xor" else count < 1, disjunction.mark)
            for disjunct in disjunction.disjuncts:
                if disjunct.indicator in truths:
                    test(disjunct)
                    continue
                for other in below(disjunct):
                    fail_if(other.indicator in truths, other.mark)

    try:
        for name, (kind, low, high, mark) in model.vars.items():
            for end, sign in ((low, 1), (high, -1)):
                if end is not None:
                    ours, theirs = fits(end.denominator * values[name], mark), fits(end.numerator * over, mark)
                    fail_if(sign * ours < sign * theirs, mark)
            fail_if(kind == "int" and values[name] % over, mark)
        test(model.root)
    except Decided as decided:
        return decided.args
    return 0, "holds"


def number_text(number):
    return str(number)


def sum_text(terms, scale=1):
    """The terms of a sum, as the canonical text has them."""
    text = ""
    for name, coefficient in terms:
        c = Fraction(coefficient, scale)
        joint = ("-" if c < 0 else "") if not text else (" - " if c < 0 else " + ")
        text += f"{joint}{abs(c)} {name}"
    return text


def canonical(model):
    lines = ["gdp 1"]
    for name, (kind, low, high, _) in model.vars.items():
        lines.append(f"var {name} {kind} {'-inf' if low is None else low} {'inf' if high is None else high}")
    lines += [f"boolean {name}" for name in model.plain]
    sense, terms, constant, scale = model.goal or ("min", [], 0, 1)
    goal, c0 = sum_text(terms, scale), Fraction(constant, scale)
    if not terms:
        goal = str(c0)
    elif c0:
        goal += f" {'-' if c0 < 0 else '+'} {abs(c0)}"
    lines.append(f"{sense} {goal}")

    def put(block):
        for terms, relation, right, _ in block.rows:
            lines.append(f"row {sum_text(terms) or '0'} {relation} {right}")
        for disjunction in block.disjunctions:
            lines.append(f"disjunction {disjunction.mode}")
            for disjunct in disjunction.disjuncts:
                lines.append(f"disjunct {disjunct.indicator}")
                put(disjunct)
                lines.append("end")
            lines.append("end")
        lines.extend(f"logic {proposition_text(proposition)}" for proposition, _ in block.propositions)

    put(model.root)
    return "".join(line + "\n" for line in lines)
