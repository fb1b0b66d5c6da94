"""Rows of the end-to-end table on `compile`: what is written by hand, and models drawn by chance."""

import re

from case import CLOSED, FULL, GONE, MODEL, Case
from drawn_models import drawn_models
from full_model import full_model
from reference import answer
from reference.enumeration import optimum
from reference.texts import read_model

CHOICES = ("bigm", "hull", "hybrid")
DRAWN = 210

PLAN = b"""gdp 1
var x real 0 10
var n int 0 5
min 3 x + 2 n
row x + n >= 4
disjunction xor
disjunct a
row x >= 3
end
disjunct b
row n >= 3
end
end
"""
PLAN_TEXT = b"""\\ x0 x
\\ x1 n
\\ x2 a
\\ x3 b
Minimize
 obj:
 + 3 x0
 + 2 x1
 + 0 x2
 + 0 x3
Subject To
 r0:
 + 1 x0
 <= 10
 r1:
 + 1 x1
 <= 5
 r2:
 + 1 x2
 <= 1
 r3:
 + 1 x3
 <= 1
 r4:
 + 1 x0
 + 1 x1
 >= 4
 r5:
 + 1 x2
 + 1 x3
 = 1
 r6:
 - 1 x0
 + 3 x2
 <= 0
 r7:
 - 1 x1
 + 3 x3
 <= 0
Generals
 x1
 x2
 x3
End
"""
# One variable whose high bound is missing, in the row of a disjunct on line 6.
OPEN = b"gdp 1\nvar x real 0 inf\nmax x\ndisjunction xor\ndisjunct a\nrow x <= 3\nend\nend\n"
# A choice with two choices below it, of which the hull leaves x to a column of its own where the first isn't taken.
NESTED = b"""gdp 1
var x real 0 10
max x
disjunction or
disjunct a
disjunction xor
disjunct c
row x <= 4
end
disjunct d
row 2 x <= 3
end
end
end
disjunct b
row x <= 7
end
end
"""
LOGIC = b"gdp 1\nvar x real 0 1\nboolean p\nboolean q\n"


def text_of(names, goal, rows, free=(), whole=()):
    """The LP text with these names, a goal ("min" or "max", and a number for each column), rows as lines, and columns."""
    sense, numbers = goal
    lines = [f"\\ x{at} {name}" for at, name in enumerate(names.split())]
    lines += ["Minimize" if sense == "min" else "Maximize", " obj:"]
    lines += [f" {'-' if c < 0 else '+'} {abs(c)} x{at}" for at, c in enumerate(numbers)] + ["Subject To"]
    for at, row in enumerate(rows):
        terms, end = re.fullmatch(r"((?:[-+] [0-9]+ x[0-9]+ )+)([<>]?= -?[0-9]+)", row).groups()
        lines += [f" r{at}:", *(" " + term for term in re.findall(r"[-+] [0-9]+ x[0-9]+", terms)), " " + end]
    lines += ["Bounds", *(f" x{at} free" for at in free)] if free else []
    lines += ["Generals", *(f" x{at}" for at in whole)] if whole else []
    return ("\n".join(lines) + "\nEnd\n").encode()


def compiled(name, choice, model, out):
    return Case(f"compile: {name}, {choice}", ["compile", choice, "M"], {"M": model}, 0, out)


def refused(name, choice, model, line):
    return Case(f"compile: {name}, {choice}", ["compile", choice, "M"], {"M": model}, 4, err=line.encode() + b"\n")


def connectives():
    """Each connective over two Booleans, which stand at x1 and x2; what it emits, and the row that says that it is true."""
    one = ["+ 1 x3 <= 1"]
    both = one + ["- 1 x1 + 1 x3 <= 0", "- 1 x2 + 1 x3 <= 0", "+ 1 x1 + 1 x2 - 1 x3 <= 1"]
    either = one + ["+ 1 x1 - 1 x3 <= 0", "+ 1 x2 - 1 x3 <= 0", "- 1 x1 - 1 x2 + 1 x3 <= 0"]
    implied = one + ["- 1 x1 - 1 x3 <= -1", "+ 1 x2 - 1 x3 <= 0", "+ 1 x1 - 1 x2 + 1 x3 <= 1"]
    same = one + ["+ 1 x1 - 1 x2 + 1 x3 <= 1", "- 1 x1 + 1 x2 + 1 x3 <= 1", "+ 1 x1 + 1 x2 - 1 x3 <= 1", "- 1 x1 - 1 x2 - 1 x3 <= -1"]
    none_needed = one + ["- 1 x1 - 1 x2 <= 0", "+ 1 x1 + 1 x2 - 3 x3 <= -1"]
    one_needed = one + ["- 1 x1 - 1 x2 + 1 x3 <= 0", "+ 1 x1 + 1 x2 - 2 x3 <= 0"]
    two_needed = one + ["- 1 x1 - 1 x2 + 2 x3 <= 0", "+ 1 x1 + 1 x2 - 1 x3 <= 1"]
    three_needed = one + ["- 1 x1 - 1 x2 + 3 x3 <= 0", "+ 1 x1 + 1 x2 <= 2"]
    two_more = [row.replace("x3", "x4") for row in two_needed]
    exactly_one = one_needed + two_more + ["+ 1 x5 <= 1", "- 1 x3 + 1 x5 <= 0", "+ 1 x4 + 1 x5 <= 1", "+ 1 x3 - 1 x4 - 1 x5 <= 0"]
    table = [
        ("p", [], "+ 1 x1 >= 1"),
        ("not(p)", [], "+ 1 x1 <= 0"),
        ("not(not(q))", [], "+ 1 x2 >= 1"),
        ("and(p, q)", both, "+ 1 x3 >= 1"),
        ("not(and(p, q))", both, "+ 1 x3 <= 0"),
        ("or(p, q)", either, "+ 1 x3 >= 1"),
        ("implies(p, q)", implied, "+ 1 x3 >= 1"),
        ("or(not(p), q)", implied, "+ 1 x3 >= 1"),
        ("equivalent(p, q)", same, "+ 1 x3 >= 1"),
        ("xor(p, q)", same, "+ 1 x3 <= 0"),
        ("atleast(0, p, q)", none_needed, "+ 1 x3 >= 1"),
        ("atleast(1, p, q)", one_needed, "+ 1 x3 >= 1"),
        ("atleast(2, p, q)", two_needed, "+ 1 x3 >= 1"),
        ("atleast(3, p, q)", three_needed, "+ 1 x3 >= 1"),
        ("atmost(0, p, q)", one_needed, "+ 1 x3 <= 0"),
        ("atmost(1, p, q)", two_needed, "+ 1 x3 <= 0"),
        ("atmost(2, p, q)", three_needed, "+ 1 x3 <= 0"),
        ("exactly(1, p, q)", exactly_one, "+ 1 x5 >= 1"),
        ("and(p)", one + ["- 1 x1 + 1 x3 <= 0", "+ 1 x1 - 1 x3 <= 0"], "+ 1 x3 >= 1"),
        ("and(p, p)", one + ["- 1 x1 + 1 x3 <= 0"] * 2 + ["+ 2 x1 - 1 x3 <= 1"], "+ 1 x3 >= 1"),
        ("or(p, not(p))", one + ["+ 1 x1 - 1 x3 <= 0", "- 1 x1 - 1 x3 <= -1", "+ 1 x3 <= 1"], "+ 1 x3 >= 1"),
    ]
    rows = []
    for proposition, emitted, last in table:
        columns = 1 + max([2] + [int(at) for row in emitted for at in re.findall(r"x([0-9]+)", row)])
        listed = ["+ 1 x0 <= 1", "+ 1 x1 <= 1", "+ 1 x2 <= 1", *emitted, last]
        out = text_of("x p q", ("min", [0] * columns), listed, whole=range(1, columns))
        rows += [compiled(proposition, choice, LOGIC + b"logic " + proposition.encode() + b"\n", out) for choice in CHOICES]
    return rows


def programs():
    """Models whose program was written by hand."""
    box = OPEN.replace(b"max x\n", b"var z real 0 inf\nmax x\nrow x + z <= 8\n")
    rows = [compiled("a plan", "bigm", PLAN, PLAN_TEXT)]
    rows.append(compiled("a bound that a row gives", "bigm", box, text_of("x z a", ("max", [1, 0, 0]), ["+ 1 x2 <= 1", "+ 1 x0 + 1 x1 <= 8", "+ 1 x2 = 1", "+ 1 x0 + 5 x2 <= 8"], whole=[2])))
    crossed = b"gdp 1\nvar v real 0 10\nvar u real 0 10\nrow v <= 3\nrow v >= 5\nrow u >= 6\nrow v - u >= 0\ndisjunction xor\ndisjunct a\nrow v >= 1\nend\nend\n"
    listed = ["+ 1 x0 <= 10", "+ 1 x1 <= 10", "+ 1 x2 <= 1", "+ 1 x0 <= 3", "+ 1 x0 >= 5", "+ 1 x1 >= 6", "+ 1 x0 - 1 x1 >= 0", "+ 1 x2 = 1"]
    rows.append(compiled("bounds that cross in each round", "bigm", crossed, text_of("v u a", ("min", [0] * 3), [*listed, "- 1 x0 + 1 x2 <= 0"], whole=[2])))
    low = b"gdp 1\nvar x real -5 5\nmin x\ndisjunction xor\ndisjunct a\nrow x >= -2\nend\ndisjunct b\nrow x >= -4\nend\nend\n"
    head = ["+ 1 x0 >= -5", "+ 1 x0 <= 5", "+ 1 x1 <= 1", "+ 1 x2 <= 1", "+ 1 x1 + 1 x2 = 1"]
    copies = ["+ 5 x1 + 1 x3 >= 0", "- 5 x1 + 1 x3 <= 0", "+ 5 x2 + 1 x4 >= 0", "- 5 x2 + 1 x4 <= 0", "+ 1 x0 - 1 x3 - 1 x4 = 0"]
    hulled = text_of("x a b", ("min", [1, 0, 0, 0, 0]), head + copies + ["+ 2 x1 + 1 x3 >= 0", "+ 4 x2 + 1 x4 >= 0"], free=[0, 3, 4], whole=[1, 2])
    rows += [compiled("copies of a variable with a low bound", choice, low, hulled) for choice in ("hull", "hybrid")]
    rows.append(compiled("a low bound", "bigm", low, text_of("x a b", ("min", [1, 0, 0]), head + ["- 1 x0 + 3 x1 <= 5", "- 1 x0 + 1 x2 <= 5"], free=[0], whole=[1, 2])))
    head = ["+ 1 x0 <= 10", "+ 1 x1 <= 1", "+ 1 x2 <= 1", "+ 1 x3 <= 1", "+ 1 x4 <= 1", "+ 1 x1 + 1 x4 >= 1", "- 1 x1 + 1 x2 + 1 x3 = 0"]
    rest = ["- 10 x2 + 1 x5 <= 0", "- 10 x3 + 1 x6 <= 0", "+ 10 x1 + 1 x7 <= 10", "+ 1 x0 - 1 x5 - 1 x6 - 1 x7 = 0", "- 4 x2 + 1 x5 <= 0", "- 3 x3 + 2 x6 <= 0"]
    hulled = text_of("x a c d b", ("max", [1, 0, 0, 0, 0, 0, 0, 0]), head + rest + ["+ 1 x0 + 3 x4 <= 10"], whole=[1, 2, 3, 4])
    rows += [compiled("a hull below a big-M", choice, NESTED, hulled) for choice in ("hull", "hybrid")]
    relaxed = ["+ 1 x0 + 6 x2 <= 10", "+ 2 x0 + 17 x3 <= 20", "+ 1 x0 + 3 x4 <= 10"]
    rows.append(compiled("a choice below a choice", "bigm", NESTED, text_of("x a c d b", ("max", [1, 0, 0, 0, 0]), head + relaxed, whole=[1, 2, 3, 4])))
    below = NESTED.replace(b"or\ndisjunct a", b"xor\ndisjunct a").replace(b"xor\ndisjunct c", b"or\ndisjunct c")
    head = [*head[:5], "+ 1 x1 + 1 x4 = 1", "- 1 x1 + 1 x2 + 1 x3 >= 0", "- 1 x1 + 1 x2 <= 0", "- 1 x1 + 1 x3 <= 0"]
    rows.append(compiled("an or below an xor", "bigm", below, text_of("x a c d b", ("max", [1, 0, 0, 0, 0]), head + relaxed, whole=[1, 2, 3, 4])))
    goal = b"gdp 1\nvar n int 1/3 7/2\nvar z real -inf 0\nmax 1/2 n - z + 1/3\n"
    listed = ["+ 3 x0 >= 1", "+ 2 x0 <= 7", "+ 1 x1 <= 0", "- 3 x0 + 6 x1 + 6 x2 = 2"]
    rows.append(compiled("a goal with a factor and a constant", "bigm", goal, text_of("n z", ("max", [0, 0, 1]), listed, free=[0, 1, 2], whole=[0])))
    rows.append(compiled("no goal, no rows", "hull", b"gdp 1\nvar x real 0 inf\n", text_of("x", ("min", [0]), [])))
    rows.append(compiled("a goal of a number alone", "bigm", b"gdp 1\nvar x real 0 inf\nmax 7\n", text_of("x", ("max", [0, 1]), ["+ 1 x1 = 7"], free=[1])))
    rows.append(compiled("an empty sum", "bigm", b"gdp 1\nvar x real 0 inf\nrow 0 >= -3\n", text_of("x", ("min", [0]), ["+ 0 x0 >= -3"])))
    logic = LOGIC + b"disjunction xor\ndisjunct a\nlogic q\nlogic not(q)\nlogic a\nlogic not(a)\nend\nend\n"
    listed = ["+ 1 x0 <= 1", "+ 1 x1 <= 1", "+ 1 x2 <= 1", "+ 1 x3 <= 1", "+ 1 x3 = 1", "- 1 x2 + 1 x3 <= 0", "+ 1 x2 + 1 x3 <= 1", "+ 0 x0 <= 0", "+ 2 x3 <= 1"]
    rows += [compiled("logic in a disjunct", choice, logic, text_of("x p q a", ("min", [0] * 4), listed, whole=[1, 2, 3])) for choice in CHOICES]
    equal = PLAN.replace(b"row n >= 3", b"row 2 x - n = 3")
    text = PLAN_TEXT.replace(b" r7:\n - 1 x1\n + 3 x3\n <= 0\n", b" r7:\n + 2 x0\n - 1 x1\n + 17 x3\n <= 20\n r8:\n - 2 x0\n + 1 x1\n + 8 x3\n <= 5\n")
    return rows + [compiled("an equality", "bigm", equal, text)]


def chain(last):
    """Ten variables, each at most the one before: each round bounds one more. The row of a choice has the last one named."""
    variables = b"".join(b"var v%d real 0 inf\n" % k for k in range(10))
    rows = b"row v0 <= 1\n" + b"".join(b"row v%d - v%d <= 0\n" % (k, k - 1) for k in range(1, 10))
    return b"gdp 1\n" + variables + rows + b"disjunction xor\ndisjunct a\nrow v%d <= 0\nend\nend\n" % last


def limits(variables, booleans=200, rows=1000):
    """A model whose program has a row for each variable, three for each Boolean and two for each row."""
    head = b"gdp 1\n" + b"".join(b"var v%d real 0 1\n" % k for k in range(variables))
    return head + b"var z real 0 inf\n" + b"".join(b"boolean b%d\n" % k for k in range(booleans)) + b"row v0 = 1\n" * rows


def refusals():
    """The first refusal, by each choice."""
    wide = b"gdp 1\nvar x real 0 1000000000000000\nmin x\ndisjunction xor\ndisjunct a\nrow %s\nend\nend\n"
    low = OPEN.replace(b"0 inf", b"-inf 5")
    two = OPEN.replace(b"end\nend\n", b"row x <= 9\nend\ndisjunct b\nrow x >= 1\nend\nend\n")
    both = b"gdp 1\nvar x real 0 1000000000000000\nvar z real 0 inf\ndisjunction xor\ndisjunct a\n%send\nend\n"
    many, open_choice = limits(400), b"disjunction xor\ndisjunct a\nrow z <= 1\nend\nend\n"
    rows = [
        refused("no bound", "bigm", OPEN, "no bound at line 6 for x"),
        refused("no bound", "hull", OPEN, "no bound at line 4 for x"),
        refused("no bound, so by big-M", "hybrid", OPEN, "no bound at line 6 for x"),
        refused("of two rows the first", "bigm", two, "no bound at line 6 for x"),
        refused("no low bound", "bigm", low.replace(b"<= 3", b">= 3"), "no bound at line 6 for x"),
        refused("no low bound for the second half of an equality", "bigm", low.replace(b"<= 3", b"= 3"), "no bound at line 6 for x"),
        refused("a number past the limit", "bigm", wide % b"2 x <= 1", "too wide at line 6"),
        refused("one past the limit", "bigm", wide % b"x <= -1", "too wide at line 6"),
        refused("too wide before no bound", "bigm", both % b"row 2 x <= 1\nrow z <= 1\n", "too wide at line 6"),
        refused("no bound before too wide", "bigm", both % b"row z <= 1\nrow 2 x <= 1\n", "no bound at line 6 for z"),
        refused("no bound before too wide in one row", "bigm", both % b"row 2 x + z <= 1\n", "no bound at line 6 for z"),
        refused("the first variable without a bound", "bigm", b"gdp 1\nvar x real 0 inf\nvar z real 0 inf\ndisjunction xor\ndisjunct a\nrow z + x <= 1\nend\nend\n", "no bound at line 6 for x"),
        refused("the ninth round is not made", "bigm", chain(8), "no bound at line 24 for v8"),
        refused("rows past the limit", "bigm", limits(401), "too big"),
        refused("rows of a Boolean's column past the limit", "bigm", limits(399) + b"logic and(b0)\n", "too big"),
        refused("too big before no bound", "bigm", limits(401, 199, 999) + b"logic and(b0)\n" + open_choice, "too big"),
        refused("no bound before too big", "bigm", limits(400, 199, 999) + open_choice, "no bound at line 1603 for z"),
        refused("a selection past the limit", "hull", limits(401, 199, 999) + open_choice, "too big"),
    ]
    edge = "+ 1 x1 <= 1", "+ 1 x1 = 1", "+ 1 x0 + 1000000000000000 x1 <= 1000000000000000"
    text = text_of("x a", ("min", [1, 0]), ["+ 1 x0 <= 1000000000000000", *edge], whole=[1])
    rows.append(compiled("at the limit of numbers", "bigm", wide % b"x <= 0", text))
    head = [*(f"+ 1 x{at} <= 1" for at in range(601) if at != 400), *["+ 1 x0 = 1"] * 1000]
    names = " ".join([*(f"v{at}" for at in range(400)), "z", *(f"b{at}" for at in range(200))])
    rows.append(compiled("at the limit of rows", "bigm", many, text_of(names, ("min", [0] * 601), head, whole=range(401, 601))))
    return rows


def hybrids():
    """The hybrid takes the hull where variables times disjuncts are twelve, and big-M where they are more."""
    rows = []
    for variables, disjuncts, choice in ((6, 2, "hull"), (4, 3, "hull"), (12, 1, "hull"), (7, 2, "bigm"), (5, 3, "bigm"), (13, 1, "bigm"), (1, 12, "hull"), (1, 13, "bigm")):
        names = [f"v{at}" for at in range(variables)]
        head = "gdp 1\n" + "".join(f"var {name} real 0 9\n" for name in names) + "disjunction xor\n"
        blocks = [f"disjunct d{at}\nrow {' + '.join(names)} <= {at + 3}\nend\n" for at in range(disjuncts)]
        model = (head + "".join(blocks) + "end\n").encode()
        rows.append(compiled(f"{variables} variables and {disjuncts} disjuncts", "hybrid", model, answer(["compile", choice, "M"], {"M": model})[1]))
    return rows


def commands():
    """Words, reads, texts and streams of `compile`."""
    files, model = {"M": MODEL, "P": OPEN}, {"M": PLAN}
    table = [["compile"], ["compile", "bigm"], ["compile", "M"], ["compile", "M", "bigm"], ["compile", "logic", "M"], ["compile", "bigm", "M", "M"]]
    table += [["compile", "BigM", "M"], ["compile", "big-M", "M"], ["compile", "", "M"], ["Compile", "bigm", "M"], ["bigm", "M"], ["compile", "hull ", "M"]]
    rows = [Case(f"compile: words: {line}", line, files, 7, err=b"words refused\n") for line in table]
    many, largest = limits(400), full_model(is_compiled=True)[0]
    reckoned = answer(["compile", "bigm", "M"], {"M": largest})[1]
    rows += [
        Case("size: the largest model that compiles", ["compile", "bigm", "M"], {"M": largest}, 0, reckoned, is_long=True),
        Case("memory: too little for the program", ["compile", "bigm", "M"], {"M": largest}, 8, err=b"out of memory\n", room=24 * 2**20, is_long=True),
        Case("size: the full model, compiled", ["compile", "hull", "M"], {"M": full_model()[0]}, 4, err=b"too big\n", is_long=True),
        Case("compile: no model", ["compile", "bigm", "N"], files, 5, err=b"read fault: N\n"),
        Case("compile: a folder", ["compile", "hull", "M"], {"M": None}, 5, err=b"read fault: M\n"),
        Case("compile: the empty text", ["compile", "hybrid", "M"], {"M": b""}, 2, err=b"M: line 1: Header\n"),
        Case("compile: a bad line", ["compile", "bigm", "M"], {"M": PLAN + b"end\n"}, 2, err=b"M: line 14: Form\n"),
        Case("compile: too long", ["compile", "bigm", "M"], {"M": b"#" * 9_000_000}, 2, err=b"M: too long\n", is_long=True),
        Case("compile: a model named like a choice", ["compile", "bigm", "hull"], {"hull": PLAN}, 0, PLAN_TEXT),
        Case("compile: from standard input", ["compile", "bigm", "/dev/stdin"], {}, 0, PLAN_TEXT, stdin=[PLAN[:40], PLAN[40:]]),
        Case("compile: err closed", ["compile", "bigm", "P"], files, 4, err=CLOSED),
        Case("compile: out closed, but nothing goes there", ["compile", "bigm", "P"], files, 4, CLOSED, b"no bound at line 6 for x\n"),
        Case("compile: out closed", ["compile", "bigm", "M"], model, 6, CLOSED, b"write fault\n"),
        Case("compile: out: nobody reads", ["compile", "bigm", "M"], {"M": many}, 6, GONE, b"write fault\n"),
    ]
    return rows + [Case("compile: out: a full device", ["compile", "bigm", "M"], model, 6, FULL, b"write fault\n")]


def drawn():
    """Models drawn by chance, by each choice, with the answer reckoned a second way."""
    rows = []
    for at, model in enumerate(drawn_models(DRAWN)):
        for choice in CHOICES:
            words = ["compile", choice, "M"]
            rows.append(Case(f"compile: drawn {at}, {choice}", words, {"M": model}, *answer(words, {"M": model})))
    return rows


def examples(root):
    """Each example by each choice, and the text that the manual shows."""
    shown = re.search(rb"```lp\n(.*?)```", (root / "docs" / "FORMATS.md").read_bytes(), re.DOTALL)[1]
    rows = [Case("the manual's LP text", ["compile", "bigm", str(root / "examples" / "courier.gdp")], {}, 0, shown)]
    for path in sorted((root / "examples").glob("*.gdp")):
        for choice in CHOICES:
            told = answer(["compile", choice, "M"], {"M": path.read_bytes()})
            rows.append(Case(f"example: {path.stem} compiled, {choice}", ["compile", choice, str(path)], {}, *told))
    return rows


def lp_texts(table):
    """The names and the LP texts of a table's rows; but glpsol wants a row at least in each text."""
    rows = [case for case in table if case.words[:1] == ["compile"] and case.status == 0 and isinstance(case.out, bytes) and not case.is_long]
    return [(case.name, case.out) for case in rows if b"\n r0:\n" in case.out]


def optima():
    """LP texts of drawn models with the optimum that trying every setting of them gives."""
    for at, model in enumerate(drawn_models(DRAWN)):
        found = optimum(read_model(model)) if at % 7 == 0 else None
        for choice in CHOICES if found else ():
            status, out, _ = answer(["compile", choice, "M"], {"M": model})
            if status == 0:
                yield f"compile: drawn {at}, {choice}", out, found


def compile_rows():
    """The rows whose answers are written by hand."""
    rows = connectives() + programs() + refusals() + commands()
    rows.append(compiled("eight rounds are made", "bigm", chain(7), answer(["compile", "bigm", "M"], {"M": chain(7)})[1]))
    return rows + hybrids()
