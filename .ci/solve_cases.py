"""Rows of the end-to-end table on `solve` and `check`: answers written by hand, models drawn by chance, and spoilt answers."""

import collections
import concurrent.futures
import itertools
import random
import re
from fractions import Fraction

import certificate_cases
from case import CLOSED, FULL, GONE, MODEL, Case
from certificate_cases import ANSWER, ENDLESS, ENDLESS_ANSWER, OPEN, OPEN_ANSWER
from compile_cases import NESTED, PLAN, limits
from drawn_models import drawn_models
from full_model import full_model, point
from reference import answer
from reference.enumeration import optimum
from reference.rewriting import compiled
from reference.search import PickedSearch, ProgramNodes
from reference.texts import read_model

ROUTES = ("bigm", "hull", "hybrid", "logic")
DRAWN = 230
STEPS = "200"
# So many of the drawn models are at least answered, with the value that trying every setting gives.
CONFIRMED = 200
SMALL = certificate_cases.MODEL
TWO = certificate_cases.EMPTY
LOW = b"gdp 1\nvar x real -5 5\nmin x\ndisjunction xor\ndisjunct a\nrow x >= -2\nend\ndisjunct b\nrow x >= -4\nend\nend\n"
BOX = OPEN.replace(b"max x\n", b"max x\nvar z real 0 inf\nrow x + z <= 8\n")
THIRDS = b"gdp 1\nvar n int 1/3 2/3\n"
PARITY = b"gdp 1\nvar n int 0 inf\nvar m int 0 inf\nrow 2 n - 2 m = 1\nmax n\n"
WIDE = b"gdp 1\nvar x real 0 inf\nvar y real 0 inf\nmax x + y\nrow 999999999999999 x + 3 y <= 999999999999999\nrow 999999999999998 x + 999999999999997 y <= 1000000000000000\n"
FEED = b"""gdp 1
var f real 0 100
var p real 0 80
var c real 0 500
max 5 p - 2 f - c
row p <= 48
disjunction xor
disjunct r1
row p - 3/5 f = 0
row c = 10
end
disjunct r2
row p - 4/5 f = 0
row c = 40
end
end
"""
# The moves over PARITY, until fifty steps are taken.
FIFTY = """open root | move 4 3 | move 0 2 | move 2 4 | open 0 1 | move 5 3 | move 0 4 | open 0 2 | move 5 3 | move 0 4 | move 1 2 | move 2 5
| open 2 1 | move 6 3 | move 0 4 | move 1 5 | move 3 2 | open 2 2 | move 6 3 | move 0 4 | move 1 5 | move 4 2 | move 2 6 | open 4 1
| move 7 3 | move 0 4 | move 1 6 | move 4 5 | open 4 2 | move 6 4 | move 0 2 | move 1 3 | move 2 6 | open 6 1 | move 7 4 | move 0 2
| move 1 6 | open 6 2 | move 6 4 | move 0 5 | move 1 3 | move 4 2 | move 2 6 | open 8 1 | move 7 4 | move 0 6 | move 1 3 | move 4 5
| open 8 2 | move 6 4 | stop steps""".replace("\n", " ")
# A model, a budget, and for some routes the lines below that of the route: of the answer, or of the log that stops.
BY_HAND = [
    ("a plan", PLAN, 100000, "bigm hull hybrid", "best 8 | over 1 | val x 0 | val n 4 | on b | tree | bounded 1 4:2 | end"),
    ("a plan", PLAN, 100000, "logic", "best 8 | over 1 | val x 0 | val n 4 | on b | tree | truth 0 | bounded 1 2:2 3:1 | truth 1 | bounded 1 2:2 | logic 0 | end"),
    ("a plan, one step", PLAN, 1, "bigm hull hybrid logic", "open root | stop steps"),
    ("a plan without a choice", PLAN[: PLAN.index(b"disjunct b")] + b"end\n", 1000, "logic", "best 11 | over 1 | val x 3 | val n 1 | on a | tree | truth 0 | bounded 1 2:2 3:1 | logic 0 | end"),
    ("a whole number", SMALL, 7, "bigm hull hybrid logic", "best 3 | over 1 | val n 3 | tree | int 0 3 | bounded 1 2:1 | refuted 1:1 2:2 | end"),
    ("a whole number, one step too few", SMALL, 6, "bigm hull hybrid logic", "open root | move 0 2 | open 0 1 | move 0 3 | open 0 2 | move 4 3 | stop steps"),
    ("two of an xor", TWO, 100000, "bigm hull hybrid", "empty | tree | refuted 4:1 10:2 13:2 14:1 | end"),
    ("two of an xor", TWO, 5, "logic", "empty | tree | truth 0 | truth 1 | logic 1 | logic 0 | logic 0 | end"),
    ("two of an xor, one step too few", TWO, 4, "logic", "open root | open 0 1 | open 1 1 | open 1 2 | stop steps"),
    ("an endless goal", ENDLESS, 1, "bigm hull hybrid logic", "endless | over 1 | val x 0 | step x 1 | end"),
    ("an endless goal, steps to spare", ENDLESS, 100000, "bigm hull hybrid logic", "endless | over 1 | val x 0 | step x 1 | end"),
    ("no bound", OPEN, 100, "logic", "best 3 | over 1 | val x 3 | on a | tree | truth 0 | bounded 1 0:1 | logic 0 | end"),
    ("a bound that a row gives", BOX, 100000, "bigm", "best 3 | over 1 | val x 3 | val z 0 | on a | tree | bounded 1 3:5 4:1 | end"),
    ("a bound that a row gives", BOX, 100000, "hull hybrid", "best 3 | over 1 | val x 3 | val z 0 | on a | tree | bounded 1 0:3 5:1 7:1 | end"),
    ("a bound that a row gives", BOX, 100000, "logic", "best 3 | over 1 | val x 3 | val z 0 | on a | tree | truth 0 | bounded 1 1:1 | logic 0 | end"),
    ("a choice below a choice", NESTED, 100000, "bigm", "best 7 | over 1 | val x 7 | on b | tree | int 1 0 | bounded 1 5:3 10:1 11:3 | bounded 29 7:102 8:17 9:6 11:102 | end"),
    ("a choice below a choice", NESTED, 100000, "hull hybrid", "best 7 | over 1 | val x 7 | on b | tree | int 1 0 | bounded 1 5:3 15:1 16:3 | bounded 2 2:5 6:3 10:2 11:2 13:2 14:1 16:17 | end"),
    (
        "a choice below a choice", NESTED, 100000, "logic",
        "best 7 | over 1 | val x 7 | on b | tree | truth 0 | truth 1 | bounded 1 1:1 | truth 2 | bounded 2 1:1 | logic 1 | truth 1 | logic 1 | truth 2 | logic 1 | truth 3 | bounded 1 1:1 | logic 0 | end",
    ),
    ("a low bound below 0", LOW, 100000, "bigm", "best -4 | over 1 | val x -4 | on b | tree | int 1 0 | bounded 1 5:1 7:1 8:1 | bounded 1 6:1 8:3 | end"),
    ("a low bound below 0", LOW, 100000, "hull hybrid", "best -4 | over 1 | val x -4 | on b | tree | bounded 1 4:4 11:1 12:1 13:1 | end"),
    ("a low bound below 0", LOW, 100000, "logic", "best -4 | over 1 | val x -4 | on b | tree | truth 0 | bounded 1 2:1 | truth 1 | bounded 1 2:1 | logic 0 | end"),
    ("a feed and a process", FEED, 100000, "bigm", "best 80 | over 1 | val f 60 | val p 48 | val c 40 | on r2 | tree | int 3 0 | bounded 2 5:5 7:320 12:1 15:2 16:320 | bounded 3 5:5 8:2 11:3 16:510 | end"),
    ("a feed and a process", FEED, 100000, "hull hybrid", "best 80 | over 1 | val f 60 | val p 48 | val c 40 | on r2 | tree | bounded 6 5:10 12:5 15:12 16:20 19:6 20:4 23:6 24:3 27:6 | end"),
    ("a feed and a process", FEED, 100000, "logic", "best 80 | over 1 | val f 60 | val p 48 | val c 40 | on r2 | tree | truth 0 | bounded 3 3:5 4:2 7:3 | truth 1 | bounded 2 3:5 4:1 7:2 | logic 0 | end"),
    ("a feed and one process", FEED[: FEED.index(b"disjunct r2")] + b"end\n", 1000, "logic", "best 70 | over 1 | val f 80 | val p 48 | val c 10 | on r1 | tree | truth 0 | bounded 3 3:5 4:2 7:3 | logic 0 | end"),
    ("no whole number between", THIRDS, 100000, "bigm hull hybrid logic", "empty | tree | int 0 0 | refuted 0:1 2:3 | refuted 1:1 2:3 | end"),
    ("odd and even, without bounds", PARITY, 50, "bigm hull hybrid logic", FIFTY),
    ("a wide number", WIDE, 100, "bigm hull hybrid logic", "open root | move 0 2 | stop entry 0 0"),
]
P, Q, R = 999999999999989, 999999999999947, 999999999999883


def stopping(variables, goal, *rows):
    """A model of these variables, none of which is below 0, whose numbers leave 128 bits."""
    lines = ["gdp 1", *(f"var {name} real 0 inf" for name in variables), f"max {goal}", *(f"row {row}" for row in rows)]
    return "".join(line + "\n" for line in lines).encode()


# Models of coprime numbers, and the last line of the log.
STOPS = [
    ("over", stopping("xyz", f"{P} x + {Q} y + {R} z", f"{P} x <= 1", f"{Q} y <= 1", f"{R} z <= 1"), "stop over 2"),
    ("ray", stopping("xyzw", f"{P} x + {Q} y + {R} z + w", f"{P} x - w <= 0", f"{Q} y - w <= 0", f"{R} z - w <= 0"), "stop ray 2"),
    ("leaf", stopping("xy", f"{10**15} x + y", f"{P} x <= 1", f"{Q} y <= 1"), "stop leaf 2 0"),
    ("sum", stopping("xyz", f"{P} x + {Q} y + z", f"{P} x <= 1", f"{Q} y <= 1", "z <= 1", f"{10**15} z >= 1"), "stop sum 9"),
    ("value", stopping("xyz", f"{P} x + {Q} y + {10**15} z", f"{P} x <= 1", f"{Q} y <= 1", "z <= 1"), "stop value"),
    ("raysum", stopping("xyvz", f"{P} x + {Q} y + z", f"{P} x - v <= 0", f"{Q} y - v <= 0", "v - z <= 0", f"{10**15} v - {10**15} z <= 0"), "stop raysum 10"),
]


def text_of(route, lines):
    """The text of an answer or a log, of which the lines below that of the route stand between bars."""
    header = "gdp-log 1" if lines.startswith("open root") else "gdp-answer 1"
    return "".join(line.strip() + "\n" for line in [header, f"route {route}", *lines.split("|")]).encode()


def solved(name, route, steps, model, status, out=b"", err=b"", **more):
    return Case(f"solve: {name}, {route}", ["solve", route, str(steps), "M"], {"M": model}, status, out, err, **more)


def checked(name, model, text, line, **more):
    """A row of `check M A`, with the line that it says."""
    status = {"accepted": 0, "rejected:": 1, "wide:": 3, "no": 4, "too": 4}.get(line.split(" ")[0], 2)
    said = {"err" if status in (2, 4) else "out": line.encode() + b"\n"}
    return Case(f"check: {name}", ["check", "M", "A"], {"M": model, "A": text}, status, **said, **more)


def answers():
    """Answers and logs by hand, each by its routes; and what is said of each answer."""
    rows = []
    for name, model, steps, routes, lines in BY_HAND:
        for route in routes.split():
            text = text_of(route, lines)
            rows.append(solved(name, route, steps, model, 3 if text.startswith(b"gdp-log") else 0, text))
            rows += [checked(f"{name}, {route}", model, text, "accepted")] if rows[-1].status == 0 else []
    for name, model, last in STOPS:
        for route in ROUTES:
            status, out, err = answer(["solve", route, "100", "M"], {"M": model})
            assert (status, err) == (3, b"") and out.endswith(f"\n{last}\n".encode()), f"a wide {name}: {status, out[-60:], err}"
            rows.append(solved(f"a wide {name}", route, 100, model, status, out))
    return rows


def refusals():
    """Models that aren't rewritten, for `solve` and for `check`."""
    wide = b"gdp 1\nvar x real 0 1000000000000000\nmin x\ndisjunction xor\ndisjunct a\nrow 2 x <= 1\nend\nend\n"
    many = limits(401)
    zeros = point([*(f"v{at}" for at in range(401)), "z"], [1, *[0] * 401]).removeprefix(b"gdp-point 1\n").removesuffix(b"end\n")
    table = [
        ("no bound", "bigm", OPEN, "no bound at line 6 for x", b"best 3\nover 1\nval x 3\non a\n"),
        ("no bound", "hull", OPEN, "no bound at line 4 for x", b"best 3\nover 1\nval x 3\non a\n"),
        ("no bound", "hybrid", OPEN, "no bound at line 6 for x", b"best 3\nover 1\nval x 3\non a\n"),
        ("a number past the limit", "bigm", wide, "too wide at line 6", b"best 0\nover 1\nval x 0\non a\n"),
        ("rows past the limit", "hull", many, "too big", b"best 0\n" + zeros),
    ]
    rows = []
    for name, route, model, line, found in table:
        text = b"gdp-answer 1\nroute %s\n%stree\nlogic 0\nend\n" % (route.encode(), found)
        rows += [solved(name, route, 10, model, 4, err=line.encode() + b"\n"), checked(f"{name}, {route}", model, text, line)]
    rows.append(checked("a bad value before no bound", OPEN, OPEN_ANSWER.replace(b"logic\nbest 3", b"bigm\nbest 4"), "rejected: value"))
    rows.append(checked("an endless goal needs no rewrite", OPEN.replace(b"x <= 3", b"x >= 3"), ENDLESS_ANSWER.replace(b"val x 0", b"val x 3\non a"), "accepted"))
    return rows


def words():
    """Words of no form, and numbers of steps."""
    files = {"M": SMALL, "A": ANSWER}
    table = [["solve"], ["solve", "bigm"], ["solve", "bigm", "7"], ["solve", "M"], ["solve", "7", "bigm", "M"], ["solve", "bigm", "7", "M", "M"]]
    table += [["solve", route, "7", "M"] for route in ("simplex", "big-M", "Logic", "", "bigm ", "BIGM")] + [["Solve", "bigm", "7", "M"], ["bigm", "7", "M"]]
    counts = ["", "0", "000", "1000001", "01000001", "10000000", "9" * 400, "18446744073709551623", "-7", "+7", "7.0", "7/1", "1e3", " 7", "7 ", "seven", "0x7", "\u0667"]
    table += [["solve", "bigm", count, "M"] for count in counts]
    table += [["check"], ["check", "M"], ["check", "M", "A", "A"], ["Check", "M", "A"], ["M", "A"], ["check ", "M", "A"]]
    rows = [Case(f"words: {str(line):.60}", line, files, 7, err=b"words refused\n") for line in table]
    for count in ("7", "07", "0" * 400 + "7", "1000000", "0001000000"):
        rows.append(Case(f"solve: steps {count:.12}", ["solve", "bigm", count, "M"], files, 0, ANSWER))
    return rows


def commands():
    """Reads, texts and streams of `solve` and `check`."""
    files, opened = {"M": SMALL, "A": ANSWER}, {"M": OPEN, "A": OPEN_ANSWER}
    solve, check, log = ["solve", "bigm", "7", "M"], ["check", "M", "A"], ["solve", "bigm", "6", "M"]
    largest = full_model(is_compiled=True)[0]
    long = b"#" * 9_000_000
    deep = b"gdp-answer 1\nroute logic\nempty\ntree\n" + b"truth 0\n" * 1_000_000 + b"end\n"

    def fault(name, line, files, of):
        return Case(name, line, files, 5, err=b"read fault: " + of + b"\n")

    return [
        fault("solve: no model", ["solve", "logic", "7", "N"], files, b"N"),
        fault("solve: a folder", solve, {"M": None}, b"M"),
        fault("check: no model", ["check", "N", "A"], files, b"N"),
        fault("check: no answer", ["check", "M", "N"], files, b"N"),
        fault("check: neither", ["check", "N", "B"], files, b"N"),
        fault("check: no answer beside a bad model", check, {"M": b""}, b"A"),
        fault("check: a folder as answer", check, {"M": SMALL, "A": None}, b"A"),
        Case("solve: a bad line", solve, {"M": SMALL + b"end\n"}, 2, err=b"M: line 5: Form\n"),
        Case("solve: the empty text", solve, {"M": b""}, 2, err=b"M: line 1: Header\n"),
        Case("solve: too long", solve, {"M": long}, 2, err=b"M: too long\n", is_long=True),
        Case("check: a bad model before a bad answer", check, {"M": SMALL + b"end\n", "A": b""}, 2, err=b"M: line 5: Form\n"),
        Case("check: a model that is too long, and no answer", check, {"M": long}, 2, err=b"M: too long\n", is_long=True),
        Case("check: a point in place of an answer", check, {"M": SMALL, "A": b"gdp-point 1\nover 1\nval n 3\nend\n"}, 2, err=b"A: line 1: Form\n"),
        Case("check: a million openings", check, {"M": PLAN, "A": deep}, 2, err=b"A: line 1000005: Shape\n", is_long=True),
        Case("solve: a model named like a route", ["solve", "logic", "7", "bigm"], {"bigm": SMALL}, 0, ANSWER.replace(b"bigm", b"logic")),
        Case("solve: from standard input", ["solve", "bigm", "7", "/dev/stdin"], {}, 0, ANSWER, stdin=[SMALL[:9], SMALL[9:]]),
        Case("check: from standard input", ["check", "M", "/dev/stdin"], files, 0, b"accepted\n", stdin=[ANSWER[:30], ANSWER[30:]]),
        Case("solve: err closed", ["solve", "bigm", "7", "M"], opened, 4, err=CLOSED),
        Case("solve: out closed, but nothing goes there", ["solve", "hull", "7", "M"], opened, 4, CLOSED, b"no bound at line 4 for x\n"),
        Case("solve: out closed", solve, files, 6, CLOSED, b"write fault\n"),
        Case("solve: out: a full device", solve, files, 6, FULL, b"write fault\n"),
        Case("solve: out: a full device, for a log", log, files, 6, FULL, b"write fault\n"),
        Case("solve: out: nobody reads", solve, files, 6, GONE, b"write fault\n"),
        Case("check: err closed", check, {"M": SMALL, "A": b""}, 2, err=CLOSED),
        Case("check: out closed", check, files, 6, CLOSED, b"write fault\n"),
        Case("check: out: a full device", check, files, 6, FULL, b"write fault\n"),
        Case("check: out: a full device, rejected", check, {"M": SMALL, "A": ANSWER.replace(b"best 3", b"best 4")}, 6, FULL, b"write fault\n"),
        Case("memory: too little to solve", solve, {"M": largest}, 8, err=b"out of memory\n", room=24 * 2**20, is_long=True),
        Case("memory: too little to check", check, {"M": TWO, "A": deep}, 8, err=b"out of memory\n", room=12 * 2**20, is_long=True),
    ]


def checks():
    """What is said of each answer by hand; the checker's own file names a bad model's line, and the program its cause too."""
    rows = certificate_cases.by_hand()
    table = [checked(name, model, text, line) for name, model, text, line in rows if not name.startswith(certificate_cases.BAD_MODEL)]
    great = 2**127 - 1
    far = b"gdp-answer 1\nroute logic\nendless\nover 1\nval x 0\nstep x %d\nend\n" % great
    table.append(checked("a wide test of a row", b"gdp 1\nvar x real 0 inf\nmin x\nrow 2 x >= 1\n", ENDLESS_ANSWER.replace(b"x 0", b"x %d" % great), "wide: point at line 4"))
    table.append(checked("a wide step", b"gdp 1\nvar x real 0 inf\nmax x\nrow 2 x >= 0\n", far, "wide: ray at line 4"))
    table.append(checked("a wide step in the objective", b"gdp 1\nvar x real 0 inf\nmax 2 x\n", far, "wide: ray at line 3"))
    table.append(checked("a step where there is no objective", b"gdp 1\nvar x real 0 inf\n", ENDLESS_ANSWER, "rejected: ray at line 0"))
    best = b"gdp-answer 1\nroute logic\nbest 1\nover 1\nval x %d\ntree\nbounded 1\nend\n" % great
    table.append(checked("a wide value", b"gdp 1\nvar x real 0 inf\nmin 2 x\n", best, "wide: value"))
    return table


def reckoned(model):
    """What a model answers by each route, and whether there is an answer that trying every setting of the model confirms.

    All answers have the same kind and the same value, and these are the ones that trying every setting gives.
    """
    told = [answer(["solve", route, STEPS, "M"], {"M": model}) for route in ROUTES]
    kinds = {text.split(b"\n")[2].decode() for status, text, _ in told if status == 0}
    assert len(kinds) < 2, f"{model}: the routes answer {kinds}"
    best = optimum(read_model(model))
    if best is None:
        return told, False
    kind = f"best {best[1]}" if best[0] == "best" else best[0]
    assert kinds <= {kind}, f"{model}: {kinds}, and {kind} was reckoned"
    return told, bool(kinds)


def changed(text, kind, draw):
    """An answer's text with one thing changed, or None where nothing of this kind is in it."""
    lines = text.decode().splitlines(keepends=True)
    at = draw.randrange(1, len(lines))
    leaves = [i for i, line in enumerate(lines) if line.startswith(("bounded", "refuted", "logic"))]
    splits = [i for i, line in enumerate(lines) if line.startswith(("int", "truth"))]
    paired = [i for i in leaves if ":" in lines[i]]
    if not {"swap": len({lines[i] for i in leaves}) > 1, "split": splits, "pair": paired}.get(kind, True):
        return None
    if kind == "swap":
        first, second = draw.choice([(i, j) for i in leaves for j in leaves if lines[i] != lines[j]])
        lines[first], lines[second] = lines[second], lines[first]
    elif kind == "split":
        at = draw.choice(splits)
        *before, last = lines[at].split()
        lines[at] = " ".join([*before, str(int(last) + draw.choice([-1, 1]))]) + "\n"
    elif kind == "pair":
        at = draw.choice(paired)
        word, *rest = lines[at].split()
        rest.pop(draw.randrange(len(rest)))
        lines[at] = " ".join([word, *rest]) + "\n"
    elif kind == "move":
        line = lines.pop(at)
        lines.insert(draw.randrange(1, len(lines)), line)
    elif kind == "double":
        lines.insert(at, lines[at])
    elif kind == "drop":
        lines.pop(at)
    elif kind == "route":
        lines[1] = f"route {draw.choice(ROUTES)}\n"
    else:
        whole = "".join(lines[2:])
        place = draw.choice(list(re.finditer(r"(?<![\w.])-?[0-9]+", whole)))
        number = draw.choice([int(place[0]) + 1, int(place[0]) - 1, 2 * int(place[0]), -int(place[0]), 2**127 - 1])
        lines[2:] = [whole[: place.start()], str(number), whole[place.end() :]]
    return "".join(lines).encode()


def drawn():
    """Models drawn by chance by each route, what is said of each answer, and of it spoilt in some of the ways, each over a hundred times."""
    models, rows, draw = list(drawn_models(DRAWN)), [], random.Random(13)
    anywhere, counts = itertools.cycle(("number", "move", "double", "drop", "number", "pair", "route")), collections.Counter()
    with concurrent.futures.ProcessPoolExecutor() as pool:
        told = list(pool.map(reckoned, models, chunksize=4))
    confirmed = sum(is_confirmed for _, is_confirmed in told)
    assert confirmed >= CONFIRMED, f"only {confirmed} of the drawn models are answered and reckoned"
    for at, (model, (by_route, _)) in enumerate(zip(models, told)):
        for route, (status, text, err) in zip(ROUTES, by_route):
            rows.append(solved(f"drawn {at}", route, STEPS, model, status, text, err, is_long=True))
            if status:
                continue
            reckoned_line = answer(["check", "M", "A"], {"M": model, "A": text})
            assert reckoned_line == (0, b"accepted\n", b""), f"drawn {at}, {route}: {reckoned_line}"
            rows.append(checked(f"drawn {at}, {route}", model, text, "accepted", is_long=True))
            for kind in (next(anywhere), next(anywhere), "swap", "split"):
                spoilt = changed(text, kind, draw)
                if spoilt not in (None, text):
                    counts[kind] += 1
                    files = {"M": model, "A": spoilt}
                    rows.append(Case(f"check: {kind} {at}, {route}", ["check", "M", "A"], files, *answer(["check", "M", "A"], files), is_long=True))
    assert len(counts) == 8 and min(counts.values()) > 100, f"spoilt answers: {counts}"
    return rows


def examples(root):
    """The answers and logs that the pages show, of an example or of the model that the page shows above."""
    rows = []
    for page in ("docs/FORMATS.md", "docs/CERTIFICATES.md", "examples/README.md"):
        model, words, named = b"", [], {}
        for at, part in enumerate((root / page).read_text().split("```")):
            block = part.partition("\n")[2]
            model = block.encode() if at % 2 and block.startswith("gdp 1\n") else model
            words = [call.split() for call in re.findall(r"\./gdp (solve \w+ [0-9]+ [\w./]+)", part)][-1:] or words
            if at % 2 and block.startswith(("gdp-answer 1\n", "gdp-log 1\n")) and words:
                (*line, name), status = words.pop(), 3 if block.startswith("gdp-log") else 0
                files = {} if name.startswith("examples/") else {name: named.setdefault(name, model)}
                assert files or model in (b"", (root / name).read_bytes()), f"{page}: {name} is not as shown"
                rows.append(Case(f"{page}: {line} {name}", [*line, name if files else str(root / name)], files, status, block.encode()))
    return rows


def stepped(root):
    """Each example with the steps that the examples' README says are needed, and, where these are few, with one less.

    The answers are checked, and the best values are those that trying every setting gives.
    """
    jobs, optima = [], {}
    page = (root / "examples" / "README.md").read_text()
    for name, best, *counts in re.findall(r"^\| `(\w+\.gdp)` \| (\S+)" + r" \| (\d*)" * 4 + r" \|$", page, re.MULTILINE):
        optima[str(root / "examples" / name)] = ("best", Fraction(best))
        for route, count in zip(("logic", "hybrid", "hull", "bigm"), counts):
            words = ["solve", route, count, str(root / "examples" / name)]
            jobs += [(words, (0, "best " + best))] if count else []
            jobs += [([*words[:2], str(int(count) - 1), words[3]], (3, "stop steps"))] if count and int(count) < 100 else []
    assert len(optima) == len(list((root / "examples").glob("*.gdp"))), "an example without its steps"
    with concurrent.futures.ProcessPoolExecutor() as pool:
        found = pool.map(example_optimum, optima)
        told = list(pool.map(example_answer, [words for words, _ in jobs]))
        assert list(found) == list(optima.values()), "an example has another optimum"
    rows = []
    for (words, (wanted, line)), (status, text, err) in zip(jobs, told):
        assert status == wanted and line in text.decode().splitlines(), f"{words}: {status}, {text}"
        name = f"example: {words[3].rsplit('/', 1)[1]}, {words[1]} {words[2]}"
        rows.append(Case(name, words, {}, status, text, err))
        if status == 0:
            rows.append(Case(f"{name}, checked", ["check", words[3], "A"], {"A": text}, 0, b"accepted\n"))
    return rows


def example_answer(words):
    with open(words[3], "rb") as file:
        return answer([*words[:3], "M"], {"M": file.read()})


def example_optimum(name):
    with open(name, "rb") as file:
        return optimum(read_model(file.read()))


def check_searches(root):
    """Compares what the searches by picks in the script of `command_player` are to print with a second way of reckoning it."""
    folder = root / "crates" / "command_player"
    lines, said = ((folder / name).read_text().splitlines() for name in ("stdin", "stdout"))
    model, count = b"", 0
    for line, printed in zip(lines, said):
        word, _, rest = line.partition(" ")
        model = rest.replace("\\n", "\n").encode() if word == "model" else model
        if word != "search":
            continue
        steps, *picks = map(int, rest.split())
        search = PickedSearch(ProgramNodes(compiled(read_model(model), "bigm")), steps, picks)
        kind, *value = search.run()
        claim = f"best {value[0].numerator}/{value[0].denominator}, accepted" if value else "empty, accepted" if kind == "empty" else kind
        assert printed == f"{claim}: {' '.join(map(event, search.log))}", f"{line}: {printed}"
        depth, found = answer(["solve", "bigm", str(steps), "M"], {"M": model})[1].decode().split("\n")[2], optimum(read_model(model))
        assert depth == (f"best {value[0]}" if value else kind), f"{line}: {claim}, and in depth order {depth}"
        assert found in (None, (kind, *value)), f"{line}: {claim}, and {found} was reckoned"
        count += 1
    assert count, "no search by picks"


def event(line):
    """A line of a log as the script has it."""
    word, *numbers = line.split()
    if numbers == ["root"]:
        return "root"
    return f"move:{numbers[0]}:{numbers[1]}" if word == "move" else f"{'first' if numbers[1] == '1' else 'second'}:{numbers[0]}"


def solve_rows():
    """The rows whose answers are written by hand."""
    return answers() + refusals() + words() + commands() + checks()
