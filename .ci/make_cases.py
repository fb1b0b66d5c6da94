"""Rows of the end-to-end table on `make` and `bench`: the model of a seed, how it is solved, and drawn seeds."""

import concurrent.futures
import random

from case import CLOSED, FULL, GONE, Case
from reference import answer
from reference.enumeration import optimum
from reference.texts import read_model

ROUTES = ("bigm", "hull", "hybrid", "logic")
DRAWN_MADE, DRAWN_BENCHES = 40, 40
MADE = b"""gdp 1
var x0 real 0 5
var n0 int 0 5
max 4 x0 + 3 n0
disjunction xor
disjunct a0
row 1 x0 + 2 n0 <= 11
end
disjunct b0
row 1 x0 + 1 n0 <= 4
end
end
logic atleast(1, a0)
"""
GREATEST = str(2**64 - 1)
NUMBERS = ["", "-1", "+1", "1.0", "1/1", "1e1", " 1", "1 ", "one", "0x1", "\u0661", "9" * 400, "1" + "0" * 400]
SEEDS, SIZES, STEPS = [str(2**64), "0" + str(2**64)], ["0", "00", "21", "021", "100"], ["0", "1000001"]


def benched(seed, size, route, last, steps="100000"):
    status = 3 if last == "gave up" else 0
    return Case(f"bench: {route} {steps} {seed} {size}", ["bench", route, steps, seed, size], {}, status, f"seed {int(seed)} size {int(size)}\nroute {route}\n{last}\n".encode())


def words():
    """Words of no form, of which nothing is written."""
    table = [["make"], ["make", "0"], ["make", "0", "1", "1"], ["Make", "0", "1"], ["make ", "0", "1"], ["make", "bigm", "0", "1"]]
    table += [["make", seed, "1"] for seed in NUMBERS + SEEDS] + [["make", "0", size] for size in NUMBERS + SIZES]
    table += [["bench"], ["bench", "bigm"], ["bench", "bigm", "9"], ["bench", "bigm", "9", "0"], ["bench", "bigm", "9", "0", "1", "1"], ["bench", "9", "bigm", "0", "1"]]
    table += [["bench", route, "9", "0", "1"] for route in ("", "lp", "simplex", "Logic", "bigm ", "BIGM")] + [["BENCH", "bigm", "9", "0", "1"]]
    table += [["bench", "bigm", steps, "0", "1"] for steps in NUMBERS + STEPS] + [["bench", "bigm", "9", seed, "1"] for seed in NUMBERS + SEEDS]
    table += [["bench", "bigm", "9", "0", size] for size in NUMBERS + SIZES]
    return [Case(f"words: {str(line):.70}", line, {}, 7, err=b"words refused\n") for line in table]


def commands():
    """The numbers among the words, and streams."""
    def made(seed, size, as_seed, as_size):
        return Case(f"make: {seed:.30} {size:.12}", ["make", seed, size], {}, *answer(["make", as_seed, as_size], {}))

    make, bench = ["make", "0", "1"], ["bench", "bigm", "100", "0", "1"]
    return [
        Case("make: 0 1", make, {}, 0, MADE),
        Case("make: 00 01", ["make", "00", "0" * 400 + "1"], {}, 0, MADE),
        Case("make: a seed counts modulo 2^31", ["make", str(5 * 2**31), "1"], {}, 0, MADE),
        made(GREATEST, "20", str(2**31 - 1), "20"),
        made("000" + GREATEST, "0020", GREATEST, "20"),
        made(str(2**31), "7", "0", "7"),
        made(str(2**63), "3", "0", "3"),
        Case("make: what is made is canonical", ["format", "M"], {"M": answer(["make", "7", "20"], {})[1]}, 0, answer(["make", "7", "20"], {})[1]),
        Case("make: out closed", make, {}, 6, CLOSED, b"write fault\n"),
        Case("make: out: a full device", make, {}, 6, FULL, b"write fault\n"),
        Case("make: out: nobody reads", make, {}, 6, GONE, b"write fault\n"),
        Case("bench: out closed", bench, {}, 6, CLOSED, b"write fault\n"),
        Case("bench: out: a full device", bench, {}, 6, FULL, b"write fault\n"),
        Case("bench: out: a full device, where it gave up", ["bench", "bigm", "1", "0", "1"], {}, 6, FULL, b"write fault\n"),
    ]


def benches():
    """What is said at the end, by hand."""
    rows = [benched("0", "1", route, "best 29") for route in ROUTES]
    rows += [benched("000", "01", route, "best 29", "0100000") for route in ROUTES]
    rows += [benched("0", "1", route, "gave up", "1") for route in ROUTES]
    return rows + [benched("7", "6", "logic", "best 301/2", "1000000"), benched("7", "6", "logic", "best 301/2", "1000000"), benched("07", "006", "logic", "gave up", "10")]


def reckoned(words):
    """What `bench` says; an optimum must be that which trying every setting gives."""
    told = answer(words, {})
    best = optimum(read_model(answer(["make", *words[3:]], {})[1]))
    assert told[0] == 3 or best is None or told[1].split(b"\n")[2].decode() == f"best {best[1]}", f"{words}: {told[1]}, and {best} was reckoned"
    return told


def drawn():
    """Seeds drawn by chance, always the same."""
    draw, rows = random.Random(19), []
    for _ in range(DRAWN_MADE):
        words = ["make", str(draw.randrange(2 ** draw.choice([8, 31, 64]))), str(draw.randint(1, 20))]
        rows.append(Case(f"make: drawn {words[1]} {words[2]}", words, {}, *answer(words, {}), is_long=True))
    lines = []
    for _ in range(DRAWN_BENCHES):
        seed, size = str(draw.randrange(2 ** draw.choice([8, 31, 64]))), str(draw.choice([1, 1, 2, 2, 2, 3]))
        lines.append(["bench", draw.choice(ROUTES), str(draw.choice([3, 30, 300])), seed, size])
    with concurrent.futures.ProcessPoolExecutor() as pool:
        told = list(pool.map(reckoned, lines, chunksize=4))
    return rows + [Case(f"bench: drawn {' '.join(line[1:])}", line, {}, *answered, is_long=True) for line, answered in zip(lines, told)]


def make_rows():
    """The rows whose answers are written by hand."""
    return words() + commands() + benches()
