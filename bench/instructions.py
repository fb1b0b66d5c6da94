#!/usr/bin/env python3
"""Counts instructions, which other work beside it does not scatter: of a step beside an exchange, and where searches spend them.

`instructions.py [TABLE]..` runs the built programs under valgrind, which it needs, and prints four tables, or those that are named.
`beside` has what a step of `solve bigm` takes on plants, and what an exchange of `simplex_bench` takes at the first tableau of the same
program. `parts` has the shares of a search's parts, by the functions that they are. `checks` has `check` beside the `solve hull` of its
answer. `tenths`, which takes a quarter of an hour, has what a step takes in the first and in the last tenth of long searches.
"""

import pathlib
import re
import subprocess
import sys
import tempfile

import plants
import solvers
from runs import PROGRAM, mean, run
from steps import MOVES, SIZES, standard_form

# The plants, and how often the moves over the first tableau are made.
SEEDS = (1, 2, 3)
COUNT = 20
# The searches whose parts are told: route, seed, size, steps.
SEARCHES = [("hull", 1, 20, 300_000), ("bigm", 1, 10, 20_000)]
# The searches whose tenths are compared.
LONG = [("bigm", 1, 15, 300_000), ("logic", 2, 20, 300_000)]
# The parts of a search, by the functions that they are; the search itself is the first.
PARTS = {
    "the whole search": "milp_branching::solving::solve_milp",
    "exchanges and their choice": "settling::working::run_from",
    "standard form and first tableau": "settling::working::first_of",
    "what holds at a node": "milp_forces::force::milp_force",
    "settling: points read, leaves tested": "settling::working::settled",
    "memory given back": "rattle_dealloc",
}


def counted(command: list[str]) -> int:
    """How many instructions a command takes."""
    words = ["valgrind", "--tool=cachegrind", "--cache-sim=no", "--cachegrind-out-file=/dev/null", *command]
    said = subprocess.run(words, capture_output=True, text=True).stderr
    return int(re.search(r"I +refs: +([\d,]+)", said)[1].replace(",", ""))


def beside(folder: pathlib.Path) -> None:
    """The table of a step beside an exchange."""
    model, form = str(folder / "model"), str(folder / "form")
    ratios = []
    print("| size, seed | an exchange, instructions | a step, instructions | over it |")
    print("|---|---|---|---|")
    for size, (steps, _) in SIZES.items():
        for seed in SEEDS:
            pathlib.Path(model).write_text(plants.text(seed, size))
            pathlib.Path(form).write_text(standard_form(run([PROGRAM, "compile", "bigm", model]).out.decode()))
            made = run([MOVES, form, "0"]).out.count(b"\n") - 1
            exchange = (counted([MOVES, form, str(COUNT)]) - counted([MOVES, form, "0"])) / (made * COUNT)
            solve = [PROGRAM, "solve", "bigm"]
            step = (counted([*solve, str(steps), model]) - counted([*solve, "1", model])) / (steps - 1)
            ratios.append(step / exchange)
            print(f"| {size}, {seed} | {exchange:,.0f} | {step:,.0f} | {ratios[-1]:.2f} |", flush=True)
    print(f"| geometric mean | | | {mean(ratios):.2f} |")


def called(profile: pathlib.Path) -> dict[str, int]:
    """What the calls of each part in the search take, all that they call included, and the search itself."""
    words = ["callgrind_annotate", "--tree=calling", "--inclusive=yes", "--threshold=100", str(profile)]
    counts: dict[str, int] = {}
    inside = False
    for line in subprocess.run(words, capture_output=True, text=True).stdout.splitlines():
        found = re.match(r" *([\d,]+) \([^)]*\) +([*>]) +[^ ]*?:((?:\w+::)*\w+)", line)
        if not found:
            inside = False
            continue
        count, kind, name = int(found[1].replace(",", "")), found[2], found[3]
        if kind == "*":
            inside = name == PARTS["the whole search"]
        if inside:
            counts[name] = counts.get(name, 0) + count
    return counts


def parts(folder: pathlib.Path) -> None:
    """The table of a search's parts."""
    model, profile = folder / "model", folder / "profile"
    shares = {name: [] for name in PARTS}
    for route, seed, size, steps in SEARCHES:
        model.write_text(plants.text(seed, size))
        words = ["valgrind", "--tool=callgrind", f"--callgrind-out-file={profile}", PROGRAM, "solve", route, str(steps), str(model)]
        subprocess.run(words, stdout=subprocess.DEVNULL, stderr=subprocess.DEVNULL)
        counts = called(profile)
        for name, function in PARTS.items():
            shares[name].append(counts.get(function, 0))
    heads = "".join(f" | `solve {route}`, size {size}" for route, _, size, _ in SEARCHES)
    print(f"\n| part{heads} |")
    print("|---" * (len(SEARCHES) + 1) + "|")
    wholes = shares["the whole search"]
    for name, counts in shares.items():
        told = [f"{count / 1e6:,.1f} million" if name in list(PARTS)[:1] else f"{count / whole:.1%}" for count, whole in zip(counts, wholes)]
        print(f"| {name} | {' | '.join(told)} |")


def checks(folder: pathlib.Path) -> None:
    """The table of `check` beside the `solve hull` of its answer, with the start of the program in both and with it taken off."""
    model, answer = folder / "model", folder / "answer"
    start = counted([PROGRAM])
    print("\n| size | `solve hull`, million instructions | `check` | `check` over `solve` | without the start |")
    print("|---|---|---|---|---|")
    for size in solvers.SIZES:
        solves, tests = [], []
        for seed in solvers.SEEDS:
            model.write_text(plants.text(seed, size))
            solve = [PROGRAM, "solve", "hull", solvers.STEPS, str(model)]
            answer.write_bytes(run(solve).out)
            solves.append(counted(solve))
            tests.append(counted([PROGRAM, "check", str(model), str(answer)]))
        over = mean([test / solve for test, solve in zip(tests, solves)])
        without = mean([(test - start) / (solve - start) for test, solve in zip(tests, solves)])
        print(f"| {size} | {mean(solves) / 1e6:.1f} | {mean(tests) / 1e6:.1f} | {over:.3f} | {without:.3f} |", flush=True)


def tenths(folder: pathlib.Path) -> None:
    """The table of the first and the last tenth of long searches."""
    model = folder / "model"
    print("\n| route | size, seed | steps | a step of the first tenth, instructions | of the last | first over last |")
    print("|---|---|---|---|---|---|")
    for route, seed, size, steps in LONG:
        model.write_text(plants.text(seed, size))
        budgets = (1, steps // 10, steps * 9 // 10, steps)
        none, first, most, whole = (counted([PROGRAM, "solve", route, str(budget), str(model)]) for budget in budgets)
        told = (first - none) / (steps // 10 - 1), (whole - most) / (steps - steps * 9 // 10)
        print(f"| {route} | {size}, {seed} | {steps:,} | {told[0]:,.0f} | {told[1]:,.0f} | {told[0] / told[1]:.2f} |", flush=True)


TABLES = {"beside": beside, "parts": parts, "checks": checks, "tenths": tenths}

if __name__ == "__main__":
    with tempfile.TemporaryDirectory() as temporary:
        for table in sys.argv[1:] or TABLES:
            TABLES[table](pathlib.Path(temporary))
