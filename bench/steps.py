#!/usr/bin/env python3
"""Measures what a step of a search takes, and whether a long search slows down.

`steps.py` prints two tables. The first sets the processor time of a step of `solve bigm` on plants beside that of an exchange of
`simplex_bench` on the first tableaus of the same programs: where the moves of one are made again and again, which a processor soon
foretells, and where those of all are made in turn, as a search goes from one tableau to another. The second has the steps a second in
the first and in the second half of searches that are stopped after 300,000 steps or more, with their peak memory. A run of fewer steps
is taken off, so that reading the model counts for neither; what is written at the end, the log, counts for each step.
"""

import pathlib
import tempfile

import plants
from runs import PROGRAM, ROOT, in_turns, machine, mean, run

TURNS = 7
MOVES = str(ROOT / "crates" / "simplex_bench" / "out" / "simplex_bench")
# Sizes with steps that do not suffice there, and how often the moves over the first tableaus are made.
SIZES = {6: (2_000, 400), 10: (20_000, 150)}
PLANTS = 8
# Routes, seeds and sizes of searches that take more than so many steps.
LONG = [("bigm", 1, 15, 300_000), ("logic", 2, 20, 1_000_000)]


def standard_form(program: str) -> str:
    """The standard form of an LP text that `compile` wrote, whose columns are all non-negative: rows of at most, and the goal."""
    goal: list[tuple[int, int]] = []
    rows: list[list[tuple[int, int]]] = []
    ends: list[tuple[str, int]] = []
    sign = -1 if "\nMaximize\n" in f"\n{program}" else 1
    for line in program.splitlines():
        words = line.split()
        if words[:1] and words[0][0] == "r" and line.endswith(":"):
            rows.append([])
        elif len(words) == 3 and words[0] in "+-":
            term = (int(words[2][1:]), int(words[0] + words[1]))
            (rows[-1] if rows else goal).append(term)
        elif words and words[0] in ("<=", ">=", "="):
            ends.append((words[0], int(words[1])))
    listed = []
    for terms, (relation, right) in zip(rows, ends):
        for factor in {"<=": (1,), ">=": (-1,), "=": (1, -1)}[relation]:
            listed.append(listing([(at, factor * c) for at, c in terms if c], factor * right))
    return "\n".join([f"{len(goal)} {len(listed)}", *listed, listing([(at, sign * c) for at, c in goal if c]), ""])


def listing(terms: list[tuple[int, int]], *ends: int) -> str:
    return " ".join(map(str, [len(terms), *(part for term in terms for part in term), *ends]))


def drawn(folder: pathlib.Path, size: int, steps: int) -> list[tuple[str, str]]:
    """The files of the first eight plants of this size whose search takes more steps: the model, and its first standard form."""
    files: list[tuple[str, str]] = []
    seed = 0
    while len(files) < PLANTS:
        seed += 1
        model, form = (folder / f"{size}-{seed}.{kind}" for kind in ("gdp", "std"))
        model.write_text(plants.text(seed, size))
        if run([PROGRAM, "solve", "bigm", str(steps), str(model)]).status == 3:
            form.write_text(standard_form(run([PROGRAM, "compile", "bigm", str(model)]).out.decode()))
            files.append((str(model), str(form)))
    return files


def beside(folder: pathlib.Path) -> None:
    """The table of a step beside an exchange."""
    ratios: dict[str, list[float]] = {"again": [], "turns": []}
    print("| size | plants | a step, µs | an exchange, one tableau again and again, µs | a step over it | all tableaus in turn, µs | a step over it |")
    print("|---|---|---|---|---|---|---|")
    for size, (steps, count) in SIZES.items():
        files = drawn(folder, size, steps)
        groups = {"again": [[form] for _, form in files], "turns": [[form for _, form in files]]}
        commands = {}
        for name, forms in groups.items():
            for at, group in enumerate(forms):
                commands |= {(name, at, again): [MOVES, *group, str(again)] for again in (0, count)}
        for at, (model, _) in enumerate(files):
            commands |= {("steps", at, budget): [PROGRAM, "solve", "bigm", str(budget), model] for budget in (1, steps)}
        best = in_turns(commands, TURNS)
        made = best["turns", 0, 0].out.count(b"\n") - PLANTS
        busy = {
            name: sum(best[kind, at, most].busy - best[kind, at, least].busy for kind, at, most in best if kind == name and most > least)
            for name, least in (("again", 0), ("turns", 0), ("steps", 1))
        }
        step = busy["steps"] / PLANTS / (steps - 1)
        told = [f"{size}", f"{PLANTS}", f"{1e6 * step:.2f}"]
        for name, found in ratios.items():
            exchange = busy[name] / made / count
            found.append(step / exchange)
            told += [f"{1e6 * exchange:.2f}", f"{found[-1]:.2f}"]
        print(f"| {' | '.join(told)} |", flush=True)
    print(f"| geometric mean | | | | {mean(ratios['again']):.2f} | | {mean(ratios['turns']):.2f} |")


def long_runs(folder: pathlib.Path) -> None:
    """The table of both halves."""
    model = str(folder / "model")
    print("\n| route | size, seed | steps | first half, steps a second | second half | over it | peak memory | log |")
    print("|---|---|---|---|---|---|---|---|")
    for route, seed, size, steps in LONG:
        pathlib.Path(model).write_text(plants.text(seed, size))
        budgets = {"none": 1, "half": steps // 2, "all": steps}
        commands = {name: [PROGRAM, "solve", route, str(budget), model] for name, budget in budgets.items()}
        best = in_turns(commands, TURNS)
        if best["all"].status != 3:
            print(f"| {route} | {size}, {seed} | ended before {steps:,} | | | | | |")
            continue
        first = steps / 2 / (best["half"].busy - best["none"].busy)
        second = steps / 2 / (best["all"].busy - best["half"].busy)
        told = f"{first:,.0f} | {second:,.0f} | {second / first:.2f} | {best['all'].memory / 2**20:.0f} MiB"
        print(f"| {route} | {size}, {seed} | {steps:,} | {told} | {len(best['all'].out) / 2**20:.1f} MiB |", flush=True)


if __name__ == "__main__":
    print(f"{machine()}; the least processor time of {TURNS}\n")
    with tempfile.TemporaryDirectory() as temporary:
        beside(pathlib.Path(temporary))
        long_runs(pathlib.Path(temporary))
