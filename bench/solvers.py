#!/usr/bin/env python3
"""Measures `solve hull` and `check` of its answer on plants, beside z3's optimiser and cbc, and draws a picture.

`solvers.py [SVG]` prints a table: for each size the geometric means over five seeds, each the least processor time of so many
turns. z3 gets the plant itself as SMT-LIB, and finds the exact optimum; cbc gets the LP text of `compile hull`, and computes with
floating point. The last two columns have `check` over `solve`, with the start of the program in both, and with what the program
takes without a word taken off. A solver that isn't installed is left out with a line. Where an optimum differs from ours, the script
stops.
"""

import pathlib
import re
import shutil
import sys
import tempfile
from fractions import Fraction
from math import log10

import plants
from runs import PROGRAM, Run, in_turns, machine, mean, run

SIZES = (6, 10, 15, 20)
SEEDS = (1, 2, 3, 4, 5)
TURNS = 2
OWN_TURNS = 15
STEPS = "1000000"
SOLVERS = ("z3", "cbc")
OWN = ("solve hull", "check", "start")
COLOURS = {"solve hull": "#1f5fa8", "check": "#3a8f3a", "z3": "#b03a2e", "cbc": "#8e6c1f"}


def commands(folder: pathlib.Path, seed: int, size: int, solvers: list[str]) -> dict[str, list[str]]:
    """Writes the plant's files, solves it once for its answer, and gives the commands that are timed."""
    model, script, program, answer = (str(folder / name) for name in ("model.gdp", "model.smt2", "model.lp", "answer"))
    pathlib.Path(model).write_text(plants.text(seed, size))
    pathlib.Path(script).write_text(plants.smt(seed, size))
    pathlib.Path(program).write_bytes(run([PROGRAM, "compile", "hull", model]).out)
    pathlib.Path(answer).write_bytes(run([PROGRAM, "solve", "hull", STEPS, model]).out)
    told = {"solve hull": [PROGRAM, "solve", "hull", STEPS, model], "check": [PROGRAM, "check", model, answer], "start": [PROGRAM]}
    told |= {"z3": ["z3", script]} if "z3" in solvers else {}
    return told | ({"cbc": ["cbc", program, "solve", "quit"]} if "cbc" in solvers else {})


def optimum(name: str, out: str) -> Fraction | None:
    """The optimum that a solver says."""
    if name == "solve hull":
        found = re.search(r"^best (\S+)$", out, re.MULTILINE)
    elif name == "z3":
        found = re.search(r"\(/ (\d+)\.0 (\d+)\.0\)\)|(\d+)(?:\.0)?\)\s*\)\s*$", out)
        return found and (Fraction(int(found[1]), int(found[2])) if found[1] else Fraction(found[3]))
    else:
        found = re.search(r"^Objective value:\s+(\S+)$", out, re.MULTILINE)
    return found and Fraction(found[1])


def compare(runs: dict[str, Run], what: str) -> None:
    """Stops where the optima differ, by more than what floating point leaves of cbc's, or the answer is not accepted."""
    ours = optimum("solve hull", runs["solve hull"].out.decode())
    if ours is None or runs["check"].out != b"accepted\n":
        sys.exit(f"{what}: no accepted answer")
    for name in SOLVERS:
        if name in runs:
            other = optimum(name, runs[name].out.decode())
            if other is None or abs(abs(other) - ours) > (Fraction(1, 1000) if name == "cbc" else 0):
                sys.exit(f"{what}: {name} finds {other}, and we {ours}")


def picture(means: dict[str, dict[int, float]]) -> str:
    """The means as lines over sizes, in seconds on a logarithmic scale from 1 ms to 10 s."""
    left, top, width, height, decades = 72, 20, 420, 260, 5

    def across(size: int) -> float:
        return left + width * (size - SIZES[0]) / (SIZES[-1] - SIZES[0])

    def down(decade: float) -> float:
        return top + height * (1 - (decade + 4) / decades)

    lines = [f'<svg xmlns="http://www.w3.org/2000/svg" viewBox="0 0 {left + width + 100} {top + height + 50}" font-family="sans-serif" font-size="12">']
    for decade in range(-4, decades - 3):
        y = down(decade)
        lines.append(f'<path d="M{left} {y:.1f}H{left + width}" stroke="#ddd"/><text x="{left - 8}" y="{y + 4:.1f}" text-anchor="end">{10.0**decade:g} s</text>')
    for size in SIZES:
        lines.append(f'<text x="{across(size):.1f}" y="{top + height + 20}" text-anchor="middle">{size}</text>')
    lines.append(f'<text x="{left + width / 2}" y="{top + height + 40}" text-anchor="middle">size of the plant</text>')
    for name, by_size in means.items():
        points = [(across(size), down(log10(seconds))) for size, seconds in by_size.items()]
        path = " ".join(f"{x:.1f},{y:.1f}" for x, y in points)
        lines.append(f'<polyline points="{path}" fill="none" stroke="{COLOURS[name]}" stroke-width="2"/>')
        lines += [f'<circle cx="{x:.1f}" cy="{y:.1f}" r="3" fill="{COLOURS[name]}"/>' for x, y in points]
        lines.append(f'<text x="{points[-1][0] + 8:.1f}" y="{points[-1][1] + 4:.1f}" fill="{COLOURS[name]}">{name}</text>')
    return "\n".join([*lines, "</svg>", ""])


def main(names: list[str]) -> None:
    solvers = [name for name in SOLVERS if shutil.which(name)]
    for name in SOLVERS:
        print("" if name in solvers else f"{name} is left out, since it isn't installed\n", end="")
    shown = ["solve hull", "check", *solvers]
    means: dict[str, dict[int, float]] = {name: {} for name in shown}
    print(f"{machine()}; geometric means of {len(SEEDS)} seeds, each the least processor time of {OWN_TURNS} turns, of the others' of {TURNS}\n")
    print("| size | " + " | ".join(f"`{name}`, s" for name in shown) + " | " + " | ".join(f"ours over {name}" for name in solvers) + " | `check` over `solve` | without the start |")
    print("|---" * (len(shown) + len(solvers) + 3) + "|")
    with tempfile.TemporaryDirectory() as folder:
        for size in SIZES:
            seconds: dict[str, list[float]] = {name: [] for name in shown}
            without = []
            for seed in SEEDS:
                told = commands(pathlib.Path(folder), seed, size, solvers)
                runs = in_turns({name: words for name, words in told.items() if name in OWN}, OWN_TURNS)
                runs |= in_turns({name: words for name, words in told.items() if name not in OWN}, TURNS)
                compare(runs, f"size {size}, seed {seed}")
                for name in shown:
                    seconds[name].append(max(runs[name].busy, 1e-4))
                start = runs["start"].busy
                without.append(max(runs["check"].busy - start, 1e-6) / (runs["solve hull"].busy - start))
            for name in shown:
                means[name][size] = mean(seconds[name])
            ours = means["solve hull"][size]
            cells = [f"{means[name][size]:.4f}" for name in shown] + [f"{ours / means[name][size]:.3f}" for name in solvers]
            print(f"| {size} | {' | '.join(cells)} | {means['check'][size] / ours:.2f} | {mean(without):.2f} |", flush=True)
    if names:
        pathlib.Path(names[0]).write_text(picture(means))


if __name__ == "__main__":
    main(sys.argv[1:])
