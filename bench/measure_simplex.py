#!/usr/bin/env python3
"""Measures the moves of the exact simplex against the same moves in plain Rust, and prints a table.

`bench/measure_simplex.py [NAME=PROGRAM ..]` builds `bench/yardstick.rs` outside the repository, and runs it and the built
`simplex_bench` in turns over `bench/problems/*.std`. Each NAME=PROGRAM is one more `simplex_bench`, as of an older commit,
that runs beside. First all list their moves on each problem, and the lists and the answers have to be equal. Then each
makes the moves so often that a run takes a quarter of a second of user time at least; what a run with a count of 0 takes is
taken away, and the least of eight turns counts (of TURNS, if that is set). A single ratio is good to a quarter only: compare
the geometric means.
"""

import math
import os
import pathlib
import subprocess
import sys
import tempfile

BENCH = pathlib.Path(__file__).resolve().parent
OURS = BENCH.parent / "crates" / "simplex_bench" / "out" / "simplex_bench"
PROBLEMS = "dense020 dense050 dense100 s06bigm s10bigm s20bigm s06hull s10hull s15hull s20hull".split()
FORMS = ["written", "bound"]
TURNS = int(os.environ.get("TURNS", "8"))
LEAST = 0.25


def user_seconds(command):
    """Runs the command once, and gives its user time."""
    child = subprocess.Popen(command, stdout=subprocess.DEVNULL)
    _, status, usage = os.wait4(child.pid, 0)
    if os.waitstatus_to_exitcode(status) != 0:
        sys.exit(f"failed: {' '.join(command)}")
    return usage.ru_utime


def listed(command):
    """The moves that the command prints, and its answer in one word."""
    *moves, answer = subprocess.run(command, check=True, capture_output=True, text=True).stdout.splitlines()
    return moves, answer.removeprefix("Done(").removesuffix(")").lower()


def count_for(command):
    """A count with which the command takes long enough."""
    count = 1
    while user_seconds(command + [str(count)]) < LEAST:
        count *= 2
    return count


def milliseconds(commands):
    """What each command takes for one count more, by the least of its turns."""
    counts = {name: count_for(command) for name, command in commands.items()}
    starts = {name: [] for name in commands}
    runs = {name: [] for name in commands}
    for _ in range(TURNS):
        for name, command in commands.items():
            starts[name].append(user_seconds(command + ["0"]))
            runs[name].append(user_seconds(command + [str(counts[name])]))
    return {name: 1000 * (min(runs[name]) - min(starts[name])) / counts[name] for name in commands}


def mean(ratios):
    return math.exp(sum(map(math.log, ratios)) / len(ratios))


def main(*others):
    programs = {"ours": str(OURS)} | dict(other.split("=", 1) for other in others)
    others = [name for name in programs if name != "ours"]
    with tempfile.TemporaryDirectory() as outside:
        yardstick = os.path.join(outside, "yardstick")
        source = str(BENCH / "yardstick.rs")
        subprocess.run(["rustc", "-C", "opt-level=3", "--edition", "2021", "-o", yardstick, source], check=True)
        columns = [f"`{form}`" for form in FORMS] + others
        ratios = {column: [] for column in columns}
        print("| problem | moves | ours, ms | " + " | ".join(f"{column}, ms | ours over it" for column in columns) + " |")
        print("|---|---|---|" + "---|---|" * len(columns))
        for problem in PROBLEMS:
            file = str(BENCH / "problems" / f"{problem}.std")
            moves, answer = listed([yardstick, "moves", "written", file])
            for name, program in programs.items():
                if listed([program, file, "0"]) != (moves, answer):
                    sys.exit(f"{problem}: the moves of {name} differ")
            commands = {name: [program, file] for name, program in programs.items()}
            commands |= {f"`{form}`": [yardstick, "lp", form, file] for form in FORMS}
            times = milliseconds(commands)
            cells = []
            for column in columns:
                ratios[column].append(times["ours"] / times[column])
                cells.append(f"{times[column]:.3f} | {ratios[column][-1]:.2f}")
            print(f"| {problem} | {len(moves)}, {answer} | {times['ours']:.3f} | {' | '.join(cells)} |", flush=True)
        print("| geometric mean | | | " + " | ".join(f"| {mean(ratios[column]):.2f}" for column in columns) + " |")


if __name__ == "__main__":
    main(*sys.argv[1:])
