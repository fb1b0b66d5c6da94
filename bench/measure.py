#!/usr/bin/env python3
"""Measures the built program on the largest models, beside `cat` and `wc` on the same files, and prints two tables.

`measure.py [PROGRAM]` writes the models that `full_model.py` makes into a temporary folder, runs each command forty times, in
turns, and prints the least wall time, the least processor time and the greatest peak of resident memory. The second table is of
the largest model that compiles, with the LP text that it compiles to. What Linux counts as
the peak begins with the memory of this process, some 10 MiB, so a peak is told only of what passes that.
"""

import os
import pathlib
import subprocess
import sys
import tempfile
import time

ROOT = pathlib.Path(__file__).resolve().parent.parent
TURNS = 40


def measured(command, folder):
    """Runs the command once, and gives its seconds, those of the processor, its peak memory in bytes, and its answer."""
    with tempfile.TemporaryFile() as out_file:
        begun = time.perf_counter()
        child = subprocess.Popen(command, cwd=folder, stdout=out_file if command[0] != "cat" else subprocess.DEVNULL)
        _, status, usage = os.wait4(child.pid, 0)
        seconds = time.perf_counter() - begun
        out_file.seek(0)
        out = out_file.read()
    said = f"`{out.decode().strip()}`" if len(out) < 80 else f"{len(out):,} bytes"
    answer = f"{said}, status {os.waitstatus_to_exitcode(status)}"
    return seconds, usage.ru_utime + usage.ru_stime, usage.ru_maxrss * 1024, answer


def table(commands, sizes, head, folder):
    """Runs commands, each with the bytes that its memory is compared with, and prints their table; gives their processor seconds."""
    runs = {name: [] for name in commands}
    for _ in range(TURNS):
        for name, command in commands.items():
            runs[name].append(measured(command, folder))
    print(f"| {head} | seconds | of the processor | peak memory | times the text | answer |")
    print("|---|---|---|---|---|---|")
    for name, some in runs.items():
        seconds, busy, memory = min(run[0] for run in some), min(run[1] for run in some), max(run[2] for run in some)
        told = f"{memory / 2**20:.1f} MiB | {memory / sizes[name]:.1f} | {some[0][3]}" if name in sizes else "| |"
        print(f"| {name} | {seconds:.3f} | {busy:.3f} | {told} |")
    return {name: min(run[1] for run in some) for name, some in runs.items()}


def main(named):
    program = os.path.abspath(named[0]) if named else str(ROOT / "crates" / "gdp_cli" / "out" / "gdp_cli")
    with tempfile.TemporaryDirectory() as folder:
        subprocess.run([sys.executable, "-B", str(ROOT / ".ci" / "full_model.py"), folder], check=True)
        size = os.path.getsize(os.path.join(folder, "full.gdp"))
        commands = {
            "`cat full.gdp`, to /dev/null": ["cat", "full.gdp"],
            "`wc full.gdp`": ["wc", "full.gdp"],
            "`gdp test full.gdp full.point`": [program, "test", "full.gdp", "full.point"],
            "`gdp test full.gdp full-fails.point`": [program, "test", "full.gdp", "full-fails.point"],
            "`gdp format full.gdp`": [program, "format", "full.gdp"],
        }
        table(commands, {name: size for name in commands if name.startswith("`gdp")}, f"command, on {size:,} bytes", folder)
        with open(os.path.join(folder, "compiled.lp"), "wb") as file:
            subprocess.run([program, "compile", "bigm", "compiled.gdp"], cwd=folder, stdout=file, check=True)
        size, written = (os.path.getsize(os.path.join(folder, name)) for name in ("compiled.gdp", "compiled.lp"))
        form, bigm, cat = "`gdp format compiled.gdp`", "`gdp compile bigm compiled.gdp`", "`cat compiled.lp`, into a file"
        commands = {cat: ["sh", "-c", "cat compiled.lp"], form: [program, "format", "compiled.gdp"], bigm: [program, "compile", "bigm", "compiled.gdp"]}
        print()
        busy = table(commands, {form: size + size, bigm: size + written}, f"command, on {size:,} bytes to {written:,}", folder)
        print(f"\n`compile bigm` takes {(busy[bigm] - busy[cat]) / busy[form]:.1f} times `format`, when `cat` of its output is taken off.")


if __name__ == "__main__":
    main(sys.argv[1:])
