#!/usr/bin/env python3
"""Measures what `lp` takes to read an LP text of 8 MiB, beside `format` of a model as large, and prints a table.

`lp_reading.py [PROGRAM]` writes the model that `measure.py` reads and LP texts of three layouts into a temporary folder: rows on
lines, as planners and other programs write them, fractions among them, and a term a line, as `compile` writes them. With
one step a search gives up before its first move, so that `lp` reads, makes the program and its first tableau, and writes a log.
Each text is read once more with a last line that is refused, so that `lp` does nothing but read. Each command is run twenty times,
in turns; told are the least processor time, and how much each takes a byte of its text beside `format`.
"""

import os
import pathlib
import random
import subprocess
import sys
import tempfile

sys.dont_write_bytecode = True
from measure import measured  # noqa: E402

ROOT = pathlib.Path(__file__).resolve().parent.parent
TURNS, SIZE, COLUMNS = 20, 8 * 2**20, 800
FORM = "`gdp format full.gdp`"


def number(draw, is_whole):
    return str(draw.randint(1, 9999)) if is_whole else f"{draw.randint(0, 99)}.{draw.randint(0, 999):03}"


def text(between, is_whole):
    """An LP text of almost 8 MiB, with what stands between its terms, and numbers that are whole or have three places."""
    draw, lines, size = random.Random(between + str(is_whole)), ["min x0 + x1\nst\n"], 0
    while size < SIZE - 2**15:
        columns = sorted(draw.sample(range(COLUMNS), 300))
        terms = between.join(f"{draw.choice('+-')} {number(draw, is_whole)} x{at}" for at in columns)
        lines.append(f" r{len(lines)}: {terms} <= {number(draw, is_whole)}\n")
        size += len(lines[-1])
    return "".join([*lines, "end\n"]).encode()


def main(named):
    program = os.path.abspath(named[0]) if named else str(ROOT / "crates" / "gdp_cli" / "out" / "gdp_cli")
    with tempfile.TemporaryDirectory() as folder:
        subprocess.run([sys.executable, "-B", str(ROOT / ".ci" / "full_model.py"), folder], check=True)
        texts = {"rows on lines": text(" ", True), "rows on lines, three places": text(" ", False), "a term a line": text("\n", True)}
        commands, sizes = {FORM: [program, "format", "full.gdp"]}, {FORM: os.path.getsize(os.path.join(folder, "full.gdp"))}
        for at, (name, lines) in enumerate(texts.items()):
            pathlib.Path(folder, f"{at}.lp").write_bytes(lines)
            pathlib.Path(folder, f"{at}.refused.lp").write_bytes(lines + b"x\n")
            for kind, file in (("", f"{at}.lp"), (", refused at the end", f"{at}.refused.lp")):
                told = f"`gdp lp 1` of {name}{kind}"
                commands[told], sizes[told] = [program, "lp", "1", file], len(lines)
        runs = {name: [] for name in commands}
        for _ in range(TURNS):
            for name, command in commands.items():
                runs[name].append(measured(command, folder))
        busy = {name: min(run[1] for run in some) for name, some in runs.items()}
        print("| command | bytes | of the processor | MB a second | times `format`, a byte |")
        print("|---|---|---|---|---|")
        for name, size in sizes.items():
            times = busy[name] / size / (busy[FORM] / sizes[FORM])
            print(f"| {name} | {size:,} | {busy[name]:.3f} | {size / busy[name] / 1e6:.0f} | {times:.2f} |")


if __name__ == "__main__":
    main(sys.argv[1:])
