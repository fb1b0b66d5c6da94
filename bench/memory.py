#!/usr/bin/env python3
"""Measures the peak memory of `solve` on models whose tableaus come near the limits: 3,000 rows with what branching adds.

`memory.py` prints a table. The rewritten model has 200 indicators, the most there may be, each with copies of eight variables, and
300 variables without bounds, which count as two columns each. The others have 500 variables, bounded on both sides, and 1,000
equations with a term of each: 3,000 rows, and where they are whole 1,000 more that branching may add. A tableau
takes most of its memory when it is made; the last column says where the search stopped.
"""

import pathlib
import random
import tempfile

from runs import PROGRAM, machine, run


def rewritten() -> str:
    """Twenty exclusive choices between ten disjuncts, each with a row of eight variables of its choice."""
    free, bounded = [f"f{i}" for i in range(300)], [f"x{i}" for i in range(160)]
    lines = ["gdp 1", *(f"var {name} real -inf inf" for name in free), *(f"var {name} real 0 10" for name in bounded)]
    lines.append("max " + " + ".join(bounded))
    for i in range(20):
        lines.append("disjunction xor")
        for k in range(10):
            own = " + ".join(f"{1 + (j + k) % 5} {name}" for j, name in enumerate(bounded[8 * i : 8 * i + 8]))
            lines += [f"disjunct d{i}.{k}", f"row {own} <= {20 + k}", "end"]
        lines.append("end")
    return "".join(line + "\n" for line in lines)


def dense(kind: str) -> str:
    """Equations between variables of a kind, which hold where each is 1."""
    draw, names = random.Random(1), [f"n{i}" for i in range(500)]
    lines = ["gdp 1", *(f"var {name} {kind} -9 9" for name in names), "max " + " + ".join(names)]
    for _ in range(1_000):
        numbers = [draw.randint(1, 9) for _ in names]
        lines.append(f"row {' + '.join(f'{c} {name}' for c, name in zip(numbers, names))} = {sum(numbers)}")
    return "".join(line + "\n" for line in lines)


def main() -> None:
    print(f"{machine()}\n")
    print("| model | route | text | peak memory | seconds | the search stopped at |")
    print("|---|---|---|---|---|---|")
    with tempfile.TemporaryDirectory() as folder:
        path = str(pathlib.Path(folder) / "model.gdp")
        for name, route, steps, text in (
            ("200 indicators", "hull", "10000", rewritten()),
            ("1,000 equations of whole variables", "logic", "200", dense("int")),
            ("1,000 equations of real variables", "bigm", "200", dense("real")),
        ):
            pathlib.Path(path).write_text(text)
            found = run([PROGRAM, "solve", route, steps, path])
            lines = found.out.decode().splitlines()
            ended = f"`{lines[-1]}`, after {len(lines) - 3:,} steps" if found.status == 3 else f"status {found.status}"
            told = f"{len(text) / 2**20:.1f} MiB | {found.memory / 1e6:,.0f} MB | {found.busy:.1f} | {ended}"
            print(f"| {name} | `{route}` | {told} |", flush=True)


if __name__ == "__main__":
    main()
