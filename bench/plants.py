#!/usr/bin/env python3
"""Plants: so many pairs of a real and a whole variable, as many exclusive choices, and one line of logic.

`plants.py SEED SIZE` prints the model. Draws are those of a small linear congruential generator, so that a plant is the same
everywhere. `smt(SEED, SIZE)` gives the same plant as an SMT-LIB script for an optimiser.
"""

import dataclasses
import sys


class Draws:
    """Numbers drawn from a seed."""

    def __init__(self, seed: int) -> None:
        self.state = seed % 2**31

    def below(self, limit: int) -> int:
        self.state = (1103515245 * self.state + 12345) % 2**31
        return self.state // 65536 % limit


@dataclasses.dataclass
class Plant:
    """The numbers of each pair: high bounds, coefficients of the objective, the row of `a` and the row of `b`."""

    highs: list[tuple[int, int]]
    goals: list[tuple[int, int]]
    choices: list[tuple[int, int, int, int]]


def plant(seed: int, size: int) -> Plant:
    draw = Draws(seed)
    highs = [(5 + draw.below(6), 5 + draw.below(6)) for _ in range(size)]
    goals = [(1 + draw.below(5), 1 + draw.below(5)) for _ in range(size)]
    choices = [(1 + draw.below(3), 1 + draw.below(3), 6 + draw.below(10), 3 + draw.below(5)) for _ in range(size)]
    return Plant(highs, goals, choices)


def text(seed: int, size: int) -> str:
    """The model's canonical text."""
    made = plant(seed, size)
    lines = ["gdp 1"]
    for i, (x, n) in enumerate(made.highs):
        lines += [f"var x{i} real 0 {x}", f"var n{i} int 0 {n}"]
    lines.append("max " + " + ".join(f"{x} x{i} + {n} n{i}" for i, (x, n) in enumerate(made.goals)))
    for i, (p, q, r, t) in enumerate(made.choices):
        lines += ["disjunction xor", f"disjunct a{i}", f"row {p} x{i} + {q} n{i} <= {r}", "end"]
        lines += [f"disjunct b{i}", f"row 1 x{i} + 1 n{i} <= {t}", "end", "end"]
    lines.append(f"logic atleast(1, {', '.join(f'a{i}' for i in range(size))})")
    return "".join(line + "\n" for line in lines)


def smt(seed: int, size: int) -> str:
    """The same plant for an optimiser that reads SMT-LIB."""
    made = plant(seed, size)
    lines = []
    for i, (x, n) in enumerate(made.highs):
        lines += [f"(declare-const x{i} Real)", f"(declare-const n{i} Int)", f"(declare-const a{i} Bool)", f"(declare-const b{i} Bool)"]
        lines += [f"(assert (and (<= 0 x{i}) (<= x{i} {x}) (<= 0 n{i}) (<= n{i} {n})))", f"(assert (xor a{i} b{i}))"]
    for i, (p, q, r, t) in enumerate(made.choices):
        lines += [f"(assert (=> a{i} (<= (+ (* {p} x{i}) (* {q} n{i})) {r})))", f"(assert (=> b{i} (<= (+ x{i} n{i}) {t})))"]
    lines.append(f"(assert (or {' '.join(f'a{i}' for i in range(size))}))")
    lines.append(f"(maximize (+ {' '.join(f'(* {x} x{i}) (* {n} n{i})' for i, (x, n) in enumerate(made.goals))}))")
    return "\n".join([*lines, "(check-sat)", "(get-objectives)", ""])


if __name__ == "__main__":
    print(text(int(sys.argv[1]), int(sys.argv[2])), end="")
