#!/usr/bin/env python3
"""How far 128 bits reach: solves drawn models of six families by each route, and prints how many end in which way.

`reach.py [FAMILY ..]` takes five models of each family, size and kind of numbers, with 30,000 steps each. A cell says how many
end with an answer, at the end of the steps (s), at a number past 128 bits (w), because no rewrite is written (r), or are stopped
after 20 seconds of the processor (t). Where two routes answer, the script stops if their answers differ.
"""

import collections
import pathlib
import sys
import tempfile

from families import FAMILIES, model
from runs import PROGRAM, run

ROUTES = ("logic", "hybrid", "hull", "bigm")
SEEDS = (1, 2, 3, 4, 5)
STEPS = "30000"
SECONDS = 20


def ending(route: str, path: str) -> tuple[str, str]:
    """How a solve ends: `a` with its third line, or `s`, `w`, `r` or `t`."""
    found = run([PROGRAM, "solve", route, STEPS, path], SECONDS)
    if found.status is None:
        return "t", ""
    lines = found.out.decode().splitlines()
    if found.status == 0:
        return "a", lines[2]
    return {3: "s" if lines and lines[-1] == "stop steps" else "w", 4: "r"}[found.status], ""


def cell(counts: collections.Counter) -> str:
    """The number that end with an answer, and the others with their letters."""
    return " ".join([str(counts["a"]), *(f"{counts[letter]}{letter}" for letter in "swrt" if counts[letter])])


def main(families: list[str]) -> None:
    answered = {kind: collections.Counter() for kind in ("whole", "decimals")}
    print("| family | size | numbers | " + " | ".join(f"`{route}`" for route in ROUTES) + " |")
    print("|---" * (3 + len(ROUTES)) + "|")
    with tempfile.TemporaryDirectory() as folder:
        path = str(pathlib.Path(folder) / "model.gdp")
        for family in families:
            for size in FAMILIES[family][1]:
                for kind in answered:
                    counts = {route: collections.Counter() for route in ROUTES}
                    for seed in SEEDS:
                        pathlib.Path(path).write_text(model(family, size, seed, kind == "decimals"))
                        endings = {route: ending(route, path) for route in ROUTES}
                        said = {line for how, line in endings.values() if how == "a"}
                        if len(said) > 1:
                            sys.exit(f"{family}, size {size}, seed {seed}, {kind}: {said}")
                        for route, (how, _) in endings.items():
                            counts[route][how] += 1
                        answered[kind][bool(said)] += 1
                    cells = " | ".join(cell(counts[route]) for route in ROUTES)
                    print(f"| {family.replace('_', ' ')} | {size} | {kind} | {cells} |", flush=True)
    for kind, found in answered.items():
        print(f"\nNumbers: {kind}. Of {found.total()} models {found[True]} are answered by one route or more.")


if __name__ == "__main__":
    main(sys.argv[1:] or list(FAMILIES))
