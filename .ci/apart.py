#!/usr/bin/env python3
"""Whether the checker of answers stands apart from the solver, by `crates.txt`: no crate of the checker may use one that searches or
that has a simplex, directly or through others. `apart.py` prints one line, or a line for each fault."""

import pathlib
import re
import sys

CRATES = pathlib.Path(__file__).resolve().parent.parent / "crates.txt"
CHECKER = (
    "model_claims answer_tests lowest_terms node_checker certificate_checker rewrite_checker logic_checker answer_checker "
    "cert_grammar cert_lines cert_reader"
).split()
SOLVER = re.compile(r"(search_|simplex_|exact_simplex$|settling$|gdp_solve$)|_(nodes|branching|solving)$")


def uses(text):
    """The crates that each crate of a `crates.txt` names."""
    lines = (line.split("#")[0] for line in text.splitlines())
    parted = (line.partition(":") for line in lines if ":" in line)
    return {crate.split()[0]: below.split() for crate, _, below in parted}


def reached(crate, below):
    """The crates that a crate stands on, directly or through others."""
    found, waiting = set(), [crate]
    while waiting:
        new = set(below.get(waiting.pop(), [])) - found
        found |= new
        waiting += new
    return found


def faults(below):
    missing = [f"there is no crate {crate}" for crate in CHECKER if crate not in below]
    return missing + [f"{crate} stands on {other}" for crate in CHECKER for other in sorted(reached(crate, below)) if SOLVER.search(other)]


def main():
    wrong = faults(uses(CRATES.read_text()))
    for line in wrong:
        print(f"the checker and the solver: {line}")
    if not wrong:
        print(f"the checker and the solver: {len(CHECKER)} crates stand on no part of the solver")
    return 1 if wrong else 0


if __name__ == "__main__":
    sys.exit(main())
