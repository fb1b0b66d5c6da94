#!/usr/bin/env python3
"""The largest model that the limits let a planner write: 500 variables, 200 indicators nested eight deep, 1,000 rows with a
term of each variable, propositions of 5,000 names and connectives, 8,388,608 bytes.

`full_model.py FOLDER` writes `full.gdp`, `full.point`, at which its last row holds with nothing to spare, and
`full-fails.point`, at which the last row, on line `LAST`, is one short; and `compiled.gdp`, which is as large and whose program
keeps the limits on rows too: it has fewer and longer propositions.
"""

import pathlib
import random
import sys

LIMIT = 8_388_608
VARIABLES = 500
ROWS = 1_000
CHAINS = 25
DEPTH = 8
NODES = 5_000
# Of the model that compiles, how many blocks of each chain have a proposition.
LOGICAL = 3
# Of each block the lines that open it, its rows, its proposition, and the lines that close it.
PER_BLOCK = ROWS // (CHAINS * DEPTH)
LAST = 1 + VARIABLES + CHAINS * DEPTH * (2 + PER_BLOCK) + (CHAINS - 1) * DEPTH * 3


def full_model(is_compiled=False):
    """Gives the model's text, a point that holds, and a point that fails at the last row."""
    logical = LOGICAL if is_compiled else DEPTH
    draw = random.Random(1)
    names = [f"f{j:03}" for j in range(VARIABLES)]
    values = [draw.randint(1, 99) for _ in names]
    head = "gdp 1\n" + "".join(f"var {name} real 0 100\n" for name in names)
    opening = [f"disjunction or\ndisjunct b{k:03}\n" for k in range(CHAINS * DEPTH)]
    closing = [f"{proposition(k, logical) if k % DEPTH < logical else ''}end\nend\n" for k in range(CHAINS * DEPTH)]

    def row(digits, relation, right):
        numbers = [draw.randint(10 ** (n - 1), 10**n - 1) for n in digits]
        terms = " + ".join(f"{c} {name}" for c, name in zip(numbers, names))
        return f"row {terms} {relation} {right(numbers)}\n"

    # Each coefficient has eight digits, and as many of the first have nine as fill the limit to the byte.
    last = row([8] * VARIABLES, ">=", lambda numbers: sum(c * x for c, x in zip(numbers, values)))
    wide = 10**15 - 1
    least = len(row([8] * VARIABLES, "<=", lambda numbers: wide))
    blocks = sum(map(len, opening + closing))
    spare = LIMIT - len(head) - blocks - len(last) - (ROWS - 1) * least
    rows = []
    for i in range(ROWS - 1):
        longer = min(max(spare - i * VARIABLES, 0), VARIABLES)
        rows.append(row([9] * longer + [8] * (VARIABLES - longer), "<=", lambda numbers: wide))
    rows.append(last)
    text = [head]
    for k, begin in enumerate(opening):
        text += [begin, *rows[k * PER_BLOCK : (k + 1) * PER_BLOCK]]
        text += reversed(closing[k + 1 - DEPTH : k + 1]) if (k + 1) % DEPTH == 0 else []
    true = [f"b{k:03}" for k in range(CHAINS * DEPTH)]
    return "".join(text).encode(), point(names, values, true), point(names, [values[0] - 1] + values[1:], true)


def proposition(block, logical):
    """Gives the line of a block's proposition: at least one of the Booleans up to the innermost below it, named in turns."""
    known = block - block % DEPTH + DEPTH
    atoms = NODES // (CHAINS * logical) - 1
    return f"logic atleast(1, {', '.join(f'b{j % known:03}' for j in range(atoms))})\n"


def point(names, values, true=()):
    """Gives the text of the point with these whole numbers, and with these indicators true."""
    lines = "".join(f"val {name} {value}\n" for name, value in zip(names, values)) + "".join(f"on {name}\n" for name in true)
    return f"gdp-point 1\nover 1\n{lines}end\n".encode()


if __name__ == "__main__":
    folder = pathlib.Path(sys.argv[1])
    for name, text in zip(("full.gdp", "full.point", "full-fails.point"), full_model()):
        (folder / name).write_bytes(text)
    (folder / "compiled.gdp").write_bytes(full_model(is_compiled=True)[0])
