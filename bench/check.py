#!/usr/bin/env python3
"""Measures `check` on certificates of up to a million nodes, made by construction, and beside the `solve` that takes long.

`check.py` prints two tables. The first is of certificates whose models are small: a whole variable split in the middle, and its
halves again, down to single values; free Booleans, each tried both ways; and a whole variable split at each of its values in
turn, so that the tree is half as deep as it is large. The second is of plants whose `solve` takes about a second: what `check` of
the answer takes beside. GDP names another program than the one that is built here.
"""

import pathlib
import tempfile
from collections.abc import Iterator

import plants
from runs import PROGRAM, in_turns, machine, run

TURNS = 2
STEPS = "1000000"
# Routes, and plants of seed and size, whose answers take long to find.
LONG = [("bigm", 1, 8), ("bigm", 3, 8), ("bigm", 1, 10), ("logic", 1, 15)]


def halves(depth: int) -> Iterator[str]:
    """A split in the middle, and of each half again, down to single values."""
    waiting = [(0, 2**depth - 1)]
    while waiting:
        low, high = waiting.pop()
        middle = (low + high) // 2
        yield "bounded 1 0:1" if low == high else f"int 0 {middle}"
        waiting += [(middle + 1, high), (low, middle)] if low < high else []


def truths(count: int) -> Iterator[str]:
    """Each of so many Booleans tried both ways, though none of them matters."""
    waiting = [0]
    while waiting:
        at = waiting.pop()
        yield "bounded 1 0:1" if at == count else f"truth {at}"
        waiting += [at + 1, at + 1] if at < count else []


def chain(count: int) -> Iterator[str]:
    """A split at each value but the last, in turn. The first half is closed by the high bound that was set, behind the low one."""
    for at in range(count):
        yield f"int 0 {at}"
        yield f"bounded 1 {min(at + 1, 2)}:1"
    yield "bounded 1 0:1"


def whole(most: int) -> str:
    return f"gdp 1\nvar n int 0 {most}\nmax n\n"


def write_answer(path: pathlib.Path, route: str, best: int, nodes: Iterator[str]) -> int:
    """Writes the answer that the variable `n` is best at its highest, and gives the number of its nodes."""
    count = 0
    with path.open("w") as file:
        file.write(f"gdp-answer 1\nroute {route}\nbest {best}\nover 1\nval n {best}\ntree\n")
        for node in nodes:
            file.write(node + "\n")
            count += 1
        file.write("end\n")
    return count


def large(folder: pathlib.Path) -> None:
    """The table of certificates by construction."""
    free = "gdp 1\nvar n real 0 1\n" + "".join(f"boolean b{at}\n" for at in range(19)) + "max n\n"
    print("| certificate | nodes | deep | text | seconds of the processor | peak memory | times the text | answer |")
    print("|---|---|---|---|---|---|---|---|")
    made = [
        ("a variable split in the middle", 19, whole(2**19 - 1), "bigm", 2**19 - 1, halves(19)),
        ("Booleans tried both ways", 19, free, "logic", 1, truths(19)),
        ("a variable split at each value", 12_500, whole(12_500), "bigm", 12_500, chain(12_500)),
        ("the same", 50_000, whole(50_000), "bigm", 50_000, chain(50_000)),
        ("the same", 500_000, whole(500_000), "bigm", 500_000, chain(500_000)),
        ("the same, over the model itself", 12_500, whole(12_500), "logic", 12_500, chain(12_500)),
        ("the same", 500_000, whole(500_000), "logic", 500_000, chain(500_000)),
    ]
    model, path = folder / "model", folder / "answer"
    for name, depth, text, route, best, nodes in made:
        model.write_text(text)
        count = write_answer(path, route, best, nodes)
        found = in_turns({"check": [PROGRAM, "check", str(model), str(path)]}, TURNS)["check"]
        size = path.stat().st_size
        said = f"{found.memory / 2**20:.1f} MiB | {found.memory / size:.1f} | {found.out.decode().strip()}"
        print(f"| {name} | {count:,} | {depth:,} | {size / 2**20:.1f} MiB | {found.busy:.2f} | {said} |", flush=True)


def beside(folder: pathlib.Path) -> None:
    """The table of `check` beside the `solve` that wrote the answer."""
    print("\n| route | size, seed | `solve`, s | nodes | answer | `check`, s | `check` over `solve` |")
    print("|---|---|---|---|---|---|---|")
    model, path = folder / "model", folder / "answer"
    for route, seed, size in LONG:
        model.write_text(plants.text(seed, size))
        words = {"solve": [PROGRAM, "solve", route, STEPS, str(model)], "check": [PROGRAM, "check", str(model), str(path)]}
        found = run(words["solve"])
        if found.status != 0:
            print(f"| {route} | {size}, {seed} | gave up, {found.busy:.2f} | | | | |", flush=True)
            continue
        path.write_bytes(found.out)
        best = in_turns(words, TURNS)
        solve, check = best["solve"].busy, best["check"].busy
        nodes = found.out[found.out.index(b"tree\n") :].count(b"\n") - 2
        told = f"{nodes:,} | {len(found.out) / 2**10:,.0f} KiB | {check:.3f} | {check / solve:.3f}"
        print(f"| {route} | {size}, {seed} | {solve:.2f} | {told} |", flush=True)


if __name__ == "__main__":
    print(f"{machine()}; the least processor time of {TURNS}\n")
    with tempfile.TemporaryDirectory() as temporary:
        large(pathlib.Path(temporary))
        beside(pathlib.Path(temporary))
