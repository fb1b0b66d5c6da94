#!/usr/bin/env python3
"""Models of six kinds, drawn from a seed: `families.py FAMILY SIZE SEED [decimals]` prints one.

The kinds are those of the larger examples. With `decimals` each number has two places behind the point, else each is whole.
"""

import itertools
import random
import sys
from collections.abc import Callable


class Draw:
    """Numbers from a seed, in the form in which they are written."""

    def __init__(self, seed: str, is_decimal: bool) -> None:
        self.random, self.is_decimal = random.Random(seed), is_decimal

    def number(self, low: int, high: int) -> str:
        """A number between two, whole or with two places."""
        hundredths = self.random.randint(100 * low, 100 * high)
        return f"{hundredths / 100:.2f}" if self.is_decimal else str(self.random.randint(low, high))

    def share(self, low: int, high: int) -> str:
        """A share between so many hundredths, as two whole coefficients or as 1 and a decimal: `A first - B second`."""
        return f"1 - 0.{self.random.randint(low, high):02}" if self.is_decimal else f"10 - {self.random.randint(low // 10, high // 10)}"


def scaled(share: str, first: str, second: str) -> str:
    left, right = share.split(" - ")
    return f"{left} {first} - {right} {second}"


def choice(mode: str, disjuncts: dict[str, list[str]]) -> list[str]:
    """The lines of a disjunction."""
    inner = [line for name, lines in disjuncts.items() for line in (f"disjunct {name}", *lines, "end")]
    return [f"disjunction {mode}", *inner, "end"]


def process_network(draw: Draw, stages: int) -> list[str]:
    """A plant of stages, at each of which one of three units is taken; each loses some of the flow and costs by the flow."""
    lines = [f"var flow{i} real 0 100" for i in range(stages + 1)] + [f"var cost{i} real 0 400" for i in range(stages)]
    costs = " - ".join(f"cost{i}" for i in range(stages))
    lines.append(f"max {draw.number(20, 40)} flow{stages} - {draw.number(1, 4)} flow0 - {costs}")
    lines.append(f"row flow{stages} <= {draw.number(20, 60)}")
    for i in range(stages):
        units = {}
        for unit in ("small", "large", "new"):
            loss = f"row {scaled(draw.share(60, 95), f'flow{i + 1}', f'flow{i}')} <= 0"
            units[f"{unit}{i}"] = [loss, f"row cost{i} - {draw.number(1, 3)} flow{i} >= {draw.number(10, 40)}"]
        units[f"small{i}"].append(f"row flow{i} <= {draw.number(30, 60)}")
        units[f"large{i}"].append(f"row flow{i} >= {draw.number(5, 15)}")
        lines += choice("xor", units)
    return lines + [f"logic implies(new{i}, not(small{i + 1}))" for i in range(stages - 1)]


def job_shop(draw: Draw, jobs: int) -> list[str]:
    """Jobs that pass three machines without waiting; of two jobs one is first at each machine."""
    times = [[draw.number(1, 9) for _ in range(3)] for _ in range(jobs)]
    total = sum(float(time) for job in times for time in job)
    lines = [f"var job{i} real 0 {int(total) + 1}" for i in range(jobs)] + [f"var makespan real 0 {2 * int(total) + 2}", "min makespan"]
    lines += [f"row makespan - job{i} >= {exact(*times[i])}" for i in range(jobs)]
    for (i, j), machine in itertools.product(itertools.combinations(range(jobs), 2), range(3)):
        first = f"row job{j} - job{i} >= {exact(*times[i][: machine + 1], *(f'-{time}' for time in times[j][:machine]))}"
        second = f"row job{i} - job{j} >= {exact(*times[j][: machine + 1], *(f'-{time}' for time in times[i][:machine]))}"
        lines += choice("xor", {f"j{i}_before_{j}_at_{machine}": [first], f"j{j}_before_{i}_at_{machine}": [second]})
    return lines


def exact(*numbers: str) -> str:
    """The sum of numbers with two places at most."""
    hundredths = sum(round(100 * float(number)) for number in numbers)
    sign, rest = "-" if hundredths < 0 else "", abs(hundredths)
    return f"{sign}{rest // 100}" + (f".{rest % 100:02}" if rest % 100 else "")


def strip_packing(draw: Draw, labels: int) -> list[str]:
    """Labels on a roll of width 10, none over another, on as little of the roll as will do."""
    sizes = [(draw.number(2, 6), draw.number(2, 6)) for _ in range(labels)]
    most = sum(float(long) for long, _ in sizes)
    lines = [f"var at{i} real 0 {int(most) + 1}" for i in range(labels)]
    lines += [f"var up{i} real 0 {exact('10', f'-{wide}')}" for i, (_, wide) in enumerate(sizes)]
    lines += [f"var length real 0 {int(most) + 1}", "min length"]
    lines += [f"row length - at{i} >= {long}" for i, (long, _) in enumerate(sizes)]
    for i, j in itertools.combinations(range(labels), 2):
        beside = {f"b{i}_before_{j}": [f"row at{j} - at{i} >= {sizes[i][0]}"], f"b{j}_before_{i}": [f"row at{i} - at{j} >= {sizes[j][0]}"]}
        over = {f"b{i}_below_{j}": [f"row up{j} - up{i} >= {sizes[i][1]}"], f"b{j}_below_{i}": [f"row up{i} - up{j} >= {sizes[j][1]}"]}
        fits = float(sizes[i][1]) + float(sizes[j][1]) <= 10
        lines += choice("xor", beside | over if fits else beside)
    return lines


def facility_choice(draw: Draw, sites: int) -> list[str]:
    """Sites to serve three towns from: each is rented and then sends something, or not. Not all may be rented."""
    names = [f"s{i}t{j}" for i in range(sites) for j in range(3)]
    lines = [f"var {name} real 0 60" for name in names] + [f"var rent{i} real 0 90" for i in range(sites)]
    lines.append("min " + " + ".join([f"{draw.number(1, 9)} {name}" for name in names] + [f"rent{i}" for i in range(sites)]))
    for j in range(3):
        lines.append(f"row {' + '.join(f's{i}t{j}' for i in range(sites))} >= {draw.number(20, 40)}")
    for i in range(sites):
        sent = " + ".join(f"s{i}t{j}" for j in range(3))
        rented = [f"row {sent} <= {draw.number(60, 99)}", f"row {sent} >= {draw.number(5, 15)}", f"row rent{i} = {draw.number(20, 80)}"]
        lines += choice("xor", {f"site{i}": rented, f"no_site{i}": [f"row {sent} = 0", f"row rent{i} = 0"]})
    return lines + [f"logic atmost({max(sites - 1, 2)}, {', '.join(f'site{i}' for i in range(sites))})", "logic or(site0, site1)"]


def batch_schedule(draw: Draw, batches: int) -> list[str]:
    """Batches in two kettles: which goes into which, and in which order where two share one."""
    lines = [f"var begin{i} real 0 {20 * batches}" for i in range(batches)] + [f"var done{i} real 0 {20 * batches}" for i in range(batches)]
    lines += [f"var finish real 0 {20 * batches + 9}", "min finish"]
    lines += [f"row finish - done{i} >= {draw.number(1, 3)}" for i in range(batches)]
    for i in range(batches):
        small, large = draw.number(6, 10), draw.number(3, 6)
        kettles = {f"small{i}": [f"row done{i} - begin{i} >= {small}"], f"large{i}": [f"row done{i} - begin{i} >= {large}"]}
        lines += choice("xor", kettles)
    for i, j in itertools.combinations(range(batches), 2):
        same = f"logic equivalent(small{i}, small{j})"
        orders = {f"apart{i}_{j}": [f"logic xor(small{i}, small{j})"]}
        orders[f"b{i}_first_{j}"] = [same, f"row begin{j} - done{i} >= {draw.number(0, 2)}"]
        orders[f"b{j}_first_{i}"] = [same, f"row begin{i} - done{j} >= {draw.number(0, 2)}"]
        lines += choice("xor", orders)
    return lines


def transport(draw: Draw, towns: int) -> list[str]:
    """Two plants and towns, by roads that carry a load or are closed, with lorries in whole numbers; one road is by a harbour."""
    roads = [f"p{i}t{j}" for i in range(2) for j in range(towns)]
    lines = [f"var {road} real 0 80" for road in roads] + [f"var lorries int 0 {8 * towns}", "boolean night_shift"]
    lines.append("min " + " + ".join([f"{draw.number(1, 9)} {road}" for road in roads] + [f"{draw.number(50, 150)} lorries"]))
    for j in range(towns):
        lines.append(f"row p0t{j} + p1t{j} >= {draw.number(20, 50)}")
    lines += [f"row {' + '.join(f'p{i}t{j}' for j in range(towns))} <= {60 * towns}" for i in range(2)]
    lines.append(f"row {' + '.join(roads)} - {draw.number(10, 14)} lorries <= 0")
    for road in roads[1:]:
        lines += choice("xor", {f"open_{road}": [f"row {road} >= {draw.number(8, 15)}"], f"shut_{road}": [f"row {road} = 0"]})
    ways = choice("xor", {"ship": [f"row {roads[0]} <= {draw.number(30, 50)}"], "ferry": [f"row {roads[0]} <= {draw.number(50, 70)}", "row lorries >= 2"]})
    lines += choice("or", {"harbour": ways, "coast_road": [f"row {roads[-1]} >= {draw.number(8, 15)}"]})
    return lines + [f"logic implies(night_shift, open_{roads[1]})"]


# Each family with its four sizes.
FAMILIES: dict[str, tuple[Callable[[Draw, int], list[str]], tuple[int, int, int, int]]] = {
    "process_network": (process_network, (2, 4, 6, 8)),
    "job_shop": (job_shop, (2, 3, 4, 5)),
    "strip_packing": (strip_packing, (2, 3, 4, 5)),
    "facility_choice": (facility_choice, (3, 5, 7, 9)),
    "batch_schedule": (batch_schedule, (2, 3, 4, 5)),
    "transport": (transport, (2, 3, 4, 5)),
}


def model(family: str, size: int, seed: int, is_decimal: bool) -> str:
    """The text of a model."""
    draw = Draw(f"{family} {size} {seed}", is_decimal)
    return "".join(line + "\n" for line in ["gdp 1", *FAMILIES[family][0](draw, size)])


if __name__ == "__main__":
    print(model(sys.argv[1], int(sys.argv[2]), int(sys.argv[3]), "decimals" in sys.argv[4:]), end="")
