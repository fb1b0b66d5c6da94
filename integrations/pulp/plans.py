"""Small plans in PuLP with their known answers: what the test of `datemound_pulp` solves, and what `examples/lp/` has as LP files.

`PLANS` has for each plan a call that makes the problem, and its answer: the best value, `empty` or `endless`.
"""

from __future__ import annotations

from fractions import Fraction
from typing import Callable, NamedTuple

from pulp import LpBinary, LpInteger, LpMaximize, LpMinimize, LpProblem, LpVariable, lpSum


class Plan(NamedTuple):
    make: Callable[[], LpProblem]
    answer: Fraction | str


def blend() -> LpProblem:
    """A hundred kilograms of feed, with enough protein and calcium, and not too much fibre."""
    kilograms = {name: LpVariable(name, 0) for name in ("maize", "soy", "bran", "lime")}
    prices = {"maize": 0.18, "soy": 0.45, "bran": 0.12, "lime": 0.05}
    problem = LpProblem("blend", LpMinimize)
    problem += lpSum(prices[name] * kilograms[name] for name in prices), "cost"
    problem += lpSum(kilograms.values()) == 100, "total"
    problem += 0.09 * kilograms["maize"] + 0.44 * kilograms["soy"] + 0.15 * kilograms["bran"] >= 18, "protein"
    problem += 0.03 * kilograms["maize"] + 0.07 * kilograms["soy"] + 0.12 * kilograms["bran"] <= 7, "fibre"
    problem += 0.003 * kilograms["soy"] + 0.38 * kilograms["lime"] >= 1.2, "calcium"
    return problem


def transport() -> LpProblem:
    """Pallets from two depots to three shops."""
    stock, wanted = {"north": 40, "south": 35}, {"market": 20, "station": 30, "harbour": 22}
    hours = {"north": {"market": 2, "station": 4, "harbour": 5}, "south": {"market": 3, "station": 1, "harbour": 3}}
    pallets = {(depot, shop): LpVariable(f"{depot}_{shop}", 0) for depot in stock for shop in wanted}
    problem = LpProblem("transport", LpMinimize)
    problem += lpSum(hours[depot][shop] * pallets[depot, shop] for depot, shop in pallets), "hours"
    for depot in stock:
        problem += lpSum(pallets[depot, shop] for shop in wanted) <= stock[depot], f"stock_{depot}"
    for shop in wanted:
        problem += lpSum(pallets[depot, shop] for depot in stock) == wanted[shop], f"wanted_{shop}"
    return problem


def knapsack() -> LpProblem:
    """Which of seven orders fill a container."""
    volume, worth = [12, 7, 9, 4, 15, 6, 11], [31, 16, 25, 9, 40, 15, 27]
    takes = [LpVariable(f"take_{at}", cat=LpBinary) for at in range(7)]
    problem = LpProblem("knapsack", LpMaximize)
    problem += lpSum(c * take for c, take in zip(worth, takes)), "worth"
    problem += lpSum(c * take for c, take in zip(volume, takes)) <= 37, "volume"
    return problem


def lorries() -> LpProblem:
    """Lorries of two sizes for a load, with few drivers."""
    large, small = LpVariable("large", 0, 6, LpInteger), LpVariable("small", 0, 9, LpInteger)
    problem = LpProblem("lorries", LpMinimize)
    problem += 310 * large + 190 * small, "cost"
    problem += 12.5 * large + 7 * small >= 55.5, "load"
    problem += large + small <= 7, "drivers"
    return problem


def rota() -> LpProblem:
    """Who does which of four jobs."""
    minutes = [[14, 5, 8, 7], [2, 12, 6, 5], [7, 8, 3, 9], [2, 4, 6, 10]]
    does = [[LpVariable(f"does_{i}_{j}", cat=LpBinary) for j in range(4)] for i in range(4)]
    problem = LpProblem("rota", LpMinimize)
    problem += lpSum(minutes[i][j] * does[i][j] for i in range(4) for j in range(4)), "minutes"
    for i in range(4):
        problem += lpSum(does[i]) == 1, f"person_{i}"
        problem += lpSum(does[j][i] for j in range(4)) == 1, f"job_{i}"
    return problem


def lots() -> LpProblem:
    """What is made in each of four weeks, where each week of work has a cost of its own."""
    wanted = [20, 35, 10, 40]
    made = [LpVariable(f"made_{week}", 0) for week in range(4)]
    kept = [LpVariable(f"kept_{week}", 0, 30) for week in range(4)]
    runs = [LpVariable(f"runs_{week}", cat=LpBinary) for week in range(4)]
    problem = LpProblem("lots", LpMinimize)
    problem += lpSum(60 * runs[week] + 1.5 * kept[week] + 2 * made[week] for week in range(4)), "cost"
    for week in range(4):
        problem += made[week] + (kept[week - 1] if week else 0) - kept[week] == wanted[week], f"week_{week}"
        problem += made[week] <= 60 * runs[week], f"work_{week}"
    return problem


def account() -> LpProblem:
    """An account that may be overdrawn to 500, and a change of stock that may be of either sign."""
    balance, change, sold = LpVariable("balance", -500, 2000), LpVariable("change", None, None), LpVariable("sold", 0, 120)
    problem = LpProblem("account", LpMaximize)
    problem += balance + 2.25 * change, "worth"
    problem += balance + 4.5 * change - 6 * sold <= -900, "money"
    problem += change + sold <= 80, "goods"
    problem += change >= -60.5, "stock"
    return problem


def scales() -> LpProblem:
    """Weights of 4, 6 and 10 on two scales that differ by 7: there are none, since 7 is odd."""
    weights = [LpVariable(f"weights_{size}", -9, 9, LpInteger) for size in (4, 6, 10)]
    problem = LpProblem("scales", LpMinimize)
    problem += weights[0], "first"
    problem += 4 * weights[0] + 6 * weights[1] + 10 * weights[2] == 7, "difference"
    return problem


def short() -> LpProblem:
    """More wanted than there is."""
    first, second = LpVariable("first", 0, 30), LpVariable("second", 0, 25)
    problem = LpProblem("short", LpMinimize)
    problem += 2 * first + 3 * second, "cost"
    problem += first + second >= 60, "wanted"
    return problem


def market() -> LpProblem:
    """Nobody said what the market takes."""
    made, sold = LpVariable("made", 0), LpVariable("sold", 0)
    problem = LpProblem("market", LpMaximize)
    problem += 3 * sold - made, "profit"
    problem += sold - 0.9 * made <= 0, "loss"
    return problem


def coins() -> LpProblem:
    """What is left over of 3 once coins of 5 are paid and coins of 8 are got back: it has no least."""
    fives, eights, rest = LpVariable("fives", 0, None, LpInteger), LpVariable("eights", 0, None, LpInteger), LpVariable("rest", None, 7)
    problem = LpProblem("coins", LpMinimize)
    problem += rest, "rest"
    problem += 5 * fives - 8 * eights + rest == 3, "sum"
    return problem


def stations() -> LpProblem:
    """The fewest stations from which each of six villages is reached."""
    reached = [(0, 1), (0, 1, 5), (2, 3), (2, 3, 4), (3, 4, 5), (1, 4, 5)]
    opened = [LpVariable(f"open_{at}", cat=LpBinary) for at in range(6)]
    problem = LpProblem("stations", LpMinimize)
    problem += lpSum(opened), "stations"
    for village, places in enumerate(reached):
        problem += lpSum(opened[at] for at in places) >= 1, f"village_{village}"
    return problem


def pipes() -> LpProblem:
    """The most that flows through a net of pipes, with a fixed leak and one pipe of fixed flow."""
    most = {"a_b": 16, "a_c": 13, "b_d": 12, "c_b": 4, "c_e": 14, "d_c": 9, "e_d": 7, "d_f": 20, "e_f": 4}
    flows = {name: LpVariable(name, 0, limit) for name, limit in most.items()}
    flows["c_b"].lowBound = flows["c_b"].upBound = 1.125
    problem = LpProblem("pipes", LpMaximize)
    problem += flows["a_b"] + flows["a_c"], "flow"
    for node in "bcde":
        into = lpSum(flow for name, flow in flows.items() if name.endswith(node))
        out = lpSum(flow for name, flow in flows.items() if name.startswith(node))
        problem += into - out == (0.25 if node == "d" else 0), f"node_{node}"
    return problem


def mixed() -> LpProblem:
    """Whole boxes and loose kilograms, with a whole number that may be below 0."""
    boxes, loose, shift = LpVariable("boxes", 0, 20, LpInteger), LpVariable("loose", 0, 9.75), LpVariable("shift", -4, 4, LpInteger)
    problem = LpProblem("mixed", LpMaximize)
    problem += 7 * boxes + 2.4 * loose - 1.5 * shift, "profit"
    problem += 2.5 * boxes + loose + shift <= 33.3, "weight"
    problem += boxes - 3 * shift >= 6, "balance"
    problem += boxes + 3 * shift <= 9.5, "work"
    return problem


def names() -> LpProblem:
    """Names that LP text can't have, or that are words of it."""
    problem = LpProblem("a plan: n\u00b0 2", LpMinimize)
    first, second, third = LpVariable("2nd line", 1), LpVariable("caf\u00e9 | bar", 0, 8), LpVariable("end", 0, 8, LpInteger)
    problem += 3 * first + 2 * second + third, "the cost: in euros"
    problem += first + second + third >= 10.5, "sos1"
    problem += third - second <= 2, "a*b"
    return problem


def constant() -> LpProblem:
    """An objective with a constant, and rows whose constants are on the left."""
    x, y = LpVariable("x", 1, 4), LpVariable("y", 0)
    problem = LpProblem("constant", LpMaximize)
    problem += 2 * x - y + 0.5, "value"
    problem += x + 3 - y <= 5.25, "difference"
    return problem


def anything() -> LpProblem:
    """No objective."""
    x, n = LpVariable("x", 0, 4), LpVariable("n", 1, 3, LpInteger)
    problem = LpProblem("anything", LpMinimize)
    problem += x + n == 4.5, "sum"
    return problem


#: Each plan and its answer. Those up to `mixed` are in `examples/lp/` too.
PLANS = {
    "blend": Plan(blend, Fraction(7829, 423)),
    "transport": Plan(transport, Fraction(170)),
    "knapsack": Plan(knapsack, Fraction(96)),
    "lorries": Plan(lorries, Fraction(1430)),
    "rota": Plan(rota, Fraction(15)),
    "lots": Plan(lots, Fraction(405)),
    "account": Plan(account, Fraction(-351, 8)),
    "scales": Plan(scales, "empty"),
    "short": Plan(short, "empty"),
    "market": Plan(market, "endless"),
    "coins": Plan(coins, "endless"),
    "stations": Plan(stations, Fraction(2)),
    "pipes": Plan(pipes, Fraction(23)),
    "mixed": Plan(mixed, Fraction(2738, 25)),
    "names": Plan(names, Fraction(17)),
    "constant": Plan(constant, Fraction(27, 4)),
    "anything": Plan(anything, Fraction(0)),
}
