"""The optimum of a model found by trying every setting of its Booleans and whole variables, each with a linear program.

It knows no rewrite, no certificate and no log: what a point is stands in `docs/FORMATS.md`, and the linear programs are solved
in exact fractions. `optimum(model)` gives `("best", value)`, `("empty",)` or `("endless",)`, and None where a whole variable
has no bounds, or where there is too much to try. `program_optimum(file)` gives the same of an LP text's program.
"""

from fractions import Fraction
from itertools import product
from math import ceil, floor, prod

from .texts import truth

MOST_TRIED = 3000


def least(columns, rows, goal):
    """The least value of a goal over free columns and rows of at most: a fraction, "empty" or "endless".

    Two phases of the simplex over a dictionary of fractions; the least column enters, and of the rows that bind first the one
    with the least basic column leaves, so that it ends.
    """
    width = 2 * columns
    table = []
    for terms, right in rows:
        line = [Fraction(0)] * width
        for at, c in terms:
            line[2 * at] += c
            line[2 * at + 1] -= c
        table.append((line, Fraction(right)))
    count, total = len(table), width + len(table) + 1
    tableau, basis, helper = [], [], total - 1
    for i, (line, right) in enumerate(table):
        tableau.append(line + [Fraction(int(j == i)) for j in range(count)] + [Fraction(-1), right])
        basis.append(width + i)

    def pivot(r, j):
        p = tableau[r][j]
        tableau[r] = [entry / p for entry in tableau[r]]
        for i, line in enumerate(tableau):
            if i != r and line[j]:
                f = line[j]
                tableau[i] = [a - f * b if b else a for a, b in zip(line, tableau[r])]
        basis[r] = j

    def descend(costs, allowed):
        while True:
            shown = [cost for cost in costs]
            prices = [costs[at] for at in basis]
            enter = next((j for j in range(allowed) if shown[j] - sum(p * tableau[i][j] for i, p in enumerate(prices) if p and tableau[i][j]) < 0), None)
            if enter is None:
                return sum(p * tableau[i][-1] for i, p in enumerate(prices))
            ratios = [(tableau[i][-1] / tableau[i][enter], basis[i], i) for i in range(count) if tableau[i][enter] > 0]
            if not ratios:
                return "endless"
            pivot(min(ratios)[2], enter)

    if count and min(right for _, right in table) < 0:
        pivot(min(range(count), key=lambda i: tableau[i][-1]), helper)
        if descend([Fraction(int(j == helper)) for j in range(total)], total) > 0:
            return "empty"
        if helper in basis:
            r = basis.index(helper)
            j = next((j for j in range(helper) if tableau[r][j]), None)
            if j is not None:
                pivot(r, j)
    costs = [Fraction(0)] * total
    for at, c in goal:
        costs[2 * at] += c
        costs[2 * at + 1] -= c
    return descend(costs, helper)


def settings(model):
    """The sets of true Booleans that the choices and the logic of a model let stand."""

    def choices(block):
        """The sets of indicators that may be true below a block that holds."""
        found = [frozenset()]
        for disjunction in block.disjunctions:
            below = [[frozenset([d.indicator]) | inner for inner in choices(d)] for d in disjunction.disjuncts]
            taken = []
            for picks in product(*([None, *some] for some in below)):
                picked = [pick for pick in picks if pick is not None]
                if len(picked) == 1 or len(picked) > 1 and disjunction.mode == "or":
                    taken.append(frozenset().union(*picked))
            found = [one | other for one in found for other in taken]
        return found

    def is_logical(block, truths):
        return all(truth(proposition, truths) for proposition, _ in block.propositions) and all(
            is_logical(disjunct, truths) for disjunction in block.disjunctions for disjunct in disjunction.disjuncts if disjunct.indicator in truths
        )

    for indicators in choices(model.root):
        for bits in product((False, True), repeat=len(model.plain)):
            truths = indicators | {name for name, bit in zip(model.plain, bits) if bit}
            if is_logical(model.root, truths):
                yield truths


def rows_below(block, truths):
    yield from block.rows
    for disjunction in block.disjunctions:
        for disjunct in disjunction.disjuncts:
            if disjunct.indicator in truths:
                yield from rows_below(disjunct, truths)


def optimum(model):
    names = list(model.vars)
    whole, reals = [name for name in names if model.vars[name][0] == "int"], [name for name in names if model.vars[name][0] == "real"]
    if any(None in model.vars[name][1:3] for name in whole):
        return None
    ranges = [range(ceil(model.vars[name][1]), floor(model.vars[name][2]) + 1) for name in whole]
    tried = [truths for truths in settings(model)]
    if len(tried) * prod(map(len, ranges)) > MOST_TRIED:
        return None
    sense, terms, constant, scale = model.goal or ("min", [], 0, 1)
    sign = 1 if sense == "min" else -1
    place = {name: at for at, name in enumerate(reals)}
    bounds = []
    for name, (_, low, high, _) in model.vars.items():
        if name in place:
            bounds += [([(place[name], -1)], -low)] if low is not None else []
            bounds += [([(place[name], 1)], high)] if high is not None else []
    best = None
    for truths in tried:
        forced = list(rows_below(model.root, truths))
        for values in product(*ranges):
            fixed = dict(zip(whole, values))
            rows, is_open = list(bounds), True
            for listed, relation, right, _ in forced:
                left = [(place[name], c) for name, c in listed if name in place]
                over = right - sum(c * fixed[name] for name, c in listed if name in fixed)
                if not left and not {"<=": 0 <= over, ">=": 0 >= over, "=": over == 0}[relation]:
                    is_open = False
                    break
                rows += [(left, over)] if relation in ("<=", "=") else []
                rows += [([(at, -c) for at, c in left], -over)] if relation in (">=", "=") else []
            if not is_open:
                continue
            own = sign * sum(c * fixed[name] for name, c in terms if name in fixed)
            value = least(len(reals), rows, [(place[name], sign * c) for name, c in terms if name in place])
            if value == "endless":
                return ("endless",)
            if value != "empty" and (best is None or own + value < best):
                best = own + value
    return ("empty",) if best is None else ("best", (sign * best + constant) / Fraction(scale))


def program_optimum(file):
    """The optimum of an LP text's program, where its whole columns have a bound on either side; None where it has one without."""
    program, sign = file.program, 1 if file.program.sense == "min" else -1
    columns, free = range(len(program.columns)), [column.is_free for column in program.columns]
    whole = [at for at in columns if program.columns[at].is_whole]
    listed = program.at_most_rows() + [([(at, -1)], 0) for at in columns if not free[at]]
    ranges = []
    for at in whole:
        ends = [(c, right) for terms, right in listed for name, c in terms if len(terms) == 1 and name == at]
        lows, highs = [ceil(Fraction(right, c)) for c, right in ends if c < 0], [floor(Fraction(right, c)) for c, right in ends if c > 0]
        if not lows or not highs:
            return None
        ranges.append(range(max(lows), min(highs) + 1))
    if prod(map(len, ranges)) > MOST_TRIED:
        return None
    best = None
    for values in product(*ranges):
        fixed = dict(zip(whole, values))
        left = [([(at, c) for at, c in terms if at not in fixed], right - sum(c * fixed[at] for at, c in terms if at in fixed)) for terms, right in listed]
        value = least(len(columns), left, [(at, sign * c) for at, c in program.goal if at not in fixed])
        if value == "endless":
            return ("endless",)
        own = sum(sign * c * fixed[at] for at, c in program.goal if at in fixed)
        if value != "empty" and (best is None or own + value < best):
            best = own + value
    return ("empty",) if best is None else ("best", (sign * best + file.constant) / Fraction(file.scale))
