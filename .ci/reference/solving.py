"""Solving a model by a route: the search, the point in lowest terms, the answer's own tests, and the answer's text."""

from fractions import Fraction
from math import gcd

from .rewriting import compiled
from .search import GaveUp, LogicNodes, ProgramNodes, Search
from .simplex import Wide, fits
from .texts import verdict

ROUTES = ("bigm", "hull", "hybrid", "logic")


def lowest(over, numbers):
    common = gcd(over, *numbers)
    return over // common, [number // common for number in numbers]


def value(terms, constant, scale, over):
    """The value of a goal at numbers over `over`, formed in 128 bits; `terms` are pairs of a coefficient and a number."""
    total = 0
    for c, number in terms:
        total = fits(total + fits(c * number, "value"), "value")
    total = fits(total + fits(constant * over, "value"), "value")
    return Fraction(total, fits(scale * over, "value"))


def model_value(model, over, numbers):
    _, terms, constant, scale = model.goal or ("min", [], 0, 1)
    at = dict(zip(model.vars, numbers))
    return value([(c, at[name]) for name, c in terms], constant, scale, over)


def rows_in_force(block, truths):
    yield from block.rows
    for disjunction in block.disjunctions:
        for disjunct in disjunction.disjuncts:
            if disjunct.indicator in truths:
                yield from rows_in_force(disjunct, truths)


def ray_fails(model, truths, ray):
    """The line of the first test that a ray fails, or None."""
    at = dict(zip(model.vars, ray))
    for name, (_, low, high, mark) in model.vars.items():
        if low is not None and at[name] < 0 or high is not None and at[name] > 0:
            return mark

    def total(terms, mark):
        found = 0
        for name, c in terms:
            found = fits(found + fits(c * at[name], f"raysum {mark}"), f"raysum {mark}")
        return found

    for terms, relation, _, mark in rows_in_force(model.root, truths):
        found = total(terms, mark)
        if not {"<=": found <= 0, ">=": found >= 0, "=": found == 0}[relation]:
            return mark
    sense, terms, _, _ = model.goal or ("min", [], 0, 1)
    found = total([(name, c if sense == "min" else -c) for name, c in terms], model.goal_mark)
    return None if found < 0 else model.goal_mark


def solved(model, route, steps):
    """The status and the text: an answer, or a log."""
    log = ["gdp-log 1", f"route {route}"]
    try:
        nodes = LogicNodes(model) if route == "logic" else ProgramNodes(compiled(model, route))
        lines = answer_lines(model, route, nodes, steps)
        return 0, "".join(line + "\n" for line in lines)
    except GaveUp as gave_up:
        return 3, "".join(line + "\n" for line in log + gave_up.args[0])


def answer_lines(model, route, nodes, steps):
    searching = Search(nodes, steps)
    found = searching.run()
    head = ["gdp-answer 1", f"route {route}"]
    if found[0] == "empty":
        return [*head, "empty", "tree", *found[1], "end"]
    over, numbers, truths = found[1:4]
    count = len(model.vars)
    if route != "logic":
        truths = {name for name, number in zip(model.booleans, numbers[count:]) if number == over}
    over, numbers = lowest(over, numbers[:count])
    try:
        status, said = verdict(model, dict(zip(model.vars, numbers)), over, truths)
        if status == 3:
            raise Wide("sum " + said.rsplit(" ", 1)[1])
        assert status == 0
        if found[0] == "best":
            head.append(f"best {model_value(model, over, numbers)}")
        else:
            assert ray_fails(model, truths, found[4][:count]) is None
            head.append("endless")
    except Wide as wide:
        raise GaveUp([*searching.log, f"stop {wide}"]) from None
    head += [f"over {over}", *(f"val {name} {number}" for name, number in zip(model.vars, numbers))]
    head += [f"on {name}" for name in model.booleans if name in truths]
    if found[0] == "endless":
        return [*head, *(f"step {name} {step}" for name, step in zip(model.vars, found[4])), "end"]
    return [*head, "tree", *found[4], "end"]


def lp_solved(file, steps):
    """The same of the program of an LP text."""
    try:
        return 0, "".join(line + "\n" for line in lp_answer_lines(file, steps))
    except GaveUp as gave_up:
        return 3, "".join(line + "\n" for line in ["gdp-log 1", "route lp", *gave_up.args[0]])


def lp_answer_lines(file, steps):
    searching = Search(ProgramNodes(file.program), steps)
    found = searching.run()
    if found[0] == "empty":
        return ["gdp-lp 1", "empty", "end"]
    over, numbers = lowest(*found[1:3])
    head, steps_on = "endless", []
    if found[0] == "best":
        try:
            head = f"best {value([(c, numbers[at]) for at, c in file.program.goal], file.constant, file.scale, over)}"
        except Wide as wide:
            raise GaveUp([*searching.log, f"stop {wide}"]) from None
    else:
        steps_on = [f"step {name} {step}" for name, step in zip(file.names, found[4])]
    return ["gdp-lp 1", head, f"over {over}", *(f"val {name} {number}" for name, number in zip(file.names, numbers)), *steps_on, "end"]
