"""The search in depth order: over a mixed-integer program, or over a model by its Booleans and whole variables.

A node is opened, Bland's moves are made to the end, and the node is closed with a certificate or split in two. `Search(nodes,
steps).run()` gives the result, or raises `GaveUp` with the log.
"""

from .simplex import Force, Tableau, Wide, closing
from .programs import at_most
from .texts import Decided, verdict

OPEN, NO, YES = None, False, True


class GaveUp(Exception):
    """The lines of the log, the last of which says why it stopped."""


def bound_rows(path, whole):
    """The tightest low and high of each whole column that a path sets, as rows of at most."""
    rows = []
    for column in whole:
        ends = [(at, is_second) for kind, named, at, is_second in path if kind == "int" and named == column]
        lows, highs = [at for at, is_second in ends if is_second], [at for at, is_second in ends if not is_second]
        rows += [([(column, -1)], -(max(lows) + 1))] if lows else []
        rows += [([(column, 1)], min(highs))] if highs else []
    return rows


def signed(sense, terms):
    return [(at, c if sense == "min" else -c) for at, c in terms]


class ProgramNodes:
    """Nodes over a program: only whole columns are split."""

    def __init__(self, program):
        self.program, self.rows = program, program.at_most_rows()
        self.whole = [at for at, column in enumerate(program.columns) if column.is_whole]
        self.free = [column.is_free for column in program.columns]
        self.goal = signed(program.sense, program.goal)

    def dead(self, path):
        return None

    def loose(self, path):
        return None

    def force(self, path, with_goal):
        return Force(self.free, self.rows + bound_rows(path, self.whole), self.goal if with_goal else [])

    def test(self, path, over, numbers):
        """The truths of a point, or the split of one that isn't."""
        for column in self.whole:
            if numbers[column] % over:
                return None, ("int", column, numbers[column] // over)
        return [], None


def both(parts):
    parts = list(parts)
    return NO if NO in parts else YES if all(part is YES for part in parts) else OPEN


def turned(part):
    return None if part is OPEN else not part


def either(parts):
    return turned(both(turned(part) for part in parts))


def counted(parts, number):
    """Whether at least so many are true."""
    yes, unknown = sum(part is YES for part in parts), sum(part is OPEN for part in parts)
    return YES if yes >= number else NO if yes + unknown < number else OPEN


def reading(proposition, known):
    """The three-valued truth of a proposition, where `known` has the truth of some Booleans."""
    if isinstance(proposition, str):
        return known.get(proposition)
    word, digits, arguments = proposition
    parts = [reading(argument, known) for argument in arguments]
    if word in ("equivalent", "xor"):
        same = OPEN if OPEN in parts else parts[0] == parts[1]
        return same if word == "equivalent" else turned(same)
    if word == "not":
        return turned(parts[0])
    if word in ("and", "or"):
        return both(parts) if word == "and" else either(parts)
    if word == "implies":
        return either([turned(parts[0]), parts[1]])
    number = int(digits)
    least, most = counted(parts, number), turned(counted(parts, number + 1))
    return {"atleast": least, "atmost": most, "exactly": both([least, most])}[word]


def items(block):
    """The propositions and the disjunctions at and below a block, each with the indicator of its block."""
    for proposition, _ in block.propositions:
        yield block.indicator, proposition, None
    for disjunction in block.disjunctions:
        yield block.indicator, None, disjunction
        for disjunct in disjunction.disjuncts:
            yield from items(disjunct)


def condition(item, known):
    indicator, proposition, disjunction = item
    if proposition is not None:
        part = reading(proposition, known)
        return part if indicator is None else either([turned(known.get(indicator)), part])
    names = [disjunct.indicator for disjunct in disjunction.disjuncts]
    chosen = reading(("exactly" if disjunction.mode == "xor" else "atleast", "1", names), known)
    if indicator is None:
        return chosen
    own = known.get(indicator)
    return both([either([turned(own), chosen])] + [either([turned(known.get(name)), own]) for name in names])


def blocks(block):
    """The disjuncts below a block, in the order of the text."""
    for disjunction in block.disjunctions:
        for disjunct in disjunction.disjuncts:
            yield disjunct
            yield from blocks(disjunct)


class LogicNodes:
    """Nodes over a model: Booleans are split, and then whole variables."""

    def __init__(self, model):
        self.model, self.names = model, list(model.vars)
        self.place = {name: at for at, name in enumerate(self.names)}
        self.whole = [at for at, (kind, *_) in enumerate(model.vars.values()) if kind == "int"]
        self.free = [low != 0 for _, low, _, _ in model.vars.values()]
        self.items, self.booleans = list(items(model.root)), list(model.booleans)
        sense, terms, _, _ = model.goal or ("min", [], 0, 1)
        self.goal = signed(sense, [(self.place[name], c) for name, c in terms])

    def known(self, path):
        return {self.booleans[at]: not is_second for kind, at, _, is_second in path if kind == "truth"}

    def dead(self, path):
        known = self.known(path)
        return next((at for at, item in enumerate(self.items) if condition(item, known) is NO), None)

    def loose(self, path):
        known = self.known(path)
        return next((("truth", at, None) for at, name in enumerate(self.booleans) if name not in known), None)

    def rows_of(self, block):
        return [pair for terms, relation, right, _ in block.rows for pair in at_most([(self.place[name], c) for name, c in terms], relation, right)]

    def force(self, path, with_goal):
        rows, known = [], self.known(path)
        for at, (_, low, high, _) in enumerate(self.model.vars.values()):
            rows += [([(at, -low.denominator)], -low.numerator)] if low else []
            rows += [([(at, high.denominator)], high.numerator)] if high is not None else []
        rows += self.rows_of(self.model.root)
        for block in blocks(self.model.root):
            rows += self.rows_of(block) if known.get(block.indicator) else []
        return Force(self.free, rows + bound_rows(path, self.whole), self.goal if with_goal else [])

    def test(self, path, over, numbers):
        truths = {name for name, is_true in self.known(path).items() if is_true}
        status, said = verdict(self.model, dict(zip(self.names, numbers)), over, truths)
        if status == 3:
            raise Wide("sum " + said.rsplit(" ", 1)[1])
        if status == 0:
            return truths, None
        split = self.loose(path)
        if split is None:
            column = next(at for at in self.whole if numbers[at] % over)
            split = ("int", column, numbers[column] // over)
        return None, split


class Search:
    def __init__(self, nodes, steps):
        self.nodes, self.steps, self.log, self.proof = nodes, steps, [], []
        self.best = self.found = None
        self.opened = 0

    def step(self, line):
        if self.steps == 0:
            raise GaveUp([*self.log, "stop steps"])
        self.steps -= 1
        self.log.append(line)

    def run(self):
        """The result: `("best", over, numbers, truths, proof)`, `("empty", proof)` or `("endless", over, numbers, truths, ray)`."""
        waiting = [([], None, "open root")]
        try:
            while waiting:
                path, kept, line = waiting.pop()
                self.step(line)
                number, self.opened = self.opened, self.opened + 1
                ended = self.settle(path, kept)
                if ended[0] == "endless":
                    return ended
                if ended[0] == "split":
                    kind, at, point = ended[1]
                    self.proof.append(f"{kind} {at}" + (f" {point}" if kind == "int" else ""))
                    for half in (True, False):
                        waiting.append(([*path, (kind, at, point, half)], ended[2], f"open {number} {2 if half else 1}"))
        except Wide as wide:
            raise GaveUp([*self.log, f"stop {wide}"]) from None
        return ("empty", self.proof) if self.found is None else ("best", *self.found, self.proof)

    def leaf(self, force, kind, scale, multipliers):
        closing(force, scale, multipliers)
        scale = [] if scale is None else [str(scale)]
        self.proof.append(" ".join([kind, *scale, *(f"{i}:{m}" for i, m in multipliers)]))
        return ("leaf",)

    def settle(self, path, kept):
        nodes = self.nodes
        place = nodes.dead(path)
        if place is not None:
            self.proof.append(f"logic {place}")
            return ("leaf",)
        force = nodes.force(path, kept is None)
        tableau = Tableau(force)
        kind, enter, row = tableau.move()
        while kind == "exchange":
            self.step(f"move {enter} {tableau.basis[row]}")
            try:
                tableau.exchange(enter, row)
            except Wide:
                self.log.pop()
                raise
            kind, enter, row = tableau.move()
        if kind == "infeasible":
            return self.leaf(force, "refuted", None, tableau.multipliers())
        if kind == "unbounded":
            split = nodes.loose(path)
            if split:
                return "split", split, None
            over, numbers = tableau.point()
            truths, split = nodes.test(path, over, numbers)
            ray = tableau.ray(enter)
            return ("endless", over, numbers, truths, ray) if split is None else ("split", split, ray)
        level = tableau.level()
        if kept is None and self.best is not None and level >= self.best:
            return self.leaf(force, "bounded", tableau.goal_scale(), tableau.multipliers())
        over, numbers = tableau.point()
        truths, split = nodes.test(path, over, numbers)
        if split is not None:
            return "split", split, kept
        if kept is not None:
            return "endless", over, numbers, truths, kept
        ended = self.leaf(force, "bounded", tableau.goal_scale(), tableau.multipliers())
        self.best, self.found = level, (over, numbers, truths)
        return ended


class PickedSearch(Search):
    """A search in an order of picks: each turn opens the half at the next pick in order of making, modulo how many wait, and past
    the last pick the half made first. Its proof's nodes stand in the order in which they were closed.
    """

    def __init__(self, nodes, steps, picks):
        super().__init__(nodes, steps)
        self.picks = picks

    def run(self):
        """The kind of the claim, and for `best` its value: the goal's, where it is to be minimised."""
        waiting = [([], None, "open root")]
        while waiting:
            pick = self.picks[self.opened] if self.opened < len(self.picks) else 0
            path, kept, line = waiting.pop(pick % len(waiting))
            self.step(line)
            number, self.opened = self.opened, self.opened + 1
            ended = self.settle(path, kept)
            if ended[0] == "endless":
                return ended[:1]
            if ended[0] == "split":
                for half in (False, True):
                    waiting.append(([*path, (*ended[1], half)], ended[2], f"open {number} {2 if half else 1}"))
        return ("empty",) if self.found is None else ("best", self.best)
