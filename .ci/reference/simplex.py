"""The exact simplex: the tableau of whole rows, Bland's moves, and what is read out at the end.

Numbers have no limit here, but each one that the program forms in 128 bits is tested, in the order in which it is formed there;
the first that doesn't fit raises `Wide` with the place as the log names it.
"""

from fractions import Fraction
from math import gcd, lcm

GREATEST = 2**127 - 1


class Wide(Exception):
    """A number left 128 bits: the words of the place."""


def fits(number, place):
    if not -GREATEST - 1 <= number <= GREATEST:
        raise Wide(place)
    return number


class Force:
    """What holds at a node: whether each column is free, rows of at most, and the goal to be minimised."""

    def __init__(self, free, rows, goal):
        self.free, self.rows, self.goal = free, rows, goal
        self.plus, count = [], 0
        for is_free in free:
            self.plus.append(count)
            count += 2 if is_free else 1
        self.split_count = count

    def split(self, terms):
        """Terms over columns that are not negative: a free column is the difference of two."""
        for at, c in terms:
            yield self.plus[at], c
            if self.free[at]:
                yield self.plus[at] + 1, -c

    def lift(self, numbers):
        """Numbers of the columns from those of the split ones."""
        return [numbers[at] - (numbers[at + 1] if is_free else 0) for at, is_free in zip(self.plus, self.free)]


class Tableau:
    """Columns: the structural ones, the slacks, the artificial, the right side, the goal's scale."""

    def __init__(self, force):
        self.force, c, m = force, force.split_count, len(force.rows)
        self.structural, self.artificial, self.right, self.scale = c, c + m, c + m + 1, c + m + 2
        self.rows, self.basis, self.has_left = [], [c + i for i in range(m)], False
        for i, (terms, bound) in enumerate(force.rows):
            row = {self.right: bound, c + i: 1} | dict(force.split(terms))
            if bound < 0:
                row[self.artificial] = -1
            self.rows.append({at: entry for at, entry in row.items() if entry})
        self.rows.append({at: -entry for at, entry in force.split(force.goal)} | {self.scale: 1})

    def entry(self, row, column):
        return self.rows[row].get(column, 0)

    def driving(self):
        return self.basis.index(self.artificial) if self.artificial in self.basis else len(self.basis)

    def move(self):
        """The kind of Bland's move, with the entering column and the row that leaves where they are named."""
        rights = [self.entry(i, self.right) for i in range(len(self.basis))]
        if rights and min(rights) < 0:
            return "exchange", self.artificial, rights.index(min(rights))
        drive = self.driving()
        is_start = drive < len(self.basis)
        candidates = sorted(at for at in self.rows[drive] if at < self.artificial)
        if is_start and self.entry(drive, self.right) == 0:
            return "exchange", candidates[0], drive
        enter = next((at for at in candidates if self.rows[drive][at] > 0), None)
        if enter is None:
            return "infeasible" if is_start else "optimal", None, None
        ratios = [(Fraction(rights[i], self.entry(i, enter)), self.basis[i], i) for i in range(len(self.basis)) if self.entry(i, enter) > 0]
        return ("exchange", enter, min(ratios)[2]) if ratios else ("unbounded", enter, None)

    def exchange(self, enter, leave):
        rows = [dict(row) for row in self.rows]
        if self.basis[leave] == self.artificial:
            for row in rows:
                row.pop(self.artificial, None)
        if rows[leave][enter] < 0:
            rows[leave] = {at: -entry for at, entry in rows[leave].items()}
        pivot = rows[leave]
        for i, row in enumerate(rows):
            if i == leave or not row.get(enter):
                continue
            common = gcd(pivot[enter], row[enter])
            ours, theirs, made = pivot[enter] // common, row[enter] // common, {}
            for at in sorted(row.keys() | pivot.keys()):
                first, second = row.get(at, 0) * ours, pivot.get(at, 0) * theirs
                for number in (first, second, first - second):
                    if abs(number) > GREATEST:
                        raise Wide(f"entry {i} {at}")
                if first != second:
                    made[at] = first - second
            common = gcd(*made.values())
            rows[i] = {at: entry // common for at, entry in made.items()}
        self.rows = rows
        self.basis[leave] = enter

    def level(self):
        goal = len(self.basis)
        return Fraction(self.entry(goal, self.right), self.entry(goal, self.scale))

    def goal_scale(self):
        return self.entry(len(self.basis), self.scale)

    def multipliers(self):
        """Pairs of row and multiplier, none of them 0."""
        drive, slacks = self.driving(), range(self.structural, self.artificial)
        return [(at - self.structural, -self.entry(drive, at)) for at in slacks if self.entry(drive, at)]

    def value(self, row, column):
        return Fraction(self.entry(row, column), self.entry(row, self.basis[row]))

    def point(self):
        """The denominator, and the numerators of the force's columns."""
        over, numbers = 1, [0] * self.structural
        for i in range(len(self.basis)):
            over = fits(lcm(over, self.value(i, self.right).denominator), f"over {i}")
        for i, at in enumerate(self.basis):
            if at < self.structural:
                numbers[at] = fits(int(self.value(i, self.right) * over), f"over {i}")
        return over, self.force.lift(numbers)

    def ray(self, enter):
        t, numbers = 1, [0] * self.structural
        for i in range(len(self.basis)):
            t = fits(lcm(t, self.value(i, enter).denominator), f"ray {i}")
        if enter < self.structural:
            numbers[enter] = t
        for i, at in enumerate(self.basis):
            number = fits(int(-self.value(i, enter) * t), f"ray {i}")
            if at < self.structural:
                numbers[at] = number
        return self.force.lift(numbers)


def closing(force, scale, multipliers):
    """The tests of a leaf: whether its sums close it, and for a scale (not None) the bound that they show."""
    if any(m < 0 for _, m in multipliers) or any(i >= len(force.rows) for i, _ in multipliers) or scale is not None and scale < 1:
        return False, None
    goal, rows = dict(force.goal), [dict(terms) for terms, _ in force.rows]
    for j, is_free in enumerate(force.free):
        total = fits((scale or 0) * goal.get(j, 0), f"leaf {len(force.rows)} {j}")
        for i, m in multipliers:
            total = fits(total + fits(m * rows[i].get(j, 0), f"leaf {i} {j}"), f"leaf {i} {j}")
        if total < 0 or is_free and total > 0:
            return False, None
    total, last = 0, len(force.free)
    for i, m in multipliers:
        total = fits(total + fits(m * force.rows[i][1], f"leaf {i} {last}"), f"leaf {i} {last}")
    if scale is None:
        return total < 0, None
    return True, Fraction(fits(-total, f"leaf {len(force.rows)} {last}"), scale)
