"""A mixed-integer linear program, the limits that it keeps while it is built, and its LP text."""

MOST = 10**15
COLUMNS = 4000
ROWS = 3000
OPPOSITE = {"<=": ">=", ">=": "<=", "=": "="}


class TooBig(Exception):
    """A limit of columns or rows would be passed."""


class Column:
    def __init__(self, is_whole, is_free):
        self.is_whole, self.is_free = is_whole, is_free


class Program:
    """Columns, and rows of terms (pairs of column and coefficient), relation and right side.

    A free column counts two against the limit of columns; an equality counts two rows, and a whole column two more.
    """

    def __init__(self):
        self.columns, self.rows, self.sense, self.goal = [], [], "min", []
        self.column_count = self.row_count = 0

    def add_column(self, is_whole, is_free):
        columns, rows = self.column_count + (2 if is_free else 1), self.row_count + (2 if is_whole else 0)
        if columns > COLUMNS or rows > ROWS:
            raise TooBig
        self.column_count, self.row_count = columns, rows
        self.columns.append(Column(is_whole, is_free))
        return len(self.columns) - 1

    def add_row(self, terms, relation, right):
        """Adds a row, once coefficients of the same column are added up."""
        terms = merged(terms)
        assert all(abs(number) <= MOST for number in [right, *(c for _, c in terms)])
        rows = self.row_count + (2 if relation == "=" else 1)
        if rows > ROWS:
            raise TooBig
        self.row_count = rows
        self.rows.append((terms, relation, right))

    def at_most_rows(self):
        """The rows as pairs of terms and bound: an equality is two, itself and its negation."""
        return [pair for row in self.rows for pair in at_most(*row)]


def merged(terms):
    """Terms by column, each column once, none with the coefficient 0."""
    sums = {}
    for column, coefficient in terms:
        sums[column] = sums.get(column, 0) + coefficient
    return sorted((column, c) for column, c in sums.items() if c)


def at_most(terms, relation, right):
    """A row as rows of at most: itself, its negation, or both."""
    negated = ([(at, -c) for at, c in terms], -right)
    return {"<=": [(terms, right)], ">=": [negated], "=": [(terms, right), negated]}[relation]


def lp_text(program):
    """The program in LP text, a term a line."""

    def term(column, coefficient):
        return f" {'-' if coefficient < 0 else '+'} {abs(coefficient)} x{column}"

    goal = dict(program.goal)
    lines = ["Minimize" if program.sense == "min" else "Maximize", " obj:"]
    lines += [term(column, goal.get(column, 0)) for column in range(len(program.columns))]
    lines.append("Subject To")
    for place, (terms, relation, right) in enumerate(program.rows):
        lines += [f" r{place}:", *(term(*pair) for pair in terms or [(0, 0)]), f" {relation} {right}"]
    for head, tail, columns in (
        ("Bounds", " free", [at for at, column in enumerate(program.columns) if column.is_free]),
        ("Generals", "", [at for at, column in enumerate(program.columns) if column.is_whole]),
    ):
        lines += [head, *(f" x{at}{tail}" for at in columns)] if columns else []
    return "".join(line + "\n" for line in [*lines, "End"])
