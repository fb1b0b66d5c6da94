"""Rows and goals as they are written in Python, and as their lines stand in a model's text."""

import unittest
from decimal import Decimal
from fractions import Fraction

from datemound import Model, Row, Var, quicksum

x, y, z = Var("x", 0, 10), Var("y"), Var("z", whole=True, low=0)

ROWS = [
    (x <= 3, "row 1 x <= 3"),
    (x == 3, "row 1 x = 3"),
    (x >= 3, "row 1 x >= 3"),
    (3 >= x, "row 1 x <= 3"),
    (3 == x, "row 1 x = 3"),
    (3 <= x, "row 1 x >= 3"),
    ("3" <= x, "row 1 x >= 3"),
    (Fraction(1, 2) >= x, "row 2 x <= 1"),
    (Decimal("0.5") >= x, "row 2 x <= 1"),
    (x <= y, "row 1 x - 1 y <= 0"),
    (y >= x, "row -1 x + 1 y >= 0"),
    (x + 3 <= y - 2, "row 1 x - 1 y <= -5"),
    (3 - x == 2 * y, "row -1 x - 2 y = -3"),
    (-x - y >= -z, "row -1 x - 1 y + 1 z >= 0"),
    (+x <= "0.75" * y, "row 4 x - 3 y <= 0"),
    (z + y + x == 6, "row 1 x + 1 y + 1 z = 6"),
    (2 * x <= 4, "row 2 x <= 4"),
    (x / 2 + y / 3 <= Fraction(5, 7), "row 21 x + 14 y <= 30"),
    (x + x <= 1, "row 2 x <= 1"),
    (x - x + y <= 1, "row 1 y <= 1"),
    (x - x <= 5, "row 0 <= 5"),
    (2 * (x + 3 * (y - 1)) - 6 * y <= 0, "row 2 x <= 6"),
    ((x - x + 2) * y >= 1, "row 2 y >= 1"),
    (y * (x - x + 2) >= 1, "row 2 y >= 1"),
    (sum([x, y, z]) <= 1, "row 1 x + 1 y + 1 z <= 1"),
    (quicksum([x, 1, y, "1/2", 2 * x]) <= 2, "row 6 x + 2 y <= 1"),
    (quicksum([]) <= 2, "row 0 <= 2"),
    ("0.1" * x + "0.2" * y == "0.3", "row 1 x + 2 y = 3"),
]

GOALS = [
    (x, "1 x"),
    (-x, "-1 x"),
    (3 * x - y / 2 + 12, "3 x - 1/2 y + 12"),
    (y - x - "7/4", "-1 x + 1 y - 7/4"),
    (0, "0"),
    ("-5/2", "-5/2"),
    (x - x + 2, "2"),
]

BOUNDS = [
    (Var("a"), "var a real -inf inf"),
    (Var("a", 0), "var a real 0 inf"),
    (Var("a", 0, 10), "var a real 0 10"),
    (Var("a", bounds=(0, "1.5")), "var a real 0 3/2"),
    (Var("a", bounds=[None, 4]), "var a real -inf 4"),
    (Var("a", high=Decimal("-0.25")), "var a real -inf -1/4"),
    (Var("a", 0, 12, whole=True), "var a int 0 12"),
    (Var("site.2", -1, -1), "var site.2 real -1 -1"),
]


class Rows(unittest.TestCase):
    def test_rows(self):
        for row, line in ROWS:
            with self.subTest(line=line):
                self.assertIsInstance(row, Row)
                self.assertEqual(row.text(), line)

    def test_goals(self):
        for goal, line in GOALS:
            for sense in ("minimize", "maximize"):
                model = Model()
                getattr(model, sense)(goal)
                model.declare(x, y)
                self.assertIn(f"{sense[:3]} {line}", model.text().splitlines())

    def test_bounds(self):
        for var, line in BOUNDS:
            self.assertEqual(var.text(), line)

    def test_names_of_variables_as_keys(self):
        prices = {x: 3, y: 5}
        self.assertEqual((quicksum(price * var for var, price in prices.items()) <= 1).text(), "row 3 x + 5 y <= 1")
        self.assertIn(y, prices)

    def test_shown(self):
        self.assertEqual(repr(x), "<var x real 0 10>")
        self.assertEqual(repr(2 * x - 1), "<2 x - 1>")
        self.assertEqual(repr(x <= 1), "<row 1 x <= 1>")

    def test_many_terms(self):
        many = [Var(f"v{at}") for at in range(2000)]
        self.assertEqual(len(quicksum(at * var for at, var in enumerate(many)).terms), 1999)


if __name__ == "__main__":
    unittest.main()
