"""What is taken for a number, and exactly."""

import unittest
from decimal import Decimal
from fractions import Fraction

from datemound import ModelError, Var, as_printed
from datemound.exact import exact

TAKEN = [
    (40, Fraction(40)),
    (-3, Fraction(-3)),
    (10**30, Fraction(10**30)),
    (Fraction(3, 5), Fraction(3, 5)),
    (Decimal("0.75"), Fraction(3, 4)),
    (Decimal("1e-3"), Fraction(1, 1000)),
    ("40", Fraction(40)),
    ("-0.75", Fraction(-3, 4)),
    ("+3/5", Fraction(3, 5)),
    (" 007.50 ", Fraction(15, 2)),
]

# What isn't taken, and words of the sentence that says why.
REFUSED = [
    (0.1, "0.10000000000000000555", "Decimal('0.1')", "Fraction(1, 10)", "as_printed(0.1)", "'0.1' in quotes"),
    (0.5, "0.5 is a float: write '0.5' in quotes"),
    (1e-7, "'0.0000001'"),
    (2e22, "20000000000000000000000"),
    (float("inf"), "None leaves that side open"),
    (float("nan"), "no number"),
    (Decimal("Infinity"), "None leaves that side open"),
    (Decimal("nan"), "no finite number"),
    (True, "truth value", "write 1"),
    ("1e6", "without blanks or exponent"),
    (".5", "'0.75'"),
    ("1,000", "digits"),
    ("1/0", "denominator is 0"),
    ("3 / 5", "without blanks"),
    ("", "no number"),
    ("\u0663", "no number"),
    (None, "None is no number"),
    ([1], "no number"),
    (2j, "no number"),
]


class Numbers(unittest.TestCase):
    def test_taken(self):
        for written, number in TAKEN:
            with self.subTest(written=written):
                self.assertEqual(exact(written), number)
                self.assertIs(type(exact(written)), Fraction)

    def test_refused(self):
        for written, *words in REFUSED:
            with self.subTest(written=written), self.assertRaises(ModelError) as caught:
                exact(written)
            for word in words:
                self.assertIn(word, str(caught.exception))

    def test_refused_wherever_a_number_stands(self):
        x = Var("x")
        sums = (lambda: x + 0.1, lambda: 0.1 - x, lambda: 0.1 * x, lambda: x / 0.1)
        for make in (*sums, lambda: x <= 0.1, lambda: 0.1 == x, lambda: Var("y", 0.1), lambda: Var("y", high=0.1)):
            with self.assertRaises(ModelError) as caught:
                make()
            self.assertIn("0.1 is a float", str(caught.exception))

    def test_floats_by_name(self):
        self.assertEqual(as_printed(0.1), Fraction(1, 10))
        self.assertEqual(as_printed(1e22), Fraction(10**22))
        self.assertEqual(as_printed(-2.5e-7), Fraction(-1, 4_000_000))
        for bad in (float("inf"), float("nan")):
            with self.assertRaises(ModelError):
                as_printed(bad)


if __name__ == "__main__":
    unittest.main()
