"""Whole models, whose text is the one that the manual shows."""

import pathlib
import unittest

from datemound import Boolean, Disjunct, Disjunction, Model, Var, atmost, implies, lnot, xor
from datemound.program import run
from datemound.text import Text

from .support import ROOT


def night_shift_model():
    """The plan of the manual: a week on one of two lines of a plant."""
    feed, product, fixed = Var("feed", 0, 100), Var("product", 0, 80), Var("fixed", 0, 500)
    night_shift = Boolean("night_shift")
    nickel = Disjunct("nickel", product - "0.75" * feed == 0, fixed == 25)
    platinum = Disjunct("platinum", night_shift, product - "0.8" * feed == 0, fixed == 40)
    new_line = Disjunct("new_line", feed >= 20, Disjunction(nickel, platinum))
    model = Model()
    model.maximize(5 * product - 2 * feed - fixed)
    model.add(product <= 48)
    model.add(Disjunction(Disjunct("old_line", product - "3/5" * feed == 0, fixed == 10), new_line))
    model.add(implies(night_shift, new_line))
    return model


class Texts(unittest.TestCase):
    def assert_formatted(self, model):
        ran = run(["format", "M"], {"M": model.text()})
        self.assertEqual((ran.status, ran.out, ran.err), (0, model.text(), ""))

    def test_the_manual(self):
        manual = pathlib.Path(ROOT, "docs", "FORMATS.md").read_text(encoding="utf-8")
        canonical = manual.partition("The model above becomes:\n\n```\n")[2].partition("```")[0]
        self.assertEqual(night_shift_model().text(), canonical)
        self.assert_formatted(night_shift_model())

    def test_order(self):
        """Variables and Booleans in the order in which they were made; rows, choices and logic of a block as they were added."""
        x, p, y, q = Var("x"), Boolean("p"), Var("y"), Boolean("q")
        model = Model()
        model.add(xor(q, p))
        model.add(Disjunction(Disjunct("a", y <= 1), Disjunct("b", x <= y), xor=False))
        model.add(y <= 2)
        model.minimize(y + x)
        model.add(x >= 0)
        self.assertEqual(
            model.text(),
            "gdp 1\nvar x real -inf inf\nvar y real -inf inf\nboolean p\nboolean q\nmin 1 x + 1 y\nrow 1 y <= 2\nrow 1 x >= 0\n"
            "disjunction or\ndisjunct a\nrow 1 y <= 1\nend\ndisjunct b\nrow 1 x - 1 y <= 0\nend\nend\nlogic xor(q, p)\n",
        )
        self.assert_formatted(model)

    def test_declared(self):
        x, y, p = Var("x"), Var("y", 0, 1), Boolean("p")
        model = Model(x <= 3)
        model.declare(p, y)
        model.declare(x)
        self.assertEqual(model.text(), "gdp 1\nvar x real -inf inf\nvar y real 0 1\nboolean p\nmin 0\nrow 1 x <= 3\n")
        self.assert_formatted(model)

    def test_added_later(self):
        """What is added to a disjunct after it was placed is in the next text, and not in one that was made before."""
        x, a = Var("x"), Disjunct("a")
        model = Model(Disjunction([a]))
        before = Text(model)
        a.add(x <= 3, [lnot(a), Disjunction(Disjunct("b"))])
        self.assertEqual(str(before), "gdp 1\nmin 0\ndisjunction xor\ndisjunct a\nend\nend\n")
        self.assertEqual(
            model.text(),
            "gdp 1\nvar x real -inf inf\nmin 0\ndisjunction xor\ndisjunct a\nrow 1 x <= 3\n"
            "disjunction xor\ndisjunct b\nend\nend\nlogic not(a)\nend\nend\n",
        )
        self.assert_formatted(model)

    def test_added_by_the_operator(self):
        x, a = Var("x"), Disjunct("a")
        model = Model()
        model += x <= 3
        model += Disjunction(a), [x >= 0]
        a += x <= 2
        self.assertEqual(str(model), Model(x <= 3, Disjunction(Disjunct("a", x <= 2)), x >= 0).text())
        self.assertEqual(repr(model), "<Model: rows 2, disjunctions 1, logic 0 outside all disjuncts>")

    def test_used_in_two_models(self):
        x, a = Var("x", 0, 1), Disjunct("a")
        row = x <= 3
        models = [Model(row, Disjunction(a)), Model(row, Disjunction(a), row)]
        self.assertEqual(models[1].text(), models[0].text().replace("row 1 x <= 3\n", "row 1 x <= 3\nrow 1 x <= 3\n"))

    def test_lines_know_their_items(self):
        model = night_shift_model()
        text = Text(model)
        self.assertIs(text.item_at(2), text.variables["feed"])
        self.assertIs(text.item_at(6), model.goal)
        self.assertIs(text.item_at(7), model.rows[0])
        self.assertIs(text.item_at(8), model.disjunctions[0])
        self.assertIs(text.item_at(9), model.disjunctions[0].disjuncts[0])
        self.assertIs(text.item_at(28), model.propositions[0])
        self.assertIsNone(text.item_at(1))
        self.assertIsNone(text.item_at(29))
        self.assertIsNone(text.item_at(0))

    def test_wide_and_deep(self):
        """At the limits: 500 variables, eight disjuncts deep."""
        many = [Var(f"v{at}", 0, 1) for at in range(500)]
        inner = Disjunct("d8", many[0] <= 1, atmost(1, (Boolean("p"),)))
        for depth in range(7, 0, -1):
            inner = Disjunct(f"d{depth}", Disjunction(inner))
        model = Model(Disjunction(inner))
        model.declare(*many)
        self.assert_formatted(model)


if __name__ == "__main__":
    unittest.main()
