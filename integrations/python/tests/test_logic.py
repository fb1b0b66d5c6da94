"""Propositions as they are written in Python, and as they stand in a model's text."""

import unittest

from datemound import Boolean, Disjunct, atleast, atmost, equivalent, exactly, implies, land, lnot, lor, xor

p, q, a = Boolean("p"), Boolean("q"), Disjunct("a")

WRITTEN = [
    (p, "p"),
    (a, "a"),
    (land(p), "and(p)"),
    (land(p, q, a), "and(p, q, a)"),
    (land([p, q], a), "and(p, q, a)"),
    (lor(x for x in (p, q)), "or(p, q)"),
    (lnot(a), "not(a)"),
    (~a, "not(a)"),
    (~land(p, ~q), "not(and(p, not(q)))"),
    (implies(p, a), "implies(p, a)"),
    (equivalent(p, q), "equivalent(p, q)"),
    (xor(p, lnot(p)), "xor(p, not(p))"),
    (exactly(0, p), "exactly(0, p)"),
    (atleast(2, p, p, q), "atleast(2, p, p, q)"),
    (p.implies(a), "implies(p, a)"),
    (a.land(p, [q]), "and(a, p, q)"),
    (p.lor(q).equivalent_to(p.xor(a)), "equivalent(or(p, q), xor(p, a))"),
    (atmost(1000, {"x": p, "y": q}.values()), "atmost(1000, p, q)"),
]


class Logic(unittest.TestCase):
    def test_written(self):
        for proposition, text in WRITTEN:
            self.assertEqual(proposition.text(), text)

    def test_levels_and_nodes(self):
        self.assertEqual((p.levels, p.nodes), (1, 1))
        deep = land(p, lnot(lor(q, a)))
        self.assertEqual((deep.levels, deep.nodes), (4, 6))
        for _ in range(12):
            deep = lnot(deep)
        self.assertEqual(deep.levels, 16)


if __name__ == "__main__":
    unittest.main()
