"""Mistakes that Python lets pass, each with words of the sentence that it gets."""

import unittest

import datemound
from datemound import Boolean, Disjunct, Model, ModelError, Var, land

# Each is run where x, y are variables, p, q Booleans, a, b disjuncts that are in no model, and m is a model.
MISTAKES = [
    # Comparisons.
    ("m.add(0 <= x <= 10)", "chained comparison", "0 <= x and x <= 10"),
    ("m.add((0 <= x) <= 10)", "compared once more"),
    ("if x <= 3: pass", "used as a truth value", "a row has not"),
    ("m.add(not x <= 3)", "used as a truth value"),
    ("m.add(x <= 3 and y <= 4)", "used as a truth value"),
    ("x in [y, x]", "used as a truth value"),
    ("x < 3", "there are no rows with <", "x < 5 is x <= 4"),
    ("3 < x", "there are no rows with >"),
    ("x > 3", "there are no rows with >"),
    ("x != 3", "there are no rows with !=", "Disjunction"),
    ("bool(x)", "no truth value"),
    ("x + 1 or y", "no truth value"),
    # Products.
    ("x * y", "(x) * (y) is a product of variables", "linear"),
    ("(x + 1) * (x - 2)", "product of variables"),
    ("x * x", "product of variables"),
    ("x ** 2", "power of a variable"),
    ("x / y", "divides by a variable"),
    ("2 / x", "divides by a variable"),
    ("x / 0", "division by 0"),
    # Names.
    ("m.declare(x, Var('x'))", "the name 'x' is taken twice", "Var made at <mistake>:1", "Var made at "),
    ("m.add(Disjunction(Disjunct('x', x <= 3)))", "the name 'x' is taken twice", "the Disjunct made at <mistake>:1"),
    ("m.add(Disjunction(Disjunct('c'), Disjunct('c')))", "the name 'c' is taken twice"),
    ("m.add(land(p, Boolean('p')))", "the name 'p' is taken twice"),
    ("m.add(Disjunction(a, b), Boolean('a'))", "the name 'a' is taken twice"),
    ("Var('2x')", "'2x' is no name", "a letter or '_'"),
    ("Var('x y')", "is no name"),
    ("Var('')", "is no name"),
    ("Boolean('end')", "reserved word", "'end_'"),
    ("Disjunct('caf\\u00e9')", "is no name"),
    ("Var(0, 10)", "the first argument is the name"),
    ("Disjunct(x <= 3)", "the first argument is the name"),
    # Bounds.
    ("Var('v', 3, 2)", "the low bound 3 exceeds the high bound 2"),
    ("Var('v', 0, bounds=(0, 1))", "its bounds twice"),
    ("Var('v', bounds=3)", "a pair (low, high)"),
    ("Var('v', bounds=(1, 2, 3))", "a pair (low, high)"),
    # What is added.
    ("m.add(x + y)", "is a sum and no row"),
    ("m.add(x)", "is a sum and no row"),
    ("m.add(2 <= 3)", "a comparison in which no variable stands"),
    ("m.add(None)", "None is no row", "return"),
    ("m.add('x <= 3')", "is text and no row"),
    ("m += x <= 3, 'c1'", "rows have no names"),
    ("m += x + y", "is a sum and no row", "minimize or maximize"),
    ("m.c = x <= 3", "`.c = <row 1 x <= 3>` adds nothing", ".add(..)"),
    ("a.c = x <= 3", "adds nothing"),
    ("m.d = Disjunction(a, b)", "adds nothing"),
    ("m.l = implies(p, q)", "adds nothing"),
    ("m.add(3)", "is no row, proposition or disjunction"),
    ("m.add(m)", "is no row, proposition or disjunction"),
    ("m.declare(a)", "no Var or Boolean"),
    ("m.minimize(x); m.maximize(y)", "has a goal, `min 1 x`, made at <mistake>:1"),
    ("m.minimize(x <= 3)", "is no number"),
    # Choices.
    ("Disjunction()", "one Disjunct at least"),
    ("Disjunction(x <= 3, x >= 4)", "each with a name"),
    ("Disjunction([[x <= 3], [x >= 4]])", "each with a name"),
    ("m.add(Disjunction(a, b), Disjunction(a))", "Disjunct 'a'", "stands in the model twice"),
    ("a.add(Disjunction(a)); m.add(Disjunction(a))", "stands in the model twice"),
    ("d = Disjunction(a); m.add(d, d)", "stands in the model twice"),
    ("if Disjunction(a, b): pass", "add it to the model"),
    ("m.add(a)", "the Disjunct 'a' made at ", "stands in no Disjunction of the model"),
    ("b.add(a); m.add(Disjunction(b), Disjunction(a))", "names the Disjunct 'a', which comes later", "implies(b, ..)"),
    ("m.add(Disjunction(a), land(Disjunct('a')))", "the name 'a' is taken twice"),
    ("for i in range(8): a = Disjunct(f'd{i}', Disjunction(a))\nm.add(Disjunction(a))", "Disjunct 'a'", "8 disjuncts deep"),
    # Logic.
    ("m.add(p and q)", "land(a, b), lor(a, b) and lnot(a)"),
    ("m.add(not p)", "land(a, b), lor(a, b) and lnot(a)"),
    ("if a: pass", "known only once the model is solved"),
    ("p == q", "equivalent(a, b) or xor(a, b)"),
    ("p != q", "equivalent(a, b) or xor(a, b)"),
    ("x <= 40 * p", "p is no number", "put the row into a Disjunct"),
    ("x + p", "is no number"),
    ("p + q <= 1", "exactly, atleast and atmost"),
    ("p <= 1", "is no number"),
    ("x <= p", "is no number"),
    ("land()", "land has no proposition"),
    ("lor([])", "lor has no proposition"),
    ("lnot(x)", "lnot: <var x real -inf inf> is no proposition"),
    ("implies(p)", None),
    ("implies(p, [])", "implies has 2 arguments, and here are 1"),
    ("xor(p, [q, a])", "xor has 2 arguments, and here are 3", "exactly(1, ..)"),
    ("exactly(p, q)", "exactly(1, a, b)"),
    ("atmost(1001, p)", "0 to 1000"),
    ("atleast(True, p)", "whole number"),
    ("atmost(2, p, 'q')", "'q' is no proposition"),
    ("for i in range(16): p = lnot(p)", "more than 16 levels"),
    ("for i in range(15): p = land(p, p)", "more than 5,000 names and connectives"),
    # Calls.
    ("m.declare(x); m.solve('simplex')", "'simplex' is no route", "hybrid, hull, bigm, logic"),
    ("m.declare(x); m.solve(steps=0)", "1 to 1,000,000"),
    ("m.declare(x); m.solve(steps=10**7)", "1 to 1,000,000"),
    ("m.declare(x); m.compile('logic')", "'logic' is no choice"),
    ("m.declare(x, y); m.test({x: 1})", "no number for y"),
    ("m.declare(x); m.test({x: 0.5})", "0.5 is a float"),
    ("m.declare(x); m.test({x: 1, y: 2})", "y is not in the model"),
    ("m.declare(x); m.test({x: 1, 'z': 2})", "z is not in the model"),
    ("m.declare(x, p); m.test({x: 1, p: 1})", "True or False"),
    ("m.declare(x); m.test({x: 1, Var('x'): 2})", "x is not in the model"),
    ("m.declare(x); m.test({x <= 1: 1})", "is no variable"),
]


def names():
    x, y, p, q, m = Var("x"), Var("y"), Boolean("p"), Boolean("q"), Model()
    a, b = Disjunct("a", x <= 3), Disjunct("b", x >= 4)
    return {**{name: getattr(datemound, name) for name in datemound.__all__}, "x": x, "y": y, "p": p, "q": q, "a": a, "b": b, "m": m}


class Mistakes(unittest.TestCase):
    def test_each(self):
        for code, *words in MISTAKES:
            known = names()
            with self.subTest(code=code), self.assertRaises(TypeError if words == [None] else ModelError) as caught:
                exec(compile(code, "<mistake>", "exec"), known)
                known["m"].text()
            for word in filter(None, words):
                self.assertIn(word, str(caught.exception))

    def test_a_mistake_leaves_the_model_as_it_is(self):
        x, model = Var("x"), Model()
        model.add(x <= 3)
        with self.assertRaises(ModelError):
            model.add(x <= 4, [x >= 1, x + 1])
        self.assertEqual(model.text(), "gdp 1\nvar x real -inf inf\nmin 0\nrow 1 x <= 3\n")

    def test_a_namespace_is_no_mistake(self):
        model = Model()
        model.x, model.p, model.a = Var("x"), Boolean("p"), Disjunct("a")
        model.twice = 2 * model.x
        self.assertEqual(Model(model.twice <= 3).text(), "gdp 1\nvar x real -inf inf\nmin 0\nrow 2 x <= 3\n")

    def test_land_in_a_list_is_none(self):
        self.assertEqual(land([Boolean("p")]).text(), "and(p)")


if __name__ == "__main__":
    unittest.main()
