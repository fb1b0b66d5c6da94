"""What `gdp` answers, read: the answers are those that the manual shows."""

import unittest
from fractions import Fraction

from datemound import Boolean, Disjunct, Disjunction, Model, ModelError, RefusedError, Var, land, quicksum

from .support import line_of
from .test_texts import night_shift_model


def power_model():
    power, cost = Var("power", 0), Var("cost", 0)
    model = Model(power >= 60)
    model.minimize(cost)
    model.add(Disjunction(Disjunct("household", cost >= "1.2" * power), Disjunct("large_customer", power >= 75, cost >= "0.9" * power + 2)))
    return model


class Solved(unittest.TestCase):
    def test_best(self):
        result = power_model().solve("logic", 100)
        self.assertEqual((result.status, result.route, result.objective), ("best", "logic", Fraction(139, 2)))
        self.assertEqual(dict(result.values), {"power": Fraction(75), "cost": Fraction(139, 2)})
        self.assertEqual(dict(result.truths), {"household": False, "large_customer": True})
        self.assertIsNone(result.stop)
        self.assertIsNone(result.log)
        self.assertIn("tree\ntruth 0\nbounded 5 0:6 1:1\n", result.certificate)
        self.assertEqual(str(result), "best 139/2 (69.5)\n  power = 75\n  cost = 139/2 (69.5)\n  large_customer")
        for number in (result.objective, *result.values.values()):
            self.assertIs(type(number), Fraction)
        self.assertTrue(result.check())
        self.assertEqual(str(result.check()), "accepted")

    def test_asked_by_objects(self):
        x, a = Var("x", 0, 3), Disjunct("a")
        model = Model(Disjunction(a))
        model.maximize(x)
        result = model.solve()
        self.assertEqual((result.values[x], result.values["x"], result.truths[a]), (3, 3, True))
        self.assertEqual((result[x], result["x"], result[a], result["a"]), (3, 3, True, True))
        for ask in (lambda: result.values["y"], lambda: result["y"], lambda: result[Var("y")]):
            with self.assertRaises(KeyError):
                ask()

    def test_shown_with_decimals(self):
        x, y = Var("x", 0, "1/3"), Var("y", 0, "1.5")
        model = Model()
        model.declare(x, y)
        model.maximize(x + y)
        self.assertEqual(str(model.solve()), "best 11/6 (about 1.8333333)\n  x = 1/3 (about 0.33333333)\n  y = 3/2 (1.5)")

    def test_empty(self):
        x = Var("x", 0, 3)
        model = Model(x >= 4)
        for route in ("logic", "hybrid"):
            result = model.solve(route)
            self.assertEqual((result.status, result.objective, dict(result.values), str(result)), ("empty", None, {}, "empty"))
            self.assertTrue(result.check())
            with self.assertRaises(KeyError) as caught:
                result.values[x]
            self.assertIn("the model is empty", str(caught.exception))
            with self.assertRaises(ModelError):
                model.test(result)

    def test_endless(self):
        made, sold = Var("made", 0), Var("sold", 0)
        model = Model(sold <= "0.9" * made)
        model.maximize(3 * sold - made)
        result = model.solve("logic", 100)
        self.assertEqual((result.status, result.objective), ("endless", None))
        self.assertEqual((dict(result.values), dict(result.step)), ({"made": 0, "sold": 0}, {"made": 10, "sold": 9}))
        self.assertEqual(str(result), "endless\n  made = 0\n  sold = 0\n  step made = 10\n  step sold = 9")
        self.assertTrue(result.check())
        self.assertTrue(model.test(result))

    def test_gave_up_at_the_steps(self):
        n = Var("n", 0, 5, whole=True)
        model = Model(2 * n <= 7)
        model.maximize(n)
        result = model.solve("bigm", 6)
        self.assertEqual((result.status, result.objective, dict(result.values), result.certificate), ("gave_up", None, {}, None))
        self.assertEqual((result.stop.reason, result.stop.numbers, result.stop.place), ("steps", (), None))
        self.assertTrue(result.log.startswith("gdp-log 1\nroute bigm\nopen root\n"))
        self.assertIn("the steps are used up", str(result))
        with self.assertRaises(ModelError) as caught:
            result.check()
        self.assertIn("no certificate", str(caught.exception))
        self.assertEqual(model.solve("bigm", 7).objective, 3)

    def test_gave_up_past_128_bits(self):
        """Models of the end-to-end table whose numbers leave 128 bits, with the last words of their logs."""
        x, y, z = Var("x", 0), Var("y", 0), Var("z", 0)
        p, q, r = 999999999999989, 999999999999947, 999999999999883
        last = 10**15 * z >= 1  # the last row
        models = {
            ("entry", (0, 0)): (x + y, (10**15 - 1) * x + 3 * y <= 10**15 - 1, (10**15 - 2) * x + (10**15 - 3) * y <= 10**15),
            ("over", (2,)): (p * x + q * y + r * z, p * x <= 1, q * y <= 1, r * z <= 1),
            ("leaf", (2, 0)): (10**15 * x + y, p * x <= 1, q * y <= 1),
            ("value", ()): (p * x + q * y + 10**15 * z, p * x <= 1, q * y <= 1, z <= 1),
            ("sum", (9,)): (p * x + q * y + z, p * x <= 1, q * y <= 1, z <= 1, last),
        }
        for (reason, numbers), (goal, *rows) in models.items():
            model = Model(rows)
            model.maximize(goal)
            result = model.solve("logic")
            self.assertEqual((result.status, result.stop.reason, result.stop.numbers), ("gave_up", reason, numbers))
            self.assertIn("would leave 128 bits", str(result.stop))
            self.assertIs(result.stop.item, last if reason == "sum" else None)
        self.assertEqual(result.stop.place, (__file__, line_of("the last row")))
        self.assertIn(f"`row {10**15} z >= 1`, made at {__file__}:", str(result))

    def test_routes(self):
        for route in ("hybrid", "hull", "bigm", "logic"):
            result = night_shift_model().solve(route)
            self.assertEqual((result.status, result.objective), ("best", 87))
            self.assertTrue(result.check())


class Checked(unittest.TestCase):
    def test_spoilt_certificates(self):
        model = power_model()
        certificate = model.solve("logic", 100).certificate
        said = {
            "best 139/2": ("best 69", "rejected: value"),
            "val cost 139": ("val cost 138", "rejected: point at line 12"),
            "bounded 5 0:6": ("bounded 5 0:5", "rejected: leaf at node 1"),
            "truth 1": ("truth 0", "rejected: tree at node 2"),
        }
        for old, (new, verdict) in said.items():
            spoilt = model.check(certificate.replace(old, new))
            self.assertFalse(spoilt)
            self.assertEqual(spoilt.text, verdict)

    def test_no_certificate(self):
        with self.assertRaises(RefusedError) as caught:
            power_model().check("best 3\n")
        self.assertEqual((caught.exception.cause, caught.exception.line), ("Form", 1))
        self.assertIn("the certificate at its line 1", str(caught.exception))

    def test_of_another_model(self):
        certificate = power_model().solve("logic", 100).certificate
        with self.assertRaises(RefusedError) as caught:
            night_shift_model().check(certificate)
        self.assertEqual(caught.exception.cause, "Name")


class Tested(unittest.TestCase):
    def test_points(self):
        x, n = Var("x", 0, 10), Var("n", whole=True)
        a, p = Disjunct("a", x <= 3), Boolean("p")
        model = Model()
        model.add(x + n == "7/2")  # the row
        model.add(Disjunction(a, Disjunct("b", land(p))))
        where = line_of("the row")
        self.assertTrue(model.test({x: "3/2", n: 2, a: True}))
        self.assertEqual(str(model.test({"x": "1.5", "n": 2, "a": True, "b": False, "p": True})), "holds")
        failed = model.test({x: 1, n: 2, a: True})
        self.assertFalse(failed)
        self.assertEqual((failed.status, failed.item, failed.place.file, failed.place.line), ("fails", model.rows[0], __file__, where))
        self.assertIn("fails at `row 2 x + 2 n = 7`, made at ", str(failed))
        self.assertIs(model.test({x: 11, n: 2}).item, x)
        self.assertIs(model.test({x: 1, n: "5/2", a: True}).item, n)
        self.assertIs(model.test({x: "3/2", n: 2}).item, model.disjunctions[0])
        self.assertEqual(model.test({x: "3/2", n: 2, "b": True}).item.text(), "and(p)")
        self.assertIs(model.test({x: "7/2", n: 0, a: True}).item, a.rows[0])

    def test_past_128_bits(self):
        x = Var("x")
        model = Model(10**15 * x <= 10**15)
        self.assertEqual(model.test({x: 10**30}).status, "wide")
        self.assertIs(model.test({x: 10**30}).item, model.rows[0])
        with self.assertRaises(RefusedError) as caught:
            model.test({x: 10**40})
        self.assertEqual(caught.exception.cause, "Number")

    def test_result(self):
        model = night_shift_model()
        self.assertTrue(model.test(model.solve()))


class Compiled(unittest.TestCase):
    def test_names_and_rows(self):
        x = Var("x", 0, 7)
        model = Model(Disjunction(Disjunct("a", x <= 3), Disjunct("b", x >= 5)))
        for choice in ("bigm", "hull", "hybrid"):
            text = model.compile(choice)
            self.assertTrue(text.startswith("\\ x0 x\n\\ x1 a\n\\ x2 b\nMinimize\n obj:\n"))
            self.assertTrue(text.endswith("End\n"))
        self.assertEqual(model.compile(), model.compile("hybrid"))


class Refused(unittest.TestCase):
    def assert_refused(self, call, cause, item, line, *words):
        with self.assertRaises(RefusedError) as caught:
            call()
        error = caught.exception
        self.assertEqual((error.cause, error.item, error.place), (cause, item, (__file__, line)))
        for word in (*words, f"{__file__}:{line}"):
            self.assertIn(word, str(error))

    def test_number(self):
        x, y = Var("x"), Var("y")
        model = Model(x <= 1)
        model.add(x + y <= 10**15 + 1)  # too great
        self.assert_refused(model.solve, "Number", model.rows[1], line_of("too great"), "`row 1 x + 1 y <= 1000000000000001`", "exceeds 10^15")
        for call in (lambda: model.test({x: 1, y: 1}), model.compile, lambda: model.check("")):
            with self.assertRaises(RefusedError):
                call()

    def test_number_made_by_scaling(self):
        x = Var("x")
        model = Model("0.000000000000001" * x <= "1.5")
        self.assertEqual(model.rows[0].text(), "row 1 x <= 1500000000000000")
        self.assert_refused(model.solve, "Number", model.rows[0], model.rows[0].place.line)

    def test_bound(self):
        x = Var("x", 0, 10**16)  # too wide a bound
        model = Model(x <= 1)
        self.assert_refused(model.solve, "Number", x, line_of("too wide a bound"), "`var x real 0 10000000000000000`")

    def test_goal(self):
        x = Var("x", 0, 1)
        model = Model()
        model.minimize(10**16 * x)  # too great a goal
        self.assert_refused(model.solve, "Number", model.goal, line_of("too great a goal"), "`min 10000000000000000 x`")

    def test_rows(self):
        x = Var("x")
        model = Model(x <= at for at in range(1001))
        self.assert_refused(model.solve, "Limit", model.rows[1000], model.rows[1000].place.line, "1,000 rows")

    def test_arguments(self):
        x, p = Var("x"), Boolean("p")
        model = Model(x <= 1, land([p] * 201))
        self.assert_refused(model.solve, "Limit", model.propositions[0], model.propositions[0].place.line, "`logic and(p, p,")

    def test_name(self):
        a = Disjunct("a" * 65)
        model = Model(Var("x") <= 1, Disjunction(a))
        self.assert_refused(model.solve, "Limit", a, a.place.line, "`disjunct aaa")

    def test_no_variable(self):
        with self.assertRaises(RefusedError) as caught:
            Model(Disjunction(Disjunct("a"))).solve()
        self.assertEqual((caught.exception.cause, caught.exception.item), ("Missing", None))
        self.assertIn("gdp refuses the model: Missing, a model has one variable at least", str(caught.exception))

    def test_no_bound(self):
        power, cost = Var("power", 0), Var("cost", 0)
        household = Disjunct("household", cost >= "1.2" * power)  # needs it
        model = Model(Disjunction(household))
        line = line_of("needs it")
        words = ("bigm: no bound for the variable power", "route 'logic'")
        self.assert_refused(lambda: model.solve("bigm"), "no bound", household.rows[0], line, *words)
        self.assert_refused(lambda: model.compile("bigm"), "no bound", household.rows[0], line, "give it a low and a high bound")
        self.assert_refused(lambda: model.solve("hull"), "no bound", model.disjunctions[0], line + 1)

    def test_too_wide(self):
        x = Var("x", 0, 10**10)
        row = 10**6 * x <= 3  # too wide a row
        model = Model(Disjunction(Disjunct("a", row), Disjunct("b")))
        self.assert_refused(lambda: model.solve("bigm"), "too wide", row, line_of("too wide a row"), "10^15", "narrow the bounds")

    def test_too_big(self):
        many = [Var(f"v{at}", 0, 1) for at in range(500)]
        model = Model(Disjunction(Disjunct(f"d{at}", quicksum(many) <= at) for at in range(8)))
        with self.assertRaises(RefusedError) as caught:
            model.compile("hull")
        self.assertEqual(caught.exception.cause, "too big")
        self.assertIn("4,000 columns", str(caught.exception))


if __name__ == "__main__":
    unittest.main()
