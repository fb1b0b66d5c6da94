#!/usr/bin/env python3
"""Tests of `datemound_pulp` on the plans of `plans`, with the program that `DATEMOUND_GDP` names."""

import contextlib
import io
import os
import pathlib
import re
import sys
import tempfile
import unittest
import warnings
from fractions import Fraction

sys.dont_write_bytecode = True
HERE = pathlib.Path(__file__).resolve().parent
sys.path.insert(0, str(HERE))
import pulp  # noqa: E402
from datemound_pulp import GDP, is_plain  # noqa: E402
from plans import PLANS  # noqa: E402
from pulp.apis.core import PulpSolverError  # noqa: E402

STATUSES = {"empty": pulp.LpStatusInfeasible, "endless": pulp.LpStatusUnbounded}


def exact(number):
    """A number as PuLP writes it."""
    return Fraction("%.12g" % number)


def value(expression, values):
    """The value of an expression without its constant."""
    return sum(exact(c) * values[variable.name] for variable, c in expression.items())


def own(problem):
    """The variables of a problem, without the one that PuLP adds where there is no objective."""
    return [variable for variable in problem.variables() if variable.name != "__dummy"]


def broken(problem, values):
    """The bounds and constraints of a problem that don't hold exactly at these values, by name."""
    for variable in own(problem):
        number = values[variable.name]
        if variable.lowBound is not None and number < exact(variable.lowBound) or variable.upBound is not None and number > exact(variable.upBound):
            yield f"a bound of {variable.name}"
        if variable.cat == pulp.LpInteger and number.denominator > 1:
            yield f"{variable.name} is not whole"
    for name, row in problem.constraints.items():
        over = value(row, values) + exact(row.constant)
        if not {pulp.LpConstraintLE: over <= 0, pulp.LpConstraintGE: over >= 0, pulp.LpConstraintEQ: over == 0}[row.sense]:
            yield name


class Solving(unittest.TestCase):
    def test_plans(self):
        for name, plan in PLANS.items():
            with self.subTest(name):
                problem, solver = plan.make(), GDP()
                status = problem.solve(solver)
                self.assertEqual(status, STATUSES.get(plan.answer, pulp.LpStatusOptimal))
                self.assertEqual(status, problem.status)
                self.assertEqual(solver.exact_objective, None if isinstance(plan.answer, str) else plan.answer)
                self.assertEqual(bool(solver.exact_values), plan.answer != "empty")
                self.assertEqual(bool(solver.exact_ray), plan.answer == "endless")
                if solver.exact_values:
                    self.assertEqual(list(broken(problem, solver.exact_values)), [])
                for variable in own(problem):
                    self.assertEqual(variable.varValue, float(solver.exact_values[variable.name]) if solver.exact_values else None)
                if plan.answer not in STATUSES and problem.objective is not None:
                    self.assertEqual(value(problem.objective, solver.exact_values) + exact(problem.objective.constant), plan.answer)
                    self.assertAlmostEqual(pulp.value(problem.objective), float(plan.answer))

    def test_names_come_back(self):
        problem = PLANS["names"].make()
        before = [variable.name for variable in problem.variables()], list(problem.constraints), problem.objective.name
        problem.solve(GDP())
        self.assertEqual(before, ([variable.name for variable in problem.variables()], list(problem.constraints), problem.objective.name))

    def test_names_stay(self):
        plain, odd = ["x", "x(1)", "#1", "n_2", "lazy", "x.1", "ends"], ["", "2x", "x|y", "a:b", "\u00e9", "End", "free", "INF", ".x", "s.t.", "n" * 101]
        self.assertEqual([name for name in plain + odd if is_plain(name)], plain)

    def test_renamed_problems_are_refused_by_their_own_names(self):
        problem = PLANS["names"].make()
        problem += pulp.LpVariable("2nd line") >= 1
        self.assertRaises(pulp.PulpError, problem.solve, GDP())

    def test_relaxed(self):
        problem, solver = PLANS["knapsack"].make(), GDP(mip=False)
        self.assertEqual(problem.solve(solver), pulp.LpStatusOptimal)
        self.assertGreater(solver.exact_objective, 96)
        self.assertTrue(any(number.denominator > 1 for number in solver.exact_values.values()))

    def test_giving_up(self):
        problem, solver = PLANS["knapsack"].make(), GDP(steps=1)
        self.assertEqual(problem.solve(solver), pulp.LpStatusNotSolved)
        self.assertEqual((solver.exact_values, solver.exact_objective), ({}, None))
        self.assertEqual(solver.log, "gdp-log 1\nroute lp\nopen root\nstop steps\n")

    def test_solved_again(self):
        problem, solver = PLANS["constant"].make(), GDP()
        problem.solve(solver)
        problem += problem.variablesDict()["y"] >= 100, "more"
        problem += problem.variablesDict()["y"] <= 99, "less"
        self.assertEqual(problem.solve(solver), pulp.LpStatusInfeasible)
        self.assertEqual((solver.exact_values, [variable.varValue for variable in problem.variables()]), ({}, [None, None]))

    def test_a_refused_number(self):
        problem = pulp.LpProblem("tiny", pulp.LpMinimize)
        problem += 1e-30 * pulp.LpVariable("x", 1)
        with self.assertRaisesRegex(PulpSolverError, "line 3: Number: OBJ: 1e-30 x"):
            problem.solve(GDP())

    def test_special_ordered_sets(self):
        problem = PLANS["constant"].make()
        problem.sos1["set"] = {variable: 1 for variable in problem.variables()}
        self.assertRaisesRegex(PulpSolverError, "special ordered sets", problem.solve, GDP())

    def test_no_program(self):
        solver = GDP(path="no-such-program")
        self.assertFalse(solver.available())
        self.assertRaisesRegex(PulpSolverError, "DATEMOUND_GDP", PLANS["constant"].make().solve, solver)

    def test_files(self):
        folder = os.getcwd()
        with tempfile.TemporaryDirectory() as place:
            os.chdir(place)
            try:
                for keeps, left in ((False, []), (True, ["constant-pulp.lp"])):
                    PLANS["constant"].make().solve(GDP(keepFiles=keeps))
                    self.assertEqual(os.listdir(place), left)
            finally:
                os.chdir(folder)

    def test_the_page(self):
        block = re.search(r"```python\n(.*?)```", (HERE / "README.md").read_text(), re.DOTALL)[1]
        out = io.StringIO()
        with contextlib.redirect_stdout(out):
            exec(block, {})
        self.assertEqual(out.getvalue().splitlines(), re.findall(r"# (.*)", block))

    def test_copies(self):
        self.assertEqual(GDP(steps=7, mip=False).copy().steps, 7)


if __name__ == "__main__":
    warnings.filterwarnings("ignore", message="Spaces are not permitted")
    unittest.main(warnings="ignore")
