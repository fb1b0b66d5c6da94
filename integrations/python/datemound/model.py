"""A model: what is added to it, its text, and what `gdp` says of it."""

from __future__ import annotations

from . import answers, calls
from .answers import PointTest, Result, Verdict
from .blocks import Block, Items
from .errors import ModelError
from .expressions import Linear, Var, quicksum
from .exact import Number
from .places import place_of_caller
from .propositions import Boolean
from .text import Goal, Text


class Model(Block):
    """A plan: variables, a goal, rows, choices and logic. `Model(items)` adds the items.

    It has the variables and Booleans that stand in what was added, and those of `declare`. Errors that concern the model as a whole (a name
    twice, logic over a disjunct that is in no disjunction) are told by `text`, and so by all that need the text.
    """

    def __init__(self, *items: Items) -> None:
        self.declared: list[Var | Boolean] = []
        self.goal: Goal | None = None
        super().__init__(items)

    def declare(self, *items: Var | Boolean) -> None:
        """Gives the model variables and Booleans that stand in no row, goal or proposition of it."""
        for item in items:
            if not isinstance(item, (Var, Boolean)):
                raise ModelError(f"{item!r} is no Var or Boolean: the others are added by add")
            self.declared.append(item)

    def minimize(self, expression: Linear | Number) -> None:
        """Sets the goal: this is to be as small as possible. Errors: a `ModelError` where the model has a goal."""
        self._set_goal("min", expression)

    def maximize(self, expression: Linear | Number) -> None:
        """Sets the goal: this is to be as great as possible. Errors: a `ModelError` where the model has a goal."""
        self._set_goal("max", expression)

    def _set_goal(self, sense: str, expression: Linear | Number) -> None:
        if self.goal is not None:
            raise ModelError(f"the model has a goal, `{self.goal.text()}`, made at {self.goal.place}: a model has one at most")
        self.goal = Goal(sense, quicksum([expression]), place_of_caller())

    def text(self) -> str:
        """The model's canonical text, which `gdp format` gives back unchanged. Errors: a `ModelError`."""
        return str(Text(self))

    def __str__(self) -> str:
        return self.text()

    def __repr__(self) -> str:
        return f"<Model: rows {len(self.rows)}, disjunctions {len(self.disjunctions)}, logic {len(self.propositions)} outside all disjuncts>"

    def solve(self, route: str = "hybrid", steps: int = 100_000, *, progress: bool | None = None) -> Result:
        """The best point with its certificate, or that there is none, or that there is no end, or where the search gave up.

        `route` is `hybrid`, `hull`, `bigm` or `logic`; `steps` is the most that the search takes, 1 to 1,000,000. While it runs, the seconds are
        shown on standard error where that is a terminal; `progress` True or False shows them always or never.
        Errors: a `ModelError`, a `RefusedError` where `gdp` refuses the model or its bounds don't suffice for the route, a `ProgramError`.
        """
        return answers.solved(Text(self), route, steps, progress)

    def test(self, point: Result | answers.Point) -> PointTest:
        """Whether a point satisfies the model, and else where it fails.

        A point gives each variable a number, and says which Booleans and disjuncts are true, by the objects or by their names; those that it
        leaves out are false. A result's own point may be tested, too. Errors: those of `solve`.
        """
        return answers.tested(Text(self), point)

    def check(self, certificate: str) -> Verdict:
        """Whether an answer's text, whoever wrote it, is true of the model. Errors: those of `solve`, and a `RefusedError` for a bad text."""
        return answers.checked(Text(self), certificate)

    def compile(self, choice: str = "hybrid") -> str:
        """A mixed-integer program that has the model's points, as LP text. `choice` is `hybrid`, `hull` or `bigm`. Errors: those of `solve`."""
        return calls.compiled(Text(self), choice)
