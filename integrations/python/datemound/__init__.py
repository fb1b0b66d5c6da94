"""Plans with choices in Python, solved exactly and certified by the program `gdp` of Datemound.

    from datemound import Disjunct, Disjunction, Model, Var

    feed = Var("feed", 0, 100)         # tonnes bought
    product = Var("product", 0, 80)    # tonnes sold
    plan = Model()
    plan.maximize(5 * product - 2 * feed)
    plan.add(
        Disjunction(
            Disjunct("old_line", product == "3/5" * feed),
            Disjunct("new_line", feed >= 20, product == "0.75" * feed),
        )
    )
    result = plan.solve()
    print(result)                      # best 175, and the values
    assert result.check()

This module makes the model's text, calls `gdp` and reads its answers. The module itself is only tested and not part of what is proved; what
`gdp` says of the text is. So the text (`plan.text()`) is what to read where much depends on a plan.

Numbers are exact: `int`, `Fraction`, `Decimal`, and text such as `"0.75"` or `"3/5"`; a float is an error that says what to write. `gdp` is
found by the environment variable `DATEMOUND_GDP`, else on the PATH, else beside the module. Errors are a `DatemoundError`: a `ModelError` for
a mistake in the Python, a `RefusedError` for a refusal of `gdp`, which names the line of Python, a `ProgramError` where `gdp` fails.
"""

from .answers import PointTest, Result, Stop, Verdict
from .blocks import Disjunct, Disjunction
from .errors import DatemoundError, ModelError, ProgramError, RefusedError
from .exact import as_printed
from .expressions import Row, Var, quicksum
from .model import Model
from .places import Place
from .program import find_program
from .propositions import Boolean, Proposition, atleast, atmost, equivalent, exactly, implies, land, lnot, lor, xor
from .version import VERSION

__version__ = VERSION

__all__ = [
    "Boolean",
    "DatemoundError",
    "Disjunct",
    "Disjunction",
    "Model",
    "ModelError",
    "Place",
    "PointTest",
    "ProgramError",
    "Proposition",
    "RefusedError",
    "Result",
    "Row",
    "Stop",
    "Var",
    "Verdict",
    "as_printed",
    "atleast",
    "atmost",
    "equivalent",
    "exactly",
    "find_program",
    "implies",
    "land",
    "lnot",
    "lor",
    "quicksum",
    "xor",
]
