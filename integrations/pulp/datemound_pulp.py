"""GDP: Datemound's program `gdp` as a solver for PuLP. It solves in exact fractions, so an answer has no tolerances.

    import pulp
    from datemound_pulp import GDP

    solver = GDP()
    problem.solve(solver)
    print(pulp.LpStatus[problem.status], solver.exact_objective)

The problem is written as an LP file by PuLP, read and solved by `gdp lp`, and gets its status and the variables' values from the
answer. The numbers are those of the file, in which PuLP writes 12 significant digits: 1/3 becomes 0.333333333333. The
program is what the environment variable `DATEMOUND_GDP` names, else `gdp` on the PATH, else the launcher of the repository.
"""

from __future__ import annotations

import collections
import contextlib
import os
import pathlib
import re
import shutil
import subprocess
from fractions import Fraction
from typing import Iterator, NamedTuple

import pulp
from pulp.apis.core import PulpSolverError

#: The environment variable that names the program.
VARIABLE = "DATEMOUND_GDP"
#: The most steps that a search may take.
MOST_STEPS = 1_000_000

_NAME = re.compile(r"[A-Za-z!\"#$%&(),;?@_`'{}~][A-Za-z0-9!\"#$%&(),.;?@_`'{}~\[\]]*")
_LONGEST_NAME = 100
# Words that mean something at the beginning of a line of LP text, or in its bounds.
_WORDS = set("minimize minimum min maximize maximum max st st. s.t. bounds bound general generals gen binary binaries bin end".split())
_WORDS |= set("sos sos1 sos2 semi semis inf infinity free".split())
# The variable that PuLP adds to a problem without an objective.
_DUMMY = "__dummy"
_GAVE_UP = 3


class Answer(NamedTuple):
    """What `gdp lp` answers: `best`, `empty` or `endless`, the value, the point, and what a step adds to it, by the names of the file."""

    kind: str
    value: Fraction | None
    point: dict[str, Fraction]
    ray: dict[str, Fraction]


class GDP(pulp.LpSolver_CMD):
    """The solver, for `problem.solve(GDP())`.

    | answer | status | values |
    |---|---|---|
    | `best` | Optimal | the best point |
    | `empty` | Infeasible | none |
    | `endless` | Unbounded | a point, from which `exact_ray` leads on without end |
    | gave up, at the end of the steps or past 128 bits | Not Solved | none; `log` says where |

    Where the file is refused, or the program can't be run, `solve` raises a `PulpSolverError`. After it:

    - `exact_values`: each variable's value as a `Fraction`, by name. `varValue` is the nearest floating-point number.
    - `exact_objective`: the objective as a `Fraction`, with its constant; None where there is no best point.
    - `exact_ray`: what a step adds to each variable, where the objective has no end.
    - `log`: the log of the search where it gave up.
    """

    name = "GDP"

    def __init__(self, path: str | None = None, steps: int = MOST_STEPS, mip: bool = True, msg: bool = False, keepFiles: bool = False) -> None:
        """`steps` is 1 to 1,000,000; without `mip` integer variables may be fractions; with `msg` the answer is printed; with
        `keepFiles` the LP file stays, in the working folder."""
        super().__init__(path=path, keepFiles=keepFiles, mip=mip, msg=msg)
        self.steps = steps
        self._forget()

    def copy(self) -> GDP:
        made = super().copy()
        made.steps = self.steps
        return made

    def defaultPath(self) -> str:
        launcher = pathlib.Path(__file__).resolve().parent.parent.parent / "gdp"
        return os.environ.get(VARIABLE) or shutil.which("gdp") or str(launcher)

    def available(self) -> bool:
        """Whether the program is there; the launcher builds it at its first call."""
        return shutil.which(self.path) is not None

    def actualSolve(self, lp: pulp.LpProblem) -> int:
        """Solves the problem, and gives its status."""
        self._forget()
        if lp.sos1 or lp.sos2:
            raise PulpSolverError("GDP: the problem has special ordered sets, which gdp doesn't read")
        if not self.available():
            raise PulpSolverError(f"GDP: {self.path} can't be run; name the program in {VARIABLE}")
        answer = self._answer(lp)
        for variable in lp.variables():
            variable.varValue = None
        if answer is None:
            lp.assignStatus(pulp.LpStatusNotSolved, pulp.LpSolutionNoSolutionFound)
            return pulp.LpStatusNotSolved
        self.exact_values = {name: value for name, value in answer.point.items() if name != _DUMMY}
        self.exact_ray = {name: value for name, value in answer.ray.items() if name != _DUMMY}
        if answer.value is not None:
            self.exact_objective = answer.value + Fraction("%.12g" % lp.objective.constant)
        lp.assignVarsVals({name: float(value) for name, value in self.exact_values.items()})
        status = {"best": pulp.LpStatusOptimal, "empty": pulp.LpStatusInfeasible, "endless": pulp.LpStatusUnbounded}[answer.kind]
        lp.assignStatus(status)
        return status

    def _forget(self) -> None:
        self.exact_values: dict[str, Fraction] = {}
        self.exact_ray: dict[str, Fraction] = {}
        self.exact_objective: Fraction | None = None
        self.log = ""

    def _answer(self, lp: pulp.LpProblem) -> Answer | None:
        """The answer by the problem's own names, None where the search gave up."""
        (path,) = self.create_tmp_files(lp.name, "lp")
        try:
            with written_names(lp) as own_names:
                lp.writeLP(path, writeSOS=0, mip=self.mip)
            ran = subprocess.run([self.path, "lp", str(self.steps), path], stdin=subprocess.DEVNULL, capture_output=True, text=True, check=False)
            if self.msg:
                print(ran.stdout + ran.stderr, end="")
            if ran.returncode == _GAVE_UP:
                self.log = ran.stdout
                return None
            if ran.returncode:
                raise PulpSolverError(f"GDP: {complaint(ran.stderr.strip(), path) or f'status {ran.returncode}'}")
        finally:
            self.delete_tmp_files(path)
        return read_answer(ran.stdout, own_names)


def complaint(said: str, path: str) -> str:
    """What the program says, and where it is about a line of the file this line."""
    found = re.fullmatch(re.escape(path) + r": (line ([0-9]+): \w+)", said)
    if not found:
        return said
    lines = pathlib.Path(path).read_text().splitlines()
    at = int(found[2]) - 1
    return f"the LP file is refused at {found[1]}: {lines[at].strip() if at < len(lines) else 'its end'}"


def read_answer(text: str, own_names: dict[str, str]) -> Answer:
    """The answer of a `gdp-lp 1` text, with each name in the text taken for the problem's own."""
    _, (kind, *value), *lines = (line.split(" ") for line in text.splitlines())
    over, numbers = 1, {"val": {}, "step": {}}
    for word, *parts in lines:
        if word == "over":
            over = int(parts[0])
        elif word in numbers:
            numbers[word][own_names[parts[0]]] = int(parts[1])
    point = {name: Fraction(number, over) for name, number in numbers["val"].items()}
    ray = {name: Fraction(number) for name, number in numbers["step"].items()}
    return Answer(kind, Fraction(value[0]) if value else None, point, ray)


def is_plain(name: str) -> bool:
    """Whether a name can stand anywhere in the LP texts that PuLP writes."""
    return _NAME.fullmatch(name) is not None and len(name) <= _LONGEST_NAME and name.lower() not in _WORDS


@contextlib.contextmanager
def written_names(lp: pulp.LpProblem) -> Iterator[dict[str, str]]:
    """Lets a problem have names that LP text can have, and gives its own names by these.

    Where one of its names can't stand in LP text, all have meanwhile those of PuLP's renaming: X0000000, C0000000 and so on.
    """
    lp.checkDuplicateVars()
    variables, constraints, label = lp.variables(), lp.constraints, lp.objective.name
    own = [variable.name for variable in variables]
    if all(map(is_plain, [*own, *constraints, label or "OBJ"])):
        yield dict(zip(own, own))
        return
    rows, columns, _ = lp.normalisedNames()
    try:
        for variable, name in zip(variables, own):
            variable.name = columns[name]
        lp.constraints = collections.OrderedDict((rows[name], row) for name, row in constraints.items())
        lp.objective.name = None
        yield {columns[name]: name for name in own}
    finally:
        for variable, name in zip(variables, own):
            variable.name = name
        lp.constraints, lp.objective.name = constraints, label
