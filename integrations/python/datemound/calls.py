"""Calls of `gdp` over a model's text, and its refusals as exceptions."""

from __future__ import annotations

import re
from typing import Mapping, NoReturn, Sequence

from . import program
from .errors import ModelError, ProgramError, RefusedError
from .program import Ran
from .text import Text, named_item, place_of

CHOICES = ("hybrid", "hull", "bigm")
ROUTES = (*CHOICES, "logic")
MOST_STEPS = 1_000_000

#: The names of the files that `gdp` is given.
MODEL, POINT, ANSWER = "model.gdp", "model.point", "model.answer"

# What the causes of a model text come to, where the model was made by this module.
_CAUSES = {
    "Number": "a number exceeds 10^15, as it stands or once all of the line are made whole",
    "Limit": (
        "a limit is passed: 500 variables, 200 Booleans and disjuncts, 1,000 rows, 200 arguments of one connective, 5,000 names and "
        "connectives in all propositions, 64 bytes of a name"
    ),
    "Nesting": "it is nested too deep: disjuncts eight deep, propositions 16 levels",
    "Missing": "a model has one variable at least",
}

_PROGRAM_FAULTS = {
    5: "could not read a file",
    6: "could not write its answer",
    7: "does not know the command: is it another version, or another program of this name?",
    8: "ran out of memory",
    9: "could not read its words",
    10: "is not built",
}


def ask(text: Text, words: Sequence[str], files: Mapping[str, str] | None = None, progress: bool | None = None) -> Ran:
    """Runs a command that reads the model, and gives what it answers: the status 0, or 1 or 3, and a text.

    Errors: a `RefusedError` where a text is refused or the model can't be rewritten, a `ProgramError` where the program fails.
    """
    ran = program.run(words, {MODEL: str(text), **(files or {})}, progress)
    if ran.status == 2:
        _refuse_text(text, ran.err.strip())
    if ran.status == 4:
        _refuse_rewrite(text, words, ran.err.strip())
    if ran.status not in (0, 1, 3):
        fault = _PROGRAM_FAULTS.get(ran.status, f"ended with the status {ran.status}")
        raise ProgramError(f"{program.find_program()} {fault}{': ' + ran.err.strip() if ran.err.strip() else ''}", ran.status)
    return ran


def compiled(text: Text, choice: str) -> str:
    """The LP text of the model's mixed-integer program."""
    if choice not in CHOICES:
        raise ModelError(f"{choice!r} is no choice: write one of {', '.join(CHOICES)}")
    ran = ask(text, ["compile", choice, MODEL])
    if ran.status != 0:
        raise unexpected(ran)
    return ran.out


def unexpected(ran: Ran) -> ProgramError:
    """The error for an answer that the manual doesn't have."""
    said = (ran.out or ran.err).strip()
    what = f"{program.find_program()} answered what Datemound does not: {said[:200]!r}"
    return ProgramError(f"{what}; is it another program of this name?", ran.status)


def _refuse_text(text: Text, said: str) -> NoReturn:
    name, _, rest = said.partition(": ")
    found = re.fullmatch(r"line ([0-9]+): (\w+)", rest)
    line, cause = (int(found[1]), found[2]) if found else (None, rest)
    if name != MODEL:
        what = "the point" if name == POINT else "the certificate"
        raise RefusedError(f"gdp refuses {what}{f' at its line {line}' if line else ''}: {cause}", cause, line, None, None)
    item = text.item_at(line) if line else None
    why = _CAUSES.get(cause, "")
    message = f"gdp refuses {named_item(item) or 'the model'}: {cause}{', ' + why if why else ''}"
    raise RefusedError(message, cause, line, item, place_of(item))


def _refuse_rewrite(text: Text, words: Sequence[str], said: str) -> NoReturn:
    route = words[1] if words[0] in ("compile", "solve") else "the answer's route"
    otherwise = ", or solve by the route 'logic', which needs none" if words[0] == "solve" else ""
    found = re.fullmatch(r"(no bound|too wide) at line ([0-9]+)(?: for (\S+))?", said)
    if found is None:
        why = "the mixed-integer program would have more than 4,000 columns or 3,000 rows: take 'bigm' or low bounds of 0"
        raise RefusedError(f"{route}: {said}, {why}{otherwise.replace(', which needs none', '')}", said, None, None, None)
    line = int(found[2])
    item = text.item_at(line)
    if found[1] == "no bound":
        var = text.variables.get(found[3])
        made = f", made at {var.place}" if var is not None else ""
        why = f"no bound for the variable {found[3]}{made}, which {named_item(item)} needs: give it a low and a high bound{otherwise}"
    else:
        why = f"too wide, a number of {named_item(item)} would exceed 10^15: narrow the bounds of its variables, or take greater units"
    raise RefusedError(f"{route}: {why}", found[1], line, item, place_of(item))
