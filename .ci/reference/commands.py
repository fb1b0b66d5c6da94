"""The commands over texts that can be read: what `answer` is told by."""

import re

from .checking import check_texts
from .generator import made_text
from .lp_texts import read_lp
from .programs import lp_text
from .rewriting import Refusal, compiled
from .solving import ROUTES, lp_solved, solved
from .texts import BYTES, Refused, canonical, read_model, read_point, verdict

CHOICES = ("bigm", "hull", "hybrid")
MOST_STEPS, MOST_SEED, MOST_SIZE = 1_000_000, 2**64 - 1, 20


def format_model(files, name):
    return 0, canonical(read(read_model, files, name))


def test_point(files, name, at):
    model = read(read_model, files, name)
    status, text = verdict(model, *read(lambda text: read_point(model, text), files, at))
    return status, text + "\n"


def compile_model(files, choice, name):
    model = read(read_model, files, name)
    names = [*model.vars, *model.booleans]
    return 0, "".join(f"\\ x{at} {name}\n" for at, name in enumerate(names)) + lp_text(compiled(model, choice))


def solve_model(files, route, steps, name):
    return solved(read(read_model, files, name), route, int(steps))


def solve_lp(files, steps, name):
    return lp_solved(read(read_lp, files, name), int(steps))


def make_model(files, seed, size):
    return 0, made_text(int(seed), int(size))


def bench(files, route, steps, seed, size):
    """Three lines: what was solved, by which route, and how it ended."""
    status, text = solved(read_model(made_text(int(seed), int(size)).encode()), route, int(steps))
    told = text.splitlines()[2] if status == 0 else "gave up"
    return status, f"seed {int(seed)} size {int(size)}\nroute {route}\n{told}\n"


def check_answer(files, name, at):
    read(read_model, files, name)
    status, line = check_texts(files[name], files[at], at)
    if status in (2, 4):
        raise Told(status, line)
    return status, line + "\n"


class Told(Exception):
    """A text or a rewrite is refused: the status, and the line that is written on error."""


def read(reader, files, name):
    try:
        return reader(files[name])
    except Refused as refused:
        raise Told(2, f"{name}: line {refused.line}: {refused.cause}") from None


def form_of(words):
    """The call that the words ask for, its plain words, and the names of files; None where they are of no form."""
    command, *others = words or [""]
    if command not in FORMS:
        return None
    call, shape = FORMS[command]
    parted = list(zip(shape, others))
    if len(others) != len(shape) or not all(test is NAME or test(word) for test, word in parted):
        return None
    return call, [word for test, word in parted if test is not NAME], [word for test, word in parted if test is NAME]


def whole(least, most):
    """The test of a word that is digits alone, zeros before them allowed, from `least` to `most`."""

    def is_such(word):
        digits = word.lstrip("0") or "0"
        return re.fullmatch(r"[0-9]+", word) is not None and len(digits) <= len(str(most)) and least <= int(digits) <= most

    return is_such


def one_of(choices):
    return lambda word: word in choices


# For each command what it calls, and a test of each word after it; None stands for the name of a file.
NAME, ROUTE, STEPS, SEED, SIZE = None, one_of(ROUTES), whole(1, MOST_STEPS), whole(0, MOST_SEED), whole(1, MOST_SIZE)
FORMS = {
    "format": (format_model, [NAME]),
    "test": (test_point, [NAME, NAME]),
    "check": (check_answer, [NAME, NAME]),
    "compile": (compile_model, [one_of(CHOICES), NAME]),
    "solve": (solve_model, [ROUTE, STEPS, NAME]),
    "lp": (solve_lp, [STEPS, NAME]),
    "make": (make_model, [SEED, SIZE]),
    "bench": (bench, [ROUTE, STEPS, SEED, SIZE]),
}


def answer(words, files):
    """The status, what is written on output, and on error."""
    form = form_of(words)
    if form is None:
        return 7, b"", b"words refused\n"
    call, plain, names = form
    for name in names:
        if len(files[name]) > BYTES:
            return 2, b"", f"{name}: too long\n".encode()
    try:
        status, text = call(files, *plain, *names)
        return status, text.encode(), b""
    except Told as told:
        status, line = told.args
        return status, b"", f"{line}\n".encode()
    except Refusal as refusal:
        return 4, b"", f"{refusal}\n".encode()
