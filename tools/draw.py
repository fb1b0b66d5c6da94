#!/usr/bin/env python3
"""Draws plans and searches as SVG, on standard output.

    draw.py draw MODEL [ANSWER or POINT]     a plan: its choices as boxes, with what is taken, the values, and the rows that are tight
    draw.py draw-log LOG [MODEL]             a log, or the proof of an answer, as a tree; with MODEL by the names of its choices

The words are names of files. Whether a text is a model, a point or an answer is asked of the program (`DATEMOUND_GDP`, else the launcher);
what it refuses is refused with its line and its status. This is no part of what is proved: a picture is to be looked at, and what is true of
a plan `gdp test` and `gdp check` say.
"""

import os
import pathlib
import subprocess
import sys

sys.dont_write_bytecode = True
from drawing.plan import FAILS, plan_picture  # noqa: E402
from drawing.search import log_tree, proof_tree  # noqa: E402
from drawing.texts import read_model, read_point, words_of  # noqa: E402
from drawing.tree import tree_picture  # noqa: E402

ROOT = pathlib.Path(__file__).resolve().parent.parent
USAGE = "usage: gdp draw MODEL [ANSWER or POINT]\n       gdp draw-log LOG [MODEL]\n"


class Refused(Exception):
    """The status that ends the run, and what is told."""

    def __init__(self, status: int, told: str) -> None:
        super().__init__(status, told)
        self.status, self.told = status, told


def asked(*words: str) -> tuple[int, str]:
    """The status of the program, and its one line; a text that it refuses ends the run."""
    program = os.environ.get("DATEMOUND_GDP") or str(ROOT / "gdp")
    ran = subprocess.run([program, *words], stdin=subprocess.DEVNULL, capture_output=True, check=False)
    if ran.returncode not in (0, 1, 3, 4):
        raise Refused(ran.returncode, ran.stderr.decode(errors="replace"))
    return ran.returncode, (ran.stdout or ran.stderr).decode(errors="replace").strip()


def text_of(name: str) -> str:
    """The contents of a file that the program has read."""
    try:
        return pathlib.Path(name).read_bytes().decode(errors="replace")
    except OSError:
        raise Refused(5, f"read fault: {name}\n") from None


def first_word(text: str) -> str:
    """The word that says what a text is."""
    return next((words[0] for words in words_of(text)), "")


def draw_plan(model: str, at: str = "") -> str:
    """The picture of a model, with what an answer or a point says of it."""
    asked("format", model)
    read = read_model(text_of(model))
    if not at:
        return plan_picture(read, None, "")
    is_answer = first_word(text_of(at)) == "gdp-answer"
    status, line = asked("check" if is_answer else "test", model, at)
    point = read_point(text_of(at))
    said = f"{point.claim} ({point.route}); gdp check: {line}" if is_answer else f"gdp test: {line}"
    said = said if status == 0 else f"{FAILS} {said}"
    return plan_picture(read, point if point.values else None, said)


def draw_search(log: str, model: str = "") -> str:
    """The picture of a log or of an answer's proof, with the names of a model, and then with what `gdp check` says of the answer."""
    text, read, said = text_of(log), None, ""
    is_answer = first_word(text) == "gdp-answer"
    if model:
        _, line = asked(*(["check", model, log] if is_answer else ["format", model]))
        read, said = read_model(text_of(model)), f", {line}" if is_answer else ""
    try:
        if not is_answer:
            head, (_, route), *steps = words_of(text)
            assert head == ["gdp-log", "1"]
            return tree_picture(log_tree(steps), f"A search by {route} that gave up")
        point = read_point(text)
        return tree_picture(proof_tree(point, read), f"The proof of {point.claim} by {point.route}{said}")
    except (AssertionError, IndexError, ValueError):
        raise Refused(2, f"{log}: no log, and no answer with a tree\n") from None


def main(words: list[str]) -> int:
    """Draws what the words name."""
    try:
        match words:
            case ["draw", model]:
                text = draw_plan(model)
            case ["draw", model, at]:
                text = draw_plan(model, at)
            case ["draw-log", log]:
                text = draw_search(log)
            case ["draw-log", log, model]:
                text = draw_search(log, model)
            case _:
                raise Refused(7, USAGE)
    except Refused as refused:
        sys.stderr.buffer.write(os.fsencode(refused.told))
        return refused.status
    try:
        sys.stdout.buffer.write(text.encode())
        sys.stdout.buffer.flush()
    except OSError:
        sys.stderr.write("write fault\n")
        sys.stderr.flush()
        os._exit(6)
    return 0


if __name__ == "__main__":
    sys.exit(main(sys.argv[1:]))
