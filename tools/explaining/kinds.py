"""Tells by the end of its name, or else by its first words, what a text is."""

import re

from .lines import first_word

STARTS = {b"gdp": "model", b"gdp-point": "point", b"gdp-answer": "answer", b"gdp-log": "log", b"gdp-lp": "log"}
ENDS = {".gdp": "model", ".point": "point", ".answer": "answer", ".lp": "lp", ".log": "log"}
LP_START = re.compile(rb"(?i)\s*(?:minimi[sz]e|minimum|min|maximi[sz]e|maximum|max)\b")
MODEL_LINE = re.compile(rb"^[ \t]*(?:var|row|boolean|disjunction)[ \t]", re.MULTILINE)


def kind_of(text: bytes, name: str, has_model: bool) -> str:
    """`model`, `point`, `answer`, `lp` or `log`. What is read with a model is a point unless it is an answer."""
    by_start, by_end = STARTS.get(first_word(text)), next((kind for end, kind in ENDS.items() if name.endswith(end)), None)
    kind = by_end or by_start
    if has_model:
        return "answer" if kind in ("answer", "log") else "point"
    start = text[:100_000]
    is_lp = (start.lstrip().startswith(b"\\") or LP_START.match(start)) and not MODEL_LINE.search(start)
    return kind or ("lp" if is_lp else "model")
