"""Answers written by hand, and the line that has to be said of each: by the program, and by `tools/check_certificate.py`.

`differences()` gives the names of the rows that fail by the latter, run on files, and how many there are.
"""

import contextlib
import io
import os
import pathlib
import tempfile

from reference.checking import TOOL

GREATEST = str(2**127 - 1)
BAD_MODEL = "a bad model"

MODEL = b"gdp 1\nvar n int 0 5\nmax n\nrow 2 n <= 7\n"
ANSWER = b"gdp-answer 1\nroute bigm\nbest 3\nover 1\nval n 3\ntree\nint 0 3\nbounded 1 2:1\nrefuted 1:1 2:2\nend\n"
EMPTY = b"gdp 1\nvar x real 0 1\ndisjunction xor\ndisjunct a\nend\ndisjunct b\nend\nend\nlogic exactly(2, a, b)\n"
EMPTY_ANSWER = b"gdp-answer 1\nroute logic\nempty\ntree\ntruth 0\ntruth 1\nlogic 1\nlogic 0\nlogic 0\nend\n"
ENDLESS = b"gdp 1\nvar x real 0 inf\nmax x\n"
ENDLESS_ANSWER = b"gdp-answer 1\nroute bigm\nendless\nover 1\nval x 0\nstep x 1\nend\n"
OPEN = b"gdp 1\nvar x real 0 inf\nmax x\ndisjunction xor\ndisjunct a\nrow x <= 3\nend\nend\n"
OPEN_ANSWER = b"gdp-answer 1\nroute logic\nbest 3\nover 1\nval x 3\non a\ntree\ntruth 0\nbounded 1 0:1\nlogic 0\nend\n"


def by_hand():
    """Models, changed answers, and the line that is said; `A` is the name of the answer."""
    def changed(name, old, new, said, model=MODEL, text=ANSWER):
        assert old in text
        return name, model, text.replace(old, new), said

    deep = b"gdp-answer 1\nroute logic\nempty\ntree\n" + b"truth 0\n" * 100_000 + b"end\n"
    return [
        ("an optimum", MODEL, ANSWER, "accepted"),
        ("no point", EMPTY, EMPTY_ANSWER, "accepted"),
        ("an endless goal", ENDLESS, ENDLESS_ANSWER, "accepted"),
        ("an optimum by logic", OPEN, OPEN_ANSWER, "accepted"),
        changed("the same by logic", b"bigm", b"logic", "accepted"),
        changed("a multiplier too small", b"2:2", b"2:1", "rejected: leaf at node 2"),
        changed("a multiplier below 0", b"2:2", b"2:-2", "rejected: leaf at node 2"),
        changed("a better value", b"best 3", b"best 4", "rejected: value"),
        changed("a point that isn't one", b"n 3", b"n 6", "rejected: point at line 2"),
        changed("a point past a row", b"n 3", b"n 4", "rejected: point at line 4"),
        changed("a wide point", b"n 3", b"n " + GREATEST.encode(), "rejected: point at line 2"),
        changed("a leaf missing", b"refuted 1:1 2:2\n", b"", "A: line 9: Shape"),
        changed("a leaf too many", b"end\n", b"logic 0\nend\n", "A: line 10: Shape"),
        changed("a scale of 0", b"bounded 1", b"bounded 0", "rejected: leaf at node 1"),
        changed("a column that isn't there", b"int 0 3", b"int 1 3", "rejected: tree at node 0"),
        changed("a split at the greatest number", b"int 0 3", f"int 0 {GREATEST}".encode(), "rejected: tree at node 0"),
        changed("a split at the least number", b"int 0 3", f"int 0 {-(2**127)}".encode(), "rejected: tree at node 0"),
        changed("a leaf of logic by a rewrite", b"bounded 1 2:1", b"logic 0", "rejected: leaf at node 1"),
        changed("the halves swapped", b"bounded 1 2:1\nrefuted 1:1 2:2", b"refuted 1:1 2:2\nbounded 1 2:1", "rejected: leaf at node 1"),
        changed("a split one too low", b"int 0 3", b"int 0 2", "rejected: leaf at node 2"),
        changed("a row that isn't there", b"refuted 1:1 2:2", b"refuted 9:1", "rejected: leaf at node 2"),
        changed("a wide sum", b"bounded 1 2:1", f"bounded 1 2:{GREATEST}".encode(), "wide: node 1"),
        ("a split on no Boolean", MODEL, ANSWER.replace(b"bigm", b"logic").replace(b"int 0 3", b"truth 0"), "rejected: tree at node 0"),
        changed("a bound where nothing is best", b"logic 1", b"bounded 1", "rejected: leaf at node 2", EMPTY, EMPTY_ANSWER),
        changed("a condition that isn't false", b"logic 1", b"logic 0", "rejected: leaf at node 2", EMPTY, EMPTY_ANSWER),
        changed("a Boolean twice", b"truth 1", b"truth 0", "rejected: tree at node 1", EMPTY, EMPTY_ANSWER),
        changed("logic by a rewrite", b"route logic", b"route hull", "rejected: tree at node 0", EMPTY, EMPTY_ANSWER),
        changed("no rewrite", b"route logic", b"route bigm", "no bound at line 6 for x", OPEN, OPEN_ANSWER),
        changed("no rewrite, by its hull", b"route logic", b"route hull", "no bound at line 4 for x", OPEN, OPEN_ANSWER),
        changed("a step back", b"step x 1", b"step x -1", "rejected: ray at line 2", ENDLESS, ENDLESS_ANSWER),
        changed("no step", b"step x 1", b"step x 0", "rejected: ray at line 3", ENDLESS, ENDLESS_ANSWER),
        ("a hundred thousand openings", EMPTY, deep, "A: line 100005: Shape"),
        changed("another header", b"answer 1", b"answer 2", "A: line 1: Form"),
        changed("not in lowest terms", b"best 3", b"best 6/2", "A: line 3: Form"),
        changed("a written 1", b"best 3", b"best 3/1", "A: line 3: Form"),
        changed("a name that isn't due", b"val n", b"val m", "A: line 5: Name"),
        changed("a name with a tab", b"val n", b"val n\t", "A: line 5: Name"),
        changed("a name with a byte that is no ASCII", b"val n", b"val \xff", "A: line 5: Name"),
        changed("a Boolean with a tab", b"on a", b"on a\t", "A: line 6: Name", OPEN, OPEN_ANSWER),
        changed("a tab between words", b"val n", b"val\tn", "A: line 5: Form"),
        changed("a blank at the end", b"val n 3", b"val n 3 ", "A: line 5: Form"),
        changed("a carriage return", b"val n 3", b"val n 3\r", "A: line 5: Form"),
        changed("over 0", b"over 1", b"over 0", "A: line 4: Number"),
        changed("a number past 128 bits", b"val n 3", b"val n 170141183460469231731687303715884105728", "A: line 5: Number"),
        changed("a split at a number of 5,000 digits", b"int 0 3", b"int 0 " + b"7" * 5000, "A: line 7: Number"),
        changed("a row number of 5,000 digits", b"1:1 2:2", b"1:1 " + b"7" * 5000 + b":2", "A: line 9: Number"),
        changed("pairs out of order", b"1:1 2:2", b"2:2 1:1", "A: line 9: Form"),
        changed("a multiplier of 0", b"1:1", b"1:0", "A: line 9: Form"),
        ("no newline at the end", MODEL, ANSWER[:-1], "A: line 10: Form"),
        ("a line after the end", MODEL, ANSWER + b"end\n", "A: line 11: Form"),
        ("half a text", MODEL, ANSWER[: ANSWER.index(b"tree")], "A: line 6: Form"),
        ("no text", MODEL, b"", "A: line 1: Form"),
        (f"{BAD_MODEL}: an end too many", MODEL + b"end\n", ANSWER, "M: line 5: refused"),
        (f"{BAD_MODEL}: a denominator of 0", MODEL.replace(b"<= 7", b"<= 7/0"), ANSWER, "M: line 4: refused"),
        (f"{BAD_MODEL}: a number past the limit", MODEL.replace(b"<= 7", b"<= 1000000000000001/2"), ANSWER, "M: line 4: refused"),
        (f"{BAD_MODEL}: a proposition in a disjunction", EMPTY.replace(b"end\nend\n", b"end\n"), ANSWER, "M: line 8: refused"),
    ]


def differences():
    wrong, rows = [], by_hand()
    for name, model, text, line in rows:
        with tempfile.TemporaryDirectory() as folder:
            names = [os.path.join(folder, name) for name in "MA"]
            for path, contents in zip(names, (model, text)):
                pathlib.Path(path).write_bytes(contents)
            out = io.StringIO()
            with contextlib.redirect_stdout(out), contextlib.redirect_stderr(out):
                TOOL.main(names)
        told = out.getvalue().removeprefix(folder + os.sep).strip()
        wrong += [] if told == line else [f"certificate: {name}: {told!r} and not {line!r}"]
    return wrong, len(rows)


if __name__ == "__main__":
    print(*differences(), sep="\n")
