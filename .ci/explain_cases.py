#!/usr/bin/env python3
"""What `gdp explain` says, tried in four ways.

- On every refused text of the end-to-end table it says first what the program says: file, line and cause.
- On every slip of the manual's table, written here in a text each, it says what the manual says to write.
- On the example of each slip of its own table it names this slip; and what it says to write is read by the program.
- Lines that are long, or have bytes that don't print, are cut and escaped.

`explain_cases.py [PROGRAM]` runs all of this, with a stand-in for the program where none is named. `.ci/end-to-end.py` calls it too.
"""

import os
import pathlib
import re
import subprocess
import sys
import tempfile

sys.dont_write_bytecode = True
ROOT = pathlib.Path(__file__).resolve().parent.parent
sys.path.insert(0, str(ROOT / "tools"))
from explaining import explanation, program, show, slips  # noqa: E402
from reference import answer  # noqa: E402

HEAD = "gdp 1\nvar x real 0 10\nvar y real 0 10\nboolean a\nboolean b\nboolean c\n"
POINT_HEAD, POINT_TAIL = "gdp-point 1\nover 2\n", "val x 3\nval y 4\nend\n"
LP_HEAD = "min x + y\nst\n x + y >= 1\n"
NAMES = {"model": "M.gdp", "point": "P.point", "answer": "A.answer", "lp": "F.lp"}
BLOCK = "disjunction xor\ndisjunct d\n"

# The spellings of the manual's table of slips, each in a text below HEAD, and what has to stand in the explanation.
MANUAL = [
    ("row x < 1", "row x < 1", "write:  row x <= 1"),
    ("row x == 1", "row x == 1", "write:  row x = 1"),
    ("row x <= y", "row x <= y", "write:  row x - y <= 0"),
    ("row 1 >= x", "row 1 >= x", "write:  row x <= 1"),
    ("row 0 <= x <= 1", "row 0 <= x <= 1", "write:  row x >= 0\n            row x <= 1"),
    ("row x + 3 <= 1", "row x + 3 <= 1", "write:  row x <= -2"),
    ("row 2*x <= 1", "row 2*x <= 1", "write:  row 2 x <= 1"),
    ("row (x + y) <= 1", "row (x + y) <= 1", "write:  row x + y <= 1"),
    ("row c1: x <= 1", "row c1: x <= 1", "write:  row x <= 1  # c1"),
    ("row x <= 1;", "row x <= 1;", "write:  row x <= 1"),
    ("row x + x <= 1", "row x + x <= 1", "write:  row 2 x <= 1"),
    ("row 0 x + y <= 1", "row 0 x + y <= 1", "write:  row y <= 1"),
    ("1e6", "row x <= 1e6", "write:  row x <= 1000000"),
    ("1e6", "var z real 0 1e6", "numbers have no powers of ten"),
    (".5", "row .5 x <= 1", "write:  row 0.5 x <= 1"),
    (".5", "var z real .5 9", "write:  var z real 0.5 9"),
    ("1,000", "row x <= 1,000", "write:  row x <= 1000"),
    ("var x real", "var z real", "write:  var z real -inf inf"),
    ("var x bin 0 1", "var z bin 0 1", "write:  var z int 0 1"),
    ("var x integer 0 9", "var z integer 0 9", "write:  var z int 0 9"),
    ("minimize x", "minimize x", "write:  min x"),
    ("MIN x", "MIN x", "write:  min x"),
    ("min", "min x\nmin y", "one goal at most"),
    ("max", "min x\nmax y", "one goal at most"),
    ("logic a and b", "logic a and b", "write:  logic and(a, b)"),
    ("logic a -> b", "logic a -> b", "write:  logic implies(a, b)"),
    ("logic !a", "logic !a", "write:  logic not(a)"),
    ("logic exactly(a, b)", "logic exactly(a, b)", "write:  logic exactly(1, a, b)"),
    ("logic x", "logic x", "propositions have Booleans and indicators alone"),
    ("boolean a", "disjunction xor\ndisjunct a", "`disjunct` alone declares its indicator"),
    ("disjunct a", "disjunction xor\ndisjunct a", "`disjunct` alone declares its indicator"),
    ("row ..", "disjunction xor\nrow x <= 1", "put it in a `disjunct`"),
    ("disjunction", "disjunction xor\nrow x <= 1", "put it in a `disjunct`"),
    ("var ..", BLOCK + "var z real 0 1", "declare it above, outside all blocks"),
    ("boolean ..", BLOCK + "end\nend\nboolean e", "declare it above"),
    ("end", BLOCK + "end", "one `end` for each `disjunct` and each `disjunction`"),
    ("a file with a byte order mark", None, "save the file as ASCII"),
]


def ask_reference(words):
    """The stand-in for the program: the second implementation."""
    files = {word: pathlib.Path(word).read_bytes() for word in words[1:] if os.path.isfile(word)}
    status, out, err = answer(words, files)
    line = err or (out if words[0] in ("test", "check") else b"")
    return program.Said(status, line.removesuffix(b"\n"))


def explained(ask, files, *words):
    """The status and what is printed, of words and files in an empty folder."""
    with tempfile.TemporaryDirectory() as folder:
        before = os.getcwd()
        os.chdir(folder)
        try:
            for name, text in files.items():
                pathlib.Path(name).write_bytes(text if isinstance(text, bytes) else text.encode())
            return explanation.explain(list(words), ask)
        finally:
            os.chdir(before)


def refused_rows(table):
    """The rows of the end-to-end table whose texts are refused, with the files and the words for `explain`."""
    for case in table:
        is_plain = all(isinstance(text, bytes) and "/" not in name for name, text in case.files.items())
        if case.status != 2 or not isinstance(case.err, bytes) or case.stdin or not is_plain:
            continue
        command, *names = case.words
        if command == "test":
            yield case, case.files, [names[1], names[0]], case.err
        elif command == "check":
            files = {name if name == names[0] else "A.answer": text for name, text in case.files.items()}
            yield case, files, ["A.answer", names[0]], re.sub(rb"^%s(?=: )" % re.escape(names[1].encode()), b"A.answer", case.err)
        elif command == "lp" and case.files:
            yield case, {"F.lp": case.files[names[-1]]}, ["F.lp"], case.err.replace(names[-1].encode(), b"F.lp", 1)
        else:
            yield case, case.files, names[-1:], case.err


def table_differences(ask, table):
    """The rows of which another file, line or cause is told, or a place outside of the line; and how many were tried."""
    wrong, count = [], 0
    for case, files, words, err in refused_rows(table):
        count += 1
        status, out = explained(ask, files, *words)
        first, *rest = out.encode("utf-8", "surrogateescape").split(b"\n")
        if (status, first + b"\n") != (2, err):
            wrong.append(f"{case.name}: {first!r:.100} and not {err!r:.100}")
            continue
        told = re.fullmatch(rb"(.*): line ([0-9]+): [A-Za-z]+", first)
        if told:
            wrong += [f"{case.name}: {said}" for said in place_differences(files, rest, os.fsdecode(told[1]), int(told[2]))]
    return wrong, count


def place_differences(files, rest, name, number):
    """What is wrong of the lines below the program's: they name file, line and column, show the line, and say what was met."""
    found = re.fullmatch(rb"(.*):([0-9]+):([0-9]+)", rest[0])
    lines = (files[name] if name in files else pathlib.Path(name).read_bytes()).split(b"\n")
    line = lines[number - 1] if number <= len(lines) else b""
    if not found or (os.fsdecode(found[1]), int(found[2])) != (name, number) or not 1 <= int(found[3]) <= len(line) + 1:
        return [f"the place {rest[0]!r:.100}"]
    shown, caret = rest[2].decode("utf-8", "surrogateescape")[4:], rest[3].decode()[4:]
    at = len(caret) - 1
    if caret.strip() != "^" or show.width(shown) < at or len(shown) > 400 or not shown.isprintable():
        return [f"the line {shown!r:.100} with its caret at {at}"]
    column = int(found[3]) - 1
    text = line.decode("utf-8", "surrogateescape").replace("\t", " ")
    if shown.isascii() and text[:column].isprintable() and text[column : column + 1].isprintable() and text[column : column + 1] not in ("", shown[at : at + 1]):
        return [f"the caret is at {shown[at : at + 1]!r} and the column's byte is {text[column : column + 1]!r}"]
    return [] if rest[4].startswith(b"    met:    ") else ["nothing was met"]


def sample(slip):
    """The files and the words for the example of a slip."""
    is_whole, text = slip.example.startswith("="), slip.example.removeprefix("=")
    if slip.kind == "model":
        return {NAMES["model"]: text if is_whole else HEAD + text}, [NAMES["model"]]
    if slip.kind == "lp":
        return {NAMES["lp"]: text if is_whole else LP_HEAD + text}, [NAMES["lp"]]
    text = text if is_whole else POINT_HEAD + text + "\n" + POINT_TAIL
    return {NAMES["model"]: HEAD + "max x\n", NAMES[slip.kind]: text}, [NAMES[slip.kind], NAMES["model"]]


def slip_differences(ask):
    """The slips whose example is not told of, or as another; and how many there are."""
    wrong = []
    for slip in slips.TABLE:
        files, words = sample(slip)
        status, out = explained(ask, files, *words)
        if status != 2 or f"since:  {slip.why}\n" not in out:
            wrong.append(f"slip {slip.example!r}: {out!r}")
        elif slip.write and "write:  " not in out:
            wrong.append(f"slip {slip.example!r}: nothing to write: {out!r}")
    return wrong, len(slips.TABLE)


def manual_differences(ask):
    """The spellings of the manual's table that are not explained as it says, or that no text here has; and how many are right."""
    wrong, count = [], 0
    for spelling, below, said in MANUAL:
        text = b"\xef\xbb\xbf" + HEAD.encode() if below is None else HEAD + below + "\n"
        _, out = explained(ask, {"M.gdp": text}, "M.gdp")
        count += said in out
        wrong += [] if said in out else [f"the manual's {spelling!r}: {out!r}"]
    manual = (ROOT / "docs" / "FORMATS.md").read_text().partition("### Slips, and what to write")[2].partition("\n## ")[0]
    rows = [line.split(" | ")[0].strip("| ") for line in manual.splitlines() if line.startswith("| ") and not line.startswith("| you wrote")]
    known = {spelling for spelling, _, _ in MANUAL}
    spelled = [one for row in rows for one in re.findall("`([^`]*)`", row) or [row]]
    wrong += [f"the manual's {one!r} is tried by no row" for one in spelled if one not in known]
    return wrong, count


def page_differences(ask):
    """Whether the manual's example is what is printed."""
    text = "gdp 1\nvar feed real 0 100\nvar product real 0 80\n  row 2 feed - product < 10\n"
    out = explained(ask, {"plan.gdp": text}, "plan.gdp")[1]
    page = (ROOT / "docs" / "FORMATS.md").read_text()
    return [] if f"```\n{out}```\n" in page else [f"the manual's example: {out!r}"]


def shown_differences(ask):
    """Long lines are cut round the place, and what doesn't print is escaped."""
    rows = [
        ("a line of many terms", HEAD + "row " + "x + " * 3000 + "x ? 1", ["..."], 120),
        ("a strict relation beside another slip", HEAD + "row x + 1 < 3", ["write:  row x <= 2\n", "numbers alone only on the right; and no relation is strict\n"], 200),
        ("a control character and a byte", HEAD.encode() + b"row x <= \x07\xc8 1 # \xff\x1b[0m", ["row x <= \\x07\\xc8 1 # \\xff\\x1b[0m"], 200),
        ("a tab", HEAD + "row\tx\t< 1", ["    row x < 1\n          ^\n"], 200),
        ("a wide character before the place", "\u70b9 gdp 1\n", ["\u70b9 gdp 1\n    ^\n"], 200),
    ]
    wrong = []
    for name, text, pieces, most in rows:
        out = explained(ask, {"M.gdp": text}, "M.gdp")[1]
        is_right = all(piece in out for piece in pieces) and max(map(len, out.split("\n"))) <= most
        wrong += [] if is_right else [f"{name}: {out!r}"]
    return wrong


def word_differences(ask):
    """Texts that are read, files that aren't there, models that are found beside, and words of no form."""
    model, point = HEAD, "gdp-point 1\nover 1\nval x 3\nval y 4\nend\n"
    rows = [
        ("a model that is read", {"M.gdp": model}, ["M.gdp"], 0, "M.gdp: gdp reads it"),
        ("a point that holds", {"M.gdp": model, "P": point}, ["P", "M.gdp"], 0, "P: holds"),
        ("a point that fails", {"M.gdp": model + "row x <= 1\n", "P": point}, ["P", "M.gdp"], 1, "fails at line 7\nM.gdp:7:1\n\n    row x <= 1\n    ^\n"),
        ("a point beside its model", {"M.gdp": model, "M-old.point": point[:-4]}, ["M-old.point"], 2, "M-old.point: line 5: Missing"),
        ("a point without a model", {"P.point": point}, ["P.point"], 7, "P.point: a point is read with its model"),
        ("a bad model of a point", {"M": model + "end\n", "P": point}, ["P", "M"], 2, "M: line 7: Form\nM:7:1\n"),
        ("one text for both", {"M": model}, ["M", "M"], 2, "M: line 1: Header\nM:1:1\n"),
        ("no words", {}, [], 7, "usage: "),
        ("three words", {}, ["a", "b", "c"], 7, "usage: "),
    ]
    if reads_lp(ask):
        rows.append(("an LP text that is read", {"F.lp": LP_HEAD}, ["F.lp"], 0, "F.lp: gdp reads it"))
    wrong = []
    for name, files, words, status, start in rows:
        told, out = explained(ask, files, *words)
        wrong += [] if told == status and out.startswith(start) else [f"{name}: {told}: {out!r}"]
    return wrong


def launched():
    """What differs where the launcher is called with the word `explain`."""
    with tempfile.TemporaryDirectory() as folder:
        pathlib.Path(folder, "M.gdp").write_text(HEAD + "row x < 1\n")
        ran = subprocess.run([str(ROOT / "gdp"), "explain", "M.gdp"], cwd=folder, stdin=subprocess.DEVNULL, capture_output=True, check=False)
    is_right = ran.returncode == 2 and ran.stdout.startswith(b"M.gdp: line 7: Form\nM.gdp:7:7\n") and not ran.stderr
    return [] if is_right else [f"status {ran.returncode}, output {ran.stdout!r:.200}, error {ran.stderr!r:.200}"]


def reads_lp(ask):
    """Whether the program has the command `lp`."""
    return explained(ask, {"F.lp": LP_HEAD}, "F.lp")[0] != 7


def differences(table, path=None):
    """What is wrong, with the program at this path or its stand-in; and a line that says what was tried."""
    if path:
        os.environ["DATEMOUND_GDP"] = path
    ask = program.ask if path else ask_reference
    if not reads_lp(ask):
        slips.TABLE[:] = [slip for slip in slips.TABLE if slip.kind != "lp"]
    by_table, rows = table_differences(ask, table)
    by_slip, count = slip_differences(ask)
    by_manual, told = manual_differences(ask)
    wrong = [*by_table, *by_slip, *by_manual, *page_differences(ask), *shown_differences(ask), *word_differences(ask)]
    said = f"{rows} refused texts explained, {told} of {len(MANUAL)} slips of the manual named, {count} slips of the explainer's own table"
    return [f"explain: {one}" for one in wrong], said


def main(named):
    from cases import cases

    table = [] if os.environ.get("DATEMOUND_SLIPS_ALONE") else cases(ROOT)
    wrong, said = differences(table if named else [case for case in table if not case.is_long], *named[:1])
    print(*wrong, said, sep="\n")
    return 1 if wrong else 0


if __name__ == "__main__":
    sys.exit(main(sys.argv[1:]))
