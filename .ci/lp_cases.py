"""Rows of the end-to-end table on `lp`: LP texts by hand with their answers, each cause, each section word, and drawn texts."""

import concurrent.futures
import re
from fractions import Fraction

from case import CLOSED, FULL, GONE, Case
from compile_cases import CHOICES, PLAN_TEXT
from drawn_lp_texts import drawn_lp_texts
from drawn_models import drawn_models
from full_model import LIMIT
from reference import answer
from reference.enumeration import optimum, program_optimum
from reference.lp_texts import read_lp
from reference.texts import read_model
from solve_cases import STOPS, P, Q

DRAWN = 600
COMPILED = 60
STEPS = "200"

SMALL = b"""\\* a small plan *\\
min
cost:
+ 3 x1
+ 1.5e0 x2
s.t.
c1:
+ 1 x1
+ 1 x2
>= 4
bounds
 0 <= x1 <= 10
 x2 <= 2.5
general
 x1
end
"""
# A plan, what is planned, and its best value in the page of the LP files.
PLAN = re.compile(r"^\| `(\w+)` \| (.*) \| (\S+) \| (?:yes )?\|$", re.MULTILINE)
# An objective over a triangle, with one best point for `min` and one for `max`.
TRIANGLE = b"max 2 x + 3 y\nst\n x + y >= 1\n x + 2 y <= 4\n"
LEAST, GREATEST = "best 2 | over 1 | val x 1 | val y 0", "best 8 | over 1 | val x 4 | val y 0"
FOUR = b"max x\nst\n x <= 4.5\n"


def answer_text(lines):
    """An answer, or a log, of which the lines below the header stand between bars."""
    header = ["gdp-log 1", "route lp"] if lines.startswith("open root") else ["gdp-lp 1"]
    last = [] if lines.startswith("open root") else ["end"]
    return "".join(line.strip() + "\n" for line in [*header, *lines.split("|"), *last]).encode()


def solved(name, text, lines, steps=1000):
    status = 3 if lines.startswith("open root") else 0
    return Case(f"lp: {name}", ["lp", str(steps), "F"], {"F": text}, status, answer_text(lines))


def refused(name, text, line, cause):
    return Case(f"lp: {name}: {cause}", ["lp", "1000", "F"], {"F": text}, 2, err=f"F: line {line}: {cause}\n".encode())


def cases_of(word):
    """A word as it may be written: in small letters, in capitals, and with both."""
    return sorted({word, word.upper(), word.title(), word.swapcase(), "".join(c.upper() if i % 2 else c for i, c in enumerate(word))})


def answers():
    """Whole texts and what is answered."""
    return [
        solved("a small plan", SMALL, "best 9 | over 1 | val x1 2 | val x2 2"),
        solved("a compiled model", PLAN_TEXT, "best 8 | over 1 | val x0 0 | val x1 4 | val x2 0 | val x3 1", 100000),
        solved("least", TRIANGLE.replace(b"max", b"min"), LEAST),
        solved("greatest", TRIANGLE, GREATEST),
        solved("no end at the end", FOUR, "best 9/2 | over 2 | val x 9"),
        solved("a whole column", FOUR + b"general\n x\n", "best 4 | over 1 | val x 4"),
        solved("a column of 0 or 1", FOUR + b"binary\n x\n", "best 1 | over 1 | val x 1"),
        solved("no point", FOUR + b" x >= 5\n", "empty"),
        solved("no point, by bounds that cross", FOUR + b"bounds\n x >= 3\n x <= 2\n", "empty"),
        solved("no whole point", b"min x\nst\n 3 x = 1\ngeneral\n x\nbounds\n x <= 9\n", "empty"),
        solved("endless", b"max x\nst\n x - y <= 2\n", "endless | over 1 | val x 2 | val y 0 | step x 1 | step y 1"),
        solved("endless below", b"min x\nst\n x <= 4\nbounds\n x free\n", "endless | over 1 | val x 0 | step x -1"),
        solved("a free column", b"min x\nst\n x + y >= -7\nbounds\n x free\n y <= 2\n", "best -9 | over 1 | val x -9 | val y 2"),
        solved("no objective", b"min\nst\n x + y = 3\n", "best 0 | over 1 | val x 3 | val y 0"),
        solved("an objective of a number alone", b"max 7\nst\n x <= 3\n", "best 7 | over 1 | val x 0"),
        solved("an objective with a factor and a constant", b"max 1/2\nst\n x <= 3\n".replace(b"1/2", b".5 x - 0.25 y + 1.125") + b" y >= 1\n", "best 19/8 | over 1 | val x 3 | val y 1"),
        solved("a constant in the middle", b"min 2 x - 3.5 + y\nst\n x + y >= 1\n", "best -5/2 | over 1 | val x 0 | val y 1"),
        solved("no rows", b"min x + y\nst\nbounds\n x >= 2.5\n y >= 1\n", "best 7/2 | over 2 | val x 5 | val y 2"),
        solved("a column named in the bounds alone", b"min\nst\nbounds\n x >= 2\n", "best 0 | over 1 | val x 2"),
        solved("a column named as whole alone", b"min\nst\ngeneral\n x\n", "best 0 | over 1 | val x 0"),
        solved("columns in the order in which they are named", b"min 0 c + a\nst\n b + a >= 1\nbounds\n d <= 1\ngen\n e\nbin\n f\n", "best 0 | over 1 | val c 0 | val a 0 | val b 1 | val d 0 | val e 0 | val f 0"),
        solved("a coefficient of 0", b"max 0 x + y\nst\n 0 x + y <= 3\n 0 x <= 5\n", "best 3 | over 1 | val x 0 | val y 3"),
        solved("a row without terms that fails", b"max y\nst\n 0 x >= 5\n y <= 1\n", "empty"),
        solved("one step too few", SMALL, "open root | move 5 2 | stop steps", 2),
        solved("one step", SMALL, "open root | stop steps", 1),
    ]


def stops():
    """Numbers past 128 bits, at the places where solving the model of the same program stops; but LP text has no lines to test."""
    rows, ends = [], {"sum": "best 3", "raysum": "endless"}
    texts = [(name, answer(["compile", "bigm", "M"], {"M": model})[1], ends.get(name, last)) for name, model, last in STOPS]
    wide = "max %s\nst\n {P} x <= 1\n {Q} y <= 1\n".format(P=P, Q=Q)
    texts.append(("constant", (wide % f"{P} x + {Q} y + {10**15}").encode(), "stop value"))
    texts.append(("scale", (wide % f"0.{P} x + 0.{Q} y").encode(), "stop value"))
    texts.append(("value that just fits", (wide % f"{P} x + {Q} y + {10**8 // 8}").encode(), f"best {10**8 // 8 + 2}"))
    for name, text, last in texts:
        status, out, err = answer(["lp", "100", "F"], {"F": text})
        assert err == b"" and last.encode() in out.splitlines(), f"a wide {name}: {out}"
        rows.append(Case(f"lp: a wide {name}", ["lp", "100", "F"], {"F": text}, status, out))
    return rows


def section_words():
    """Each section word in each spelling, and words that are none."""
    rows = []
    for word, lines in [(word, LEAST) for word in ("minimize", "minimum", "min")] + [(word, GREATEST) for word in ("maximize", "maximum", "max")]:
        rows += [solved(f"section word {text}", TRIANGLE.replace(b"max", text.encode()), lines) for text in cases_of(word)]
    for word in ("subject to", "such that", "st", "st.", "s.t."):
        rows += [solved(f"section word {text}", TRIANGLE.replace(b"st", text.encode()), GREATEST) for text in cases_of(word)]
    more = [(word, b" x <= 2\n", "best 2 | over 1 | val x 2") for word in ("bounds", "bound")]
    more += [(word, b" x\n", "best 4 | over 1 | val x 4") for word in ("general", "generals", "gen")]
    more += [(word, b" x\n", "best 1 | over 1 | val x 1") for word in ("binary", "binaries", "bin")]
    for word, line, lines in more:
        rows += [solved(f"section word {text}", FOUR + text.encode() + b"\n" + line, lines) for text in cases_of(word)]
        rows += [solved(f"section word {word} with more behind it", FOUR + word.encode() + line, lines)]
        rows += [solved(f"section word {word} without a line", FOUR + word.encode() + b"\n", "best 9/2 | over 2 | val x 9")]
    for text in cases_of("end"):
        rows += [solved(f"section word {text}", FOUR + text.encode() + b"\n\n \\ done\n", "best 9/2 | over 2 | val x 9")]
        rows += [refused(f"after {text}", FOUR + text.encode() + b"\n x\n", 5, "Form")]
    for word in ("sos", "sos1", "sos2", "semi-continuous", "semi", "semis", "lazy constraints", "user cuts"):
        rows += [refused(f"section word {text}", FOUR + text.encode() + b"\n", 4, "Unsupported") for text in cases_of(word)]
        rows += [refused(f"section word {word} before a colon", FOUR + word.encode() + b": x >= 1\n", 4, "Unsupported")]
        rows += [refused(f"section word {word} after the end", FOUR + b"end\n" + word.encode() + b"\n", 5, "Unsupported")]
    rows += [
        solved("a section word within a line is a name", b"max 2 x\n + 3 y st\nst x + y + st <= 4\n", "best 12 | over 1 | val x 0 | val y 4 | val st 0"),
        solved("sections again", FOUR + b"bounds\n x <= 3\ngeneral\n x\nbounds\n x <= 2.5\ngen\nbinary\ngeneral\n x\n", "best 2 | over 1 | val x 2"),
        solved("a label like a section word", b"min end: x\nst\nst: x >= 1\nend\n:\n x >= 2\nbounds : x <= 4\n", "best 2 | over 1 | val x 2"),
        solved("a name like a section word", b"min + end\nst\n 2 end >= 3\n", "best 3/2 | over 2 | val end 3"),
        solved("words of no section as names", b"max lazy + user + subject\nst\n lazy + integer <= 3 user + such <= 2\nsubject + 0 to <= 1\n", "best 6 | over 1 | val lazy 3 | val user 2 | val subject 1 | val integer 0 | val such 0 | val to 0"),
        refused("no section word first", b"x\nmin x\nst\n x >= 1\n", 1, "Form"),
        refused("a label like the first section word", b"min: x\nst\n x >= 1\n", 1, "Form"),
        refused("constraints first", b"st\n x >= 1\n", 1, "Section"),
        refused("bounds before constraints", b"min x\nbounds\n x <= 1\nst\n x >= 1\n", 2, "Section"),
        refused("general before constraints", b"min x\ngeneral\n x\n", 2, "Section"),
        refused("end before constraints", b"min x\nend\n", 2, "Section"),
        refused("end first", b"\nend\n", 2, "Section"),
        refused("the objective twice", b"min x\nmax x\nst\n x >= 1\n", 2, "Section"),
        refused("the constraints twice", b"min x\nst\n x >= 1\nst\n x >= 2\n", 4, "Section"),
        refused("constraints after bounds", FOUR + b"bounds\nsubject to\n x >= 1\n", 5, "Section"),
        refused("an objective at the end", FOUR + b"binary\n x\nmin x\n", 6, "Section"),
        refused("Form before Section", b"min x\nbounds <= 1\nst\n x >= 1\n", 2, "Form"),
        refused("an open objective before Section", b"min x +\nbounds\nst\n x >= 1\n", 2, "Form"),
        refused("a section word in a row", b"min x\nst\n x +\nend\n", 4, "Form"),
        refused("a section word after a relation", b"min x\nst\n x >=\nbounds\n 3\n", 4, "Form"),
        refused("a section word in a bound", FOUR + b"bounds\n 1 <=\ngeneral\n x\n", 6, "Form"),
        refused("a section word where its row ends", b"min x\nst\n x\nst >= 3\n", 4, "Form"),
        refused("subject to over two lines", b"min x\nsubject\nto\n x >= 1\n", 4, "Form"),
        refused("subject alone", b"min x\nsubject: x >= 1\n", 2, "Form"),
        refused("after the end on its line", FOUR + b"end x\n", 4, "Form"),
        refused("the end twice", FOUR + b"end\nend\n", 5, "Form"),
        refused("a section after the end", FOUR + b"end\nbounds\n", 5, "Form"),
        refused("Integers", FOUR + b"Integers\n x\nend\n", 6, "Form"),
        refused("int", FOUR + b"int\n x\nend\n", 6, "Form"),
        refused("minimise", b"minimise\n x\nst\n x >= 1\n", 1, "Form"),
        refused("free as a section", FOUR + b"free\n x\nend\n", 6, "Form"),
    ]
    return rows


def layouts():
    """One program in a dozen layouts."""
    texts = [
        ("one line a section", b"max 2 x + 3 y\nst x + y >= 1 x + 2 y <= 4\n"),
        ("a token a line", b"max\n2\nx\n+\n3\ny\nst\nx\n+\ny\n>=\n1\nx\n+\n2\ny\n<=\n4\nend\n"),
        ("no blanks", b"max 2x+3y\nst\nx+y>=1x+2y<=4\n"),
        ("no signs", b"max 2 x 3 y\nst\n x y >= 1\n x 2 y <= 4\n"),
        ("many signs", b"max - - 2 x + + 3 y\nst\n - + - x - -y >= +1\n + x + + 2 y <= + 4\n"),
        ("labels", b"max goal: 2 x + 3 y\nst\n first: x + y >= 1\n second\n :\n x + 2 y <= 4\n"),
        ("one label twice", b"max x: 2 x + 3 y\nst\n x: x + y >= 1 x: x + 2 y <= 4\n"),
        ("comments", b"\\ a plan\nmax 2 x \\ tonnes\n + 3 y\\ and \xc8 \x00\nst \\* -> [ *\\\n x + y \\ c1: 7\n >= 1\n x + 2 y <= 4 \\\n\\"),
        ("tabs and blank lines", b"\n\t\nmax\t2\tx\t+ 3 y\t\n\n   \nst\n\tx + y\t>=\t1\n\n x + 2 y <= 4\n\n"),
        ("carriage returns", TRIANGLE.replace(b"\n", b"\r\n")),
        ("no newline at the end", TRIANGLE[:-1]),
        ("strict relations mean the same", TRIANGLE.replace(b">=", b">").replace(b"<=", b"<")),
        ("relations turned", TRIANGLE.replace(b">=", b"=>").replace(b"<=", b"=<")),
        ("fractions of one number", b"max .2e1 x + 30e-1 y\nst\n 0.5 x + .5 y >= 5.e-1\n 1e3 x + 2E+3 y <= 4.0e03\n"),
        ("leading zeros", b"max 002 x + 03. y\nst\n 01 x + y >= 0001\n x + 2 y <= 4.000\n"),
        ("more digits than a number may have, where its lowest terms have fewer", b"max 2.00000000000000000000000000000000000000000000000000000 x + 3 y\nst\n x + y >= 1\n x + 2 y <= " + b"0" * 300 + b"4\n"),
        ("a sense in capitals and an end", b"MAXIMIZE\n 2 x + 3 y\nSUBJECT TO\n x + y >= 1\n x + 2 y <= 4\nEND"),
    ]
    rows = [solved(f"layout: {name}", text, GREATEST) for name, text in texts]
    names = b"! \" # $ % & ( ) , ; ? @ _ ` ' { } ~ e e1 E1e5 x(1) x[1] x[1,2] a.b #1 inf infinity free infinity2 Free".split()
    rows += [solved(f"name {name.decode()}", b"max 2 %s\nst\n %s <= 4\n" % (name, name), f"best 8 | over 1 | val {name.decode()} 4") for name in names]
    long = b"n" * 255
    rows += [
        solved("names are not folded", b"max x + X\nst\n x <= 1\n X <= 2\n", "best 3 | over 1 | val x 1 | val X 2"),
        solved("a name of 255 bytes", b"max %s\nst\n %s: %s <= 4\n" % (long, long, long), f"best 4 | over 1 | val {long.decode()} 4"),
        solved("a number run into a name", b"max 2e x\nst\n e + 2x <= 4e0\n", "best 8 | over 1 | val e 4 | val x 0"),
        solved("an exponent wants its digits", b"max 2e+x\nst\n e <= 4 x <= 1\n", "best 9 | over 1 | val e 4 | val x 1"),
        solved("a point ends a number", b"max 1.5.5 x\nst\n x <= 4\n", "best 7/2 | over 1 | val x 4"),
    ]
    return rows


# Bounds of a column from -9 to 9, and the greatest that it may then be; and the least. LP text has 0 as low where none is given.
HIGHS = [(text, 3) for text in ("x <= 3", "x =< 3", "x < 3", "3 >= x", "3 => x", "3 > x", "x = 3", "3 = x", "x <= +3", "x <= + 3", "x <= 30e-1", "x<=3", "3>=x")]
HIGHS += [(text, 3) for text in ("1 <= x <= 3", "1 < x =< 3", "-5 =< x < + 3", "-inf<=x<=3", "x\n<=\n3", "1 <=\n x <=\n 3", "x <= 5 x <= 3", "x <= 3 x >= 1", "x FREE x <= 3")]
HIGHS += [("x <= 3\nx <= 5", 5), ("x = 3 x <= 4", 4), ("x <= 3 x free x <= 4", 4), ("x <= 2.5", Fraction(5, 2)), ("x <= 3 x >= -inf", 3), ("x >= 3", 9), ("x >= 3 4 >= x", 4)]
HIGHS += [(text, 9) for text in ("x <= 3 x free", "x <= 3 x Free", "x <= 3 x = inf", "x <= 3 2 <= x <= infinity", "x <= 3 inf >= x", "x <= 3 -inf = x")]
LOWS = [(text, 3) for text in ("x >= 3", "x => 3", "x > 3", "3 <= x", "3 =< x", "3 < x", "x = 3", "3 = x", "3 <= x <= 5", "x >= 2 x >= 3", "x <= 5 x >= 3")]
LOWS += [(text, -3) for text in ("x >= -3", "x >= - 3", "- 3 <= x", "x free x >= -3", "x <= 5 x >= -3", "-3 <= x x <= 5", "-3 <= x <= -1", "x >= 1 x >= -3 x <= 4")]
LOWS += [("x <= 3", 0), ("x >= 3 x >= 2", 2), ("-4.5 <= x <= -1", Fraction(-9, 2)), ("x >= -3 x >= 0", 0), ("x >= -3 x >= -0.0", 0), ("inf >= x", 0), ("x <= -inf", 0)]
LOWS += [(text, -9) for text in ("x free", "-inf <= x <= 4", "x >= inf", "-infinity <= x <= +infinity", "x = inf", "x >= 3 x = -infinity", "x >= 1e20", "x >= -3 x free")]
INFINITE = ["inf", "+inf", "- inf", "infinity", "+ INFINITY", "-Infinity", "Inf", "1e20", "-1e20", "1" + "0" * 20, "1e41", "1e999999999", "1E+0000020", ".1e21", "0.000001e26", "9" * 400]
HIGHS += [(f"x <= 3 x <= {text}", 9) for text in INFINITE]
LOWS += [(f"{text} <= x", -9) for text in INFINITE]


def bounds():
    """Bounds in each form; integer columns keep theirs but where `binary` sets 0 and 1."""
    rows = []
    for sense, table in (("max", HIGHS), ("min", LOWS)):
        for text, best in table:
            lines = f"best {best} | over {Fraction(best).denominator} | val x {Fraction(best).numerator}"
            rows.append(solved(f"bound {text!r:.60}, {sense}", f"{sense} x\nst\n x <= 9 x >= -9\nbounds\n{text}\n".encode(), lines))
    head = b"max x - y\nst\n x <= 9 y >= -9\n"
    return rows + [
        solved("a bound that is missing", head, "best 9 | over 1 | val x 9 | val y 0"),
        solved("bounds on one line", head + b"bounds x <= 3 y free -2 <= y x >= 1\n", "best 5 | over 1 | val x 3 | val y -2"),
        solved("general keeps bounds", head + b"bounds x <= 3.5 y >= -2.5\ngeneral x y\n", "best 5 | over 1 | val x 3 | val y -2"),
        solved("binary takes bounds away", head + b"bounds x <= 3.5 y >= -2.5\nbinary x\ny\n", "best 1 | over 1 | val x 1 | val y 0"),
        solved("bounds after binary", head + b"binary x y\nbounds x <= 3.5 y >= -2.5\n", "best 5 | over 1 | val x 3 | val y -2"),
        solved("binary and then general", head + b"binary x\ngeneral x\n", "best 1 | over 1 | val x 1 | val y 0"),
        solved("a negative high bound alone", head + b"bounds x <= -1\n", "empty"),
    ]


def refusals():
    """Texts that are refused, each at its first bad line and with its first cause."""
    m, b = b"min x\nst\n", b"min x\nst\n x >= 1\nbounds\n"
    forms = [
        ("the empty text", b"", 1),
        ("blank lines and comments alone", b"\n\\ min x\n", 3),
        ("an objective alone", b"min x\n", 2),
        ("no column", b"min 3\nst\nend\n", 4),
        ("no column, and lines after the end", b"min\nst\nend\n\n\n", 6),
        ("a constant twice", b"min 2 + 3\nst\n x >= 1\n", 2),
        ("a constant twice on one line", b"min 2 x + 2 + 3 - y\nst\n x >= 1\n", 1),
        ("three numbers", b"min 2 3 4 x\nst\n x >= 1\n", 1),
        ("a sign at the end of the objective", b"min x +\n\nst\n x >= 1\n", 3),
        ("a relation in the objective", b"min x >= 3\nst\n x >= 1\n", 1),
        ("a second label in the objective", b"min a: b: x\nst\n x >= 1\n", 1),
        ("a label after a number", b"min 3 a: x\nst\n x >= 1\n", 1),
        ("a colon alone", b"min : x\nst\n x >= 1\n", 1),
        ("a colon on its line in a row", m + b" x + y\n : >= 1\n", 4),
        ("a number as a label", m + b" 7: x >= 1\n", 3),
        ("a column twice in the objective", b"min x + y\n - x\nst\n x >= 1\n", 2),
        ("a column twice in a row", m + b" x + y\n + x\n >= 1\n", 4),
        ("a column twice, once with 0", m + b" 0 x + x >= 1\n", 3),
        ("no relation", m + b" x + y\n", 4),
        ("no right side", m + b" x >=\n", 4),
        ("two relations", m + b" x >= = 1\n", 3),
        ("a row between two numbers", m + b" 1 <= x <= 3\n", 3),
        ("two numbers in a row", m + b" x + 3 >= 1\n", 3),
        ("two numbers before a name", m + b" 2 3 x >= 1\n", 3),
        ("a name on the right", m + b" x >= y\n", 3),
        ("a term on the right", m + b" x >= 3 y\n", 4),
        ("two signs on the right", m + b" x >= - - 1\n", 3),
        ("an infinite right side", m + b" x <= inf\n", 3),
        ("no terms", m + b" c: >= 1\n", 3),
        ("a label alone", m + b" c:\n", 4),
        ("== as a relation", m + b" x == 1\n", 3),
        ("<=> as a relation", m + b" x <=> 1\n", 3),
        ("a name that begins with a period", m + b" .x >= 1\n", 3),
        ("a name that begins with a bracket that closes", m + b" ]x >= 1\n", 3),
        ("a bar", m + b" x | y >= 1\n", 3),
        ("a slash", m + b" 1/2 x >= 1\n", 3),
        ("a byte past ASCII", m + "\u00e9 >= 1\n".encode(), 3),
        ("a byte of 0", m + b" x\0 >= 1\n", 3),
        ("a byte order mark", b"\xef\xbb\xbf" + m + b" x >= 1\n", 1),
        ("two carriage returns", m + b" x >= 1\r\r\n", 3),
        ("a carriage return at the end of the text", m + b" x >= 1\r", 3),
        ("a bound without a relation", b + b"x 3\n", 5),
        ("a bound without a number", b + b"x <=\nend\n", 6),
        ("a bound at the end of the text", b + b"x\n", 6),
        ("a bound between two names", b + b"x <= y\n", 5),
        ("a coefficient in a bound", b + b"2 x <= 3\n", 5),
        ("a sign before a bound's name", b + b"- x <= 3\n", 5),
        ("two signs in a bound", b + b"x >= - - 3\n", 5),
        ("a bound of a double form turned", b + b"3 >= x >= 1\n", 5),
        ("a double form with =", b + b"3 = x <= 4\n", 5),
        ("a double form after a name", b + b"x <= 3 <= 4\n", 5),
        ("a double form whose second relation is turned", b + b"1 <= x >= 3\n", 5),
        ("a label in the bounds", b + b"c: x <= 3\n", 5),
        ("free alone", b + b"free\n", 5),
        ("free twice", b + b"x free free\n", 5),
        ("free as a bounded name", b + b"free <= 3\n", 5),
        ("inf as a bounded name", b + b"inf free\n", 5),
        ("infinity on both sides", b + b"inf <= infinity\n", 5),
        ("a name of an infinite number", b + b"x <= infinite\n", 5),
        ("a number in general", b[:-7] + b"general\n x 3\n", 5),
        ("a relation in binary", b[:-7] + b"binary\n x <= 1\n", 5),
        ("a sign in general", b[:-7] + b"general\n + x\n", 5),
        ("a colon in general", b[:-7] + b"general\n x\n :\n", 6),
        ("a name of 256 bytes, twice in a row", m + b"n" * 256 + b" + " + b"n" * 256 + b" >= 1\n", 3),
    ]
    barred = [(text.decode(), m + b" x >= 1\n y " + text + b" z >= 1\n", 4) for text in (b"->", b"<->", b"^", b"*", b"[", b"+ 3 [x", b"-->", b"->=")]
    barred += [
        ("an indicator", SMALL.replace(b">= 4", b"y = 1 -> x1 <= 3"), 10),
        ("a power in the objective", b"min x^2\nst\n x >= 1\n", 1),
        ("a quadratic part", b"min x + [ x ] / 2\nst\n x >= 1\n", 1),
        ("a product", m + b" 2*x >= 1\n", 3),
        ("before the first section", b"x *\n" + m, 1),
        ("a token before Form on its line", m + b" x >= >= 1 |\n * y >= 1\n".replace(b"|\n", b""), 3),
        ("a token after Form on its line", m + b" x >= >= 1 \xc8 * y\n", 3),
        ("a word before Form on its line", m + b" sos2 <= >=\n", 3),
        ("a token on a line whose section is out of order", b"min x\nbounds x * 2\n", 2),
        ("a token behind the end", b + b"end\n *\n", 6),
    ]
    numbers = [
        ("a coefficient past the limit", m + b" 1000000000000001 x >= 1\n", 3),
        ("a right side past the limit", m + b" x\n >= \n 1e16\n", 5),
        ("a constant past the limit", b"min x - 1000000000000001\nst\n x >= 1\n", 1),
        ("sixteen places", m + b" x >= 0.0000000000000001\n", 3),
        ("an exponent of 41", m + b" 1e41 x >= 1\n", 3),
        ("an exponent of -41", m + b" x >= 1e-41\n", 3),
        ("0 with an exponent of 41", m + b" x >= 0e41\n", 3),
        ("an exponent without end", m + b" x >= 1e" + b"9" * 400 + b"\n", 3),
        ("a number of 400 digits", m + b" x >= " + b"7" * 400 + b"\n", 3),
        ("a number of 400 places", m + b" x >= 1." + b"7" * 400 + b"\n", 3),
        ("infinite outside the bounds", m + b" x >= 1e20\n", 3),
        ("a scaled coefficient past the limit", m + b" 500000000000001 x\n >= 0.5\n", 4),
        ("a scaled right side past the limit", m + b" .5 x >= 500000000000001\n", 3),
        ("a scale past the limit in a row", m + b" 0.0000000000001 x\n + 0.00000000000000177635683940025046467781066894531250 y\n >=\n 1\n", 6),
        ("a scaled objective past the limit", b"min .5 x + 500000000000001\n\nst\n x >= 1\n", 3),
        ("a scale past the limit in the objective", b"min 0.00000000000000177635683940025046467781066894531250 x + 0.00000000000000020971520e+1 y\n\n\nsubject to\n x >= 1\n", 4),
        ("a bound just below infinity", b + b"x <= 99999999999999999999\n", 5),
        ("a bound past the limit", b + b"x >= -1000000000000001\n", 5),
        ("a bound of sixteen places", b + b"0.0000000000000001 <= x\n", 5),
        ("a bound of an exponent of -41", b + b"x <= 1e-41\n", 5),
        ("a bound of 0 with an exponent of 41", b + b"x <= 0e41\n", 5),
        ("a number before a limit", m + b" 1e16 " + b"n" * 256 + b" >= 1\n", 3),
    ]
    limits = [
        ("a name of 256 bytes", m + b" x\n + " + b"n" * 256 + b"\n >= 1\n", 4),
        ("a label of 256 bytes", m + b"n" * 256 + b": x >= 1\n", 3),
        ("a bounded name of 256 bytes", b + b"n" * 256 + b" >= 1\n", 5),
    ]
    return [refused(name, text, line, cause) for cause, table in (("Form", forms), ("Unsupported", barred), ("Number", numbers), ("Limit", limits)) for name, text, line in table]


def limits():
    """Texts at the limits of columns and rows, and past them: at a line, or at the end."""
    def columns(count, extra=b""):
        return b"min\nst\n x0 >= 1\nbounds\n" + b"".join(b"x%d <= inf\n" % at for at in range(count)) + extra

    def rows(count, extra=b""):
        return b"min\nst\n" + b" x >= 0\n" * count + extra

    cases = [
        ("4,001 columns", columns(4001), 4 + 4001),
        ("4,000 columns, one of them free", columns(4000, b"x7 free\n"), 4 + 4000 + 2),
        ("4,000 columns, one of them with a low bound", columns(4000, b"x7 >= 1\nend\n"), 4 + 4000 + 3),
        ("3,001 rows", rows(3001), 2 + 3001),
        ("2,999 rows and an equality", rows(2999, b" x\n =\n 3\n"), 2 + 2999 + 3),
        ("2,999 rows and an integer column", rows(2999, b"general\n\n x\n"), 2 + 2999 + 3),
        ("2,998 rows, an integer column twice and another", rows(2998, b"general\n x x\nbinary\n x\n y\n"), 2 + 2998 + 5),
        ("3,000 rows and a high bound", rows(3000, b"bounds\n x <= 5\n"), 2 + 3000 + 3),
        ("3,000 rows and a low bound", rows(3000, b"bounds\n x >= 5\nend\n\n"), 2 + 3000 + 5),
        ("2,998 rows and the bound of a column of 0 or 1", rows(2998, b"binary\n x\n"), 2 + 2998 + 3),
    ]
    told = [refused(f"limit: {name}", text, line, "Limit") for name, text, line in cases]
    ended = "best 0 | over 1 | val x 0"
    return told + [
        solved("limit: 4,000 columns", columns(4000), "best 0 | over 1 | val x0 1 | " + " | ".join(f"val x{at} 0" for at in range(1, 4000))),
        solved("limit: 3,000 rows", rows(3000), ended),
        solved("limit: 2,998 rows and an equality", rows(2998, b" x = 0\n"), ended),
        solved("limit: 2,998 rows and an integer column", rows(2998, b"general\n x\n"), ended),
        solved("limit: 3,000 rows and a bound taken away", rows(3000, b"bounds\n x <= 5\n x <= inf\n"), ended),
        solved("limit: 2,999 rows and a bound", rows(2999, b"bounds\n x <= 5\n"), ended),
    ]


def commands():
    """Words, reads and streams of `lp`."""
    files, words = {"F": SMALL, "G": b""}, ["lp", "1000", "F"]
    table = [["lp"], ["lp", "1000"], ["lp", "F"], ["lp", "F", "1000"], ["lp", "1000", "F", "F"], ["LP", "1000", "F"], ["lp ", "1000", "F"], ["lp", "bigm", "1000", "F"]]
    counts = ["", "0", "000", "1000001", "01000001", "10000000", "9" * 400, "18446744073709551623", "-7", "+7", "7.0", "7/1", "1e3", " 7", "7 ", "seven", "0x7", "\u0667"]
    rows = [Case(f"words: {str(line):.60}", line, files, 7, err=b"words refused\n") for line in table + [["lp", count, "F"] for count in counts]]
    told = answer(words, files)[1]
    rows += [Case(f"lp: steps {count:.12}", ["lp", count, "F"], files, 0, told) for count in ("50", "0050", "0" * 400 + "50", "1000000", "0001000000")]
    return rows + [
        Case("lp: no file", ["lp", "1000", "N"], files, 5, err=b"read fault: N\n"),
        Case("lp: a folder", words, {"F": None}, 5, err=b"read fault: F\n"),
        Case("lp: the empty text", ["lp", "1000", "G"], files, 2, err=b"G: line 1: Form\n"),
        Case("lp: a model", words, {"F": b"gdp 1\nvar x real 0 1\n"}, 2, err=b"F: line 1: Form\n"),
        Case("lp: a file named like a number", ["lp", "7", "7"], {"7": FOUR}, 0, answer_text("best 9/2 | over 2 | val x 9")),
        Case("lp: from standard input", ["lp", "1000", "/dev/stdin"], {}, 0, told, stdin=[SMALL[:50], SMALL[50:]]),
        Case("lp: err closed", words, {"F": b""}, 2, err=CLOSED),
        Case("lp: out closed", words, files, 6, CLOSED, b"write fault\n"),
        Case("lp: out closed, but nothing goes there", words, {"F": b""}, 2, CLOSED, b"F: line 1: Form\n"),
        Case("lp: out: a full device", words, files, 6, FULL, b"write fault\n"),
        Case("lp: out: a full device, for a log", ["lp", "1", "F"], files, 6, FULL, b"write fault\n"),
        Case("lp: out: nobody reads", words, files, 6, GONE, b"write fault\n"),
    ]


def sizes():
    """Texts at the limit of bytes and past it; those that mean harm are answered too."""
    def row(name, text, told):
        err = f"F: {told}\n".encode() if isinstance(told, str) else b""
        return Case(f"size: {name}", ["lp", "1000", "F"], {"F": text}, 2 if err else 0, told if not err else b"", err, is_long=True)

    def filled(start, piece, end=b""):
        return start + piece * ((LIMIT - len(start) - len(end)) // len(piece)) + end

    m, best = b"min x\nst\n x >= 1\n", answer_text("best 1 | over 1 | val x 1")
    return [
        row("one byte past the limit", filled(m, b"\n") + b"\n", "too long"),
        row("9 MB of LP text", b"\\" * 9_000_000, "too long"),
        row("blank lines to the limit", filled(m, b"\n"), best),
        row("a comment to the limit", filled(m + b"\\", b"*"), best),
        row("blanks to the limit", filled(m[:-2], b" ", b"1\n"), best),
        row("newlines alone to the limit", b"\n" * LIMIT, f"line {LIMIT + 1}: Form"),
        row("signs to the limit", filled(b"min x\nst\n", b"- - ", b"x >= 1"), best),
        row("signs over lines to the limit", filled(b"min\n", b"-\n+\n-\n", b"x st\n"), f"line {1 + 3 * ((LIMIT - 9) // 6) + 2}: Form"),
        row("a name to the limit", filled(m, b"n", b">=1"), "line 4: Limit"),
        row("a label to the limit", filled(m, b"n", b":x>=1"), "line 4: Limit"),
        row("digits to the limit", filled(b"min x\nst\n x >= ", b"7"), "line 3: Number"),
        row("zeros to the limit", filled(b"min x\nst\n x >= ", b"0", b"1"), best),
        row("places to the limit", filled(b"min x\nst\n x >= 1.", b"0"), best),
        row("an exponent to the limit", filled(b"min x\nst\n x >= 1e", b"9"), "line 3: Number"),
        row("an infinite bound to the limit", filled(m + b"bounds\nx <= 1e", b"9"), best),
        row("a mantissa and an exponent to the limit", filled(m + b"bounds\nx <= 0.", b"0", b"1e9000000"), best),
        row("rows on a line to the limit", filled(b"min x\nst\n", b"x>=1 "), "line 3: Limit"),
        row("rows on lines to the limit", filled(b"min x\nst\n", b"x>=1\n"), "line 3003: Limit"),
        row("one column over and over", filled(b"min x\nst\n", b"x "), "line 3: Form"),
        row("labels over and over", filled(b"min x\nst\n", b"x:"), "line 3: Form"),
        row("colons to the limit", filled(b"min x\nst\n", b":"), "line 3: Form"),
        row("columns to the limit", b"min x\nst\n" + b"".join(b"x%d " % at for at in range(900_000)) + b">= 1\n", "line 3: Limit"),
        row("bounds to the limit", filled(m + b"bounds\n", b"x >= -inf x <= 5 x >= 1\n"), best),
        row("bounds on a line to the limit", filled(m + b"bounds\n", b"1<=x<=7 "), best),
        row("names of one column to the limit", filled(m + b"general\n", b"x "), best),
        row("sections to the limit", filled(m, b"general x\nbounds\n"), best),
        row("relations to the limit", filled(m + b"x ", b"<="), "line 4: Form"),
        row("arrows to the limit", filled(m, b"->"), "line 4: Unsupported"),
        row("brackets to the limit", filled(m, b"["), "line 4: Unsupported"),
        row("parentheses to the limit", filled(m, b"("), "line 4: Limit"),
        row("stray bytes to the limit", filled(m, b"|"), "line 4: Form"),
        row("stray bytes and a token that isn't read", filled(m, b"|", b"*"), "line 4: Unsupported"),
        Case("memory: too little for an LP text", ["lp", "1000", "F"], {"F": filled(m, b"\n")}, 8, err=b"out of memory\n", room=8 * 2**20, is_long=True),
    ]


def reckoned(text):
    """What a text answers; an answer must have the kind and the value that trying every setting gives."""
    told = answer(["lp", STEPS, "F"], {"F": text})
    if told[0] == 0:
        best = program_optimum(read_lp(text))
        kind = None if best is None else " ".join(["best", str(best[1])] if best[0] == "best" else best)
        assert kind in (None, told[1].split(b"\n")[1].decode()), f"{text}: {told[1]}, and {kind} was reckoned"
    return told


def drawn():
    """Texts drawn by chance, with the answer reckoned a second way."""
    texts = list(drawn_lp_texts(DRAWN))
    with concurrent.futures.ProcessPoolExecutor() as pool:
        told = list(pool.map(reckoned, texts, chunksize=8))
    return [Case(f"lp: drawn {at}", ["lp", STEPS, "F"], {"F": text}, *answered, is_long=True) for at, (text, answered) in enumerate(zip(texts, told))]


def compiled():
    """Programs of drawn models: what `lp` answers of them has the model's optimum."""
    rows = []
    for at, model in enumerate(drawn_models(COMPILED)):
        best = optimum(read_model(model))
        for choice in CHOICES:
            status, text, _ = answer(["compile", choice, "M"], {"M": model})
            if status:
                continue
            told = answer(["lp", STEPS, "F"], {"F": text})
            if best is not None and told[0] == 0:
                kind = " ".join(["best", str(best[1])] if best[0] == "best" else best)
                assert told[1].split(b"\n")[1].decode() == kind, f"{text}: {told[1]}, and {kind} was reckoned"
            rows.append(Case(f"lp: compiled {at}, {choice}", ["lp", STEPS, "F"], {"F": text}, *told, is_long=True))
    return rows


def plans(root):
    """The LP files of other programs, each with its text and the kind and the value that their page says; of cbc's that of a `min`."""
    folder = root / "examples" / "lp"
    for name, says, best in PLAN.findall((folder / "README.md").read_text()):
        for program in ("pulp", "glpsol", "cbc"):
            value = None if best in ("empty", "endless") else Fraction(best) * (-1 if program == "cbc" and "(max)" in says else 1)
            path = folder / f"{name}.{program}.lp"
            yield path, path.read_bytes(), (best if value is None else "best", value)


def plan_rows(root):
    """Each of these files as it is; and where cbc's word for whole columns stands in it, with ours in its place."""
    rows = []
    for path, text, (kind, value) in plans(root):
        words, read = ["lp", "100000", str(path)], text.replace(b"\nIntegers\n", b"\nGeneral\n")
        told = answer([*words[:2], "F"], {"F": read})
        wanted = kind if value is None else f"{kind} {value}"
        assert told[0] == 0 and told[1].split(b"\n")[1] == wanted.encode(), f"{path}: {told}, and {wanted} is said"
        if read == text:
            rows.append(Case(f"example: lp {path.name}", words, {}, *told))
            continue
        line = text[: text.index(b"\nIntegers\n")].count(b"\n") + 3
        rows.append(Case(f"example: lp {path.name}", words, {}, 2, err=f"{path}: line {line}: Form\n".encode()))
        rows.append(Case(f"example: lp {path.name}, with General", [*words[:2], "F"], {"F": read}, *told))
    return rows


def optima(root):
    """The names, the texts and the optima of these files, for other solvers."""
    return [(path.name, text, best) for path, text, best in plans(root)]


def lp_rows():
    """The rows whose answers are written by hand."""
    return answers() + stops() + section_words() + layouts() + bounds() + refusals() + limits() + commands() + sizes()
