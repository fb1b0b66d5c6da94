"""The table of the end-to-end check: words, files, and what the program has to write."""

import os

import compile_cases
import lp_cases
import make_cases
import page_cases
import solve_cases
from case import CLOSED, FULL, GONE, MODEL, Case, at, tested
from drawn_texts import drawn_texts
from full_model import LAST, LIMIT, full_model, point
from reference import answer
from reference.commands import form_of

MIB = 2**20
GREATEST = 2**127 - 1
LEAST = -(2**127)


def verdicts():
    """Models, points and the line that decides."""
    x = b"gdp 1\nvar x real 0 10\n"
    free = b"gdp 1\nvar x real -inf inf\nvar y real -inf inf\nvar z real -inf inf\n"
    deep = (2**127 - 1) // 10**15
    rows = [
        ("a row holds", MODEL, at(3), "holds"),
        ("a row fails", MODEL, at(4), "fails at line 3"),
        ("a high bound fails", MODEL, at(11), "fails at line 2"),
        ("a low bound fails", MODEL, at(-1), "fails at line 2"),
        ("a bound is met", MODEL.replace(b"0 10", b"3 3"), at(3), "holds"),
        ("a point past 64 bits is wide in a row", b"gdp 1\nvar x real 0 inf\nrow 2 x >= 1\n", at(GREATEST), "wide at line 3"),
        ("the greatest number fits", b"gdp 1\nvar x real 0 inf\nrow x >= 1\n", at(GREATEST), "holds"),
        ("the least number fits", b"gdp 1\nvar x real -inf 0\nrow x <= -1\n", at(LEAST), "holds"),
        ("the least number negated is wide", b"gdp 1\nvar x real -inf 0\nrow - x >= 1\n", at(LEAST), "wide at line 3"),
        ("the greatest product fits", free + b"row 1000000000000000 x >= 0\n", at(deep, 0, 0), "holds"),
        ("one more is wide", free + b"row 1000000000000000 x >= 0\n", at(deep + 1, 0, 0), "wide at line 5"),
        ("a partial sum is wide", free + b"row x + y - z >= 0\n", at(GREATEST, 1, 1), "wide at line 5"),
        ("the same sum in an order that fits", free + b"row x - y + z >= 0\n", at(GREATEST, 1, 1), "holds"),
        ("the sum goes by the order of the variables", free + b"row x - z + y >= 0\n", at(GREATEST, 1, 1), "wide at line 5"),
        ("and not by that of the text", free + b"row z + y + x >= 0\n", at(LEAST, 1, GREATEST), "holds"),
        ("a product is wide though its sum fits", free + b"row - x + 2 y >= 0\n", at(GREATEST, 2**126, 0), "wide at line 5"),
        ("a partial sum is not its magnitude", free + b"row x + y >= 0\n", at(LEAST, 1, 0), "fails at line 5"),
        ("a failing row before a wide one", free + b"row x <= 0\nrow 2 x >= 0\n", at(GREATEST, 0, 0), "fails at line 5"),
        ("a wide row before a failing one", free + b"row 2 x >= 0\nrow x <= 0\n", at(GREATEST, 0, 0), "wide at line 5"),
        ("an equality holds", x + b"row x = 5\n", at(5), "holds"),
        ("an equality fails below", x + b"row x = 5\n", at(4), "fails at line 3"),
        ("an equality fails above", x + b"row x = 5\n", at(6), "fails at line 3"),
        ("at least, met", x + b"row x >= 5\n", at(5), "holds"),
        ("at least, one short", x + b"row x >= 5\n", at(4), "fails at line 3"),
        ("the empty sum holds", x + b"row 0 <= 5\n", at(1), "holds"),
        ("the empty sum fails", x + b"row 0 >= 5\n", at(1), "fails at line 3"),
        ("no rows", x, at(1), "holds"),
        ("the first failing row decides", x + b"row x <= 5\nrow x >= 9\nrow x <= 4\n", at(6), "fails at line 3"),
        ("all bounds come before all rows", x + b"row x <= 3\nvar y real 0 1\n", at(4, 2), "fails at line 4"),
        ("rows above and below a variable", x + b"row x <= 7\nvar y real 0 1\nrow x - y >= 4\n", at(4, 1), "fails at line 5"),
    ]
    return [tested(name, model, at_point, {"h": 0, "f": 1, "w": 3}[out[0]], out.encode() + b"\n") for name, model, at_point, out in rows]


def spellings():
    """Texts that spell a model or a point."""
    x = b"gdp 1\nvar x real 0 10\n"
    long_name = b"n" * 64
    good = [
        ("no newline at the end", MODEL[:-1], at(3)[:-1]),
        ("blanks at will", b" gdp  1 \n  var   x real  0   10\nrow  2  x<=7 \n", at(3)),
        ("no blanks where none are needed", b"gdp 1\nvar x real 0 10\nrow 2x<=7\n", at(3)),
        ("tabs are blanks", MODEL.replace(b" ", b"\t"), at(3)),
        ("carriage returns before newlines", MODEL.replace(b"\n", b"\r\n"), at(3)),
        ("blank lines and comments", b"\n # a plan\n\t\n" + MODEL.replace(b"\n", b"# \xc8\x00 tonnes\n\n") + b"#", at(3)),
        ("signs", b"gdp 1\nvar x real -10 +10\nrow +2 x >= -7\nrow -x<=+7\n", at(3)),
        ("leading zeros", b"gdp 1\nvar x real 00 010\nrow 0002 x <= 000000000000000000007\n", at(3)),
        ("the greatest numbers", x + b"row 1000000000000000 x <= 1000000000000000\n", at(1)),
        ("fractions and decimals", b"gdp 1\nvar x real -1/2 20/2\nrow 0.5 x <= 003/2\nrow x >= 2.50\n", at(3)),
        ("a fraction that is met", x + b"row 1/3 x >= 1.0\n", at(3)),
        ("fifteen places", x + b"row x >= 0.000000000000001\n", at(3)),
        ("a row's scale past the limit", x + b"row 1/1000003 x >= 1/1000000007\n", at(3)),
        ("words of the format as names", b"gdp 1\nvar row real 0 10\nvar var real 0 10\nrow 2 row + var <= 7\n", point(["row", "var"], [3, 1])),
        ("capitals count", b"gdp 1\nvar x real 0 10\nvar X real 0 10\nrow 2 x <= 7\n", point(["x", "X"], [3, 9])),
        ("digits, dots and underlines in a name", x.replace(b"x", b"_a.1_") + b"row 2 _a.1_ <= 7\n", point(["_a.1_"], [3])),
        ("a name of 64 bytes", x.replace(b"x", long_name), point(["n" * 64], [3])),
        ("2e3 is 2 times e3", b"gdp 1\nvar e3 real 0 10\nrow 2e3 <= 7\n", point(["e3"], [3])),
        ("an integer variable", MODEL.replace(b"real", b"int"), at(3)),
        ("a goal", MODEL + b"max 3/2 x - 0.5\n", at(3)),
        ("a goal of a number alone", MODEL + b"min - 7\n", at(3)),
        ("a Boolean that is false", MODEL + b"boolean b\n", at(3)),
        ("500 variables", b"gdp 1\n" + b"".join(b"var v%d real 0 1\n" % j for j in range(500)), point([f"v{j}" for j in range(500)], [1] * 500)),
        ("1,000 rows", x + b"row x <= 7\n" * 1000, at(3)),
        ("200 Booleans", x + b"".join(b"boolean b%d\n" % j for j in range(200)), at(3)),
    ]
    b = b"gdp 1\nvar x real 0 10\nboolean b\n"
    good_points = [
        ("blanks at will", MODEL, b" gdp-point  1\n over 1 \nval   x 3  \n end\n"),
        ("tabs are blanks", MODEL, b"gdp-point\t1\nover\t1\nval\tx\t3\t\nend\n"),
        ("carriage returns before newlines", MODEL, at(3).replace(b"\n", b"\r\n")),
        ("blank lines and comments, also at the end", MODEL, b"#\n\n" + at(3).replace(b"\n", b" # \xff\n\n") + b"\n# done"),
        ("leading zeros", MODEL, at(3).replace(b"3", b"0003")),
        ("minus nought", MODEL, at(3).replace(b"3", b"-0")),
        ("over 2", MODEL, b"gdp-point 1\nover 2\nval x 7\nend\n"),
        ("over with a leading zero", MODEL, b"gdp-point 1\nover 01\nval x 3\nend\n"),
        ("over the greatest number", b"gdp 1\nvar x real 0 1\n", b"gdp-point 1\nover %d\nval x 1\nend\n" % GREATEST),
        ("a Boolean before the values", b, b"gdp-point 1\nover 1\non b\nval x 3\nend\n"),
        ("a Boolean after the values", b, b"gdp-point 1\nover 1\nval x 3\non b\nend\n"),
        ("values out of order", x + b"var y real 0 1\n", b"gdp-point 1\nover 1\nval y 1\nval x 3\nend\n"),
    ]
    return [tested(f"read: {name}", model, at_point, 0, b"holds\n") for name, model, at_point in good] + [
        tested(f"read: point: {name}", model, at_point, 0, b"holds\n") for name, model, at_point in good_points
    ]


def refusals():
    """Texts that are refused, each at its first bad line and with its first cause."""
    x = b"gdp 1\nvar x real 0 10\n"
    xor = x + b"disjunction xor\ndisjunct a\n"
    nested = x + b"".join(b"disjunction xor\ndisjunct d%d\n" % j for j in range(9))
    models = [
        ("the empty text", b"", 1, "Header"),
        ("a newline alone", b"\n", 2, "Header"),
        ("comments alone", b"# a\n# b", 3, "Header"),
        ("no variable", b"gdp 1\n", 2, "Missing"),
        ("another header", MODEL.replace(b"gdp 1", b"gdp 2"), 1, "Header"),
        ("a header with a leading zero", MODEL.replace(b"gdp 1", b"gdp 01"), 1, "Header"),
        ("the header run together", MODEL.replace(b"gdp 1", b"gdp1"), 1, "Header"),
        ("a stray byte in the header's line", MODEL.replace(b"gdp 1", b"gdp 1 \x07"), 1, "Header"),
        ("the header twice", b"gdp 1\n" + MODEL, 2, "Form"),
        ("a point in place of a model", at(3), 1, "Header"),
        ("a byte of 127", MODEL.replace(b"x", b"x\x7f"), 2, "Form"),
        ("a byte of 200", MODEL.replace(b"<= 7", b"<= 7 \xc8"), 3, "Form"),
        ("a letter past ASCII", MODEL.replace(b"x", "\u00e9".encode()), 2, "Form"),
        ("a byte of 0", MODEL.replace(b"<= 7", b"<= 7\0"), 3, "Form"),
        ("two carriage returns", MODEL.replace(b"7\n", b"7\r\r\n"), 3, "Form"),
        ("a carriage return at the end of the text", MODEL[:-1] + b"\r", 3, "Form"),
        ("a number run into a point", MODEL.replace(b"2 x", b"1.x"), 3, "Form"),
        ("a fraction parted", MODEL.replace(b"2 x", b"1 /2 x"), 3, "Form"),
        ("a decimal in a fraction", MODEL.replace(b"2 x", b"1.5/2 x"), 3, "Form"),
        ("nought over nought", MODEL.replace(b"2 x", b"0/0 x"), 3, "Number"),
        ("one over nought", MODEL.replace(b"<= 7", b"<= 1/0"), 3, "Number"),
        ("sixteen places", MODEL.replace(b"<= 7", b"<= 0.0000000000000001"), 3, "Number"),
        ("a denominator past the limit", MODEL.replace(b"<= 7", b"<= 2/1000000000000002"), 3, "Number"),
        ("a coefficient past the limit", MODEL.replace(b"2 x", b"1000000000000001 x"), 3, "Number"),
        ("a right side past the limit", MODEL.replace(b"<= 7", b"<= 1000000000000001"), 3, "Number"),
        ("a scaled number past the limit", MODEL.replace(b"2 x", b"1/2 x").replace(b"<= 7", b"<= 500000000000001"), 3, "Number"),
        ("a bound past the limit", MODEL.replace(b"0 10", b"0 1000000000000001"), 2, "Number"),
        ("a number of 400 digits", MODEL.replace(b"<= 7", b"<= " + b"9" * 400), 3, "Number"),
        ("a coefficient of 0", MODEL.replace(b"2 x", b"0 x"), 3, "Number"),
        ("a coefficient of 0.0", MODEL.replace(b"2 x", b"0.0 x"), 3, "Number"),
        ("00 in place of the sum 0", MODEL.replace(b"2 x", b"00"), 3, "Form"),
        ("0.0 in place of the sum 0", MODEL.replace(b"2 x", b"0.0"), 3, "Form"),
        ("a signed sum 0", MODEL.replace(b"2 x", b"-0"), 3, "Form"),
        ("crossed bounds", MODEL.replace(b"0 10", b"10 0"), 2, "Number"),
        ("fractions crossed", MODEL.replace(b"0 10", b"1/2 0.499"), 2, "Number"),
        ("bounds turned round", MODEL.replace(b"0 10", b"inf 0"), 2, "Form"),
        ("one bound", MODEL.replace(b"0 10", b"10"), 2, "Form"),
        ("three bounds", MODEL.replace(b"0 10", b"0 10 20"), 2, "Form"),
        ("a variable twice", x + x[6:], 3, "NameTwice"),
        ("a variable twice in a sum", MODEL.replace(b"2 x", b"x + x"), 3, "NameTwice"),
        ("a Boolean with a variable's name", x + b"boolean x\n", 3, "NameTwice"),
        ("an indicator with a variable's name", x + b"disjunction or\ndisjunct x\n", 4, "NameTwice"),
        ("a name before its declaration", b"gdp 1\nvar x real 0 10\nrow x + y <= 7\nvar y real 0 1\n", 3, "NameUnknown"),
        ("an unknown name", MODEL.replace(b"2 x", b"2 y"), 3, "NameUnknown"),
        ("an unknown name twice", MODEL.replace(b"2 x", b"y + y"), 3, "NameUnknown"),
        ("a Boolean in a sum", x + b"boolean b\nrow b + b <= 1\n", 4, "NameUnknown"),
        ("a name of 65 bytes", x.replace(b"x", b"n" * 65), 2, "Limit"),
        ("a name of 65 bytes in a sum", MODEL.replace(b"2 x", b"n" * 65), 3, "NameUnknown"),
        ("a name that begins with a digit", x.replace(b"x", b"1x"), 2, "Form"),
        ("inf as a name", x.replace(b"x", b"inf"), 2, "Form"),
        ("end as a name", x.replace(b"x", b"end"), 2, "Form"),
        ("or as a name", x.replace(b"x", b"or"), 2, "Form"),
        ("no relation", MODEL.replace(b"<= 7", b""), 3, "Form"),
        ("two relations", MODEL.replace(b"<= 7", b"<= 7 <= 8"), 3, "Form"),
        ("a strict relation", MODEL.replace(b"<=", b"<"), 3, "Form"),
        ("a relation parted", MODEL.replace(b"<=", b"< ="), 3, "Form"),
        ("no sum", MODEL.replace(b"2 x ", b""), 3, "Form"),
        ("two signs", MODEL.replace(b"2 x", b"- - 2 x"), 3, "Form"),
        ("no sign between terms", x + b"var y real 0 1\nrow x y <= 7\n", 4, "Form"),
        ("a sign at the end of a sum", MODEL.replace(b"2 x", b"2 x +"), 3, "Form"),
        ("a variable on the right", MODEL.replace(b"<= 7", b"<= x"), 3, "Form"),
        ("a constant in a row's sum", MODEL.replace(b"2 x", b"2 x + 1"), 3, "Form"),
        ("an infinite right side", MODEL.replace(b"<= 7", b"<= inf"), 3, "Form"),
        ("a capital first word", MODEL.replace(b"row", b"Row"), 3, "Form"),
        ("a line of another word", MODEL + b"rows x <= 7\n", 4, "Form"),
        ("another kind", MODEL.replace(b"real", b"whole"), 2, "Form"),
        ("a goal twice", x + b"min x\nmax x\n", 4, "Form"),
        ("a goal with its constant first", x + b"min 2 + 3 x\n", 3, "Form"),
        ("a goal with two constants", x + b"min x + 2 + 3\n", 3, "Form"),
        ("a goal whose scale passes the limit", x + b"min 1/1000003 x + 1/1000000007\n", 3, "Number"),
        ("a constant past the limit", x + b"min x + 1000000000000001\n", 3, "Number"),
        ("a bad line before logic", x + b"row y <= 1\nlogic x\n", 3, "NameUnknown"),
        ("logic before the header", b"\nlogic x\n" + MODEL, 2, "Header"),
        ("logic run together", MODEL + b"logic(x)\n", 4, "Form"),
        ("a name that begins with logic", MODEL + b"logic_x\n", 4, "Form"),
        ("logic before a bad line", x + b"logic x\nrow y <= 1\n", 3, "NameUnknown"),
        ("an end at the root", MODEL + b"end\n", 4, "Form"),
        ("a word after an end", xor + b"end end\n", 5, "Form"),
        ("a disjunction of another mode", x + b"disjunction and\n", 3, "Form"),
        ("a disjunct at the root", x + b"disjunct a\n", 3, "Form"),
        ("a row in a disjunction", x + b"disjunction xor\nrow x <= 1\n", 4, "Form"),
        ("a disjunction in a disjunction", x + b"disjunction xor\ndisjunction xor\n", 4, "Form"),
        ("a disjunct in a disjunct", xor + b"disjunct b\n", 5, "Form"),
        ("a variable in a disjunct", xor + b"var y real 0 1\n", 5, "Form"),
        ("a goal in a disjunct", xor + b"min x\n", 5, "Form"),
        ("a Boolean in a disjunct", xor + b"boolean b\n", 5, "Form"),
        ("a Boolean after a disjunction", xor + b"end\nend\nboolean b\n", 7, "Form"),
        ("a disjunction without a disjunct", x + b"disjunction xor\nend\n", 4, "Missing"),
        ("an open disjunction", x + b"disjunction xor\n", 4, "Unclosed"),
        ("an open disjunct", xor, 5, "Unclosed"),
        ("a model without its last line", NESTED[:-4], 16, "Unclosed"),
        ("open, and no variable", b"gdp 1\ndisjunction xor\n", 3, "Unclosed"),
        ("nine nested disjunctions", nested, 20, "Nesting"),
        ("a name twice before nesting", nested.replace(b"d8", b"x"), 20, "NameTwice"),
        ("the place before a name twice", xor + b"var x real 0 1\n", 5, "Form"),
        ("a name twice before a number", x + b"var x real 5 1\n", 3, "NameTwice"),
        ("a name twice in a sum before an unknown one", x + b"row y + x + x <= 1\n", 3, "NameTwice"),
        ("an unknown name before a number", x + b"row 0 x + y <= 1\n", 3, "NameUnknown"),
        ("a number before a limit", x + b"var %s real 5 1\n" % (b"n" * 65), 3, "Number"),
        ("a form before a name", x + b"row y <= 1 1\n", 3, "Form"),
        ("501 variables", b"gdp 1\n" + b"".join(b"var v%d real 0 1\n" % j for j in range(501)), 502, "Limit"),
        ("1,001 rows", x + b"row x <= 7\n" * 1001, 1003, "Limit"),
        ("201 Booleans", x + b"".join(b"boolean b%d\n" % j for j in range(201)), 203, "Limit"),
        ("201 indicators", x + b"disjunction or\n" + b"".join(b"disjunct b%d\nend\n" % j for j in range(201)), 404, "Limit"),
    ]
    points = [
        ("the empty point", b"", 1, "Header"),
        ("another header", b"gdp-point 2\nover 1\nval x 3\nend\n", 1, "Header"),
        ("a model in place of a point", MODEL, 1, "Header"),
        ("the header alone", b"gdp-point 1\n", 2, "Missing"),
        ("no over", b"gdp-point 1\nval x 3\nend\n", 2, "Form"),
        ("no over, and the end", b"gdp-point 1\nend\n", 2, "Form"),
        ("over 0", b"gdp-point 1\nover 0\nval x 3\nend\n", 2, "Number"),
        ("over -1", b"gdp-point 1\nover -1\nval x 3\nend\n", 2, "Form"),
        ("over past the greatest number", b"gdp-point 1\nover %d\nval x 3\nend\n" % (GREATEST + 1), 2, "Number"),
        ("over twice", b"gdp-point 1\nover 1\nover 1\nval x 3\nend\n", 3, "Form"),
        ("no value", b"gdp-point 1\nover 1\nend\n", 3, "Missing"),
        ("a value twice", b"gdp-point 1\nover 1\nval x 3\nval x 3\nend\n", 4, "NameTwice"),
        ("a value and an on line for one name", b"gdp-point 1\nover 1\nval x 3\non x\nend\n", 4, "NameTwice"),
        ("an unknown name", b"gdp-point 1\nover 1\nval x 3\nval y 3\nend\n", 4, "NameUnknown"),
        ("another name", b"gdp-point 1\nover 1\nval y 3\nend\n", 3, "NameUnknown"),
        ("a variable that is on", b"gdp-point 1\nover 1\non x\nend\n", 3, "NameUnknown"),
        ("an unknown name before a number", b"gdp-point 1\nover 1\nval y %d\nend\n" % (GREATEST + 1), 3, "NameUnknown"),
        ("a name of 65 bytes", b"gdp-point 1\nover 1\nval %s 1\nend\n" % (b"n" * 65), 3, "NameUnknown"),
        ("a plus", b"gdp-point 1\nover 1\nval x +3\nend\n", 3, "Form"),
        ("a minus apart", b"gdp-point 1\nover 1\nval x - 3\nend\n", 3, "Form"),
        ("a minus alone", b"gdp-point 1\nover 1\nval x -\nend\n", 3, "Form"),
        ("two numbers", b"gdp-point 1\nover 1\nval x 3 3\nend\n", 3, "Form"),
        ("a word after the end", b"gdp-point 1\nover 1\nval x 3\nend end\n", 4, "Form"),
        ("a fraction", b"gdp-point 1\nover 1\nval x 3/1\nend\n", 3, "Form"),
        ("two carriage returns", b"gdp-point 1\nover 1\nval x 3\r\r\nend\n", 3, "Form"),
        ("a carriage return at the end of the text", b"gdp-point 1\nover 1\nval x 3\nend\r", 4, "Form"),
        ("one past the greatest number", b"gdp-point 1\nover 1\nval x %d\nend\n" % (GREATEST + 1), 3, "Number"),
        ("one past the least number", b"gdp-point 1\nover 1\nval x %d\nend\n" % (LEAST - 1), 3, "Number"),
        ("a Boolean that isn't there", b"gdp-point 1\nover 1\nval x 3\non b\nend\n", 4, "NameUnknown"),
        ("no end", b"gdp-point 1\nover 1\nval x 3\n", 4, "Missing"),
        ("a line after the end", b"gdp-point 1\nover 1\nval x 3\nend\nend\n", 5, "Form"),
        ("a byte of 200", b"gdp-point 1\nover 1\nval x 3\nend\xc8\n", 4, "Form"),
    ]

    def told(name, line, cause):
        return b"%s: line %d: %s\n" % (name, line, cause.encode())

    rows = [tested(f"model: {name}", text, at(3), 2, err=told(b"M", line, cause)) for name, text, line, cause in models]
    rows += [Case(f"format: {name}", ["format", "M"], {"M": text}, 2, err=told(b"M", line, cause)) for name, text, line, cause in models[::7]]
    rows += [tested(f"point: {name}", MODEL, text, 2, err=told(b"P", line, cause)) for name, text, line, cause in points]
    return rows + [tested("a bad model comes before a bad point", b"", b"", 2, err=told(b"M", 1, "Header"))]


NESTED = b"""gdp 1
var x real 0 10
disjunction xor
disjunct a
disjunction xor
disjunct c
row x <= 7
end
disjunct d
row x >= 8
end
end
end
disjunct b
end
end
"""
EITHER = b"gdp 1\nvar x real 0 10\ndisjunction or\ndisjunct a\nrow x <= 7\nend\ndisjunct b\nrow x >= 3\nend\nend\n"


def on(names, *values):
    """The text of a point with these Booleans true."""
    return at(*values)[:-4] + b"".join(b"on %s\n" % name for name in names) + b"end\n"


def choices():
    """Nested choices: the first test that fails, and its line."""
    whole = b"gdp 1\nvar n int -5 5\nrow n <= 5\n"
    rows = [
        ("an indicator below a false one", NESTED, on([b"c", b"b"], 5), "fails at line 6"),
        ("the other disjunct alone", NESTED, on([b"b"], 5), "holds"),
        ("the nested disjunct", NESTED, on([b"a", b"c"], 5), "holds"),
        ("its row fails", NESTED, on([b"a", b"c"], 8), "fails at line 7"),
        ("none of a nested xor", NESTED, on([b"a"], 5), "fails at line 5"),
        ("both of a nested xor", NESTED, on([b"a", b"c", b"d"], 5), "fails at line 5"),
        ("none of an xor", NESTED, on([], 5), "fails at line 3"),
        ("both of an xor", NESTED, on([b"a", b"b"], 5), "fails at line 3"),
        ("both of an or", EITHER, on([b"a", b"b"], 5), "holds"),
        ("both of an or, and the second fails", EITHER, on([b"a", b"b"], 2), "fails at line 8"),
        ("one of an or", EITHER, on([b"a"], 2), "holds"),
        ("none of an or", EITHER, on([], 2), "fails at line 3"),
        ("a whole number over 2", whole, b"gdp-point 1\nover 2\nval n -4\nend\n", "holds"),
        ("a half", whole, b"gdp-point 1\nover 2\nval n 3\nend\n", "fails at line 2"),
        ("a bound before integrality", whole, b"gdp-point 1\nover 2\nval n 11\nend\n", "fails at line 2"),
        ("a bound of a fraction", b"gdp 1\nvar x real 1/3 2/3\n", b"gdp-point 1\nover 3\nval x 1\nend\n", "holds"),
        ("a bound of a fraction, missed", b"gdp 1\nvar x real 1/3 2/3\n", b"gdp-point 1\nover 1000000\nval x 333333\nend\n", "fails at line 2"),
        ("a bound that is wide", b"gdp 1\nvar x real 1/3 inf\n", b"gdp-point 1\nover 1\nval x %d\nend\n" % GREATEST, "wide at line 2"),
        ("a row's right side that is wide", MODEL, b"gdp-point 1\nover %d\nval x 1\nend\n" % (2**125), "wide at line 2"),
    ]
    return [tested(f"choice: {name}", model, at_point, {"h": 0, "f": 1, "w": 3}[out[0]], out.encode() + b"\n") for name, model, at_point, out in rows]


FEED = b"""gdp 1
var f real 0 100 # feed
var p real 0 80
var c real 0 500
disjunction xor
  disjunct r1
    row p - 3/5 f = 0
    row c = 10
  end
  disjunct r2
    row p - 0.8 f = 0
    row c = 40
  end
end
row p <= 48
max 5 p - 2 f - c
"""
FEED_CANONICAL = b"""gdp 1
var f real 0 100
var p real 0 80
var c real 0 500
max -2 f + 5 p - 1 c
row 1 p <= 48
disjunction xor
disjunct r1
row -3 f + 5 p = 0
row 1 c = 10
end
disjunct r2
row -4 f + 5 p = 0
row 1 c = 40
end
end
"""


def formats():
    """Canonical texts."""
    rows = [
        ("a feed and a process", FEED, FEED_CANONICAL),
        ("a canonical text stays", FEED_CANONICAL, FEED_CANONICAL),
        ("a model without a goal", MODEL, b"gdp 1\nvar x real 0 10\nmin 0\nrow 2 x <= 7\n"),
        ("bounds", b"gdp 1\nvar x real -inf inf\nvar y int -4/6 0.50\n", b"gdp 1\nvar x real -inf inf\nvar y int -2/3 1/2\nmin 0\n"),
        ("Booleans", b"gdp 1\nvar x real 0 1\nboolean b\ndisjunction or\ndisjunct a\nend\nend\n", b"gdp 1\nvar x real 0 1\nboolean b\nmin 0\ndisjunction or\ndisjunct a\nend\nend\n"),
        ("a goal with a constant", b"gdp 1\nvar x real 0 1\nmax -1/2 x - 1.25\n", b"gdp 1\nvar x real 0 1\nmax -1/2 x - 5/4\n"),
        ("a goal of a constant", b"gdp 1\nvar x real 0 1\nmin -6/4\n", b"gdp 1\nvar x real 0 1\nmin -3/2\n"),
        ("a row without terms", b"gdp 1\nvar x real 0 1\nrow 0 >= -1/2\n", b"gdp 1\nvar x real 0 1\nmin 0\nrow 0 >= -1\n"),
        ("terms in the order of the variables", b"gdp 1\nvar x real 0 1\nvar y real 0 1\nrow y - x = 1/3\n", b"gdp 1\nvar x real 0 1\nvar y real 0 1\nmin 0\nrow -3 x + 3 y = 1\n"),
    ]
    return [Case(f"format: {name}", ["format", "M"], {"M": text}, 0, canonical) for name, text, canonical in rows]


LOGIC = b"gdp 1\nvar x real 0 10\nboolean p\nboolean q\n"
BELOW = b"""gdp 1
var x real 0 10
boolean p
boolean q
disjunction xor
disjunct a
logic implies(a, p)
disjunction or
disjunct c
logic not(q)
row x <= 7
end
disjunct d
logic not(and(c, d))
end
end
logic xor(c, d)
end
disjunct b
logic not(p)
end
end
logic or(b, not(p), atleast(1, c, d))
"""
BELOW_CANONICAL = b"""gdp 1
var x real 0 10
boolean p
boolean q
min 0
disjunction xor
disjunct a
disjunction or
disjunct c
row 1 x <= 7
logic not(q)
end
disjunct d
logic not(and(c, d))
end
end
logic implies(a, p)
logic xor(c, d)
end
disjunct b
logic not(p)
end
end
logic or(b, not(p), atleast(1, c, d))
"""
TWO = b"gdp 1\nvar x real 0 1\ndisjunction xor\ndisjunct a\nend\ndisjunct b\nend\nend\nlogic exactly(2, a, b)\n"


def nots(count, inner=b"p"):
    """The proposition within so many `not`."""
    return b"not(" * count + inner + b")" * count


def applied(word, count, inner=b"p", before=b""):
    """The connective over so many times one argument."""
    return word + b"(" + before + b", ".join([inner] * count) + b")"


def truths():
    """Propositions of p and q, and their truth where the two are 00, 01, 10 and 11."""
    table = [
        (b"p", "0011"),
        (b"not(p)", "1100"),
        (b"and(p, q)", "0001"),
        (b"or(p, q)", "0111"),
        (b"implies(p, q)", "1101"),
        (b"equivalent(p, q)", "1001"),
        (b"xor(p, q)", "0110"),
        (b"exactly(0, p, q)", "1000"),
        (b"exactly(1, p, q)", "0110"),
        (b"exactly(2, p, q)", "0001"),
        (b"exactly(3, p, q)", "0000"),
        (b"atleast(0, p, q)", "1111"),
        (b"atleast(1, p, q)", "0111"),
        (b"atleast(2, p, q)", "0001"),
        (b"atleast(3, p, q)", "0000"),
        (b"atmost(0, p, q)", "1000"),
        (b"atmost(1, p, q)", "1110"),
        (b"atmost(2, p, q)", "1111"),
        (b"and(q)", "0101"),
        (b"exactly(1, q)", "0101"),
        (b"exactly(2, p, p)", "0011"),
        (b"atmost(1000, p)", "1111"),
        (b"exactly(01, p)", "0011"),
        (b"implies(and(p, q), or(not(p), not(q)))", "1110"),
        (b"equivalent(xor(p, q), exactly(1, p, q))", "1111"),
        (b"and(atleast(1, p, q), not(equivalent(q, p)))", "0110"),
        (nots(15), "1100"),
        (nots(14), "0011"),
    ]
    rows = []
    for proposition, told in table:
        for names, truth in zip(([], [b"q"], [b"p"], [b"p", b"q"]), told):
            answer_is = (0, b"holds\n") if truth == "1" else (1, b"fails at line 5\n")
            rows.append(tested(f"logic: {proposition.decode()} at {len(rows) % 4:02b}", LOGIC + b"logic " + proposition + b"\n", on(names, 5), *answer_is))
    return rows


def propositions():
    """Propositions in their place, and those that are refused."""
    line = b"logic %s\n"
    full = LOGIC + line % applied(b"or", 199) * 25
    shared = LOGIC + b"disjunction or\ndisjunct a\n" + line % applied(b"and", 199) * 12 + b"end\ndisjunct b\n" + line % applied(b"and", 199) * 13
    last = LOGIC + b"disjunction xor\ndisjunct a\nend\nend\nlogic not(a)\nlogic p\nrow x <= 1\n"
    verdicts = [
        ("two of an xor, none is", TWO, on([], 1), "fails at line 9"),
        ("two of an xor, the first", TWO, on([b"a"], 1), "fails at line 9"),
        ("two of an xor, the second", TWO, on([b"b"], 1), "fails at line 9"),
        ("two of an xor, both", TWO, on([b"a", b"b"], 1), "fails at line 3"),
        ("a row before propositions and disjunctions", last, on([], 5), "fails at line 11"),
        ("a proposition before disjunctions", last, on([], 1), "fails at line 10"),
        ("the first of two propositions", last, on([b"a"], 1), "fails at line 9"),
        ("then the disjunctions", last, on([b"p"], 1), "fails at line 5"),
        ("a bound before a proposition", LOGIC + b"logic p\n", on([], 11), "fails at line 2"),
        ("a wide row before a proposition", LOGIC.replace(b"10", b"inf") + b"logic p\nrow 2 x >= 0\n", on([], GREATEST), "wide at line 6"),
        ("all nested ones hold", BELOW, on([b"a", b"c", b"p"], 5), "holds"),
        ("of a disjunct two deep", BELOW, on([b"a", b"c", b"p", b"q"], 5), "fails at line 10"),
        ("a row in it before its propositions", BELOW, on([b"a", b"c", b"p", b"q"], 8), "fails at line 11"),
        ("of the root first", BELOW, on([b"a", b"p", b"q"], 5), "fails at line 23"),
        ("in a disjunct, before its disjunctions", BELOW, on([b"a"], 5), "fails at line 7"),
        ("written after a disjunction, but tested before it", BELOW, on([b"a", b"c", b"d", b"p"], 5), "fails at line 17"),
        ("not under a false disjunct", BELOW, on([b"b", b"q"], 5), "holds"),
        ("under the true one", BELOW, on([b"b", b"p"], 5), "fails at line 20"),
        ("an indicator below a false one", BELOW, on([b"b", b"c"], 5), "fails at line 9"),
        ("200 arguments", LOGIC + line % applied(b"atleast", 200, before=b"200, "), on([b"p"], 5), "holds"),
        ("5,000 nodes", full, on([b"p"], 5), "holds"),
        ("5,000 nodes in two blocks", shared + b"end\nend\n", on([b"p", b"b"], 5), "holds"),
        ("blanks at will", LOGIC + b"\tlogic  and\t( exactly ( 1 ,p,q ),not(q) ) \n", on([b"p"], 5), "holds"),
        ("no blanks", LOGIC + b"logic atmost(1,p,not(q))# so\n", on([b"p", b"q"], 5), "holds"),
        ("names that begin like connectives", LOGIC + b"boolean and_\nboolean notp\nlogic and(and_,notp)\n", on([b"and_", b"notp"], 5), "holds"),
        ("Booleans with the names of lines", LOGIC + b"boolean logic\nboolean row\nlogic or(logic, row)\n", on([b"row"], 5), "holds"),
        ("no line of logic", LOGIC, on([b"p"], 5), "holds"),
    ]
    rows = [tested(f"logic: {name}", model, at_point, {"h": 0, "f": 1, "w": 3}[out[0]], out.encode() + b"\n") for name, model, at_point, out in verdicts]
    forms = [b"", b"and()", b"or( )", b"not()", b"exactly(1)", b"atmost(1,)", b"atleast()", b"exactly(p)", b"exactly(p, 1)"]
    forms += [b"exactly(1.0, p)", b"exactly(1/1, p)", b"exactly(-1, p)", b"exactly(+1, p)", b"exactly(1 p)", b"exactly 1(p)", b"exactly(1, 2, p)"]
    forms += [b"inf", b"end", b"not", b"not p", b"not(end)", b"and(p, inf)", b"and(xor, p)", b"p q", b"p or q", b"(p)", b"p()", b"p(q)", b"((p))"]
    forms += [b"not(p, q)", b"implies(p)", b"implies(p, q, p)", b"equivalent(p)", b"xor(p)", b"xor(p, q, p)", b"and(p,, q)", b"and(, p)", b"and(p, )"]
    forms += [b"and(p q)", b"and(p", b"and(p, q", b"p)", b"and(p))", b"and)", b"p,", b"1", b"p <= q", b"not(p) q", b"And(p)", b"and[p]", b"and(p; q)", b"p \xc8"]
    forms += [b"not(", b"exactly(", b"exactly(1", b"exactly(1,", b"and(p, 2 q)", b"logic p"]
    refused = [(form, "Form") for form in forms]
    refused += [(form, "NameUnknown") for form in (b"r", b"x", b"not(x)", b"P", b"logic", b"and(p, r)", b"n" * 65, b"not(%s)" % (b"n" * 65), b"And")]
    refused += [(b"exactly(%s, p)" % number, "Number") for number in (b"1001", b"01001", b"9" * 400, b"18446744073709551617")]
    refused += [(b"not(and(p, atmost(1001, p)))", "Number"), (nots(16), "Nesting"), (b"or(%s, p, %s)" % (nots(14), nots(15)), "Nesting")]
    refused += [(applied(b"or", 201), "Limit"), (b"not(%s)" % applied(b"atmost", 201, before=b"5, "), "Limit"), (applied(b"and", 26, applied(b"or", 192)), "Limit")]
    # Each holds what is named and all that comes after it in the order of causes.
    many, deep, great = b", ".join([b"p"] * 200), nots(16), b"atleast(1001, q)"
    refused += [(b"and(%s, %s, %s, r, )" % (many, deep, great), "Form"), (b"and(%s, %s, %s, r)" % (many, deep, great), "NameUnknown")]
    refused += [(b"and(%s, %s, %s)" % (many, deep, great), "Number"), (b"and(%s, %s)" % (many, deep), "Nesting"), (b"and(%s, q)" % many, "Limit")]
    refused += [(b"exactly(1001, r)", "NameUnknown"), (nots(16, b"r"), "NameUnknown"), (nots(16, great), "Number"), (applied(b"and", 201, b"r"), "NameUnknown")]
    refused += [(applied(b"atleast", 201, before=b"1001, "), "Number"), (nots(16) + b")", "Form"), (b"exactly(1001)", "Form"), (b"exactly(1001.0, r)", "Form")]
    for text, cause in refused:
        name = text.decode("latin-1") if len(text) < 60 else f"{text[:30].decode()}..{text[-30:].decode()}"
        rows.append(tested(f"logic: {name}: {cause}", LOGIC + line % text, on([], 5), 2, err=b"M: line 5: %s\n" % cause.encode()))
    texts = [
        ("1001 on line 4", b"gdp 1\nvar x real 0 1\nboolean p\nlogic exactly(1001, p)\n", 4, "Number"),
        ("16 nots on line 4", b"gdp 1\nvar x real 0 1\nboolean p\nlogic " + nots(16) + b"\n", 4, "Nesting"),
        ("in a disjunction", LOGIC + b"disjunction or\nlogic p\n", 6, "Form"),
        ("in a disjunction, of an unknown name", LOGIC + b"disjunction or\nlogic r\n", 6, "Form"),
        ("in a disjunction after a disjunct", LOGIC + b"disjunction or\ndisjunct a\nend\nlogic a\n", 8, "Form"),
        ("an indicator before its disjunct", LOGIC + b"disjunction or\ndisjunct a\nlogic b\nend\ndisjunct b\n", 7, "NameUnknown"),
        ("an indicator within its disjunct, and then an unknown one", LOGIC + b"disjunction or\ndisjunct a\nlogic a\nlogic b\n", 8, "NameUnknown"),
        ("a Boolean before its line", b"gdp 1\nvar x real 0 1\nlogic p\nboolean p\n", 3, "NameUnknown"),
        ("a Boolean after logic and before a disjunction", LOGIC + b"logic p\nboolean r\nlogic s\n", 7, "NameUnknown"),
        ("one node more than 5,000", full + b"logic p\n", 30, "Limit"),
        ("one node more than 5,000, in another block", shared + b"logic p\n", 34, "Limit"),
        ("one node more than 5,000, at the root", shared + b"end\nend\nlogic p\n", 36, "Limit"),
        ("201 nodes where 200 are left", full[: -len(line % applied(b"or", 199))] + line % applied(b"or", 200), 29, "Limit"),
        ("the header as a proposition", b"gdp 1\nlogic gdp\n", 2, "NameUnknown"),
        ("a stray byte in the logic", MODEL + b"logic \xc8 not(\n", 4, "Form"),
        ("no variable", b"gdp 1\nboolean p\nlogic p\n", 4, "Missing"),
    ]
    rows += [tested(f"logic: {name}", text, on([], 5), 2, err=b"M: line %d: %s\n" % (at_line, cause.encode())) for name, text, at_line, cause in texts]
    canonical = [
        ("after disjunctions in each block", BELOW, BELOW_CANONICAL),
        ("a canonical text stays", BELOW_CANONICAL, BELOW_CANONICAL),
        ("a count with leading zeros", b"gdp 1\nvar x real 0 1\nboolean p\nlogic exactly(01, p)\n", b"gdp 1\nvar x real 0 1\nboolean p\nmin 0\nlogic exactly(1, p)\n"),
        ("counts of noughts and to the limit", LOGIC + b"logic and(atmost(000,p),atleast(01000,q))\n", LOGIC + b"min 0\nlogic and(atmost(0, p), atleast(1000, q))\n"),
        ("blanks", LOGIC + b" logic\timplies ( p,not( q ) ) # so\nlogic  p\n", LOGIC + b"min 0\nlogic implies(p, not(q))\nlogic p\n"),
        ("lists of one as written", LOGIC + b"logic and(or(exactly(1, p)))\n", LOGIC + b"min 0\nlogic and(or(exactly(1, p)))\n"),
        ("all connectives", LOGIC + b"logic equivalent(xor(p,q),or(and(p,q),atmost(1,q)))\n", LOGIC + b"min 0\nlogic equivalent(xor(p, q), or(and(p, q), atmost(1, q)))\n"),
        ("15 nots", LOGIC + line % nots(15), LOGIC + b"min 0\n" + line % nots(15)),
        ("rows first, propositions last", LOGIC + b"logic q\ndisjunction or\ndisjunct a\nend\nend\nlogic a\nrow x <= 1\n", LOGIC + b"min 0\nrow 1 x <= 1\ndisjunction or\ndisjunct a\nend\nend\nlogic q\nlogic a\n"),
        ("5,000 nodes formatted", full, full.replace(b"boolean q\n", b"boolean q\nmin 0\n", 1)),
    ]
    return rows + [Case(f"logic: {name}", ["format", "M"], {"M": text}, 0, told) for name, text, told in canonical]


def words():
    """Words of no form, of which nothing is read."""
    files = {"M": MODEL, "P": at(3)}
    table = [[], ["test"], ["test", "M"], ["test", "M", "P", "P"], ["Test", "M", "P"], ["tes", "M", "P"], ["test ", "M", "P"]]
    table += [["", "M", "P"], ["M", "P"], ["M", "test", "P"], ["--", "test", "M", "P"], ["--help"], ["testing", "M", "P"]]
    table += [["format"], ["format", "M", "P"], ["Format", "M"], ["M", "format"], ["test", "format"]]
    refused = [Case(f"words: {line}", line, files, 7, err=b"words refused\n") for line in table]
    return refused + [Case("words: no text of Unicode", ["test", b"M\xff", "P"], files, 9)]


def reads():
    """Files that can't be read, and names as they come."""
    def fault(name, line, files, of):
        return Case(f"read: {name}", line, files, 5, err=b"read fault: " + os.fsencode(of) + b"\n")

    def holds(name, model, at_point):
        return Case(f"read: {name}", ["test", model, at_point], {model: MODEL, at_point: at(3)}, 0, b"holds\n")

    return [
        fault("no model", ["test", "M", "P"], {"P": at(3)}, "M"),
        fault("no point", ["test", "M", "P"], {"M": MODEL}, "P"),
        fault("neither", ["test", "M", "P"], {}, "M"),
        fault("no point beside a bad model", ["test", "M", "P"], {"M": b""}, "P"),
        fault("a folder as model", ["test", "M", "P"], {"M": None, "P": at(3)}, "M"),
        fault("a folder as point", ["test", "M", "P"], {"M": MODEL, "P": None}, "P"),
        fault("a file as folder", ["test", "M/M", "P"], {"M": MODEL, "P": at(3)}, "M/M"),
        fault("the empty name", ["test", "", "P"], {"P": at(3)}, ""),
        fault("a name like an option", ["test", "--help", "P"], {"P": at(3)}, "--help"),
        fault("a name of 300 bytes", ["test", "M" * 300, "P"], {"P": at(3)}, "M" * 300),
        fault("a name past ASCII", ["test", "mod\u00e8le", "P"], {"P": at(3)}, "mod\u00e8le"),
        holds("a name past ASCII that is there", "mod\u00e8le", "\u70b9"),
        holds("names with blanks, in folders", "a plan/of two.gdp", "./points/the first"),
        holds("names like options", "--model", "-"),
        fault("no model to format", ["format", "M"], {}, "M"),
        fault("a folder to format", ["format", "M"], {"M": None}, "M"),
        Case("read: formatted from standard input", ["format", "/dev/stdin"], {}, 0, MODEL[:22] + b"min 0\n" + MODEL[22:], stdin=[MODEL[:7], MODEL[7:]]),
        Case("read: one file for both", ["test", "M", "M"], {"M": MODEL}, 2, err=b"M: line 1: Header\n"),
        Case("read: the empty device", ["test", "/dev/null", "P"], {"P": at(3)}, 2, err=b"/dev/null: line 1: Header\n"),
        Case("read: the device without an end", ["test", "/dev/zero", "P"], {"P": at(3)}, 2, err=b"/dev/zero: too long\n", is_long=True),
        Case("read: the model from standard input", ["test", "/dev/stdin", "P"], {"P": at(3)}, 0, b"holds\n", stdin=[MODEL]),
        Case("read: in pieces", ["test", "/dev/stdin", "P"], {"P": at(4)}, 1, b"fails at line 3\n", stdin=[MODEL[:9], MODEL[9:10], MODEL[10:]]),
        Case("read: the point from standard input", ["test", "M", "/dev/stdin"], {"M": MODEL}, 0, b"holds\n", stdin=[at(3)[:5], at(3)[5:]]),
        Case("read: standard input without a byte", ["test", "M", "/dev/stdin"], {"M": MODEL}, 2, err=b"/dev/stdin: line 1: Header\n", stdin=[]),
    ]


def sizes():
    """Texts at the limit and past it."""
    full, holding, failing = full_model()
    long = MODEL + b"#" * (9_000_000 - len(MODEL))

    def row(name, model, at_point, status, out=b"", err=b""):
        return tested(f"size: {name}", model, at_point, status, out, err, is_long=True)

    return [
        row("9 MB of model", long, at(3), 2, err=b"M: too long\n"),
        row("9 MB of point", MODEL, long, 2, err=b"P: too long\n"),
        row("a long point beside a bad model", b"", long, 2, err=b"P: too long\n"),
        row("both are long", long, long, 2, err=b"M: too long\n"),
        Case("size: a long model and no point", ["test", "M", "P"], {"M": long}, 2, err=b"M: too long\n", is_long=True),
        row("newlines to the limit", b"\n" * LIMIT, at(3), 2, err=b"M: line 8388609: Header\n"),
        row("one newline past it", b"\n" * (LIMIT + 1), at(3), 2, err=b"M: too long\n"),
        row("a line of blanks to the limit", MODEL + b" " * (LIMIT - len(MODEL)), at(3), 0, b"holds\n"),
        row("a comment to the limit", MODEL + b"#" * (LIMIT - len(MODEL)), at(3), 0, b"holds\n"),
        row("a name to the limit", MODEL + b"n" * (LIMIT - len(MODEL)), at(3), 2, err=b"M: line 4: Form\n"),
        row("a number to the limit", MODEL[:-2] + b"7" * (LIMIT - len(MODEL) + 1) + b"\n", at(3), 2, err=b"M: line 3: Number\n"),
        row("a sum to the limit", MODEL[:-6] + b"+x" * ((LIMIT - len(MODEL)) // 2) + MODEL[-6:], at(3), 2, err=b"M: line 3: NameTwice\n"),
        row("parentheses to the limit", MODEL + b"(" * (LIMIT - len(MODEL)), at(3), 2, err=b"M: line 4: Form\n"),
        row("disjunctions to the limit", MODEL + b"disjunction or\n" * ((LIMIT - len(MODEL)) // 15), at(3), 2, err=b"M: line 5: Form\n"),
        row("values to the limit", MODEL, b"gdp-point 1\nover 1\nval x 3\n" + b"val x 3\n" * 1_000_000, 2, err=b"P: line 4: NameTwice\n"),
        Case("size: 9 MB to format", ["format", "M"], {"M": long}, 2, err=b"M: too long\n", is_long=True),
        row("blanks in a line to the limit", MODEL[:-2] + b" " * (LIMIT - len(MODEL)) + MODEL[-2:], at(3), 0, b"holds\n"),
        row("a million nots, open", LOGIC + b"logic " + b"not(" * 1_000_000 + b"\n", at(3), 2, err=b"M: line 5: Form\n"),
        row("a million nots, one of them open", LOGIC + b"logic " + nots(1_000_000)[:-1], at(3), 2, err=b"M: line 5: Form\n"),
        row("a million nots", LOGIC + b"logic " + nots(1_000_000) + b"\n", at(3), 2, err=b"M: line 5: Nesting\n"),
        row("a million nots of no Boolean", LOGIC + b"logic " + nots(1_000_000, b"r") + b"\n", at(3), 2, err=b"M: line 5: NameUnknown\n"),
        row("arguments to the limit", LOGIC + b"logic or(p" + b",p" * 4_000_000 + b")\n", at(3), 2, err=b"M: line 5: Limit\n"),
        row("arguments to the limit, open", LOGIC + b"logic or(p" + b",p" * 4_000_000, at(3), 2, err=b"M: line 5: Form\n"),
        row("a count to the limit", LOGIC + b"logic atmost(" + b"7" * 8_000_000 + b",p)\n", at(3), 2, err=b"M: line 5: Number\n"),
        row("a count of noughts to the limit", LOGIC + b"logic atmost(" + b"0" * 8_000_000 + b"1,p)\n", at(3), 0, b"holds\n"),
        row("closing parentheses to the limit", LOGIC + b"logic not(p" + b")" * 8_000_000, at(3), 2, err=b"M: line 5: Form\n"),
        row("lines of logic to the limit", LOGIC + b"logic p\n" * 1_000_000, at(3), 2, err=b"M: line 5005: Limit\n"),
        row("the full model holds", full, holding, 0, b"holds\n"),
        row("the full model fails at its last row", full, failing, 1, b"fails at line %d\n" % LAST),
        Case("size: the full model, formatted", ["format", "M"], {"M": full}, 0, full.replace(b"disjunction", b"min 0\ndisjunction", 1), is_long=True),
        row("the full model and one newline", full + b"\n", holding, 2, err=b"M: too long\n"),
    ]


def streams():
    """Streams that take nothing, and memory that isn't there."""
    if not os.path.exists("/dev/full"):
        return []
    model, late = {"M": MODEL}, {"M": MODEL, "P": at(4)}
    full = full_model()[0]
    return [
        tested("out: a full device", MODEL, at(3), 6, FULL, b"write fault\n"),
        tested("out: a full device, failing point", MODEL, at(4), 6, FULL, b"write fault\n"),
        tested("out: closed", MODEL, at(3), 6, CLOSED, b"write fault\n"),
        tested("out: nobody reads", MODEL, at(3), 6, GONE, b"write fault\n"),
        tested("out: full, err too", MODEL, at(3), 6, FULL, FULL),
        tested("out: closed, err too", MODEL, at(3), 6, CLOSED, CLOSED),
        tested("out: full, but nothing goes there", b"", at(3), 2, FULL, b"M: line 1: Header\n"),
        Case("out: a full device, format", ["format", "M"], model, 6, FULL, b"write fault\n"),
        Case("err: full, words", [], {}, 7, err=FULL),
        Case("err: full, no file", ["test", "M", "P"], model, 5, err=FULL),
        Case("err: nobody reads", ["test", "M", "P"], model, 5, err=GONE),
        Case("err: closed, no file", ["test", "M", "P"], model, 5, err=CLOSED),
        Case("err: closed, a bad point", ["test", "M", "M"], model, 2, err=CLOSED),
        Case("err: closed, a good run", ["test", "M", "P"], late, 1, b"fails at line 3\n", CLOSED),
        Case("all closed but out", ["test", "M", "P"], late, 1, b"fails at line 3\n", CLOSED, stdin=CLOSED),
        Case("in: closed and named", ["test", "/dev/stdin", "P"], late, 5, err=b"read fault: /dev/stdin\n", stdin=CLOSED),
        tested("memory: too little for the text", full, at(3), 8, err=b"out of memory\n", room=12 * MIB, is_long=True),
    ]


def examples(root):
    """Each example with its points, read where it stands, and its canonical text; the README of the examples says the lines."""
    said = {"blend": 11, "courier": 11, "power": 13, "delivery": 16, "tank": 8, "process_route": 20, "transport": 34, "schedule": 9, "site_selection": 58, "plant_units": 33}
    said |= {"creamery": 20, "job_shop": 23, "strip_packing": 63, "process_network": 50, "batches": 50, "pipes": 31, "stations": 58}
    folder = root / "examples"
    rows = []
    for path in sorted(folder.glob("*.gdp")):
        model, canonical = str(path), answer(["format", "M"], {"M": path.read_bytes()})[1]
        rows.append(Case(f"example: {path.stem}", ["test", model, model.replace(".gdp", ".point")], {}, 0, b"holds\n"))
        wrong = ["test", model, model.replace(".gdp", "-fails.point")]
        rows.append(Case(f"example: {path.stem} fails", wrong, {}, 1, b"fails at line %d\n" % said[path.stem]))
        rows.append(Case(f"example: {path.stem} formatted", ["format", model], {}, 0, canonical))
        rows.append(Case(f"example: {path.stem} formatted twice", ["format", "M"], {"M": canonical}, 0, canonical))
    return rows


def checked(table):
    """The table, once what it says of texts is what the second way of reading them says too."""
    for case in table:
        is_told = case.status in (0, 1, 2, 3, 4) and isinstance(case.out, bytes) and isinstance(case.err, bytes)
        form = form_of(case.words)
        if is_told and not case.is_long and form and all(isinstance(case.files.get(name), bytes) for name in form[2]):
            told = answer(case.words, case.files)
            assert told == (case.status, case.out, case.err), f"{case.name}: the table has {case.status, case.out, case.err}, and {told} was reckoned"
    return table


def drawn(count):
    """Texts drawn by chance, always the same, with the answer reckoned a second way."""
    rows = []
    for i, (words, files) in enumerate(drawn_texts(count)):
        status, out, err = answer(words, files)
        rows.append(Case(f"drawn {i}", words, files, status, out, err))
    return rows


def cases(root):
    """The whole table."""
    solve_cases.check_searches(root)
    told = verdicts() + spellings() + refusals() + choices() + formats() + truths() + propositions() + words() + reads() + sizes() + streams() + examples(root)
    told += compile_cases.compile_rows() + compile_cases.examples(root) + solve_cases.solve_rows() + solve_cases.examples(root)
    told += lp_cases.lp_rows() + page_cases.pages(root) + lp_cases.plan_rows(root) + make_cases.make_rows()
    by_chance = drawn(600) + compile_cases.drawn() + solve_cases.drawn() + lp_cases.drawn() + lp_cases.compiled() + make_cases.drawn()
    return checked(told) + by_chance + solve_cases.stepped(root)
