"""The table of known slips: what people write who know other languages, and what to write here.

A slip is a line of the table: the kind of text; what was found (a pattern, of the `what` of a finding); the line (a pattern, searched
for, in which the group `at` stands at the place that was found, if there is such a group); what to write in place of what this pattern
matched, as for `re.sub` (a blank takes it out), or the empty text; and why. Of several that fit the first is taken. Where a row, a goal or a proposition gets
no words to write here, `plainly` writes the whole line again. What is to be written is shown only where the program then reads the line.
"""

import re
from typing import NamedTuple

N = r"[-+]?\s*[0-9]+(?:[./][0-9]+)?"
NAME = r"[A-Za-z_][A-Za-z0-9_.]*"
BOUNDS = rf"(?:-\s*inf|{N})\s+(?:inf|{N})"
MARK = "\ue000"
LATER = 4000  # Bytes of a line beyond which nothing is searched for.


class Slip(NamedTuple):
    kind: str
    what: str
    pattern: str
    write: str
    why: str
    example: str


TABLE = [
    # The header of a model.
    Slip("model", "byte order mark", r"", r"", "save the file as ASCII, or as UTF-8 without a byte order mark", "=\ufeffgdp 1\nvar x real 0 1"),
    Slip("model", "utf-16", r"", r"", "save the file as ASCII or UTF-8", "=\x00g\x00d\x00p\x00 \x001\x00\n\x00"),
    Slip("model", "version", r"^\s*gdp.*", r"gdp 1", "this program reads version 1", "=gdp 2\nvar x real 0 1"),
    Slip("model", "header", r"^\s*gdp[_-]?1\b.*|^\s*(?i:gdp)\s*1\s*$", r"gdp 1", "the header is `gdp 1`, in small letters and with a blank", "=GDP 1\nvar x real 0 1"),
    Slip("model", "header", r"(?i)^\s*(min|max|subject|\\)", r"", "this looks like LP text: name it `.lp` and use `gdp lp`", "=min: 3 x\nrow x >= 1"),
    Slip("model", "header", r"\S", r"gdp 1\n\g<0>", "a model begins with the line `gdp 1`", "=var x real 0 1"),
    # Characters that other programs put in.
    Slip("model", ".*", r"(?P<at>\u2264)", r"<=", "a text is ASCII: write <=", "row x \u2264 1"),
    Slip("model", ".*", r"(?P<at>\u2265)", r">=", "a text is ASCII: write >=", "row x \u2265 1"),
    Slip("model", ".*", r"(?P<at>[\u2212\u2013\u2014])", r"-", "a text is ASCII: write the minus sign of the keyboard", "row x >= \u22121"),
    Slip("model", ".*", r"(?P<at>[\u00a0\u2002-\u200b\ufeff])", r" ", "a text is ASCII: this is a blank of another kind", "row x\xa0<= 1"),
    Slip("model", "after the name|kind|mode", r"(?P<at>[^\x00-\x7f])", r"", "names are ASCII: letters, digits, `_` and `.`", "var cr\xe8me real 0 1"),
    Slip("model", "first word", r"^\s*(?P<at>//|--|%|!|\\|/\*|\*|;|'|\")\s*(.*)", r"# \2", "a comment begins with #", "// what is sold"),
    Slip("model", ".*", r"(?P<at>//|\\|/\*)(.*)$", r"# \2", "a comment begins with #", "row x <= 1 // tonnes"),
    Slip("model", "after .*|.*side.*", r"(?P<at>;)\s*$", r" ", "a line has no end mark", "boolean e;"),
    Slip("model", ".*", r"(?P<at>\r)", r" ", "a carriage return stands only before a newline, once: end the last line with a newline", "row x <= 1\r\r"),
    # Goals.
    Slip("model", "first term", r"(?i)^\s*(?:min|max)\s*(?P<at>:)", r"", "a goal has no colon", "min: x"),
    Slip("model", "after a term", r"^\s*(?:min|max)\b.*(?P<at>:)", r"", "a goal has no name", "min cost: x"),
    Slip("model", "after a term", r"^\s*(?:min|max)\b.*(?P<at><=|>=|=|<|>)", r"", "a goal is a sum: a relation is a row", "max x <= 4"),
    # Rows: relations.
    Slip("model", "after a term|after 0|right side", r"(?P<at><>|!=|/=)", r"", "no row says that two sums differ: write a disjunction of <= and >=", "row x <> 1"),
    Slip("model", "right side", r"=(?P<at>=)", r"=", "use =: there are <=, >= and =", "row x == 1"),
    Slip("model", "right side", r"=(?P<at>[<])", r"<=", "use <=: there are <=, >= and =", "row x =< 1"),
    Slip("model", "right side", r"=(?P<at>[>])", r">=", "use >=: there are <=, >= and =", "row x => 1"),
    Slip("model", "after a term|after 0", r"(?P<at><)\s+=", r"<=", "<= is one word, without a blank", "row x < = 1"),
    Slip("model", "after a term|after 0", r"(?P<at>>)\s+=", r">=", ">= is one word, without a blank", "row x > = 1"),
    Slip("model", "after a term|after 0", r"(?P<at><)", r"<=", "use <=: there are <=, >= and =, and none is strict", "row x < 1"),
    Slip("model", "after a term|after 0", r"(?P<at>>)", r">=", "use >=: there are <=, >= and =, and none is strict", "row 2 x + y > 1"),
    Slip("model", "after a term|after 0", r"(?P<at>:=)", r"=", "use =", "row x := 1"),
    # Rows: the two sides.
    Slip("model", "right side|after a coefficient|after the right side", rf"^\s*row\s+{N}\s*(<=|>=|=|<|>).*(<=|>=|=|<|>)\s*{N}", r"", "a range is two rows, or the bounds of the variable", "row 1 <= x + y <= 3"),
    Slip("model", "after the right side", r"(?P<at><=|>=|=|[<>])", r"", "a range is two rows, or the bounds of the variable", "row x <= 1 <= y"),
    Slip("model", "right side", r"(?P<at>(?i:inf|infinity))\b", r"", "a row's right side is a number: a row without a limit is left out", "row x <= inf"),
    Slip("model", "right side", r"(?P<at>[A-Za-z_(])", r"", "variables on the left, a number on the right", "row x <= y + 3"),
    Slip("model", "after the right side", r"(?P<at>[eE][0-9+-])", r"", "numbers have no powers of ten: write the digits", "row x <= 1e6"),
    Slip("model", "after the right side", r"[0-9](?P<at>,[0-9]{3})", r"", "numbers have no commas between their digits", "row x <= 1,000"),
    Slip("model", "after the right side", r"(?<=[0-9])(?P<at>,)(?=[0-9])", r".", "a decimal has a point", "row x <= 1,5"),
    Slip("model", "after the right side", r"(?P<at>[%])", r"/100", "a percentage is a fraction over 100", "row x <= 15%"),
    Slip("model", "after the right side", r"(?P<at>[-+*/(])", r"", "one number on the right: add them up, and take variables to the left", "row x <= 1 + 2"),
    Slip("model", "after the right side", r"(?P<at>[A-Za-z_])", r"", "variables on the left, a number on the right", "row x <= 2 y"),
    Slip("model", "after a coefficient", rf"^\s*row\s+{N}\s*(?P<at><=|>=|=|[<>])", r"", "variables on the left, a number on the right", "row 1 >= x"),
    Slip("model", "after a coefficient", r"(?P<at><=|>=|=|[<>])", r"", "numbers alone only on the right", "row x + 3 <= 1"),
    Slip("model", "after a coefficient", r"^\s*(?:min|max)\b.*(?P<at>[-+])", r"", "a goal's number comes last, and there is one at most", "min 2 + 3 x"),
    Slip("model", "after a coefficient", r"(?P<at>\+|-)", r"", "numbers alone only on the right", "row 3 + x <= 1"),
    Slip("model", "after .*", r"(?P<at>\*\*|\^)", r"", "rows are linear: no powers and no products of variables", "row x^2 <= 1"),
    Slip("model", "after a coefficient", r"[0-9]\s*(?P<at>\*)", r"", "no * between a number and its variable: write 2 x", "row 2*x <= 1"),
    Slip("model", "after a term", r"(?P<at>\*)\s*[-+]?[0-9.]", r"", "the number comes before its variable, without *", "row x*2 <= 1"),
    Slip("model", "after a term", r"(?P<at>/)\s*[0-9]", r"", "the number comes before its variable: x/2 is 1/2 x", "row x/2 <= 1"),
    Slip("model", "after .*", r"(?P<at>\*)", r"", "rows are linear: no products of variables, and no * at all", "row x*y <= 1"),
    Slip("model", "after a coefficient", r"[0-9]\s*(?P<at>\.)", r"", "a decimal has digits on both sides of its point: 5 or 5.0", "row 5. x <= 1"),
    Slip("model", "after a coefficient", r"[0-9](?P<at>,[0-9])", r"", "numbers have no commas between their digits", "row 1,000 x <= 1"),
    Slip("model", "after a coefficient", r"(?P<at>/)", r"", "a fraction is digits, / and digits without blanks: 3/5", "row 3 / 5 x <= 1"),
    Slip("model", "first term|term|right side|low|high|after a coefficient|goal", r"(?P<at>\.)(?=[0-9])", r"0.", "a decimal has digits on both sides of its point: 0.5", "row .5 x <= 1"),
    Slip("model", "first term|term|after (a term|a coefficient|0|the right side)", r"(?P<at>\()", r"", "no parentheses in sums", "row (x + y) <= 1"),
    Slip("model", "first term|term|after (a term|a coefficient|0|the right side)", r"(?P<at>\[|\{)", r"", "there are no sets and no indices: each variable has a name of its own, such as x.1", "row x[1] <= 1"),
    Slip("model", "after a term", r"^\s*row\s+\S+\s*(?P<at>:)", r"", "rows have no names: write it as a comment", "row c1: x <= 1"),
    Slip("model", "after a term", rf"^\s*row\s+{NAME}\s+(?P<at>{NAME})\s*:", r"", "rows have no names: write it as a comment", "row limit c1: x <= 1"),
    Slip("model", "after a term", rf"(?P<at>{NAME})", r"", "between terms stands + or -", "row x y <= 1"),
    Slip("model", "after a term", r"(?P<at>[0-9])", r"", "the number comes before its variable, and between terms stands + or -", "row x 2 <= 1"),
    Slip("model", "after a term", r"^\s*row\b.*(?P<at>$)", r"", "a row has a relation and a number on the right: sum <= number", "row x + y"),
    Slip("model", "term", r"(?P<at>[-+])", r"", "one sign before a term", "row x + - y <= 1"),
    Slip("model", "first term", r"^\s*row\s*(?P<at><=|>=|=)", r"", "a sum without terms is written as 0: row 0 <= 5", "row <= 1"),
    Slip("model", "twice in a sum", r"", r"", "a variable stands once in a sum: add its numbers up", "row x + x <= 1"),
    Slip("model", "coefficient of 0", r"", r"", "no coefficient is 0: leave the variable out", "row 0 x + y <= 1"),
    # Declarations.
    Slip("model", "name|after the name|kind", rf"^(\s*)(var|boolean|disjunct)\s+({NAME})-.*", r"", "a name has no -: use _", "var old-line real 0 1"),
    Slip("model", "name", r"^\s*(?:var|boolean|disjunct)\s+(?P<at>[0-9])", r"", "a name begins with a letter or _", "var 1x real 0 1"),
    Slip("model", "name", r"(?P<at>['\"])", r"", "names stand without quotes: letters, digits, _ and .", "boolean 'old'"),
    Slip("model", "name", r"(?P<at>\b(?:not|and|or|implies|equivalent|xor|exactly|atleast|atmost|inf|end)\b)", r"\g<at>_", "this word is reserved", "boolean or"),
    Slip("model", "name", r"^(\s*)disjunct\s*(?P<at>$)", r"", "each disjunct has a name, that of its indicator", "disjunction or\ndisjunct"),
    Slip("model", "kind", rf"^(\s*var\s+{NAME}\s+)(?P<at>(?i:bin|binary|bool|boolean|logical))\b.*$", r"\1int 0 1", "a variable of 0 and 1 is int 0 1; a truth value is a `boolean`", "var z bin 0 1"),
    Slip("model", "kind", rf"^(\s*var\s+{NAME}\s+)(?P<at>(?i:integer|integers|int|ints|whole|general))\s+({BOUNDS})\s*$", r"\1int \3", "the kinds are real and int", "var z integer 0 9"),
    Slip("model", "kind", rf"^(\s*var\s+{NAME}\s+)(?P<at>(?i:integer|integers|int|ints|whole|general))\s*$", r"\1int -inf inf", "the kinds are real and int, and both bounds are written", "var z integer"),
    Slip("model", "kind", rf"^(\s*var\s+{NAME}\s+)(?P<at>(?i:real|reals|continuous|float|double|cont|number))\s+({BOUNDS})\s*$", r"\1real \3", "the kinds are real and int", "var z continuous 0 1"),
    Slip("model", "kind", rf"^(\s*var\s+{NAME}\s+)(?P<at>(?i:real|reals|continuous|float|free|cont|number))\s*$", r"\1real -inf inf", "the kinds are real and int, and both bounds are written", "var z continuous"),
    Slip("model", "kind", rf"^(\s*var\s+{NAME})\s*(?P<at>>=|>)\s*({N})\s*,?\s*(?:<=|<)\s*({N})\s*;?\s*$", r"\1 real \3 \4", "the kind and both bounds are written: real LOW HIGH", "var z >= 0, <= 9"),
    Slip("model", "kind", rf"^(\s*var\s+{NAME})\s*(?P<at>>=|>)\s*({N})\s*(?:,\s*integer)\s*;?\s*$", r"\1 int \3 inf", "the kind and both bounds are written: int LOW HIGH", "var z >= 0, integer"),
    Slip("model", "kind", rf"^(\s*var\s+{NAME})\s*(?P<at>>=|>)\s*({N})\s*;?\s*$", r"\1 real \3 inf", "the kind and both bounds are written: real LOW HIGH", "var z >= 0"),
    Slip("model", "kind", rf"^(\s*var\s+{NAME})\s*(?P<at><=|<)\s*({N})\s*;?\s*$", r"\1 real -inf \3", "the kind and both bounds are written: real LOW HIGH", "var z <= 9"),
    Slip("model", "kind", rf"^(\s*var\s+{NAME}\s+)(?P<at>{BOUNDS})\s*$", r"\1real \g<at>", "the kind comes before the bounds: real or int", "var z 0 9"),
    Slip("model", "kind", rf"^(\s*var)\s+(real|int)\s+(?P<at>{NAME})\s+({BOUNDS})\s*$", r"\1 \3 \2 \4", "the name comes before the kind", "var real z 0 9"),
    Slip("model", "kind", rf"^(\s*)var\s+({NAME})\s*(?P<at>,)", r"", "one variable a line", "var z, w real 0 1"),
    Slip("model", "kind", rf"^(\s*var\s+{NAME})\s*(?P<at>[;:])?\s*$", r"\1 real -inf inf", "the kind and both bounds are written: real LOW HIGH", "var z"),
    Slip("model", "kind", rf"^(\s*var\s+{NAME})\s*(?P<at>:|=|in\b)\s*(real|int)\s+({BOUNDS})\s*$", r"\1 \3 \4", "nothing stands between a name and its kind", "var z: real 0 1"),
    Slip("model", "low", r"^(\s*var\s+\S+\s+(?:real|int))\s*(?P<at>[;])?\s*$", r"\1 -inf inf", "both bounds are written: LOW HIGH, with -inf and inf where that side is open", "var z real"),
    Slip("model", "low", rf"^(\s*var\s+\S+\s+(?:real|int))\s*(?P<at>[\[(])\s*({N}|-\s*inf)\s*,\s*({N}|inf)\s*[\])]\s*$", r"\1 \3 \4", "bounds are two numbers with a blank between them", "var z real [0, 9]"),
    Slip("model", "low", rf"^(\s*var\s+\S+\s+(?:real|int))\s*(?P<at>>=|>)\s*({N})\s*$", r"\1 \3 inf", "both bounds are written: LOW HIGH", "var z real >= 0"),
    Slip("model", "low", rf"^(\s*var\s+\S+\s+(?:real|int))\s*(?P<at><=|<)\s*({N})\s*$", r"\1 -inf \3", "both bounds are written: LOW HIGH", "var z real <= 9"),
    Slip("model", "low", r"(?<!-)(?<!- )(?P<at>(?i:inf|infinity|oo|infty))\b", r"-inf", "an open low bound is -inf", "var z real inf 0"),
    Slip("model", "low", r"-\s*(?P<at>(?i:infinity|oo|infty|inf))\b", r"-inf", "an open low bound is -inf", "var z real -infinity 0"),
    Slip("model", "high", r"\+\s*(?P<at>(?i:infinity|oo|infty|inf))\b", r"inf", "an open high bound is inf", "var z real 0 +inf"),
    Slip("model", "high", r"(?P<at>(?i:infinity|oo|infty|inf|none))\b", r"inf", "an open high bound is inf", "var z real 0 infinity"),
    Slip("model", "high", r"(?P<at>,|\.\.|:|;|to\b)\s*(?=[-+0-9i])", r" ", "bounds are two numbers with a blank between them", "var z real 0, 9"),
    Slip("model", "high", r"(?<=[0-9])(?P<at>[eE][+-]?[0-9]+)", r"", "numbers have no powers of ten: write the digits", "var z real 1e2 9e9"),
    Slip("model", "high", r"\s*(?P<at>;?\s*$)", r" inf", "both bounds are written: LOW HIGH, with inf where that side is open", "var z real 0"),
    Slip("model", "high", r"(?P<at>[-+*/(])", r"", "a bound is a number: no sums and no names", "var z real 0 (9)"),
    Slip("model", "low|high", r"(?P<at>[A-Za-z_])", r"", "a bound is a number: no sums and no names", "var z real low 9"),
    Slip("model", "after the bounds", r"[0-9](?P<at>,[0-9]{3}\b)", r"", "numbers have no commas between their digits", "var z real 0 1,000"),
    Slip("model", "after the bounds", r"(?<=[0-9])(?P<at>[eE][+-]?[0-9]+)", r"", "numbers have no powers of ten: write the digits", "var z real 0 1e6"),
    Slip("model", "after the bounds", r"(?P<at>;|,|\]|\)).*$", r" ", "nothing stands after the bounds but a comment", "var z real 0 9]"),
    Slip("model", "crossed bounds", rf"^(\s*var\s+\S+\s+(?:real|int)\s+)({N})\s+({N})\s*$", r"\1\3 \2", "the low bound comes first", "var z real 9 0"),
    Slip("model", "after the name", rf"^(\s*boolean\s+{NAME})\s*(?P<at>,?)\s*{NAME}", r"", "one Boolean a line", "boolean e, f"),
    Slip("model", "after the name", r"\s*(?P<at>[:;{]).*$", r" ", "nothing stands after the name but a comment", "disjunction or\ndisjunct e:"),
    Slip("model", "boolean of a (boolean|indicator)|var of a .*|boolean of a variable", r"", r"", "each name is declared once in a model, wherever it stands", "boolean x"),
    Slip("model", "disjunct of a boolean", r"", r"", "`disjunct` alone declares its indicator: leave the `boolean` line out", "disjunction xor\ndisjunct a"),
    Slip("model", "disjunct of a .*", r"", r"", "each disjunct has a name of its own, that no variable and no other disjunct has", "disjunction xor\ndisjunct x"),
    # The first word of a line.
    Slip("model", "first word", rf"(?P<at>(?i:minimi[sz]e|maximi[sz]e))\s+{NAME}\s*:", r"", "the goal is `min` or `max`, and has no name", "Minimize cost: x"),
    Slip("model", "first word", r"(?P<at>(?i:min(?:imi[sz]e|imum)?|max(?:imi[sz]e|imum)?))\b", r"", "the goal is `min` or `max`, in small letters", "minimize x"),
    Slip("model", "first word", r"(?P<at>(?i:subject\s+to|such\s+that|s\.\s*t\.|st)|(?i:constraints?|variables|bounds|binary|binaries|generals?)\s*:?\s*$)", r"# \g<at>", "a model has no sections: each row begins with `row`", "subject to"),
    Slip("model", "first word", rf"^(\s*)(?P<at>(?i:integer|int|whole))\s+({NAME})\s+({BOUNDS})\s*;?\s*$", r"\1var \3 int \4", "a variable is `var NAME int LOW HIGH`", "int z 0 9"),
    Slip("model", "first word", rf"^(\s*)(?P<at>(?i:real|float|continuous))\s+({NAME})\s+({BOUNDS})\s*;?\s*$", r"\1var \3 real \4", "a variable is `var NAME real LOW HIGH`", "real z 0 9"),
    Slip("model", "first word", rf"^(\s*)(?P<at>(?i:binary|bin))\s+({NAME})\s*;?\s*$", r"\1var \3 int 0 1", "a variable of 0 and 1 is `int 0 1`; a truth value is a `boolean`", "binary z"),
    Slip("model", "first word", rf"^(\s*)(?P<at>(?i:bool|logical|booleans?))\s+({NAME})\s*;?\s*$", r"\1boolean \3", "a truth value is a `boolean`", "bool e"),
    Slip("model", "first word", r"^(\s*)(?P<at>(?i:variable|var|declare))\b", r"\1var", "a variable is `var NAME real LOW HIGH`, in small letters", "Var z real 0 1"),
    Slip("model", "first word", r"^(\s*)(?P<at>(?i:row|rows|constraint))\b", r"\1row", "a row begins with `row`, in small letters", "Row x <= 1"),
    Slip("model", "first word", r"^(\s*)(?P<at>(?i:disjunction|choice|choose|either|alternatives?))\s+(xor|or)\b", r"\1disjunction \3", "a choice is `disjunction xor` or `disjunction or`", "choice xor"),
    Slip("model", "first word", r"^(\s*)(?P<at>(?i:disjunct|case|option|when))\s+(?=[A-Za-z_])", r"\1disjunct ", "a block of a choice is `disjunct NAME`", "disjunction xor\ncase e"),
    Slip("model", "first word", r"^(\s*)(?P<at>(?i:end\w*|fi|done|esac|\}))\s*;?\s*$", r"\1end", "a block is closed by `end`", "disjunction or\ndisjunct e\nendif"),
    Slip("model", "first word", r"^(\s*)(?P<at>(?i:logic|logical|prop|proposition|assert))\b", r"\1logic", "a proposition begins with `logic`", "prop a"),
    Slip("model", "first word", r"(?P<at>(?i:param|parameter|set|let|data|const|table)\b)", r"", "there are no parameters and no sets: write the numbers into the rows", "param n 5"),
    Slip("model", "first word", r"(?P<at>(?i:for|forall|sum|foreach)\b)", r"", "there are no sums over sets and no loops: write each row", "for i in 1..3"),
    Slip("model", "first word", r"(?P<at>(?i:if|unless)\b)", r"", "what holds in one case only is a disjunct of a disjunction", "if a then x <= 1"),
    Slip("model", "first word", r"(?P<at>gdp)\s+1\b", r"", "the header stands once, on the first line", "gdp 1"),
    Slip("model", "first word", r"(?P<at>\w.*?)(?:<=|>=|=|<|>)", r"", "a row begins with `row`", "x + y <= 1"),
    # Disjunctions.
    Slip("model", "mode", r"^(\s*disjunction)\s*(?P<at>[:;]?)\s*$", r"\1 xor", "a disjunction says its mode: `xor` for exactly one, `or` for one at least", "disjunction"),
    Slip("model", "mode", r"(?P<at>(?i:xor|exactly|exactlyone|one|exclusive)\b).*$", r"xor", "the modes are `xor`, exactly one, and `or`, one at least", "disjunction one of"),
    Slip("model", "mode", r"(?P<at>(?i:or|any|inclusive|atleast)\b).*$", r"or", "the modes are `xor`, exactly one, and `or`, one at least", "disjunction any"),
    Slip("model", "mode", r"(?P<at>and\b)", r"", "rows that hold together need no disjunction: write one below the other", "disjunction and"),
    Slip("model", "mode", rf"^(\s*disjunction)\s+(?P<at>{NAME}):?\s+(xor|or)\s*:?\s*$", r"\1 \3", "disjunctions have no names", "disjunction lines xor"),
    Slip("model", "mode", rf"(?P<at>{NAME})", r"xor", "disjunctions have no names, and say their mode: `xor` or `or`", "disjunction lines"),
    Slip("model", "after the mode", r"^(\s*disjunction\s+(?:xor|or))\s*(?P<at>\S.*)$", r"\1", "nothing stands after the mode but a comment", "disjunction xor lines"),
    Slip("model", "after end", r"^(\s*end)\s*(?P<at>\S.*)$", r"\1", "nothing stands after `end` but a comment", "disjunction or\ndisjunct e\nend disjunct"),
    Slip("model", "row in a disjunction|logic in a disjunction", r"", r"", "put it in a `disjunct`: a disjunction holds disjuncts alone", "disjunction xor\nrow x <= 1"),
    Slip("model", "disjunction in a disjunction", r"", r"", "put it in a `disjunct`, or close the first one with `end` above", "disjunction xor\ndisjunction or"),
    Slip("model", "disjunct in a disjunct", r"", r"", "close the disjunct above with `end`, or open a `disjunction` in it", "disjunction xor\ndisjunct e\ndisjunct f"),
    Slip("model", "(var|boolean) in a (disjunct|disjunction)", r"", r"", "declare it above, outside all blocks", "disjunction xor\ndisjunct e\nvar z real 0 1"),
    Slip("model", "(min|max) in a (disjunct|disjunction)", r"", r"", "the goal stands outside all blocks: what a choice costs is a variable with a row in each disjunct", "disjunction xor\ndisjunct e\nmin x"),
    Slip("model", "boolean after a disjunction", r"", r"", "declare it above, before the first `disjunction`", "disjunction xor\ndisjunct e\nend\nend\nboolean f"),
    Slip("model", "second goal", r"", r"", "one goal at most: add the two up with weights, or make a row of one", "min x\nmax y"),
    Slip("model", "end outside", r"", r"", "there is an `end` too many: one for each `disjunct` and each `disjunction`", "end"),
    Slip("model", "disjunct outside", r"", r"", "disjuncts stand in a `disjunction xor` or `disjunction or`", "disjunct e"),
    Slip("model", "unclosed", r"", r"", "one `end` for each `disjunct` and each `disjunction`", "disjunction xor\ndisjunct e\nend"),
    Slip("model", "no disjunct", r"", r"", "a disjunction has at least one `disjunct`", "disjunction xor\nend"),
    Slip("model", "no variable", r"", r"", "a model declares at least one variable", "=gdp 1\nboolean a"),
    # Propositions.
    Slip("model", "count", r"\b(exactly|atleast|atmost)\s*\(\s*(?P<at>[A-Za-z_])", r"\1(1, \g<at>", "the number comes first", "logic exactly(a, b)"),
    Slip("model", "count", r"(?P<at>[0-9]+)\.0*\b", r"\g<at>", "what is counted to is a whole number", "logic exactly(1.0, a)"),
    Slip("model", "count", r"(?P<at>[-+])", r"", "what is counted to is a whole number without a sign", "logic atleast(+1, a)"),
    Slip("model", "after a connective", r"\b(exactly|atleast|atmost)\s*(?P<at>[0-9]+)\s*\(", r"\1(\g<at>, ", "the number comes first within the parentheses", "logic exactly 1(a, b)"),
    Slip("model", "after a count", r"(?P<at>\))", r"", "what is counted follows the number: exactly(1, a, b)", "logic exactly(1)"),
    Slip("model", "after a count", r"(?P<at>[;:]?)\s*", r", ", "a comma after the number", "logic exactly(1; a, b)"),
    Slip("model", "after a connective", r"", r"", "connectives stand before their arguments, in parentheses: not(a), and(a, b)", "logic not a"),
    Slip("model", "after argument 2 of xor", r"", r"", "xor takes two arguments: exactly(1, a, b, c) says that one of several is true", "logic xor(a, b, c)"),
    Slip("model", "after argument [0-9]+ of .*", r"(?P<at>,)", r"", "this connective takes fewer arguments", "logic implies(a, b, c)"),
    Slip("model", "after argument [0-9]+ of .*", r"(?P<at>$)", r"", "a parenthesis is open", "logic and(a, b"),
    Slip("model", "after argument 1 of (implies|equivalent|xor)", r"(?P<at>\))", r"", "this connective takes two arguments", "logic implies(a)"),
    Slip("model", "after argument [0-9]+ of .*", r"(?P<at>;)", r",", "arguments are separated by commas", "logic and(a; b)"),
    Slip("model", "after argument [0-9]+ of .*", r"(?P<at>\()", r"", "the connectives are not, and, or, implies, equivalent, xor, exactly, atleast and atmost, in small letters", "logic not(And(a, b))"),
    Slip("model", "after a proposition", r"(?P<at>\()", r"", "the connectives are not, and, or, implies, equivalent, xor, exactly, atleast and atmost, in small letters", "logic And(a, b)"),
    Slip("model", "after a proposition", r"(?P<at>\))", r"", "there is a parenthesis too many", "logic and(a, b))"),
    Slip("model", "after a proposition|after argument [0-9]+ of .*", r"(?P<at>->|=>|<=|-)", r"", "connectives stand before their arguments: implies(a, b)", "logic a -> b"),
    Slip("model", "after a proposition|after argument [0-9]+ of .*", r"(?P<at><->|<=>|==?|<)", r"", "connectives stand before their arguments: equivalent(a, b)", "logic a = b"),
    Slip("model", "after a proposition|after argument [0-9]+ of .*", r"(?P<at>\S)", r"", "connectives stand before their arguments: and(a, b), or(a, b)", "logic a and b"),
    Slip("model", "argument", r"(?P<at>[!~\u00ac])", r"", "a negation is not(a)", "logic !a"),
    Slip("model", "argument", r"(?P<at>\))", r"", "a connective has at least one argument, and no comma stands after the last", "logic and()"),
    Slip("model", "argument", r"(?P<at>\()", r"", "no parentheses round a proposition alone", "logic (a)"),
    Slip("model", "argument", r"(?P<at>[0-9])", r"", "an argument is a proposition: a number stands only first in exactly, atleast and atmost", "logic and(1, a)"),
    Slip("model", "argument", r"^\s*logic\s*(?P<at>$)", r"", "a proposition follows `logic`", "logic"),
    # Names that aren't there.
    Slip("model", "boolean|indicator", r"^\s*(?:row|min|max)\b", r"", "sums have variables alone: write a choice as a disjunction, or declare a variable int 0 1", "row a <= 1"),
    Slip("model", "variable", r"^\s*logic\b", r"", "propositions have Booleans and indicators alone: declare it as `boolean`", "logic x"),
    Slip("model", "declared below", r"", r"", "a name comes before its use: move its line up", "row x + z <= 1\nvar z real 0 1"),
    Slip("model", "misspelled", r"", r"", "names are written alike everywhere, capitals too", "row X <= 1"),
    Slip("model", "unknown", r"^\s*logic\b", r"", "declare it above: `boolean NAME`", "logic night"),
    Slip("model", "unknown", r"", r"", "declare it above: `var NAME real LOW HIGH`", "row fuel <= 1"),
    # Points.
    Slip("point", "header", r"(?i)^\s*gdp[-_ ]?point\b.*", r"gdp-point 1", "the header is `gdp-point 1`", "=gdp point 1\nover 1\nval x 1\nval y 1\nend"),
    Slip("point", "header", r"^\s*gdp\s+1", r"", "this is a model: the first name is the point's, the second its model's", "=gdp 1\nvar x real 0 1"),
    Slip("point", "header", r"\S", r"gdp-point 1\n\g<0>", "a point begins with the line `gdp-point 1`", "=over 1\nval x 1\nval y 1\nend"),
    Slip("point", "over", r"^\s*(?i:over|denominator|divisor)\s*[=:]?\s*([0-9]+)\s*$", r"over \1", "write `over`, a blank and the number", "=gdp-point 1\nover = 1\nval x 1\nval y 1\nend"),
    Slip("point", "over", r"^\s*(val|on|end)\b", r"over 1\n\g<0>", "the second line is `over D`; all values are over D, which may be 1", "=gdp-point 1\nval x 1\nval y 1\nend"),
    Slip("point", "over", r"", r"", "the second line is `over D`; all values are over D, which may be 1", "=gdp-point 1\nx 1\nend"),
    Slip("point", ".*", r"\r$", r" ", "a carriage return stands only before a newline, once: end the last line with a newline", "val x 3\r\r"),
    Slip("point", "second over", r"", r"", "there is one `over`, for all values", "=gdp-point 1\nover 2\nover 3"),
    Slip("point", "value", r"(?P<at>[0-9]+)\.0*$", r"\g<at>", "values are whole numbers over D", "val x 3.0"),
    Slip("point", "value", r"(?P<at>-?[0-9]*[./][0-9]+)", r"", "values are whole numbers, over D: for 7/2 write `over 2` and `val x 7`", "val x 3.5"),
    Slip("point", "value", r"(?P<at>\+)\s*(?=[0-9])", r" ", "a value has no plus sign", "val x +3"),
    Slip("point", "value", r"(?P<at>-)\s+([0-9])", r"-\2", "the minus sign stands directly before the digits", "val x - 3"),
    Slip("point", "value|name", rf"^(\s*val\s+{NAME})\s*(?P<at>[:=]+)\s*(-?[0-9]+)\s*$", r"\1 \3", "a name, a blank and the number", "val x = 3"),
    Slip("point", "value", r"(?P<at>[-0-9][0-9]*[eE])", r"", "numbers have no powers of ten: write the digits", "val x 1e3"),
    Slip("point", "value", r"(?P<at>[0-9]+[,_])", r"", "numbers have no marks between their digits", "val x 1,000"),
    Slip("point", "value", r"(?P<at>(?i:true|yes|on)\b)", r"", "a Boolean that is true has the line `on NAME`", "val a true"),
    Slip("point", "value", r"(?P<at>-?[0-9]+)[;,.]\s*$", r"\g<at>", "a line has no end mark", "val x 3;"),
    Slip("point", "after a value", r"(?P<at>\S).*$", r" ", "nothing stands after the value but a comment", "val x 3 tonnes"),
    Slip("point", "after a name", r"^(\s*on\s+\S+)\s+(?P<at>(?i:1|true|yes)\b.*)$", r"\1", "`on NAME` alone says that it is true", "on a 1"),
    Slip("point", "after a name", r"(?P<at>(?i:0|false|no)\b)", r"", "what is false has no line", "on a 0"),
    Slip("point", "after a name", r"^\s*on\b", r"", "one name a line", "on a b"),
    Slip("point", "first word", rf"^(\s*)(?P<at>{NAME})\s*[:=]*\s+(-?[0-9]+)\s*$", r"\1val \2 \3", "a value begins with `val`", "x 3"),
    Slip("point", "first word", rf"^(\s*)(?P<at>{NAME})\s*[:=]+\s*(-?[0-9]+)\s*$", r"\1val \2 \3", "a value begins with `val`", "x=3"),
    Slip("point", "first word", r"(?P<at>off|not)\b", r"", "what is false has no line", "off a"),
    Slip("point", "after the end", r"", r"", "nothing stands after `end` but comments", "=gdp-point 1\nover 2\nval x 1\nval y 1\nend\nend"),
    Slip("point", "boolean|indicator", r"^(\s*)val\s+(\S+)\s+0*1\s*$", r"\1on \2", "a Boolean that is true has the line `on NAME`; what is false has no line", "val a 1"),
    Slip("point", "boolean|indicator", r"", r"", "a Boolean that is true has the line `on NAME`; what is false has no line", "val a 0"),
    Slip("point", "variable", r"", r"", "a variable's value is `val NAME N`", "on x"),
    Slip("point", "twice", r"", r"", "one line for each name", "on a\non a"),
    Slip("point", "misspelled", r"", r"", "names are written as in the model, capitals too", "val X 3"),
    Slip("point", "unknown", r"^\s*val\b", r"", "a point gives values to the variables of its model, and to no others", "val z 3"),
    Slip("point", "unknown", r"", r"", "a point says which Booleans and indicators of its model are true, and no others", "on z"),
    Slip("point", "no value", r"", r"", "each variable has a `val` line", "=gdp-point 1\nover 2\nval x 1\nend"),
    Slip("point", "no end", r"", r"", "a point ends with `end`", "=gdp-point 1\nover 2\nval x 1\nval y 1"),
    # Answers: written by `solve`, and exact to the byte.
    Slip("answer", "comment", r"", r"", "an answer has no comments", "=gdp-answer 1\nroute logic\nbest 10\nover 1\nval x 10\nval y 0\n# why\ntree"),
    Slip("answer", "blanks", r"", r"", "an answer is exact: single blanks, none at the ends of a line, and no carriage return", "=gdp-answer 1\nroute logic\nbest 10\nover 1\nval x 10\nval y 0\ntree \n"),
    Slip("answer", "lowest terms", r"", r"", "fractions are in lowest terms, whole numbers without a denominator, leading zeros or +", "=gdp-answer 1\nroute logic\nbest 6/4\n"),
    Slip("answer", "no newline", r"", r"", "each line ends with a newline, the last one too", "=gdp-answer 1\nroute logic\nbest 10\nover 1\nval x 10\nval y 0\ntree\nbounded 1\nend"),
    Slip("answer", "early end", r"", r"", "the text is cut off: take the answer as `solve` wrote it", "=gdp-answer 1\nroute logic\nbest 10\nover 1\nval x 10\nval y 0\ntree\nbounded 1\n"),
    Slip("answer", "header", r"^gdp-log", r"", "this is a log: `solve` gave up, and claims nothing that could be checked", "=gdp-log 1\nroute logic"),
    Slip("answer", "header", r"^gdp-lp", r"", "this answers an LP text: `check` reads the answers of `solve`", "=gdp-lp 1\nempty\nend\n"),
    Slip("answer", "pairs", r"", r"", "the pairs I:M stand in ascending order of I, and no M is 0", "=gdp-answer 1\nroute logic\nbest 10\nover 1\nval x 10\nval y 0\ntree\nbounded 1 3:1 2:1\n"),
    Slip("answer", "due name", r"", r"", "values stand in the order of the model's variables; on lines in that of its Booleans", "=gdp-answer 1\nroute logic\nbest 10\nover 1\nval y 10\n"),
    Slip("answer", "complete tree", r"", r"", "the tree is complete: each `int` and `truth` has two halves, and each other node none", "=gdp-answer 1\nroute logic\nbest 10\nover 1\nval x 10\nval y 0\ntree\nbounded 1\nbounded 1\nend\n"),
    Slip("answer", "open tree", r"", r"", "the tree isn't complete: each `int` and `truth` has two halves", "=gdp-answer 1\nroute logic\nbest 10\nover 1\nval x 10\nval y 0\ntree\nint 0 3\nbounded 1\nend\n"),
    Slip("answer", "first word", r"", r"", "the lines come in this order: header, route, claim, point, tree or steps, end", "=gdp-answer 1\nbest 10\n"),
    # LP text.
    Slip("lp", "unsupported", r"(?<=[0-9.])\s*(?P<at>\*)\s*", r" ", "no * between a number and its variable: write 2 x", " 2 * x >= 1"),
    Slip("lp", "unsupported", r"(?P<at>\*)", r"", "products of variables are not read: this is a solver of linear programs", " x * y >= 1"),
    Slip("lp", "unsupported", r"(?P<at>\^|\[)", r"", "quadratic terms are not read: this is a solver of linear programs", " [ x ^ 2 ] >= 1"),
    Slip("lp", "unsupported", r"(?P<at><->|->)", r"", "indicator constraints are not read: write them with a big number, or as a disjunction in a model", " x = 1 -> y >= 2"),
    Slip("lp", "unsupported", r"(?P<at>(?i:sos\w*))", r"", "special ordered sets are not read", "sos1"),
    Slip("lp", "unsupported", r"(?P<at>(?i:semi))", r"", "semi-continuous variables are not read: write a binary variable and two rows", "semi-continuous\n x"),
    Slip("lp", "unsupported", r"(?P<at>(?i:lazy|user))", r"", "lazy constraints and cuts are not read: put them under `Subject To`", "lazy constraints\n x >= 1"),
    Slip("lp", "unread section", r"", r"", "whole variables stand below `General`, and those of 0 and 1 below `Binary`", "bounds\n x <= 5\nIntegers\n x y"),
    Slip("lp", "open .*", r"", r"", "what stands above isn't complete; sections are `Bounds`, `General`, `Binary` and `End`, and no others", "integers\n x"),
    Slip("lp", "after a coefficient", r"[0-9]\s*(?P<at>/)", r"", "numbers are decimals: 0.5 for 1/2", " 1/2 x >= 1"),
    Slip("lp", "(bound|after a bound.*)", r"", r"", "a bound is of one variable: x <= 5, x >= 1, 0 <= x <= 5, x = 3 or x free", "bounds\n 2 x <= 5"),
    Slip("lp", "first term|term", r"(?P<at>\.)", r"", "a name doesn't begin with a point", " .x >= 1"),
    Slip("lp", "right side", rf"(?P<at>[A-Za-z_!\"#$%&({{}})~])", r"", "variables on the left, a number on the right", " x >= y"),
    Slip("lp", "after a coefficient", r"(?P<at>[<>]=?|=[<>]?)\s*[^<>=\s].*[<>=]", r"", "a range is two rows, or the bounds of the variable", " 0 <= x <= 1"),
    Slip("lp", "objective|term|first term", r"(?P<at><=|>=|=|<|>)", r"", "a range is two rows, or the bounds of the variable", " x + y >= 1 <= 3"),
    Slip("lp", "after a coefficient", r"(?P<at><=|>=|=<|=>|=|<|>)", r"", "numbers alone only on the right", " x + 3 >= 1"),
    Slip("lp", "after a coefficient", r"(?P<at>[-+])", r"", "numbers alone only on the right", " 3 + x >= 1"),
    Slip("lp", "twice", r"", r"", "a variable stands once in a row: add its numbers up", " x + x >= 1"),
    Slip("lp", "objective first", r"", r"", "the text begins with `Minimize` or `Maximize`", "=minimise x\nst\n x >= 1\n"),
    Slip("lp", "section", r"", r"", "the objective comes first, then `Subject To`, then bounds, general and binary", "st\n x >= 1"),
    Slip("lp", "no rows", r"", r"", "a text has an objective and a line `Subject To`, which may be empty", "=min x\n"),
    Slip("lp", "after end", r"", r"", "nothing stands after `End` but comments", "end\nx"),
]  # fmt: skip


def matched(slip: Slip, line: str, place: int) -> re.Match[str] | None:
    """The match of a slip's pattern with its group `at` at this place, which a mark stands for in both."""
    if "(?P<at>" not in slip.pattern:
        return re.search(slip.pattern, line)
    return re.search(slip.pattern.replace("(?P<at>", f"{MARK}(?P<at>"), line[:place] + MARK + line[place:]) if place >= 0 else None


def slip_at(kind: str, what: str, line: bytes, place: int) -> tuple[Slip, str] | None:
    """The first slip that fits what was found at the place, and the line as it should be, or the empty text."""
    text = line[:LATER].decode("utf-8", "surrogateescape")
    at = len(line[:place].decode("utf-8", "surrogateescape")) if place <= LATER else -1
    for slip in TABLE:
        if slip.kind != kind or not re.fullmatch(slip.what, what):
            continue
        found = matched(slip, text, at)
        if found:
            whole = found.string
            written = whole[: found.start()] + found.expand(slip.write) + whole[found.end() :] if slip.write else ""
            return slip, written.replace(MARK, "") if len(line) <= LATER else ""
    return None
