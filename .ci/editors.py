#!/usr/bin/env python3
"""Compares the colours that `editors/` gives to each word of the examples with what the manual says the word is.

The kinds come from the tables of `docs/FORMATS.md` and the place of a word in its line. The TextMate grammar is played by a few lines
here, which know its `match` rules and their captures; the Vim syntax is asked of `vim`, where that is installed.
"""

import json
import pathlib
import re
import shutil
import subprocess
import sys
import tempfile

ROOT = pathlib.Path(__file__).resolve().parent.parent
GRAMMAR = ROOT / "editors" / "textmate" / "gdp.tmLanguage.json"
SCOPES = {
    "comment.line": "comment",
    "keyword.other": "line word",
    "entity.name": "declared name",
    "storage.type": "kind",
    "storage.modifier": "mode",
    "keyword.operator.word": "connective",
    "keyword.operator.relation": "relation",
    "keyword.operator.sign": "sign",
    "constant.language": "inf",
    "constant.numeric": "number",
    "variable.other": "name",
    "punctuation": "punctuation",
    "invalid": "error",
}
GROUPS = {
    "gdpComment": "comment",
    "gdpWord": "line word",
    "gdpVariable": "declared name",
    "gdpDeclared": "declared name",
    "gdpKind": "kind",
    "gdpMode": "mode",
    "gdpConnective": "connective",
    "gdpRelation": "relation",
    "gdpSign": "sign",
    "gdpInfinite": "inf",
    "gdpNumber": "number",
    "gdpName": "name",
    "gdpDelimiter": "punctuation",
    "gdpError": "error",
}
TOKEN = re.compile(r"#.*|[A-Za-z_][A-Za-z0-9_.]*|[0-9]+(?:[./][0-9]+)?|<=|>=|[-+=(),]|[^ \t]")
# Every word of the manual's tables, words of lines as names, and what is refused.
WORDS = """# A text for colours: not, and 1 <= 2.
 gdp\t1   # version
var row real -inf inf
var var int 0 12#none
var real real -1/2 0.75
var inf.1 real 0 inf
var _e3 real +5/2 010
boolean night.shift
boolean notable
boolean end_
max 5 row - 2 var+real - 1/2 inf.1 + 12
row 2_e3 - row>=-30
row 0 <= 5
row 3row+2var<=7
disjunction xor
\tdisjunct min
    row real = 0
    disjunction or
      disjunct xor.1
        logic and(min, not(night.shift), or(notable, end_))
      end
    end # of the inner one
  end
  disjunct logic
    logic equivalent(logic, xor(min, xor.1))
  end
end
logic implies( min,exactly(1, notable, min) )
logic atleast(01, notable)
logic atmost(1000, logic)
"""
BROKEN = [("row x < 1", 6, "error"), ("row 2*x <= 1", 5, "error"), ("row x <= 1;", 10, "error"), ("var x whole 0 1", 6, "name"), ("Row x <= 1", 0, "name")]


def manual_words():
    """The words of lines, the kinds, the modes and the connectives, from the tables of the manual."""
    text = (ROOT / "docs" / "FORMATS.md").read_text()
    lines = text.partition("| line | example | says | stands |")[2].partition("\n\n")[0]
    spelled = [one.split() for row in lines.splitlines() for one in re.findall("`([^`]*)`", row.split(" | ")[0])]
    connectives = re.findall(r"^\| `([a-z]+)\(", text, re.MULTILINE)
    kinds = {words[2] for words in spelled if words[0] == "var"}
    modes = {words[1] for words in spelled if words[0] == "disjunction"}
    return {words[0] for words in spelled}, kinds, modes, set(connectives)


def expected(line, tables):
    """The place, the text and the kind of each token of a line that the program reads."""
    words, kinds, modes, connectives = tables
    tokens = [(found.start(), found.group()) for found in TOKEN.finditer(line)]
    first = tokens[0][1] if tokens else ""
    told = []
    for at, (place, text) in enumerate(tokens):
        kind = "sign" if text in "+-" else "relation" if text in ("<=", ">=", "=") else "punctuation" if text in "()," else "name"
        if text.startswith("#"):
            kind = "comment"
        elif text[0].isdigit():
            kind = "number"
        elif at == 0 and text in words:
            kind = "line word"
        elif at == 1 and first in ("var", "boolean", "disjunct"):
            kind = "declared name"
        elif at == 2 and first == "var" and text in kinds:
            kind = "kind"
        elif at == 1 and first == "disjunction" and text in modes:
            kind = "mode"
        elif first == "logic" and text in connectives:
            kind = "connective"
        elif text == "inf":
            kind = "inf"
        told.append((place, text, kind))
    return told


def colours(patterns, line):
    """The kind of each byte of a line by the grammar: the leftmost match, and of those the first rule."""
    told, at = [""] * len(line), 0
    while at < len(line):
        found = [(match.start(), number, match) for number, (pattern, _, _) in enumerate(patterns) if (match := pattern.search(line, at)) and match.end() > at]
        if not found:
            break
        _, number, match = min(found, key=lambda one: one[:2])
        _, name, captures = patterns[number]
        for group, scope in [(0, name), *captures]:
            for place in range(*match.span(group)) if scope else ():
                told[place] = kind_of(scope)
        at = match.end()
    return told


def kind_of(scope):
    return next(kind for start, kind in SCOPES.items() if scope.startswith(start))


def textmate():
    """The rules of the grammar: the pattern, the scope of the whole, and those of the groups."""
    rules = json.loads(GRAMMAR.read_text())["patterns"]
    return [(re.compile(rule["match"]), rule.get("name", ""), [(int(group), capture["name"]) for group, capture in rule.get("captures", {}).items()]) for rule in rules]


def vim_colours(texts):
    """For each text the kind of each byte of its lines by the Vim syntax."""
    script = ["set nocompatible encoding=latin1 fileencodings=latin1 nomodeline", f"set runtimepath^={ROOT / 'editors' / 'vim'}", "filetype on", "syntax on", "let told = []"]
    with tempfile.TemporaryDirectory() as folder:
        for number, text in enumerate(texts):
            path = pathlib.Path(folder, f"{number}.gdp")
            path.write_text(text, encoding="latin-1")
            script += [f"edit {path}", "syntax sync fromstart", "call add(told, &filetype)"]
            script += ["for l in range(1, line('$'))", "call add(told, join(map(range(1, len(getline(g:l))), {_, c -> synIDattr(synID(g:l, c, 0), 'name')})))", "endfor"]
        script += [f"call writefile(told, '{folder}/told')", "quitall!"]
        pathlib.Path(folder, "script.vim").write_text("\n".join(script) + "\n")
        subprocess.run(["vim", "-u", "NONE", "-i", "NONE", "-n", "-es", "-S", f"{folder}/script.vim"], stdin=subprocess.DEVNULL, capture_output=True, timeout=60, check=False)
        lines = pathlib.Path(folder, "told").read_text().split("\n")
    made = []
    for text in texts:
        count = len(text.splitlines())
        assert lines[0] == "gdp", f"vim takes the file for {lines[0]!r}"
        made.append([spread(groups, line) for groups, line in zip(lines[1 : 1 + count], text.splitlines())])
        lines = lines[1 + count :]
    return made


def has_vim():
    """Whether there is a vim that knows colours and scripts."""
    if not shutil.which("vim"):
        return False
    told = subprocess.run(["vim", "--version"], stdin=subprocess.DEVNULL, capture_output=True, text=True, check=False).stdout
    return all(feature in told for feature in ("+syntax", "+eval", "+lambda"))


def spread(groups, line):
    """The kinds of a line's bytes. What has no group is a blank, and `join` leaves an empty word for it."""
    return [GROUPS.get(group, "") for group in groups.split(" ")] if line else []


def differences(name, text, told, tables):
    """The tokens of a text that have another colour than the manual gives them, or more than one."""
    wrong = []
    for number, (line, kinds) in enumerate(zip(text.splitlines(), told, strict=True), 1):
        for place, token, kind in expected(line, tables):
            got = set(kinds[place : place + len(token)])
            if got != {kind}:
                wrong.append(f"{name}: line {number}: {token!r} is a {kind} and has the colours of {', '.join(map(repr, sorted(got)))}")
    return wrong


def main():
    """Compares, and prints what is wrong."""
    tables = manual_words()
    texts = {path.name: path.read_text(encoding="latin-1") for path in sorted((ROOT / "examples").glob("*.gdp"))}
    texts["a text of all words"] = WORDS
    wrong = [f"the manual's {word!r} stands in no text" for word in set().union(*tables) if not re.search(rf"(?<![\w.]){word}(?![\w.])", WORDS)]
    rules = textmate()
    for name, text in texts.items():
        wrong += differences(f"TextMate: {name}", text, [colours(rules, line) for line in text.splitlines()], tables)
    broken = "".join(line + "\n" for line, _, _ in BROKEN)
    ways = {"TextMate": [colours(rules, line) for line in broken.splitlines()]}
    package = json.loads((GRAMMAR.parent / "package.json").read_text())["contributes"]
    named = [package["grammars"][0]["path"], package["languages"][0]["configuration"]]
    wrong += [f"package.json names {name}, which is not there" for name in named if not (GRAMMAR.parent / name).exists()]
    json.loads((GRAMMAR.parent / "language-configuration.json").read_text())
    if has_vim():
        *told, ways["Vim"] = vim_colours([*texts.values(), broken])
        for (name, text), kinds in zip(texts.items(), told):
            wrong += differences(f"Vim: {name}", text, kinds, tables)
    else:
        print("the colours of Vim: left out, since there is no vim here that has them")
    for way, told in ways.items():
        wrong += [f"{way}: {line!r}: {kinds[place]!r} and not {kind!r}" for (line, place, kind), kinds in zip(BROKEN, told) if kinds[place] != kind]
    print(*wrong, f"editors: {len(texts)} texts, {' and '.join(ways)}, {len(wrong)} mistakes", sep="\n")
    return 1 if wrong else 0


if __name__ == "__main__":
    sys.exit(main())
