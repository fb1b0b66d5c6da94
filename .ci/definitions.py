#!/usr/bin/env python3
"""Writes what is generated in docs/, from the sources:

- docs/DEFINITIONS.md, the index: each definition that the contract of a public function names, and where it stands;
- docs/TRUSTED.md: the text of every definition that the contract of the top call `run` rests on, lowest layer first;
- the table in docs/ARCHITECTURE.md of the crates that an edit reaches;
- the number of those definitions in README.md, behind `<!-- count -->`.

Run it after a change in specs/, of a contract, or of crates.txt. With `--check` it changes nothing, and its status is 1 where a page is
not as it would write it. With `--count` it prints how many definitions and lines docs/TRUSTED.md has.

What a definition rests on is read off its text: each word of it that its file defines or imports, but not the words that
the definition itself binds (parameters, what a pattern binds, labels of records).
"""

import functools
import pathlib
import re
import sys

ROOT = pathlib.Path(__file__).resolve().parent.parent
CRATES = ROOT / "crates"
INDEX = ROOT / "docs" / "DEFINITIONS.md"
TRUSTED = ROOT / "docs" / "TRUSTED.md"
ARCHITECTURE = ROOT / "docs" / "ARCHITECTURE.md"
README = ROOT / "README.md"

INDEX_HEAD = """\
<!-- Written by .ci/definitions.py; do not edit. -->
# Index of definitions

Each definition that the contract of a public function names, by crate and file, with its line and the words that stand
above it there. The contract of the top call `run` rests on those with a star: [TRUSTED.md](TRUSTED.md) has the text of
all of them. The ideas behind them are in [GLOSSARY.md](GLOSSARY.md). Files are below `crates/`.
"""

TRUSTED_HEAD = """\
<!-- Written by .ci/definitions.py; do not edit. -->
# What the contract of `run` rests on

The prover checks the code against definitions, and nothing checks the definitions but reading. These are all that the
promise of the program rests on: the clauses of its top call `run`, the traits for files and streams that they speak of,
and every definition and enumeration that these name, directly or through others: {count} of them, {lines} lines. Whoever
agrees with this page, and trusts the toolchain, need not read the code.

They stand in reading order, lowest layer first, so each one uses only what is above it or the kit's library `std`. From
the end backwards, beginning with the contract, is a good way to read it too. `docs/FORMATS.md` says the same in a
planner's words.

| crate | definitions | lines |
|---|---|---|
"""

REACH_BEGINS = "<!-- The table below is written by .ci/definitions.py. -->"
REACH_ENDS = "<!-- The table above is written by .ci/definitions.py. -->"

STD_HEAD = """\

## Words of `std`

These words of the kit's library are used and not shown here; the kit's page `LIBRARY.md` (`rt doc`) explains them.
"""


class Unit:
    """A definition, or several that are defined together, as they stand in their file."""

    def __init__(self, crate, path, line, names, inner, text, words):
        self.crate, self.path, self.line = crate, path, line
        self.names, self.inner, self.text = names, inner, text
        self.above, self.words = words, " ".join(words)


def crates():
    """The crates of this repository, lowest first, as crates.txt lists them."""
    lines = [line.split("#")[0] for line in (ROOT / "crates.txt").read_text().splitlines()]
    listed = dict.fromkeys(line.split(":")[0].split()[0] for line in lines if ":" in line)
    return [crate for crate in listed if (CRATES / crate).is_dir()]


def without_comments(text):
    """The same text without strings, characters and comments of either language."""
    return re.sub(r"--.*|//.*", "", re.sub(r'"[^"\n]*"', " ", text))


def imports(text, keyword):
    """What a file imports: names with their module and name there, aliases of modules, and modules opened as they are."""
    names, aliases = {}, {}
    pattern = rf"^\s*(?:pub )?{keyword} ([\w.]+?)(?:\.\{{([^}}]*)\}}| as (\w+))?;?\s*$"
    for path, items, alias in re.findall(pattern, text, re.M | re.S):
        if not items:
            aliases[alias or path.split(".")[-1]] = path
        for item in filter(None, re.split(r"[,\s]*,[,\s]*|^\s+|\s+$", items)):
            name, _, other = item.partition(" as ")
            names[(other or name).strip()] = (path, name.strip())
    return names, aliases


class Module:
    """A file of specs/: what it says of itself, what it imports and what it defines."""

    def __init__(self, crate, path):
        self.crate, self.path = crate, path
        text = path.read_text()
        self.names, self.aliases = imports(text, "use")
        self.title, self.units, self.fixity = "", [], []
        self.read(text)
        self.defined = {name: unit for unit in self.units for name in (*unit.inner, *unit.names)}

    def read(self, text):
        """Cuts the file into its definitions, each with the words above it."""
        words, body, start = [], [], 0
        lines = [*text.splitlines(), ""]

        def close():
            nonlocal words, body
            while body and not body[-1].strip():
                body.pop()
            if body:
                self.add(start, words, body)
                words, body = [], []

        for number, line in enumerate(lines, 1):
            if line.startswith("--"):
                close()
                words.append(line[2:].strip())
            elif line.startswith(("use ", "pub use ", "pub mod ")):
                close()
                self.title = self.title or " ".join(words)
                words = []
            elif self.opens(line):
                close()
                body, start = [line], number
            elif body or line.strip():
                body.append(line)
            elif not body and words and not self.title:
                self.title, words = " ".join(words), []
        close()

    @staticmethod
    def opens(line):
        """Whether a definition begins at this line."""
        return re.match(r"(pub|abbrev|unfoldable|mutual|data|record|infix[lr]?) ?|[^\s(]+ : ", line) is not None

    def add(self, start, words, body):
        names, inner, kind, depth = [], [], "", 0
        for line in body:
            indent = len(line) - len(line.lstrip())
            head = re.match(r"\s*((?:(?:pub|abbrev|unfoldable|data|record) )+)(\S+)(?=[ :])|([^\s(]+) : ", line)
            if head and (indent == 0 or ("mutual" in body[0] and indent == 2)):
                kind, depth = head.group(1) or "", indent
                names.append(head.group(2) or head.group(3))
            elif "data " in kind and indent > depth:
                inner += re.match(r"\s*(?:pub )?([^:]*?) : |", line).group(1).split() if " : " in line else []
        if body[0].startswith("infix"):
            self.fixity = body
            return
        body, self.fixity = [*self.fixity, *body], []
        unit = Unit(self.crate, self.path, start, names, inner, "\n".join(body), list(words))
        # What stands below another without words of its own belongs to the words above that one.
        unit.words = unit.words or (self.units[-1].words if self.units else "")
        self.units.append(unit)

    def find(self, name):
        """The unit behind a name of this file, or where it imports it from."""
        return self.defined.get(name) or named(*self.names[name]) if name in self.defined or name in self.names else None


class Source:
    """A file of src/: what it imports, and its types and traits."""

    def __init__(self, crate, path):
        self.crate, self.path, self.text = crate, path, path.read_text()
        self.names, self.aliases = imports(self.text, "ghost use")
        self.title = next((line[3:].strip() for line in self.text.splitlines() if line.startswith("//!")), "")
        self.rust = {}
        for path_, items in re.findall(r"^use (\w+(?:::\w+)*?)::(?:(\w+|\{[^}]*\}));", self.text, re.M):
            for name in re.findall(r"\w+", items):
                self.rust[name] = crate if path_.startswith("crate") else path_.split("::")[0]

    @functools.cache
    def item(self, name):
        """The declaration of a type or a trait of this file, with the words above it."""
        lines = self.text.splitlines()
        for number, line in enumerate(lines):
            if re.match(rf"pub (enum|struct|trait) {name}\b", line):
                end = number if line.endswith((";", "}")) else next(n for n in range(number, len(lines)) if lines[n] == "}")
                start = number
                while start and lines[start - 1].startswith(("///", "#[")):
                    start -= 1
                words = [line[3:].strip() for line in lines[start:number] if line.startswith("///")]
                view = re.search(rf"^impl(?:<[^>]*>)? Model for {name}\b.*?\n}}$", self.text, re.M | re.S)
                text = "\n".join(lines[number : end + 1]) + ("\n\n" + view.group() if view else "")
                return Unit(self.crate, self.path, number + 1, [name], [], text, words)
        return None

    def find(self, name):
        if name in self.names:
            return named(*self.names[name])
        own = self.item(name)
        return own or (rust_item(self.rust[name], name) if name in self.rust else None)


class Std:
    """A word of another library than this repository's."""

    def __init__(self, path, name):
        self.path, self.name = path, name


@functools.cache
def module(path):
    """The module of this path, also where another crate's `Lib.antt` passes it on."""
    _, crate, _, *rest = path.split(".")
    file = (CRATES / crate / "specs").joinpath(*rest).with_suffix(".antt")
    if file.is_file():
        return Module(crate, file)
    lib = CRATES / crate / "specs" / "Lib.antt"
    passed = re.findall(r"^pub use ([\w.]+)$", lib.read_text(), re.M) if lib.is_file() else []
    return next((module(other) for other in passed if rest and other.split(".")[-1] == rest[-1]), None)


@functools.cache
def source(path):
    return Source(path.relative_to(CRATES).parts[0], path)


@functools.cache
def sources(crate):
    """The files of a crate's code without its tests."""
    return [source(path) for path in sorted((CRATES / crate / "src").rglob("*.rt")) if "tests" not in path.stem]


@functools.cache
def rust_item(crate, name):
    """The declaration of a public type or trait, of this crate or of one that it passes on."""
    places = [crate, *[other for other in crates() if other != crate]] if (CRATES / crate).is_dir() else []
    return next((unit for place in places for file in sources(place) if (unit := file.item(name))), None)


@functools.cache
def named(path, name):
    """The unit of this name of a module, or the word of another library."""
    parts = path.split(".")
    if parts[0] != "Rattle" or not (CRATES / parts[1]).is_dir():
        return Std(path, name)
    if "declared" in parts:
        item = [part for part in parts[parts.index("declared") + 1 :] if part != "TheVariants"][-1]
        return rust_item(parts[1], item)
    found = module(path)
    return found.find(name) if found else None


def clauses(unit):
    """The signature and the equations of a unit, each with the lines that continue it."""
    base = 2 if "mutual" in unit.text.split("\n", 1)[0] else 0
    if re.search(r"^\s*(?:pub )?(?:data|record|enum|struct|trait)\b", unit.text, re.M):
        return [unit.text]
    parts = []
    for line in unit.text.splitlines():
        if parts and len(line) - len(line.lstrip()) > base:
            parts[-1] += "\n" + line
        else:
            parts.append(line)
    return parts


WORD = r"[^\s(){}\[\],;.λ]+"


def uses(unit, file):
    """The units that a unit's text names, in a file with these imports."""
    found = {}
    for clause in clauses(unit):
        clause = without_comments(clause)
        bound = set(unit.names) - {"run"}
        for binder in (r"λ ([^.]*)\.", rf"[({{]((?:{WORD} )+): ", rf"({WORD}) ←", rf"let ({WORD})", rf"^\s+pub ({WORD}) :"):
            bound |= {name for group in re.findall(binder, clause, re.M) for name in re.findall(WORD, group)}
        clause = re.sub(rf"(?<=[{{;])\s*{WORD} = ", " ", clause)
        left, equals, right = re.split(r"( =(?= |\n|$))", clause, maxsplit=1) if re.search(r" =(?= |\n|$)", clause) else (clause, "", "")
        if equals and " : " not in left:
            # Of a pattern only constructors are names; the others are bound by it.
            for word in re.findall(WORD, left):
                unit_there = file.find(word) if "." not in word else None
                if not (isinstance(unit_there, Std) or (unit_there and (word in unit_there.inner or word[0].isupper()))):
                    bound.add(word)
        words = set(re.findall(r"\w+", clause)) & set(file.rust) if isinstance(file, Source) else set()
        for chain in re.findall(rf"{WORD}(?:\.{WORD})*", clause):
            head, *tail = chain.split(".")
            words.add(head)
            if tail and head in file.aliases:
                target = named(file.aliases[head], tail[0])
                found.setdefault(id(target), target)
        if "do" in words:
            words.add(">>=")
        visible = [*file.names, *getattr(file, "defined", ())]
        mixed = [name for name in visible if "◌" in name and words.issuperset(filter(None, name.split("◌")))]
        for name in [word for word in words if word not in bound and "◌" not in word] + mixed:
            target = file.find(name)
            found.setdefault(id(target), target)
    return [target for target in found.values() if target is not None and target is not unit]


def file_of(unit):
    """The file that a unit's words are of."""
    if unit.path.suffix == ".rt":
        return source(unit.path)
    return module("Rattle." + ".".join(unit.path.relative_to(CRATES).with_suffix("").parts))


def contract_of_run():
    """The top call: its signature and its clauses, wherever it stands."""
    found = []
    for crate in crates():
        for file in sources(crate):
            match = re.search(r"^((?:///.*\n)*)(pub fn run<(?:.*\n)*?)\{\n", file.text, re.M)
            if match and "ensures complete" in match.group(2):
                line = file.text[: match.start(2)].count("\n") + 1
                words = [part[3:].strip() for part in match.group(1).splitlines()]
                found.append(Unit(crate, file.path, line, ["run"], [], match.group(2).rstrip(), words))
    if len(found) != 1:
        sys.exit(f"definitions.py: {len(found)} functions `run` with a clause `complete`, and there is to be one")
    return found[0]


def reached(roots):
    """All units that these rest on, themselves among them, and the words of other libraries."""
    units, others, waiting = {}, {}, list(roots)
    while waiting:
        unit = waiting.pop()
        if isinstance(unit, Std):
            others[unit.path, unit.name] = unit
        elif id(unit) not in units:
            units[id(unit)] = unit
            waiting += uses(unit, file_of(unit))
    return list(units.values()), list(others.values())


def file_order(units):
    """Files in reading order: by layer, and in a crate each after those that it uses."""
    layers = {crate: number for number, crate in enumerate(crates())}
    below = {unit.path: set() for unit in units}
    for unit in units:
        below[unit.path] |= {other.path for other in uses(unit, file_of(unit)) if not isinstance(other, Std)}
    done = {}

    def visit(path):
        if path not in done:
            done[path] = False
            for other in sorted(below[path] & below.keys()):
                visit(other)
            done[path] = True
            order.append(path)

    order = []
    for path in sorted(below, key=lambda path: (layers[path.relative_to(CRATES).parts[0]], str(path))):
        visit(path)
    return order


def count_of(unit):
    return max(1, len(unit.names))


def sentence(words):
    """Ends with a full stop."""
    return words if words.endswith((".", ":")) or not words else words + "."


def shown(path):
    return str(path.relative_to(CRATES))


def trusted_units():
    run = contract_of_run()
    units, others = reached([run])
    return run, [unit for unit in units if unit is not run], others


def trusted_page():
    """The text of all that the contract of `run` rests on."""
    run, units, others = trusted_units()
    lines_of = lambda some: sum(unit.text.count("\n") + 1 for unit in some)
    totals = [(crate, [unit for unit in units if unit.crate == crate]) for crate in crates()]
    page = TRUSTED_HEAD.format(count=f"{sum(map(count_of, units)):,}", lines=f"{lines_of(units):,}")
    page += "".join(f"| `{crate}` | {sum(map(count_of, some))} | {lines_of(some)} |\n" for crate, some in totals if some)
    crate = ""
    for path in file_order(units):
        here = sorted((unit for unit in units if unit.path == path), key=lambda unit: unit.line)
        if here[0].crate != crate:
            crate = here[0].crate
            page += f"\n## `{crate}`\n"
        language = "rust" if path.suffix == ".rt" else "agda"
        comment = "///" if path.suffix == ".rt" else "--"
        texts = ["\n".join([*(f"{comment} {words}" for words in unit.above), unit.text]) for unit in here]
        page += f"\n### `{shown(path)}`\n\n{sentence(file_of(here[0]).title)}\n\n```{language}\n" + "\n\n".join(texts) + "\n```\n"
    page += f"\n## The contract of `run`\n\n`{shown(run.path)}`: {sentence(run.words)}\n\n```rust\n{run.text}\n```\n"
    page += STD_HEAD
    for path in sorted({other.path for other in others}):
        names = ", ".join(f"`{name}`" for name in sorted({other.name for other in others if other.path == path}))
        page += f"\n- `{path.removeprefix('Rattle.')}`: {names}"
    return page + "\n"


def contracts():
    """The clauses of each public function and of each public trait, with the file that they stand in."""
    for crate in crates():
        for file in sources(crate):
            for start in re.finditer(r"^ *(?:pub (?:const )?fn|pub trait|ghost Value|ghost view|ghost invariant)\b", file.text, re.M):
                rest = file.text[start.start() :]
                stop = re.search(r"^}$" if "trait" in start.group() else r"(?<![ \w(])\{$|^ *\{$|;$|\) -> [^{]*\{$", rest, re.M)
                yield file, Unit(crate, file.path, 0, [], [], "  " + rest[: stop.end() if stop else len(rest)], [])


def index_page():
    """What the contracts of public functions name, by crate and file."""
    cited = {}
    for file, clause in contracts():
        for unit in uses(clause, file):
            if not isinstance(unit, Std) and unit.path.suffix == ".antt":
                cited[id(unit)] = unit
    starred = {id(unit) for unit in trusted_units()[1]}
    page, crate = INDEX_HEAD, ""
    for path in file_order(list(cited.values())):
        here = sorted((unit for unit in cited.values() if unit.path == path), key=lambda unit: unit.line)
        if here[0].crate != crate:
            crate = here[0].crate
            page += f"\n## `{crate}`\n"
        title = file_of(here[0]).title
        page += f"\n**`{shown(path)}`**: {sentence(title)}\n\n"
        for unit in here:
            star = " ★" if id(unit) in starred else ""
            page += f"- {', '.join(f'`{name}`' for name in unit.names)} (line {unit.line}{star}): {sentence(unit.words or title)}\n"
    return page


def below_each():
    """For each crate those of this repository that it stands on, all the way down."""
    lines = [line.split("#")[0].partition(":") for line in (ROOT / "crates.txt").read_text().splitlines()]
    direct = {crate.strip(): set(others.split()) for crate, colon, others in lines if colon}

    @functools.cache
    def below(crate):
        near = direct[crate] & direct.keys()
        return near.union(*map(below, near))

    return {crate: below(crate) for crate in direct}


def reach_table():
    """Which crates an edit of each reaches: those that stand on it."""
    below, all_of = below_each(), crates()
    table = "| an edit in | is proved anew in | that is |\n|---|---|---|\n"
    for crate in all_of:
        above = [other for other in all_of if crate in below[other]]
        others = [other for other in all_of if other != crate and other not in above]
        names = [f"`{other}`" for other in min(above, others, key=len)]
        words = "it alone" if not above else f"it, {', '.join(names)}" if len(above) <= len(others) else f"all but {', '.join(names)}"
        table += f"| `{crate}` | {len(above) + 1} of {len(all_of)} crates | {words} |\n"
    return table


def architecture_page():
    """The page as it is, with its table anew."""
    page = ARCHITECTURE.read_text()
    return re.sub(rf"({re.escape(REACH_BEGINS)}\n).*?({re.escape(REACH_ENDS)})", lambda m: m[1] + "\n" + reach_table() + "\n" + m[2], page, flags=re.S)


def readme_page():
    """The page as it is, with its number of definitions anew."""
    count = sum(map(count_of, trusted_units()[1]))
    return re.sub(r"(?<=<!-- count -->)[\d,]+", f"{count:,}", README.read_text())


def main():
    if sys.argv[1:] == ["--count"]:
        units = trusted_units()[1]
        print(f"{sum(map(count_of, units))} definitions, {sum(unit.text.count(chr(10)) + 1 for unit in units)} lines")
        return 0
    pages = {INDEX: index_page(), TRUSTED: trusted_page(), ARCHITECTURE: architecture_page(), README: readme_page()}
    if sys.argv[1:] == ["--check"]:
        stale = [path.name for path, page in pages.items() if not path.is_file() or path.read_text() != page]
        print(f"run .ci/definitions.py: not as the sources say: {', '.join(stale)}" if stale else "docs: what is generated is as the sources say")
        return 1 if stale else 0
    for path, page in pages.items():
        path.write_text(page)
    return 0


if __name__ == "__main__":
    sys.exit(main())
