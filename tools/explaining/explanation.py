"""Puts together what is said of a text."""

import dataclasses
import os
import re
import stat
from collections.abc import Callable

from . import answers, lp_texts, models, plainly, points, show, slips
from .finding import Finding, either
from .kinds import kind_of
from .lines import bare, lines_of
from .program import Copies, Said, ask as ask_program, refusal

LIMIT = 8_388_608
MOST_ANSWER = 64 * LIMIT
# The place is looked for in lines of so many bytes at most, and in LP texts of so many.
MOST_LINE, MOST_LP = 200_000, 2_000_000
USAGE_STATUS = 7
USAGE = "usage: gdp explain FILE [MODEL]\nFILE is a model, an LP text, or a point or an answer, which is read with its MODEL.\n"
STRICT = re.compile(rb"(?<![-<=>])[<>](?!\s*[<=>])")
Ask = Callable[[list[str]], Said]

CAUSES = {
    "Header": "the first line with a word says which format it is, and its version",
    "Form": "the line has none of the shapes of its format, or stands where it may not",
    "NameTwice": "a declared name is taken, or a name stands twice",
    "NameUnknown": "the name isn't declared above, or not as what stands here",
    "Name": "the name isn't the one that is due",
    "Number": "a number is out of its range",
    "Nesting": "blocks or propositions stand too deep within one another",
    "Unclosed": "the text ends and a block is open",
    "Limit": "a limit of the format would be exceeded",
    "Missing": "something that has to be there isn't",
    "Shape": "the tree has too many nodes or too few",
    "Section": "the sections stand in another order",
    "Unsupported": "this piece of LP text is not read",
}
STATUSES = {
    1: "the texts were read; this is the test that fails",
    3: "the texts were read; a number of this test leaves 128 bits, so the program can't say whether it passes",
    4: "the texts were read; the model can't be rewritten for this route",
    8: "memory ran out",
    10: "without it there is no verdict",
    9: "a word of the command line is no text of Unicode",
}


@dataclasses.dataclass
class Source:
    """A text: the name that was given, the name that the program gets, the bytes, and why they can't be read."""

    name: str
    path: str
    text: bytes = b""
    fault: str = ""


def source_of(name: str, copies: Copies, most: int) -> Source:
    """Reads a file; what is no plain file is read once, to a byte past so many, and copied for the program."""
    try:
        is_file = stat.S_ISREG(os.stat(name).st_mode)
        with open(name, "rb") as file:
            text = file.read((MOST_ANSWER if is_file else most) + 1)
    except (OSError, ValueError) as error:
        return Source(name, name, fault=getattr(error, "strerror", None) or "no name of a file")
    return Source(name, name if is_file else copies.add(text), text)


def model_beside(name: str) -> str | None:
    """For `plan-fails.point` the model `plan-fails.gdp` or `plan.gdp` in the same folder, if it is there."""
    folder, file = os.path.split(name)
    stem = os.path.splitext(file)[0]
    while stem:
        path = os.path.join(folder, stem + ".gdp")
        if os.path.exists(path):
            return path
        stem = stem[: max(stem.rfind(mark) for mark in "-_.")] if re.search("[-_.]", stem) else ""
    return None


def explain(words: list[str], ask: Ask = ask_program) -> tuple[int, str]:
    """The exit status, and what is printed."""
    if not 1 <= len(words) <= 2:
        return USAGE_STATUS, USAGE
    with Copies() as copies:
        source = source_of(words[0], copies, MOST_ANSWER if len(words) == 2 else LIMIT)
        kind = kind_of(source.text, source.name, len(words) == 2)
        explainer = Explainer(ask, copies)
        if kind == "log":
            return 0, f"{source.name}: what the program writes and doesn't read; nothing to explain\n"
        if kind not in ("point", "answer"):
            return explainer.told(kind, source, None)
        model = words[1] if len(words) == 2 else None if source.fault else model_beside(source.name)
        if model is None and not source.fault:
            return USAGE_STATUS, f"{source.name}: {'a point' if kind == 'point' else 'an answer'} is read with its model: gdp explain {source.name} MODEL\n"
        status, out = explainer.told(kind, source, source_of(model or source.name, copies, LIMIT))
        return status, out + (f"(with the model {model})\n" if len(words) == 1 and model else "")


def command(kind: str, path: str, model: Source | None) -> list[str]:
    """The words by which the program reads the text."""
    beside = model.path if model else ""
    return {"model": ["format", path], "lp": ["lp", "1", path], "point": ["test", beside, path], "answer": ["check", beside, path]}[kind]


def is_named(said: Said, source: Source) -> bool:
    """Whether what the program says is said of this text."""
    path = os.fsencode(source.path)
    return said.line.startswith(path + b": ") if said.status == 2 else said.status == 5 and said.line == b"read fault: " + path


class Explainer:
    """Explains with answers of a program, whom it asks about copies too."""

    def __init__(self, ask: Ask, copies: Copies):
        self.ask, self.copies = ask, copies

    def told(self, kind: str, source: Source, model: Source | None) -> tuple[int, str]:
        """The exit status, what the program says, and what explains it."""
        said = self.ask(command(kind, source.path, model))
        if model and is_named(said, model) and (source.path != model.path or self.ask(command("model", model.path, None)).status != 0):
            kind, source, model = "model", model, None
        path = os.fsencode(source.path)
        line = os.fsencode(source.name) + said.line.removeprefix(path) if said.line.startswith(path + b": ") else said.line
        refused = refusal(said, source.path)
        if refused:
            out = [os.fsdecode(line), *self.described(kind, source, model, *refused)]
        elif said.status == 0 or kind == "lp" and said.status == 3:
            # Of an LP text one step is asked for, to see whether it is read.
            return 0, f"{source.name}: {os.fsdecode(line) or 'gdp reads it'}; nothing to explain\n"
        else:
            out = [os.fsdecode(line), *beside(said, source, model or source)]
        return said.status, "".join(f"{one}\n" for one in out)

    def described(self, kind: str, source: Source, model: Source | None, number: int, cause: str) -> list[str]:
        """The place in a refused line, what was met and wanted there, and what to write."""
        lines = source.text.split(b"\n") if kind == "answer" else lines_of(source.text)
        line = lines[number - 1] if number <= len(lines) else b""
        context = models.context_of(lines[: number - 1] if kind == "model" else lines_of(model.text) if model else [])
        is_long = len(line) > MOST_LINE or kind == "lp" and len(source.text) > MOST_LP
        found = None if is_long else place_of(kind, source, lines, number, cause, context)
        found = found or Finding(len(line) - len(line.lstrip()), "a line, or a text, too long to look for the place in it" if is_long else "this line")
        slip = slips.slip_at(kind, found.what, bare_of(kind, line), found.place)
        candidates = [*([slip[1]] if slip and slip[1] else []), *plain(kind, found.what, bare_of(kind, line), context)]
        written = next((one for one in candidates if self.is_read(one, kind, source, model, number, len(bare_of(kind, line)))), "")
        shown = show.window(line, found.place) if number <= len(lines) and (line or cause != "Form") else ("(the end of the text)", "^")
        out = [f"{source.name}:{number}:{show.column(line, found.place)}", "", *(f"    {one}" for one in shown), f"    met:    {found.met}"]
        out += [f"    wanted: {either(found.wanted)}"] if found.wanted else []
        for at, one in enumerate(written.split("\n") if written else []):
            out.append(f"    {'        ' if at else 'write:  '}{''.join(map(show.cell, one.strip()))}")
        why = slip[0].why if slip else CAUSES.get(cause, cause)
        is_strict = written and "strict" not in why and STRICT.search(bare_of(kind, line))
        return [*out, f"    since:  {why}{'; and no relation is strict' if is_strict else ''}"]

    def is_read(self, written: str, kind: str, source: Source, model: Source | None, number: int, size: int) -> bool:
        """Whether the program reads on past the line, once its first bytes, so many, are written so."""
        lines = source.text.split(b"\n")
        if number > len(lines):
            return False
        lines[number - 1] = written.encode("utf-8", "surrogateescape") + lines[number - 1][size:]
        path = self.copies.add(b"\n".join(lines))
        said = self.ask(command(kind, path, model))
        os.unlink(path)
        refused = refusal(said, path)
        return refused[0] > number + written.count("\n") if refused else said.status in (0, 1, 3, 4)


def beside(said: Said, of: Source, model: Source) -> list[str]:
    """What is said where no text is refused at a line."""
    if said.status == 2:
        return [f"    the text has {'more than ' if len(of.text) > LIMIT else ''}{min(len(of.text), LIMIT):,} bytes; at most 8,388,608 are read, of an answer 2^40"]
    if said.status == 5:
        return [f"    since: {of.fault}"] if of.fault else []
    if said.status == 7:
        return ["    this program has no command that reads such a text"]
    found = re.search(rb" at line ([0-9]+)", said.line)
    lines = lines_of(model.text)
    shown = []
    if found and 1 <= int(found[1]) <= len(lines):
        line = lines[int(found[1]) - 1]
        place = len(line) - len(line.lstrip(b" \t"))
        shown = [f"{model.name}:{int(found[1])}:{show.column(line, place)}", "", *(f"    {one}" for one in show.window(line, place))]
    return [*shown, f"    {STATUSES.get(said.status, 'see docs/FORMATS.md')}"]


def bare_of(kind: str, line: bytes) -> bytes:
    """A line without its comment; an answer has none."""
    return line if kind == "answer" else line.partition(b"\\")[0] if kind == "lp" else bare(line)


def place_of(kind: str, source: Source, lines: list[bytes], number: int, cause: str, context: models.Context) -> Finding | None:
    if kind == "model":
        return models.find(source.text, lines, number, cause)
    if kind == "point":
        return points.find(lines, number, cause, context)
    if kind == "answer":
        return answers.find(source.text, number, cause, context)
    return lp_texts.find(lines, number, cause)


def plain(kind: str, what: str, line: bytes, context: models.Context) -> list[str]:
    """The line of a model written again as the manual has it, where it is understood."""
    if kind != "model" or len(line) > plainly.MOST_LENGTH:
        return []
    text = line.decode("utf-8", "surrogateescape")
    if what == "first word" and not text.lower().lstrip().startswith(("min", "max", "logic")):
        text = re.sub(r"^(\s*)", r"\1row ", text)
    made = plainly.sums(text, context.of_kind("variable")) or plainly.propositions(text, context.of_kind("boolean", "indicator"))
    return [made] if made and made != text else []
