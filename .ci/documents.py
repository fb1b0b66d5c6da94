#!/usr/bin/env python3
"""Runs what the pages show: `documents.py [--gdp PROGRAM] [--write] [PAGE..]`, by default all pages of PAGES.

Each page has a new folder of its own, with `gdp` on the PATH and the Python module at hand, and its blocks are taken from the top:

- A block `sh` whose lines begin with `$ ` is a talk with a shell. Each command is run by bash, and the lines below it have to be what
  it writes, output and errors as they come. `sh if glpsol` is run only where there is a program `glpsol`.
- A block whose info has a second word (`gdp creamery.gdp`) is a file of this name, and is written. The last words above the block name
  it, so that a reader of the page sees the name too.
- A picture of the page (`![..](pictures/plan.svg)`) has to be, byte for byte, the file `plan.svg` that the commands made.

A block of any other kind is a mistake of the page, so that nothing stands on it that is not run. `--write` writes what the commands wrote
into the pages and their pictures instead of comparing. This is no part of what is proved.
"""

import argparse
import os
import pathlib
import re
import shutil
import subprocess
import sys
import tempfile
from collections.abc import Callable, Iterator

ROOT = pathlib.Path(__file__).resolve().parent.parent
PAGES = ("docs/GUIDE.md", "docs/PYTHON.md")
FENCE = re.compile(r"```(.*)")
PICTURE = re.compile(r"!\[[^]]*\]\(([^)]+\.svg)\)")
SECONDS = 60


class Mistake(Exception):
    """What is wrong at a line of a page."""


class Block:
    """A fenced block of a page: its info words, its lines, and the number of its first line, counted from 0."""

    def __init__(self, info: str, first: int, lines: list[str], above: str) -> None:
        self.words = info.split()
        self.first = first
        self.lines = lines
        self.above = above


class Run:
    """A page while it is run: the folder, and the program that `gdp` stands for."""

    def __init__(self, page: pathlib.Path, folder: pathlib.Path, program: pathlib.Path) -> None:
        self.page = page
        self.folder = folder / "work"
        self.folder.mkdir()
        commands = folder / "bin"
        commands.mkdir()
        (commands / "gdp").symlink_to(program)
        self.environment = os.environ | {
            "PATH": f"{commands}{os.pathsep}{os.environ['PATH']}",
            "LC_ALL": "C.UTF-8",
            "DATEMOUND_GDP": str(program),
            "PYTHONPATH": str(ROOT / "integrations" / "python"),
            "PYTHONDONTWRITEBYTECODE": "1",
        }

    def told(self, words: list[str]) -> str:
        """What a command writes in the folder, output and errors together."""
        ran = subprocess.run(
            words,
            cwd=self.folder,
            env=self.environment,
            stdin=subprocess.DEVNULL,
            stdout=subprocess.PIPE,
            stderr=subprocess.STDOUT,
            timeout=SECONDS,
            check=False,
        )
        return ran.stdout.decode()


def blocks(lines: list[str]) -> Iterator[Block]:
    """The fenced blocks of a page, from the top."""
    opened = None
    for at, line in enumerate(lines):
        fence = FENCE.fullmatch(line)
        if not fence:
            continue
        if opened is None:
            opened = (fence[1], at + 1)
        else:
            info, first = opened
            above = next((text for text in reversed(lines[: first - 1]) if text), "")
            yield Block(info, first, lines[first:at], above)
            opened = None
    if opened is not None:
        raise Mistake(f"line {opened[1]}: the block has no end")


def commands(block: Block) -> list[str]:
    """The commands of a talk."""
    if not block.lines or not block.lines[0].startswith("$ "):
        raise Mistake(f"line {block.first + 1}: a talk begins with `$ ` and a command")
    return [line[2:] for line in block.lines if line.startswith("$ ")]


def talk(run: Run, block: Block) -> list[str]:
    """The lines of a talk as they are when its commands are run."""
    match block.words[1:]:
        case []:
            pass
        case ["if", program]:
            if shutil.which(program) is None:
                print(f"{run.page.name}: line {block.first}: left out, since there is no {program} here")
                return block.lines
        case _:
            raise Mistake(f"line {block.first}: after `sh` stands nothing, or `if` and a program")
    lines = []
    for command in commands(block):
        lines += ["$ " + command, *run.told(["bash", "-c", command]).splitlines()]
    return lines


def written(run: Run, block: Block) -> list[str]:
    """Writes a file that the page shows; its lines stay as they are."""
    name = block.words[1]
    if pathlib.PurePath(name).name != name:
        raise Mistake(f"line {block.first}: {name} is no plain name of a file")
    if f"`{name}`" not in block.above:
        raise Mistake(f"line {block.first}: the words above the block don't name `{name}`")
    (run.folder / name).write_text("".join(line + "\n" for line in block.lines))
    return block.lines


# The kinds of blocks that are run, by the first word of their info; a new kind is a line here.
KINDS: dict[str, Callable[[Run, Block], list[str]]] = {"sh": talk}


def due(run: Run, block: Block) -> list[str]:
    """What a block has to hold."""
    if block.words and block.words[0] in KINDS:
        return KINDS[block.words[0]](run, block)
    if len(block.words) == 2:
        return written(run, block)
    raise Mistake(f"line {block.first}: the block is neither run nor a file with a name")


def differing(shown: list[str], wanted: list[str]) -> int:
    """The place of the first line that differs."""
    same = [a == b for a, b in zip(shown, wanted)]
    return same.index(False) if False in same else len(same)


def pictures(run: Run, lines: list[str]) -> Iterator[tuple[pathlib.Path, bytes]]:
    """The pictures of a page, each with what the commands made."""
    for name in dict.fromkeys(PICTURE.findall("\n".join(lines))):
        made = run.folder / pathlib.PurePath(name).name
        if not made.exists():
            raise Mistake(f"no command of the page makes the picture {made.name}")
        yield run.page.parent / name, made.read_bytes()


def check_page(page: pathlib.Path, program: pathlib.Path, is_written: bool) -> list[str]:
    """What is wrong with a page, which is mended where it is to be written."""
    lines = page.read_text().splitlines()
    wrong: list[str] = []
    mended, end = [], 0
    with tempfile.TemporaryDirectory() as folder:
        run = Run(page, pathlib.Path(folder), program)
        try:
            for block in blocks(lines):
                wanted = due(run, block)
                mended += lines[end : block.first] + wanted
                end = block.first + len(block.lines)
                if wanted != block.lines:
                    at = differing(block.lines, wanted)
                    told = [*wanted[at : at + 1], "the end"][0]
                    wrong.append(f"line {block.first + at + 1}: due is {told!r:.200}")
            for path, made in pictures(run, lines):
                if not path.exists() or path.read_bytes() != made:
                    wrong.append(f"the picture {path.name} is not as it is drawn")
                    if is_written:
                        path.parent.mkdir(exist_ok=True)
                        path.write_bytes(made)
        except (Mistake, subprocess.TimeoutExpired) as mistake:
            return [*wrong, str(mistake)]
    if is_written:
        page.write_text("".join(line + "\n" for line in mended + lines[end:]))
    return [] if is_written else wrong


def main() -> int:
    """Checks or writes the pages, and prints what is wrong."""
    words = argparse.ArgumentParser(description="Runs the blocks of the pages and compares what they show.")
    words.add_argument("--gdp", type=pathlib.Path, default=ROOT / "gdp", help="the program that `gdp` stands for")
    words.add_argument("--write", action="store_true", help="write what the commands wrote into the pages")
    words.add_argument("pages", nargs="*", type=pathlib.Path)
    given = words.parse_args()
    pages = given.pages or [ROOT / page for page in PAGES]
    failed = 0
    for page in pages:
        for line in check_page(page.resolve(), given.gdp.resolve(), given.write):
            failed += 1
            print(f"{page.name}: {line}")
    print(f"documents: {len(pages)} pages, {failed} mistakes")
    return 1 if failed else 0


if __name__ == "__main__":
    sys.exit(main())
