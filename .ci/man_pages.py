#!/usr/bin/env python3
"""Tests that the man pages render without a warning, and have what the manual's tables have: each line of a model, a point and an answer, each
cause of a refusal, each exit status, and each command of the launcher's usage, which the completion has too.

They are rendered by groff; where there is none, nothing is tested.
"""

import pathlib
import re
import shutil
import subprocess
import sys

ROOT = pathlib.Path(__file__).resolve().parent.parent
PAGES = ROOT / "docs" / "man"
# The sections of the manual whose tables' first columns stand in gdp(5), and those whose first columns stand in gdp(1).
FORMS = ("A model", "A point", "Why a text is refused", "Answers and logs", "Checking")
STATUSES = ("Statuses and messages",)

def rendered(page: str) -> tuple[str, str]:
    """A page as a terminal shows it, with single blanks, and the warnings."""
    ran = subprocess.run(["groff", "-man", "-ww", "-Tascii", "-P-cbou", PAGES / page], capture_output=True, text=True, check=False)
    return re.sub(r"\s+", " ", ran.stdout), ran.stderr


def first_columns(names: tuple[str, ...]) -> list[str]:
    """The first cells of the tables of these sections of the manual, without the heads."""
    manual = (ROOT / "docs" / "FORMATS.md").read_text(encoding="utf-8")
    found = []
    for section in re.split(r"^##+ ", manual, flags=re.MULTILINE):
        if section.partition("\n")[0] in names:
            for table in re.findall(r"(?:^\|.*\n)+", section, flags=re.MULTILINE):
                found += [row.split("|")[1].strip() for row in table.splitlines()[2:]]
    return found


def commands() -> list[str]:
    """The commands of the launcher's usage."""
    usage = subprocess.run([ROOT / "gdp", "--help"], capture_output=True, text=True, check=True).stdout
    return re.findall(r"^(?:usage:| {6}) gdp ([a-z-]+)", usage, flags=re.MULTILINE)


def missing() -> list[str]:
    """What the pages and the completion lack, and the warnings."""
    first, wrong = rendered("gdp.1")
    fifth, more = rendered("gdp.5")
    lacking = [line for line in (wrong + more).splitlines()]
    forms = [form for cell in first_columns(FORMS) for form in re.findall(r"`([^`]+)`", cell)]
    lacking += [f"gdp(5) has no {form!r}" for form in dict.fromkeys(forms) if form not in fifth]
    statuses = first.partition("EXIT STATUS")[2]
    lacking += [f"gdp(1) has no exit status {status}" for status in dict.fromkeys(first_columns(STATUSES)) if f" {status} " not in statuses]
    completed = (ROOT / "tools" / "packaging" / "gdp.bash").read_text(encoding="utf-8")
    for command in commands():
        lacking += [] if f"gdp {command} " in first else [f"gdp(1) has no gdp {command}"]
        lacking += [] if re.search(rf"1:\*\).*[' ]{command} ", completed) else [f"the completion has no {command}"]
    return lacking if forms and commands() else ["the manual or the usage can't be read"]


def main() -> int:
    if not shutil.which("groff"):
        print("the man pages: left out, since there is no groff here")
        return 0
    lacking = missing()
    for line in lacking:
        print(f"man pages: {line}")
    print(f"man pages: 2 pages, {len(lacking)} mistakes")
    return 1 if lacking else 0


if __name__ == "__main__":
    sys.exit(main())
