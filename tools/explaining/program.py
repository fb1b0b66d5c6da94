"""Asks the program, whose verdict is the only one."""

import dataclasses
import os
import pathlib
import re
import subprocess
import tempfile

ROOT = pathlib.Path(__file__).resolve().parent.parent.parent


@dataclasses.dataclass
class Said:
    """What the program answered: its status, and its line, from standard error or else from standard output."""

    status: int
    line: bytes


def path() -> str:
    """The program: what `DATEMOUND_GDP` names, or else the launcher, which builds it where it isn't built."""
    return os.environ.get("DATEMOUND_GDP") or str(ROOT / "gdp")


def ask(words: list[str]) -> Said:
    """Runs the program on these words. Texts that it writes are not kept."""
    writes_line = words[0] in ("test", "check")
    out = subprocess.PIPE if writes_line else subprocess.DEVNULL
    try:
        ran = subprocess.run([path(), *words], stdin=subprocess.DEVNULL, stdout=out, stderr=subprocess.PIPE, check=False)
    except OSError as error:
        return Said(10, f"the program {path()} can't be run: {error.strerror}".encode("utf-8", "surrogateescape"))
    line = ran.stderr if ran.stderr or not writes_line else ran.stdout
    return Said(ran.returncode, line.removesuffix(b"\n"))


def refusal(said: Said, name: str) -> tuple[int, str] | None:
    """The line and the cause, where the text of this name is refused."""
    told = said.line.removeprefix(os.fsencode(name))
    found = re.fullmatch(rb": line ([0-9]+): ([A-Za-z]+)", told) if said.status == 2 and told != said.line else None
    return (int(found[1]), found[2].decode()) if found else None


class Copies:
    """Files for texts that are no files of their own, in a folder that is there as long as `with` lasts."""

    def __enter__(self) -> "Copies":
        self.folder, self.count = tempfile.TemporaryDirectory(), 0
        return self

    def __exit__(self, *_: object) -> None:
        self.folder.cleanup()

    def add(self, text: bytes) -> str:
        """The name of a file with this text."""
        self.count += 1
        name = os.path.join(self.folder.name, str(self.count))
        pathlib.Path(name).write_bytes(text)
        return name
