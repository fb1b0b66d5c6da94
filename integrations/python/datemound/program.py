"""Finding the program `gdp`, and running it."""

from __future__ import annotations

import os
import pathlib
import shutil
import subprocess
import sys
import tempfile
import time
from typing import IO, Mapping, NamedTuple, Sequence

from .errors import ProgramError

#: The environment variable that names the program.
VARIABLE = "DATEMOUND_GDP"

# What the launcher writes while it proves and builds the program.
_BUILDING = "gdp: proving crate "


class Ran(NamedTuple):
    """How a run ended: the exit status, and what it wrote on standard output and on standard error."""

    status: int
    out: str
    err: str


def find_program() -> str:
    """The path of `gdp`: what `DATEMOUND_GDP` names; else `gdp` on the PATH; else the launcher of the repository, or of the unpacked package,
    that this module stands in.

    Errors: a `ProgramError` where there is none.
    """
    named = os.environ.get(VARIABLE)
    if named:
        found = shutil.which(named)
        if found is None:
            raise ProgramError(f"{VARIABLE} names {named!r}, which is no program that can be run")
        return os.path.abspath(found)
    folder = pathlib.Path(__file__).resolve().parent
    beside = [folder.parents[at] / name for at, name in ((2, "gdp"), (3, "bin/gdp")) if at < len(folder.parents)]
    for candidate in ("gdp", *map(str, beside)):
        found = shutil.which(candidate)
        if found is not None:
            return os.path.abspath(found)
    raise ProgramError(f"there is no program gdp: install the package, put gdp on the PATH, or name it in {VARIABLE}")


def run(words: Sequence[str], files: Mapping[str, str], progress: bool | None = None) -> Ran:
    """Runs `gdp` with these words in a folder with these files, which is removed at the end, however it ends.

    Where it is interrupted (Ctrl-C), `gdp` is ended first. Errors: a `ProgramError` where the program isn't there or can't be run, or was
    ended by a signal.
    """
    program = find_program()
    with tempfile.TemporaryDirectory(prefix="datemound-") as folder:
        for name, text in files.items():
            with open(os.path.join(folder, name), "w", encoding="utf-8", newline="") as file:
                file.write(text)
        with tempfile.TemporaryFile() as out, tempfile.TemporaryFile() as err:
            shown = Progress(words, err, sys.stderr.isatty() if progress is None else progress)
            child = None
            try:
                child = _started([program, *words], folder, out, err)
                status = _wait(child, shown)
            except BaseException:
                if child is not None:
                    _end(child)
                raise
            finally:
                shown.close()
            ran = Ran(status, _contents(out), _contents(err))
    if status < 0:
        raise ProgramError(f"{program} was ended by the signal {-status}, before it answered", status)
    return ran


class Progress:
    """The line on standard error that says how long the program has run, from the first second on; and what the launcher says of its build."""

    def __init__(self, words: Sequence[str], err: IO[bytes], is_on: bool) -> None:
        self.began, self.is_on, self.is_shown, self.read = time.monotonic(), is_on, False, 0
        self.label = " ".join(["gdp", *words])
        self.err = err

    def tell(self) -> None:
        """Called again and again while the program runs."""
        self._pass_on_building()
        seconds = int(time.monotonic() - self.began)
        if self.is_on and seconds:
            self._write(f"\r\x1b[K{self.label}: {seconds} s, and goes on (Ctrl-C ends it)")
            self.is_shown = True

    def close(self) -> None:
        """Called once, when the program has ended: takes the line away."""
        self._pass_on_building()
        self._clear()

    def _clear(self) -> None:
        if self.is_shown:
            self._write("\r\x1b[K")
            self.is_shown = False

    def _pass_on_building(self) -> None:
        """Writes the launcher's lines that came since the last time."""
        found = os.pread(self.err.fileno(), 1 << 20, self.read)
        whole = found[: found.rfind(b"\n") + 1]
        self.read += len(whole)
        for line in whole.decode(errors="replace").splitlines():
            if line.startswith(_BUILDING):
                self._clear()
                self._write(f"{line}\n")

    def _write(self, text: str) -> None:
        try:
            sys.stderr.write(text)
            sys.stderr.flush()
        except (OSError, ValueError):
            self.is_on = False


def _started(command: list[str], folder: str, out: IO[bytes], err: IO[bytes]) -> subprocess.Popen[bytes]:
    try:
        return subprocess.Popen(command, cwd=folder, stdin=subprocess.DEVNULL, stdout=out, stderr=err)
    except OSError as error:
        raise ProgramError(f"{command[0]} can't be run: {error.strerror}") from None


def _wait(child: subprocess.Popen[bytes], shown: Progress) -> int:
    while True:
        try:
            return child.wait(timeout=0.5)
        except subprocess.TimeoutExpired:
            shown.tell()


def _end(child: subprocess.Popen[bytes]) -> None:
    child.terminate()
    try:
        child.wait(timeout=5)
    except subprocess.TimeoutExpired:
        pass
    finally:
        if child.poll() is None:
            child.kill()
            child.wait()


def _contents(file: IO[bytes]) -> str:
    file.seek(0)
    return file.read().decode(errors="replace")
