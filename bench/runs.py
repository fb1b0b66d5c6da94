"""What the scripts here share: one run of a program with its times and its memory, means, and where the built program is."""

import dataclasses
import math
import os
import pathlib
import resource
import subprocess
import tempfile
import time

ROOT = pathlib.Path(__file__).resolve().parent.parent
PROGRAM = os.environ.get("GDP", str(ROOT / "crates" / "gdp_cli" / "out" / "gdp_cli"))


@dataclasses.dataclass
class Run:
    """A run: wall and processor seconds, peak memory in bytes, exit status (None where its time was up), and output."""

    seconds: float
    busy: float
    memory: int
    status: int | None
    out: bytes


def run(command: list[str], limit: int = 600) -> Run:
    """Runs a command once, for so many seconds of the processor at most.

    What Linux counts as the peak of memory begins with what this process has, some 15 MiB.
    """
    with tempfile.TemporaryFile() as out:
        begun = time.perf_counter()
        child = subprocess.Popen(command, stdout=out, stderr=subprocess.DEVNULL, stdin=subprocess.DEVNULL)
        resource.prlimit(child.pid, resource.RLIMIT_CPU, (limit, limit))
        _, status, usage = os.wait4(child.pid, 0)
        seconds = time.perf_counter() - begun
        child.returncode = os.waitstatus_to_exitcode(status)
        out.seek(0)
        ended = child.returncode if child.returncode >= 0 else None
        return Run(seconds, usage.ru_utime + usage.ru_stime, usage.ru_maxrss * 1024, ended, out.read())


def in_turns(commands: dict[str, list[str]], turns: int, limit: int = 600) -> dict[str, Run]:
    """Runs each command so often, in turns, and gives of each the run of the least processor time.

    A command whose time is up is run no more.
    """
    best: dict[str, Run] = {}
    for _ in range(turns):
        for name, command in commands.items():
            if name in best and best[name].status is None:
                continue
            new = run(command, limit)
            if name not in best or new.busy < best[name].busy:
                best[name] = new
    return best


def mean(numbers: list[float]) -> float:
    """The geometric mean."""
    return math.exp(sum(map(math.log, numbers)) / len(numbers))


def machine() -> str:
    """The processor's name, how many there are, and how busy they are."""
    names = [line.split(":")[1].strip() for line in open("/proc/cpuinfo") if line.startswith("model name")]
    return f"{len(names)} processors, {names[0]}, load {os.getloadavg()[0]:.1f}"
