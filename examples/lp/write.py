#!/usr/bin/env python3
"""Writes the LP files of this folder anew: PuLP writes the plans of `integrations/pulp/plans.py`, and glpsol and cbc what they read of that.

`write.py [FOLDER]` wants PuLP, glpsol and cbc, and ends with an error where one of them writes no file.
"""

import pathlib
import subprocess
import sys

HERE = pathlib.Path(__file__).resolve().parent
sys.dont_write_bytecode = True
sys.path.insert(0, str(HERE.parent.parent / "integrations" / "pulp"))
from plans import PLANS  # noqa: E402

# The last plan whose names every program can write.
LAST = "mixed"


def write(folder):
    names = list(PLANS)
    for name in names[: names.index(LAST) + 1]:
        by_pulp, by_glpsol, by_cbc = (folder / f"{name}.{program}.lp" for program in ("pulp", "glpsol", "cbc"))
        PLANS[name].make().writeLP(str(by_pulp))
        for words in (["glpsol", "--lp", by_pulp, "--check", "--wlp", by_glpsol], ["cbc", by_pulp, "-presolve", "off", "-export", by_cbc, "-quit"]):
            subprocess.run(words, stdout=subprocess.DEVNULL, check=True)
        for path in (by_pulp, by_glpsol, by_cbc):
            assert path.exists(), f"{path} is not written"


if __name__ == "__main__":
    write(pathlib.Path(sys.argv[1]) if len(sys.argv) > 1 else HERE)
