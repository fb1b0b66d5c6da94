#!/usr/bin/env python3
"""Runs the test of `integrations/pulp` with the built program, where a Python on this machine has PuLP; else says that it is left out.

The program is what `DATEMOUND_GDP` names, else that which `rt ci` built, else the launcher.
"""

import os
import pathlib
import subprocess
import sys

ROOT = pathlib.Path(__file__).resolve().parent.parent
TEST = ROOT / "integrations" / "pulp" / "test_datemound_pulp.py"
BUILT = ROOT / "crates" / "gdp_cli" / "out" / "gdp_cli"
# Debian's packages are those of its own Python, which need not be the first on the PATH.
PYTHONS = (sys.executable, "/usr/bin/python3")


def has_pulp(python):
    return os.access(python, os.X_OK) and subprocess.run([python, "-c", "import pulp"], capture_output=True, check=False).returncode == 0


def main():
    python = next(filter(has_pulp, PYTHONS), None)
    if python is None:
        print("the bridge to PuLP: left out, since there is no PuLP here")
        return 0
    program = str(BUILT if BUILT.exists() else ROOT / "gdp")
    ran = subprocess.run([python, TEST], env={"DATEMOUND_GDP": program} | os.environ, stderr=subprocess.PIPE, text=True, check=False)
    last = ran.stderr.strip().split("\n")
    print(ran.stderr if ran.returncode else f"the bridge to PuLP: {last[-3]}: {last[-1]}")
    return 1 if ran.returncode else 0


if __name__ == "__main__":
    sys.exit(main())
