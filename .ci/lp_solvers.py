"""What other programs say of an LP text: whether glpsol reads it, and the optimum that glpsol and cbc find."""

import pathlib
import re
import shutil
import subprocess
import tempfile

SECONDS = 20


def has_glpsol():
    return shutil.which("glpsol") is not None


def has_cbc():
    return shutil.which("cbc") is not None


def glpsol_complaint(text):
    """What glpsol says of a text that it doesn't read, or reads with a warning; None where it has no complaint."""
    with tempfile.TemporaryDirectory() as folder:
        path = pathlib.Path(folder) / "text.lp"
        path.write_bytes(text)
        ran = subprocess.run(["glpsol", "--check", "--lp", str(path)], capture_output=True, timeout=SECONDS, check=False)
    said = ran.stdout.decode()
    if ran.returncode or "warning" in said.lower() or "error" in said.lower():
        return said.strip().replace("\n", "; ")[-200:]
    return None


def glpsol_optimum(text):
    """The kind and the value that glpsol finds, as floating point, or None where it comes to no answer."""
    with tempfile.TemporaryDirectory() as folder:
        path, found = pathlib.Path(folder) / "text.lp", pathlib.Path(folder) / "found"
        path.write_bytes(text)
        ran = subprocess.run(["glpsol", "--lp", str(path), "-w", str(found)], capture_output=True, timeout=SECONDS, check=False)
        told = found.read_text() if found.exists() else ""
    said = ran.stdout.decode()
    if "NO PRIMAL FEASIBLE SOLUTION" in said or "HAS NO INTEGER FEASIBLE" in said or "NO INTEGER FEASIBLE" in said:
        return "empty", None
    if "UNBOUNDED" in said or "NO DUAL FEASIBLE SOLUTION" in said:
        return "endless", None
    solution = re.search(r"^s (?:mip \d+ \d+ (\w)|bas \d+ \d+ (\w) \w) (\S+)$", told, re.MULTILINE)
    if not solution or (solution[1] or solution[2]) not in "of":
        return None
    return "best", float(solution[3])


def cbc_optimum(text):
    """The same by cbc."""
    with tempfile.TemporaryDirectory() as folder:
        path, found = pathlib.Path(folder) / "text.lp", pathlib.Path(folder) / "found"
        path.write_bytes(text)
        subprocess.run(["cbc", str(path), "solve", "solution", str(found)], capture_output=True, timeout=SECONDS, check=False)
        first = found.read_text().split("\n")[0] if found.exists() else ""
    if first.startswith("Optimal"):
        return "best", float(first.split()[-1])
    kinds = {"Infeasible": "empty", "Integer infeasible": "empty", "Unbounded": "endless"}
    return next(((kind, None) for start, kind in kinds.items() if first.startswith(start)), None)


def agrees(told, exact):
    """Whether a kind and a value in floating point are the exact ones, by a millionth."""
    if told[0] != exact[0]:
        return False
    return told[0] != "best" or abs(told[1] - float(exact[1])) <= 1e-6 * max(1, abs(float(exact[1])))
