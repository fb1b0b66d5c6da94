"""What several tests share."""

import inspect
import pathlib
import sys

ROOT = pathlib.Path(__file__).resolve().parents[3]
EXAMPLES = pathlib.Path(__file__).resolve().parents[1] / "examples"


def use_reference():
    """Makes the second implementation, and what draws models for it, importable."""
    if str(ROOT / ".ci") not in sys.path:
        sys.path.append(str(ROOT / ".ci"))


def line_of(mark):
    """The number of the line of the calling test that ends with this comment."""
    frame = inspect.currentframe().f_back
    lines, first = inspect.getsourcelines(frame.f_code)
    found = [first + at for at, line in enumerate(lines) if line.rstrip().endswith(f"# {mark}")]
    assert len(found) == 1, found
    return found[0]
