#!/usr/bin/env python3
"""Explains why `gdp` refuses a text: `explain FILE [MODEL]`.

FILE is a model, an LP text, or a point or an answer, which is read with its MODEL. First stands what the program says; then the line and
the column, the line with a caret under the place, what was met there, what may stand there, and what to write where a slip is known.
The exit status is the program's. Beside what is proved: the program's word is never changed, and what explains it is only tested.
"""

import os
import pathlib
import sys

sys.dont_write_bytecode = True
sys.path.insert(0, str(pathlib.Path(__file__).resolve().parent))

from explaining import explanation  # noqa: E402

if __name__ == "__main__":
    status, out = explanation.explain(sys.argv[1:])
    stream = sys.stderr if status == explanation.USAGE_STATUS else sys.stdout
    try:
        stream.buffer.write(os.fsencode(out))
        stream.buffer.flush()
    except OSError:
        os._exit(6)
    sys.exit(status)
