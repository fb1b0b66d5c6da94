#!/usr/bin/env python3
"""A stand-in for the program: it answers the words as the program does, by the second implementation in `reference/`.

It is slow, and knows nothing of streams that fail and memory that runs out. It serves to try what calls the program where it isn't built.
"""

import pathlib
import sys

sys.dont_write_bytecode = True
from reference import answer  # noqa: E402
from reference.commands import form_of  # noqa: E402


def main(words):
    form, files = form_of(words), {}
    for name in form[2] if form else []:
        try:
            files[name] = pathlib.Path(name).read_bytes()
        except OSError:
            print(f"read fault: {name}", file=sys.stderr)
            return 5
    status, out, err = answer(words, files)
    sys.stdout.buffer.write(out)
    sys.stderr.buffer.write(err)
    return status


if __name__ == "__main__":
    sys.exit(main(sys.argv[1:]))
