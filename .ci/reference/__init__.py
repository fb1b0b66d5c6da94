"""What the program has to answer, written down a second time and apart from it, by the rules of `docs/FORMATS.md`.

`answer(words, files)` gives the status, the output and the error of a command over texts that can be read. It is for
comparing: it is slow, short, and shares no code with the program, not even the numbers (Python's have no limit).

`texts` reads models and points and tests a point, `rewriting` compiles a model to a mixed-integer program, `programs` holds
such a program and writes it as LP text, and `lp_texts` reads one from LP text. `solving` finds an optimum with its certificate by
`search`, which goes down a tree of nodes by the moves of `simplex`; `generator` makes a model from a number; `checking` asks the
checker in `tools/`, and `enumeration` finds an optimum by trying every setting, both apart from all of these.
"""

from .commands import answer

__all__ = ["answer"]
