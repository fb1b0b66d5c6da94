"""Explains why a text is refused: where in its line, what may stand there, and what to write.

Not part of what is proved. The verdict, the line and the cause are the program's, which is asked; what is here only looks for the
place in that line, and for a known slip. `slips` is the table of those: a new one is a line of it.

`program` asks the program, `kinds` tells the texts apart, `models`, `points`, `answers` and `lp_texts` find the place, `plainly`
writes a row or a proposition again as the manual has it, `show` prints.
"""
