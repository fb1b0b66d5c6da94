"""Rows of the end-to-end table of what the pages show of `lp`, `make` and `bench`."""

import re

from case import Case

PAGES = ("docs/FORMATS.md", "examples/lp/README.md", "integrations/pulp/README.md")
# A call that a page names above what it writes.
CALL = re.compile(r"\./gdp ((?:lp [0-9]+ [\w./]+)|(?:make [0-9]+ [0-9]+)|(?:bench \w+ [0-9]+ [0-9]+ [0-9]+))`? writes:")


def pages(root):
    """The texts and answers that a page shows: of the call named last before them, over the LP text shown last."""
    rows, starts = [], ("gdp-lp 1\n", "gdp 1\n", "seed ")
    for page in PAGES:
        shown, words = b"", []
        for at, part in enumerate((root / page).read_text().split("```")):
            fence, _, block = part.partition("\n")
            shown = block.encode() if at % 2 and fence == "lp" else shown
            words = [call.split() for call in CALL.findall(part)][-1:] or words if at % 2 == 0 else words
            if at % 2 and not fence and words and block.startswith(starts):
                line = words.pop()
                files = {line[2]: shown} if line[0] == "lp" and "/" not in line[2] else {}
                line = [*line[:2], str(root / line[2])] if line[0] == "lp" and not files else line
                rows.append(Case(f"{page}: {' '.join(line)}", line, files, 3 if block.endswith("gave up\n") else 0, block.encode()))
    return rows
