#!/usr/bin/env python3
"""Draws the examples and the largest model, and compares the pictures with what the second implementation says: `drawings.py [GDP]`.

`drawings.py --write` writes the pictures that `examples/README.md` shows; without it they are compared, byte for byte.

Each picture is well-formed; its texts lie in it and not over one another; it names what the model names, and marks what is taken, each row
with nothing to spare and each that fails. The tree of a proof has the proof's nodes, and its leaves by their kinds. What `gdp` refuses is
refused with the same line and status.
"""

import concurrent.futures
import os
import pathlib
import re
import subprocess
import sys
import tempfile
import xml.etree.ElementTree
from collections import Counter
from fractions import Fraction

sys.dont_write_bytecode = True
from full_model import full_model  # noqa: E402
from reference.texts import read_model, read_point, truth  # noqa: E402

ROOT = pathlib.Path(__file__).resolve().parent.parent
DRAW = str(ROOT / "tools" / "draw.py")
SVG = "{http://www.w3.org/2000/svg}"
ADVANCE = 7.83  # of a letter at 13 px in the widest of the fonts
SIZES = {"title": 15 / 13, "side": 11 / 13}
PAGE = 1300
SHOWN = ("process_network", "strip_packing")  # the examples whose pictures their README shows
ROUTES = {"logic": "8", "hybrid": "8"}  # each with fewer steps than any example needs


class Texts:
    """The texts of a picture, each with its style and its place."""

    def __init__(self, svg: str) -> None:
        root = xml.etree.ElementTree.fromstring(svg)
        self.width, self.height = float(root.attrib["width"]), float(root.attrib["height"])
        self.items = [(e.text or "", e.attrib.get("class", ""), float(e.attrib["x"]), float(e.attrib["y"])) for e in root.iter(SVG + "text")]

    def words(self) -> str:
        return "\n".join(text for text, *_ in self.items)

    def styled(self, style: str) -> list[str]:
        return [text for text, its, *_ in self.items if its == style]

    def count(self, text: str) -> int:
        """How many texts are this one."""
        return sum(words == text for words, *_ in self.items)

    def misplaced(self) -> list[str]:
        """The texts that leave the picture or stand over another."""
        boxes = [(x, x + len(text) * ADVANCE * SIZES.get(style, 1), y, text) for text, style, x, y in self.items]
        wrong = [text for left, right, y, text in boxes if left < 0 or right > self.width or not 10 < y < self.height]
        boxes.sort(key=lambda box: (box[2], box[0]))
        for at, (left, right, y, text) in enumerate(boxes):
            for other_left, other_right, other_y, other in boxes[at + 1 :]:
                if other_y - y >= 11:
                    break
                if left < other_right - 0.5 and other_left < right - 0.5:
                    wrong.append(f"{text} over {other}")
        return wrong


def run(*words: str) -> tuple[int, str, str]:
    """What a command gives: its status, its output and its error."""
    ran = subprocess.run(words, stdin=subprocess.DEVNULL, capture_output=True, check=False)
    return ran.returncode, ran.stdout.decode(), ran.stderr.decode()


def drawn(*words: str) -> Texts:
    """The texts of a picture."""
    status, svg, error = run(DRAW, *words)
    assert status == 0, f"{words}: status {status}, {error}"
    return Texts(svg)


def blocks_in_force(block, truths):
    """The block, and those of the disjuncts that are taken in it."""
    yield block
    for disjunction in block.disjunctions:
        for disjunct in disjunction.disjuncts:
            if disjunct.indicator in truths:
                yield from blocks_in_force(disjunct, truths)


def marks(model, values, over, truths) -> tuple[int, int]:
    """How many inequalities hold with nothing to spare, and how many rows and propositions fail."""
    tight = failing = 0
    for block in blocks_in_force(model.root, truths):
        for terms, relation, right, _ in block.rows:
            left = sum(c * Fraction(values[name], over) for name, c in terms)
            tight += relation != "=" and left == right
            failing += not {"<=": left <= right, ">=": left >= right, "=": left == right}[relation]
        failing += sum(not truth(proposition, truths) for proposition, _ in block.propositions)
    return tight, failing


def wrong_plan(name: pathlib.Path, at: pathlib.Path | None) -> list[str]:
    """What is wrong with the picture of a plan."""
    texts, model = drawn("draw", str(name), *([str(at)] if at else [])), read_model(name.read_bytes())
    wrong = texts.misplaced()
    wrong += [f"{named} is missing" for named in [*model.vars, *model.booleans] if not re.search(rf"(?<![\w.]){re.escape(named)}(?![\w.])", texts.words())]
    if at is None:
        return wrong
    values, over, truths = read_point(model, point_text(at))
    plain = set(re.findall(r"✓ ([\w.]+)", "\n".join(text for text, style, *_ in texts.items if style != "light")))
    taken = {text.split(" ")[1] for text in texts.styled("light")} | plain
    wrong += [f"taken are {sorted(taken)}"] if taken - {"taken"} != truths else []
    found = (texts.count("■"), texts.count("✗"))
    wrong += [f"marked are {found}"] if found != marks(model, values, over, truths) else []
    return wrong


def point_text(at: pathlib.Path) -> bytes:
    """The text of a point, of an answer without its claim and its proof."""
    text = at.read_bytes()
    if text.startswith(b"gdp-answer"):
        text = b"gdp-point 1\n" + text[text.index(b"over ") :].partition(b"tree\n")[0] + b"end\n"
    return text


def wrong_tree(answer: pathlib.Path, model: pathlib.Path) -> list[str]:
    """What is wrong with the picture of a proof."""
    nodes = answer.read_text().partition("tree\n")[2].splitlines()[:-1]
    kinds = Counter(line.split(" ")[0] for line in nodes)
    wrong = []
    for words in ([str(answer)], [str(answer), str(model)]):
        texts = drawn("draw-log", *words)
        told = dict(re.findall(r"^([\d,]+) (no better|impossible|excluded): ", texts.words(), re.MULTILINE))
        told = {int(number.replace(",", "")) if name else 0 for number, name in told.items()}
        wrong += texts.misplaced()
        wrong += [] if texts.items[0][0].endswith(f": {len(nodes):,} node" + "s" * (len(nodes) != 1)) else [f"the title says {texts.items[0][0]}"]
        wrong += [] if told == {kinds[kind] for kind in ("bounded", "refuted", "logic") if kinds[kind]} else [f"leaves are {told} of {kinds}"]
    return wrong


def wrong_log(log: pathlib.Path) -> list[str]:
    """What is wrong with the picture of a log."""
    texts = drawn("draw-log", str(log))
    opened = len(re.findall("^open", log.read_text(), re.MULTILINE))
    told = texts.items[0][0].endswith(f": {opened:,} node" + "s" * (opened != 1))
    return texts.misplaced() + ([] if told else [f"the title says {texts.items[0][0]}"])


def wrong_refusals(gdp: str, folder: pathlib.Path) -> list[str]:
    """Where a text is refused otherwise than by `gdp`."""
    model, bad, point = folder / "M", folder / "bad", folder / "P"
    model.write_text("gdp 1\nvar x real 0 10\nrow 2 x <= 7\n")
    bad.write_text("gdp 1\nvar x real 0 10\nrow x < 7\n")
    point.write_text("gdp-point 1\nover 1\nval y 3\nend\n")
    calls = [
        (["draw", str(bad)], ["format", str(bad)]),
        (["draw", str(folder / "none")], ["format", str(folder / "none")]),
        (["draw", str(model), str(point)], ["test", str(model), str(point)]),
        (["draw", str(model), str(folder / "none")], ["test", str(model), str(folder / "none")]),
        (["draw-log", str(folder / "none")], ["format", str(folder / "none")]),
    ]
    model.write_bytes(model.read_bytes().replace(b"\n", b"\n# \xff\x00\x1b\xe2\x98\x83 a < b & c > d.\n", 1))
    drawn("draw", str(model))
    wrong = [f"{ours}: {run(DRAW, *ours)}" for ours, theirs in calls if run(DRAW, *ours) != (*run(gdp, *theirs)[:1], "", run(gdp, *theirs)[2])]
    if gdp == str(ROOT / "gdp") and run(gdp, "draw") != run(DRAW, "draw"):
        wrong.append("the launcher doesn't hand `draw` on")
    return wrong + [f"{words}: not 7" for words in (["draw"], ["draw-log"], ["draw", "a", "b", "c"]) if run(DRAW, *words)[0] != 7]


def wrong_example(gdp: str, model: pathlib.Path) -> list[str]:
    """What is wrong with the pictures of an example."""
    wrong = wrong_plan(model, None)
    for at in (model.with_suffix(".point"), model.with_name(f"{model.stem}-fails.point")):
        wrong += wrong_plan(model, at)
    with tempfile.TemporaryDirectory() as folder:
        for route, few in ROUTES.items():
            status, text, _ = run(gdp, "solve", route, "10000", str(model))
            if status == 0:
                answer, log = pathlib.Path(folder, "answer"), pathlib.Path(folder, "log")
                answer.write_text(text)
                log.write_text(run(gdp, "solve", route, few, str(model))[1])
                wrong += wrong_plan(model, answer) + wrong_tree(answer, model) + wrong_log(log)
    return [f"{model.name}: {line}" for line in wrong]


def wrong_shown(is_written: bool) -> list[str]:
    """Which pictures of the examples' README are not as they are drawn."""
    wrong = []
    for name in SHOWN:
        model, picture = ROOT / "examples" / f"{name}.gdp", ROOT / "docs" / "pictures" / f"{name}.svg"
        svg = run(DRAW, "draw", str(model), str(model.with_suffix(".point")))[1]
        if is_written:
            picture.write_text(svg)
        elif not picture.exists() or picture.read_text() != svg:
            wrong.append(f"{picture.name} is not as it is drawn")
    return wrong


def main(words: list[str]) -> int:
    """Draws all, and prints what is wrong."""
    is_written = words[:1] == ["--write"]
    words = words[is_written:]
    gdp = os.path.abspath(words[0]) if words else str(ROOT / "gdp")
    os.environ["DATEMOUND_GDP"] = gdp
    wrong = []
    with tempfile.TemporaryDirectory() as name:
        folder = pathlib.Path(name)
        wrong += wrong_refusals(gdp, folder) + wrong_shown(is_written)
        models = sorted((ROOT / "examples").glob("*.gdp"))
        with concurrent.futures.ThreadPoolExecutor() as pool:
            wrong += sum(pool.map(lambda model: wrong_example(gdp, model), models), [])
        if not words:
            text, point, _ = full_model()
            (folder / "full.gdp").write_bytes(text)
            (folder / "full.point").write_bytes(point)
            for given in ([], [str(folder / "full.point")]):
                texts = drawn("draw", str(folder / "full.gdp"), *given)
                wrong += texts.misplaced() + ([] if texts.height < PAGE else [f"the largest model is {texts.height} high"])
    for line in wrong:
        print(f"drawings: {line}")
    print(f"drawings: {len(wrong)} mistakes")
    return 1 if wrong else 0


if __name__ == "__main__":
    sys.exit(main(sys.argv[1:]))
