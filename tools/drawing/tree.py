"""The picture of a search: a tree that lies on its side.

Each node has a line of its own, between the lines of its two halves, so nothing overlaps. What is larger than a page is folded: the path to
the best point and the largest parts are unfolded first, and a part that stays folded says what is in it.
"""

from collections import Counter
from dataclasses import dataclass

from .picture import EDGE, LETTER, LINE, WIDTH, Canvas, Piece, Stack, Text, picture
from .search import AGAINST, BETTER, CLOSED, RULED_OUT, SPLIT, STOPPED, WAITING, Node

LINES = 54  # of a picture, at most
STEP = 64.0  # from a node to its halves, at most
MARK = 10  # the size of a node's mark
SMALL = 6.7  # the width of a letter at a branch

# The kinds of leaves: the sign that counts them, what they are called, and what that means.
CALLED = {
    BETTER: ("■", "no better", "rows bound the objective"),
    RULED_OUT: ("⊠", "impossible", "rows contradict one another"),
    AGAINST: ("◇", "excluded", "by a line of logic, or by a choice"),
    CLOSED: ("□", "done", "the search was finished with it"),
    WAITING: ("–", "not opened", "the search did not come to it"),
    STOPPED: ("■", "stopped", "here the search gave up"),
}


def unfold(root: Node, lines: int) -> None:
    """Shows the halves of the largest parts, those with the best point first, until there are as many lines as there may be."""
    shown, count = [root], 1
    while count + 2 <= lines and any(node.halves for node in shown):
        node = max((node for node in shown if node.halves), key=lambda part: (part.is_best, part.size))
        shown.remove(node)
        node.is_open = True
        shown += node.halves
        count += 2


@dataclass
class Tree(Piece):
    """A tree on its side."""

    root: Node

    def natural(self) -> float:
        return WIDTH

    def lines(self) -> list[tuple[Node, int]]:
        """The nodes that are shown, from top to bottom, with their depths: each between its halves."""
        found: list[tuple[Node, int]] = []
        waiting: list[tuple[Node, int, bool]] = [(self.root, 0, False)]
        while waiting:
            node, depth, is_due = waiting.pop()
            if is_due or not node.is_open:
                found.append((node, depth))
            else:
                waiting += [(node.halves[1], depth + 1, False), (node, depth, True), (node.halves[0], depth + 1, False)]
        return found

    def height(self, width: float) -> float:
        return LINE * len(self.lines())

    def draw(self, canvas: Canvas, x: float, y: float, width: float) -> None:
        lines = self.lines()
        middles = {id(node): y + LINE * at + LINE / 2 for at, (node, _) in enumerate(lines)}
        deepest = max(depth for _, depth in lines)
        step = min(STEP, (width - 46 * LETTER) / max(deepest, 1))
        # The path to the best point is drawn last, over the other branches.
        branches = [(node, half, side, depth) for node, depth in lines if node.is_open for half, side in zip(node.halves, node.sides)]
        for node, half, side, depth in sorted(branches, key=lambda branch: branch[1].is_best):
            left, middle = x + MARK / 2 + depth * step, middles[id(half)]
            canvas.path(f"M{left:.1f} {middles[id(node)]:.1f}V{middle:.1f}h{step:.1f}", "path" if half.is_best else "line")
            room = step - MARK - 6
            side = side if len(side) * SMALL + 4 <= room else side[:1]
            wide = len(side) * SMALL + 4
            if side and wide <= room:
                canvas.box(left + 4 + (room - wide) / 2, middle - 7, wide, 14, "paper")
                canvas.text(left + 6 + (room - wide) / 2, middle - LINE / 2 - 0.5, side, "side")
        for node, depth in lines:
            self.node(canvas, node, x + depth * step, middles[id(node)])

    def node(self, canvas: Canvas, node: Node, x: float, middle: float) -> None:
        """A node's mark and its words."""
        mark(canvas, node, x + MARK / 2, middle)
        if node.halves and not node.is_open:
            words = f"{node.words} … {node.size - 1:,} nodes: {counted(node.leaves())}"
        elif node.kind in CALLED:
            words = CALLED[node.kind][1] + (f": {node.words}" if node.words else "")
        else:
            words = node.words
        room = max(int((WIDTH - EDGE - x - MARK - 6) / LETTER), 4)
        words = words if len(words) <= room else words[: room - 1] + "…"
        canvas.text(x + MARK + 6, middle - LINE / 2, words, "strong" if node.is_best else "")


def mark(canvas: Canvas, node: Node, x: float, middle: float) -> None:
    """The mark of a kind of node."""
    half = MARK / 2
    corner = f"M{x - half:.1f} {middle - half:.1f}"
    if node.halves and not node.is_open:
        canvas.path(f"{corner}l{MARK} {half:.0f}l-{MARK} {half:.0f}z", "solid")
    elif node.kind == SPLIT:
        canvas.box(x - 4, middle - 4, 8, 8, "hollow", 4)
    elif node.kind in (BETTER, STOPPED):
        canvas.box(x - half, middle - half, MARK, MARK, "solid")
    elif node.kind == AGAINST:
        canvas.path(f"M{x:.1f} {middle - 6:.1f}l6 6l-6 6l-6 -6z", "hollow")
    elif node.kind == WAITING:
        canvas.path(f"M{x - half:.1f} {middle:.1f}h{MARK}", "line")
    else:
        canvas.box(x - half, middle - half, MARK, MARK, "hollow")
        if node.kind == RULED_OUT:
            canvas.path(f"{corner}l{MARK} {MARK}m0 -{MARK}l-{MARK} {MARK}", "line")


def counted(leaves: Counter[str]) -> str:
    """The kinds of leaves, counted by their signs."""
    return ", ".join(f"{leaves[kind]:,} {sign}" for kind, (sign, _, _) in CALLED.items() if leaves[kind])


class Key(Piece):
    """What the marks of the leaves say, with their numbers."""

    def __init__(self, root: Node) -> None:
        self.leaves = root.leaves()
        told = "the first half above, the second below" if self.leaves[WAITING] + self.leaves[STOPPED] else "yes, or at most, above; no, or more, below"
        self.split = f"split: {told}" if root.halves else ""

    def natural(self) -> float:
        return WIDTH

    def height(self, width: float) -> float:
        return LINE * (len(self.leaves) + bool(self.split))

    def draw(self, canvas: Canvas, x: float, y: float, width: float) -> None:
        if self.split:
            mark(canvas, Node(SPLIT), x + MARK / 2, y + LINE / 2)
            canvas.text(x + MARK + 6, y, self.split, "faint")
            y += LINE
        for kind, (_, called, meaning) in CALLED.items():
            if self.leaves[kind]:
                mark(canvas, Node(kind), x + MARK / 2, y + LINE / 2)
                canvas.text(x + MARK + 6, y, f"{self.leaves[kind]:,} {called}: {meaning}", "faint")
                y += LINE


def tree_picture(root: Node, title: str) -> str:
    """The SVG text of a search."""
    unfold(root, LINES)
    opened = root.size - root.leaves()[WAITING]
    said = f"{title}: {opened:,} node" + ("s" if opened != 1 else "")
    return picture(Stack([Text(said.split(" "), style="title", indent=0), Tree(root), Key(root)], 14), said)
