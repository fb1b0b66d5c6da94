"""The tree of a search: of the proof in an answer, or of the log of a search that gave up."""

from collections import Counter
from collections.abc import Iterator, Sequence
from dataclasses import dataclass, field

from .texts import Block, Model, Option, Point, Row

# What a node is: a split, or a leaf of one of these kinds, the last three of a log.
SPLIT, BETTER, RULED_OUT, AGAINST, CLOSED, WAITING, STOPPED = "split", "bounded", "refuted", "logic", "closed", "waiting", "stopped"


@dataclass(slots=True)
class Node:
    """A node of a search: what it is, what is said of it, its two halves and what these are called."""

    kind: str
    words: str = ""
    halves: list["Node"] = field(default_factory=list)
    sides: tuple[str, str] = ("", "")
    is_best: bool = False  # whether the best point of the answer is in it, or the search stopped in it
    size: int = 1
    is_open: bool = False  # whether its halves are shown

    def leaves(self) -> Counter[str]:
        """How many leaves of each kind are in it."""
        return Counter(node.kind for node in below(self) if not node.halves)


def below(root: Node) -> list[Node]:
    """The node and all in it, each before its halves."""
    order, waiting = [], [root]
    while waiting:
        node = waiting.pop()
        order.append(node)
        waiting += node.halves
    return order


def measured(root: Node) -> Node:
    """Counts the nodes of each part, the lowest parts first."""
    for node in reversed(below(root)):
        node.size = 1 + sum(half.size for half in node.halves)
    return root


def options_below(block: Block) -> Iterator[Option]:
    """The disjuncts below a block, in the order of the text."""
    for choice in block.choices:
        for option in choice.options:
            yield option
            yield from options_below(option)


def condition_lines(block: Block) -> Iterator[int]:
    """The lines of a block's conditions, in the order in which they are counted."""
    yield from (logic.line for logic in block.logic)
    for choice in block.choices:
        yield choice.line
        for option in choice.options:
            yield from condition_lines(option)


def row_lines(rows: Sequence[Row]) -> Iterator[int]:
    """The line of each row, of an equation twice."""
    for row in rows:
        yield from [row.line] * (2 if row.relation == "=" else 1)


class Names:
    """The names and lines that a proof's numbers stand for; without a model they stay numbers."""

    def __init__(self, model: Model | None, point: Point) -> None:
        self.model, self.point, self.is_logic = model, point, point.route == "logic"
        self.variables = [variable.name for variable in model.variables] if model else []
        self.booleans = model.booleans if model else []
        self.conditions = list(condition_lines(model)) if model else []

    def split(self, words: Sequence[str]) -> tuple[str, tuple[str, str], int | None]:
        """What a split asks, what its halves are called, and in which of them the answer's point is, if that is known."""
        at = int(words[1])
        if words[0] == "truth":
            return self.asked(at)
        place = at - len(self.variables)
        if not self.is_logic and 0 <= place < len(self.booleans):
            question, _, half = self.asked(place)
            return question, ("no", "yes"), None if half is None else 1 - half
        bound = int(words[2])
        name = self.variables[at] if place < 0 else f"column {at}"
        value = self.point.values.get(name)
        sides = (f"≤ {bound}".replace("-", "−"), f"≥ {bound + 1}".replace("-", "−"))
        return f"{name}?", sides, None if value is None else int(value > bound)

    def asked(self, at: int) -> tuple[str, tuple[str, str], int | None]:
        """The split by a Boolean."""
        if at >= len(self.booleans):
            return f"Boolean {at}?", ("yes", "no"), None
        name = self.booleans[at]
        return f"{name}?", ("yes", "no"), int(name not in self.point.truths) if self.point.values else None

    def leaf(self, words: Sequence[str], taken: frozenset[str]) -> str:
        """What shows a leaf, where these Booleans are true: the lines of the model by the route logic, else a count of rows."""
        if words[0] == AGAINST:
            at = int(words[1])
            return f"line {self.conditions[at]}" if at < len(self.conditions) else f"condition {at}"
        rows = [int(pair.partition(":")[0]) for pair in words[2 if words[0] == BETTER else 1 :]]
        if self.model is None or not self.is_logic:
            return f"{len(rows)} row" + ("s" if len(rows) != 1 else "")
        known = self.rows_in_force(self.model, taken)
        lines = sorted({known[at] for at in rows if at < len(known)})
        told = ["a split"] if any(at >= len(known) for at in rows) else []
        return "line" + ("s" if len(lines) > 1 else "") + " " + ", ".join([*map(str, lines), *told]) if lines else ", ".join(told)

    def rows_in_force(self, model: Model, taken: frozenset[str]) -> list[int]:
        """The lines of the rows that a leaf of the route logic counts."""
        lines = []
        for variable in model.variables:
            lines += [variable.line] * bool(variable.low) + [variable.line] * (variable.high is not None)
        lines += row_lines(model.rows)
        for option in options_below(model):
            lines += row_lines(option.rows) if option.name in taken else []
        return lines


def proof_tree(point: Point, model: Model | None) -> Node:
    """The tree of an answer's proof; of a column that is 0 or 1 the half with 1 is first, as it is of a Boolean."""
    names = Names(model, point)
    top, turned = Node(SPLIT), []
    due: list[tuple[Node, bool, frozenset[str]]] = [(top, bool(point.values), frozenset())]
    for words in point.nodes:
        parent, is_best, taken = due.pop()
        if words[0] in ("int", "truth"):
            question, sides, half = names.split(words)
            node = Node(SPLIT, question, sides=sides, is_best=is_best)
            first = taken | {question.removesuffix("?")} if words[0] == "truth" else taken
            due += [(node, is_best and half == 1, taken), (node, is_best and half == 0, first)]
            turned += [node] if sides == ("no", "yes") else []
        else:
            node = Node(words[0], names.leaf(words, taken), is_best=is_best)
        parent.halves.append(node)
    for node in turned:
        node.halves, node.sides = node.halves[::-1], ("yes", "no")
    return measured(top.halves[0])


def log_tree(lines: Sequence[list[str]]) -> Node:
    """The tree of the steps of a log: nodes by their halves, each with the exchanges at it."""
    nodes, parents, moves = [Node(CLOSED)], [-1], [0]
    assert lines[0] == ["open", "root"] and lines[-1][0] == "stop"
    stop = ""
    for words in lines[1:]:
        match words:
            case ["open", parent, half]:
                nodes.append(Node(CLOSED))
                parents.append(int(parent))
                moves.append(0)
                nodes[int(parent)].halves.append(nodes[-1])
                assert len(nodes[int(parent)].halves) == int(half)
            case ["move", *_]:
                moves[-1] += 1
            case ["stop", *rest]:
                stop = " ".join(rest)
    for at, node in enumerate(nodes):
        node.words = f"node {at}, {moves[at]:,} exchange" + ("" if moves[at] == 1 else "s")
        if node.halves:
            node.kind, node.sides = SPLIT, ("1", "2")
            node.halves += [Node(WAITING)] * (2 - len(node.halves))
    nodes[-1].kind, nodes[-1].words = STOPPED, f"{nodes[-1].words}: stop {stop}"
    at = len(nodes) - 1
    while at >= 0:
        nodes[at].is_best, at = True, parents[at]
    return measured(nodes[0])
