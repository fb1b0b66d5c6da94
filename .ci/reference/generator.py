"""The model that a number makes."""

MODULUS = 2**31


class Draws:
    """Numbers drawn one after the other from a seed."""

    def __init__(self, seed):
        self.state = seed % MODULUS

    def below(self, count):
        self.state = (1103515245 * self.state + 12345) % MODULUS
        return self.state // 65536 % count


def made_text(seed, size):
    """The canonical text of the model of a seed and a size."""
    draws, places = Draws(seed), range(size)
    lines = ["gdp 1"]
    for i in places:
        lines.append(f"var x{i} real 0 {5 + draws.below(6)}")
        lines.append(f"var n{i} int 0 {5 + draws.below(6)}")
    lines.append("max " + " + ".join(f"{1 + draws.below(5)} x{i} + {1 + draws.below(5)} n{i}" for i in places))
    for i in places:
        lines += ["disjunction xor", f"disjunct a{i}"]
        lines.append(f"row {1 + draws.below(3)} x{i} + {1 + draws.below(3)} n{i} <= {6 + draws.below(10)}")
        lines += ["end", f"disjunct b{i}", f"row 1 x{i} + 1 n{i} <= {3 + draws.below(5)}", "end", "end"]
    lines.append(f"logic atleast(1, {', '.join(f'a{i}' for i in places)})")
    return "".join(line + "\n" for line in lines)
