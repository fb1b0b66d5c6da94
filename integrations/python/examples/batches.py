"""Three batches of paint in two kettles: which batch goes into which kettle, and in which order? Hours from six in the morning."""

from itertools import combinations

from datemound import Disjunct, Disjunction, Model, Var, equivalent, xor

filling = {"white": "1.5", "grey": 1, "black": 2}
cooking = {"white": (7, 5), "grey": (6, 4), "black": (9, "6.5")}  # in the small kettle, in the large one
washing = {  # after a dark batch a kettle is washed longer before a light one
    ("white", "grey"): "1/2",
    ("grey", "white"): 1,
    ("white", "black"): "1/2",
    ("black", "white"): 3,
    ("grey", "black"): "1/2",
    ("black", "grey"): 2,
}

begins = {paint: Var(paint, 0, 40) for paint in filling}
done = {paint: Var(f"{paint}_done", 0, 48) for paint in filling}
finish = Var("finish", 0, 48)

model = Model()
model.minimize(finish)
model.add(finish - done[paint] >= hours for paint, hours in filling.items())

in_small = {}
for paint, (small, large) in cooking.items():
    in_small[paint] = Disjunct(f"{paint}_in_small", done[paint] - begins[paint] >= small)
    model.add(Disjunction(in_small[paint], Disjunct(f"{paint}_in_large", done[paint] - begins[paint] >= large)))


def before(first, second):
    """Both are in one kettle, which is washed between them."""
    return Disjunct(
        f"{first}_before_{second}",
        begins[second] - done[first] >= washing[first, second],
        equivalent(*(in_small[paint] for paint in filling if paint in (first, second))),
    )


for one, other in combinations(filling, 2):
    apart = Disjunct(f"{one}_and_{other}_apart", xor(in_small[one], in_small[other]))
    model.add(Disjunction(apart, before(one, other), before(other, one)))

if __name__ == "__main__":
    print(model.solve("logic"))
