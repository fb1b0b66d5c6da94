"""Four labels are cut from a roll, none turned, none over another: how much of the roll is enough? Centimetres.

The roll is 10 cm wide, and 12 cm of it are left. The problem is strip packing as Sawaya and Grossmann (2005) state it, with labels of its own:
of two labels one is before the other, or below it where both fit beside one another.
"""

from itertools import combinations

from datemound import Disjunct, Disjunction, Model, Var

width, left = 10, 12
long = {"poster": 4, "banner": 6, "card": 5, "stamp": 3}
wide = {"poster": 7, "banner": 5, "card": 4, "stamp": 3}

at = {label: Var(f"{label}_at", 0, left) for label in long}  # where each label begins, along the roll
# And across it; mirrored, a plan is as good, so the poster is not in the upper half.
up = {label: Var(f"{label}_up", 0, "3/2" if label == "poster" else width - wide[label]) for label in long}
length = Var("length", 0, left)


def before(first, second):
    return Disjunct(f"{first}_before_{second}", at[second] - at[first] >= long[first])


def below(first, second):
    return Disjunct(f"{first}_below_{second}", up[second] - up[first] >= wide[first])


model = Model()
model.minimize(length)
model.add(length - at[label] >= long[label] for label in long)
model.add(at["banner"] - at["poster"] >= long["poster"])  # never beside one another; and mirrored along, as good
for one, other in combinations(long, 2):
    if (one, other) == ("poster", "banner"):
        continue
    choice = [before(one, other), before(other, one)]
    if wide[one] + wide[other] <= width:
        choice += [below(one, other), below(other, one)]
    model.add(Disjunction(choice))

if __name__ == "__main__":
    print(model.solve("logic"))
