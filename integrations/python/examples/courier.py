"""A day of a courier: by bicycle, or by a van that is hired. Money in euros."""

from datemound import Disjunct, Disjunction, Model, Var

parcels = Var("parcels", 0, 90, whole=True)  # brought
hours = Var("hours", 0, 8)  # on the road
hire = Var("hire", 0, 100)  # for the van

model = Model()
model.maximize(3 * parcels - 14 * hours - hire)
model.add(
    Disjunction(
        Disjunct("bicycle", parcels <= 8 * hours, parcels <= 40),  # what the trailer takes
        Disjunct("van", parcels <= "12.5" * hours, hire >= 60),
    )
)

if __name__ == "__main__":
    print(model.solve())
