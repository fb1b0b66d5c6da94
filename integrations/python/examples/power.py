"""A month of power for a works, in MWh; money in hundred euros. Nothing limits what may be bought, so only the route `logic` solves it."""

from datemound import Disjunct, Disjunction, Model, Var

power = Var("power", low=0)
cost = Var("cost", low=0)

model = Model()
model.minimize(cost)
model.add(power >= 60)  # what the works needs
model.add(
    Disjunction(
        Disjunct("household", cost >= "1.2" * power),
        Disjunct("large_customer", power >= 75, cost >= "0.9" * power + 2),  # the contract's least, and a fee
    )
)

if __name__ == "__main__":
    print(model.solve("logic"))
