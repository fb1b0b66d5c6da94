"""A week of one chemical: which line makes it, and, on the new line, over which catalyst. Tonnes, thousand euros."""

from datemound import Disjunct, Disjunction, Model, Var

feed = Var("feed", 0, 100)  # bought
product = Var("product", 0, 80)  # sold
fixed = Var("fixed", 0, 500)  # what the route costs in any case

catalyst = Disjunction(
    Disjunct("nickel", product == "0.75" * feed, fixed == 25),
    Disjunct("platinum", product == "0.8" * feed, fixed == 40),
)

model = Model()
model.maximize(5 * product - 2 * feed - fixed)
model.add(product <= 48)  # what the market takes
model.add(
    Disjunction(
        Disjunct("old_line", product == "3/5" * feed, fixed == 10),
        Disjunct("new_line", feed >= 20, catalyst),  # below that it does not run
    )
)

if __name__ == "__main__":
    print(model.solve())
