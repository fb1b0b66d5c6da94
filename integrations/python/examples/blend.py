"""A tonne of cattle feed from four ingredients: which blend is cheapest? Kilograms, nutrients in grams, money in cents."""

from datemound import Model, Var

maize = Var("maize", 0, 700)
soybean_meal = Var("soybean_meal", 0, 400)
wheat_bran = Var("wheat_bran", 0, 300)
limestone = Var("limestone", 0, 30)

cost = 21 * maize + 45 * soybean_meal + 18 * wheat_bran + 9 * limestone
calcium = 3 * soybean_meal + wheat_bran + 380 * limestone

model = Model()
model.minimize(cost)
model.add(
    maize + soybean_meal + wheat_bran + limestone == 1000,
    85 * maize + 440 * soybean_meal + 155 * wheat_bran >= 180_000,  # protein
    23 * maize + 60 * soybean_meal + 105 * wheat_bran <= 60_000,  # fibre
    calcium >= 8000,
    calcium <= 12_000,
    cost <= 28_000,  # the budget
)

if __name__ == "__main__":
    print(model.solve())
