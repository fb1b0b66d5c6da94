"""A week of a small creamery: in which vat the cheese is made, and where it is sold. Hundred litres of milk, kilograms of cheese, euros."""

from datemound import Disjunct, Disjunction, Model, Var, implies

milk = Var("milk", 0, 60)  # bought; the farmers have no more
cheese = Var("cheese", 0, 500)  # made and sold; the press makes no more
vat_rent = Var("vat_rent", 0, 400)
selling = Var("selling", 0, 1000)  # what selling costs
helpers = Var("helpers", 0, 3, whole=True)

old_vat = Disjunct("old_vat", cheese == 9 * milk, milk <= 36)
new_vat = Disjunct("new_vat", cheese == "10.5" * milk, milk >= 25, vat_rent == 350)

farm_shop = Disjunct("farm_shop", cheese <= 270)
stall = Disjunct("stall", cheese <= 420, selling >= 90, helpers >= 1)
dealer = Disjunct("dealer", selling >= "2.5" * cheese)
town = Disjunct("town", Disjunction(stall, dealer))

model = Model()
model.maximize(12 * cheese - 60 * milk - vat_rent - selling - 240 * helpers)
model.add(milk <= 30 + 15 * helpers)
model.add(Disjunction(old_vat, new_vat), Disjunction(farm_shop, town))
model.add(implies(dealer, new_vat))

if __name__ == "__main__":
    print(model.solve())
