"""Which units an acid plant gets. Tonnes a day, thousand euros a day."""

from datemound import Boolean, Disjunct, Disjunction, Model, Var, implies, lor

sulphur = Var("sulphur", 0, 60)
acid = Var("acid", 0, 180)
steam = Var("steam", 0, 210)
water = Var("water", 0, 2000)
burner_cost = Var("burner_cost", 0, 10)
cleaning_cost = Var("cleaning_cost", 0, 10)
night_shift = Boolean("night_shift")

small_burner = Disjunct("small_burner", sulphur <= 25, acid == "2.9" * sulphur, burner_cost == 2)
large_burner = Disjunct("large_burner", sulphur >= 20, acid == 3 * sulphur, burner_cost == 4, night_shift)  # it may not go cold
turbine = Disjunct("turbine", steam >= 70, large_burner)  # the small burner's steam is too cool for it
town_heating = Disjunct("town_heating", steam <= 90)
boiler = Disjunct("boiler", steam <= "3.5" * sulphur, Disjunction(turbine, town_heating))  # the heat makes steam
cooling_tower = Disjunct("cooling_tower", steam == 0, water >= 30 * sulphur)  # or it is lost
scrubber = Disjunct("scrubber", water >= 50, cleaning_cost == "1.5")
second_absorber = Disjunct("second_absorber", cleaning_cost == "9/4")

model = Model()
model.maximize("1/10" * acid + "0.02" * steam - "1/8" * sulphur - water / 1000 - burner_cost - cleaning_cost)
model.add(
    Disjunction(small_burner, large_burner),
    Disjunction(boiler, cooling_tower),
    Disjunction(scrubber, second_absorber),  # how the gas is cleaned
    implies(second_absorber, boiler),  # it stands in the boiler's house
    implies(night_shift, lor(large_burner, scrubber)),  # nobody is there by night for nothing
)

if __name__ == "__main__":
    print(model.solve())
