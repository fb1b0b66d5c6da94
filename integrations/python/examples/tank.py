"""Three days of a plant with a tank: how much is made on which day? Tonnes; power in megawatt hours, of which a tonne takes 3."""

from datemound import Model, Var, quicksum

taken_out = {"monday": 80, "tuesday": 110, "wednesday": 60}

made = {day: Var(f"made_{day}", 0, 120) for day in taken_out}
stock = {day: Var(f"stock_{day}", 20, 150) for day in taken_out}  # at the end of the day
bought_power = Var("bought_power")  # below 0: sold

model = Model()
model.minimize(bought_power)
before = 50
for day, tonnes in taken_out.items():
    model.add(stock[day] == before + made[day] - tonnes)
    before = stock[day]
model.add(bought_power == 3 * quicksum(made.values()) - 900)  # 900 from the plant's own turbine
model.add(bought_power <= 100)  # what the grid can give

if __name__ == "__main__":
    print(model.solve())
