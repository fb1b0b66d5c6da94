"""A day's deliveries from two depots to three shops. Pallets; minutes of driving for one pallet."""

from datemound import Model, Var, quicksum

stock = {"north": 70, "south": 80}
needs = {"harbour": 45, "market": 50, "station": 30}
minutes = {"north": {"harbour": 35, "market": 20, "station": 50}, "south": {"harbour": 15, "market": 40, "station": 25}}

sent = {(depot, shop): Var(f"{depot}_to_{shop}", 0, 40 if depot == "north" else 60) for depot in stock for shop in needs}
driving = quicksum(minutes[depot][shop] * pallets for (depot, shop), pallets in sent.items())

model = Model()
model.minimize(driving)
model.add(quicksum(sent[depot, shop] for shop in needs) <= pallets for depot, pallets in stock.items())
model.add(quicksum(sent[depot, shop] for depot in stock) >= pallets for shop, pallets in needs.items())
model.add(driving <= 3000)

if __name__ == "__main__":
    print(model.solve())
