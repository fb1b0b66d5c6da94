"""A water network from one spring to three villages: which pipes are laid, and how wide? Litres a second, thousand euros a year."""

from datemound import Disjunct, Disjunction, Model, Var, atmost, quicksum

sizes = {  # of each pipe that may be laid: what it carries at most and what it costs; None where only the bound limits it
    "spring_mill": {"narrow": (40, 18), "wide": (90, 30)},
    "spring_bridge": {"narrow": (40, 24), "wide": (90, 38)},
    "mill_bridge": {"narrow": (None, 11)},
    "mill_church": {"narrow": (25, 14), "wide": (None, 21)},
    "bridge_church": {"narrow": (25, 9), "wide": (None, 16)},
}

flow = {
    "spring_mill": Var("spring_mill", 0, 90),
    "spring_bridge": Var("spring_bridge", 0, 90),
    "mill_bridge": Var("mill_bridge", -30, 30),  # below 0: from the bridge to the mill
    "mill_church": Var("mill_church", 0, 60),
    "bridge_church": Var("bridge_church", 0, 60),
}
pipes = Var("pipes", 0, 200)  # what the pipes cost
cost = {pipe: Var(f"cost_{pipe}", 0, 60) for pipe in sizes}

model = Model()
pumping = {"spring_mill": "1/10", "spring_bridge": "0.15", "mill_church": "1/5", "bridge_church": "1/20"}
model.minimize(pipes + quicksum(price * flow[pipe] for pipe, price in pumping.items()))
model.add(quicksum(cost.values()) <= pipes)
model.add(  # what each village takes
    flow["spring_mill"] - flow["mill_bridge"] - flow["mill_church"] >= 25,
    flow["spring_bridge"] + flow["mill_bridge"] - flow["bridge_church"] >= 30,
    flow["mill_church"] + flow["bridge_church"] >= 20,
)

wide = []
for pipe, choices in sizes.items():
    laid = [Disjunct(f"{pipe}_none", flow[pipe] == 0)]
    for size, (most, price) in choices.items():
        laid.append(Disjunct(f"{pipe}_{size}"))
        if most is not None:
            laid[-1].add(flow[pipe] <= most)
        laid[-1].add(cost[pipe] >= price)
        wide += [laid[-1]] if size == "wide" else []
    model.add(Disjunction(laid))

model.add(atmost(2, wide))  # one digger is there for two

if __name__ == "__main__":
    print(model.solve())
