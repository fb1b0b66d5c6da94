"""Where a county keeps its ambulances: seven sites, each with a rent. Ambulances are whole, money in thousand euros a month."""

from datemound import Disjunct, Disjunction, Model, Var, atleast, atmost, exactly, implies, lor, quicksum

rents = {"north": 6, "mill": 5, "harbour": 8, "centre": 12, "hospital": 3, "airport": 7, "south": "5.5"}

ambulances = Var("ambulances", 0, 12, whole=True)
rent = {site: Var(f"rent_{site}", 0, 20) for site in rents}

model = Model()
model.minimize(9 * ambulances + quicksum(rent.values()))
model.add(ambulances >= 4)  # by law

at = {site: Disjunct(site, rent[site] >= price) for site, price in rents.items()}
model.add(Disjunction(*at.values(), xor=False))
model.add(
    Disjunction(
        Disjunct("two_sites", exactly(2, at.values()), ambulances >= 6),  # from two sites the ways are long
        Disjunct("three_sites", exactly(3, at.values()), ambulances >= 5),
        Disjunct("four_sites", exactly(4, at.values())),
    )
)
model.add(
    atleast(1, at["north"], at["mill"]),  # the woods
    atleast(1, at["mill"], at["harbour"], at["centre"]),  # the docks
    atleast(2, at["harbour"], at["centre"], at["hospital"], at["airport"]),  # the town: two sites, for the case that one is out
    atleast(1, at["airport"], at["south"]),  # the farms
    atmost(1, at["centre"], at["hospital"]),  # they are in one street
    implies(at["harbour"], lor(at["centre"], at["airport"])),  # the bridge may be up
)

if __name__ == "__main__":
    print(model.solve("logic"))
