"""Which of four stores a dealer rents to serve three towns. Pallets a week, hundred euros a week."""

from datemound import Disjunct, Disjunction, Model, Var, atleast, atmost, implies, quicksum

most = {"harbour": 120, "river": 90, "hill": 60, "heath": 80}
least = {"harbour": 20, "river": 20}
price = {"harbour": "1/4", "river": "0.3", "hill": "1/2", "heath": "0.4"}  # of sending a pallet
rents = {"harbour": 30, "river": 22, "hill": 9, "heath": "12.5"}

sent = {site: Var(f"from_{site}", 0, pallets) for site, pallets in most.items()}
rent = {site: Var(f"rent_{site}", 0, 40) for site in most}

model = Model()
model.minimize(quicksum(rent.values()) + quicksum(price[site] * sent[site] for site in most))
model.add(quicksum(sent.values()) >= 150)  # what the towns want

store = {}
for site in most:
    store[site] = Disjunct(site)
    if site in least:
        store[site].add(sent[site] >= least[site])
    store[site].add(rent[site] == rents[site])
    model.add(Disjunction(store[site], Disjunct(f"no_{site}", sent[site] == 0, rent[site] == 0)))

model.add(atmost(2, store.values()))  # there are people for two stores
model.add(atleast(1, store["harbour"], store["river"]))  # one of them at the water
model.add(implies(store["hill"], store["river"]))  # the road up the hill begins at the river

if __name__ == "__main__":
    print(model.solve())
