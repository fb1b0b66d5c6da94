"""Two plants serve three towns by roads, a ship and a railway. Tonnes a day, cents."""

from datemound import Boolean, Disjunct, Disjunction, Model, Var

north_a = Var("north_a", 0, 60)
north_b = Var("north_b", 0, 60)
south_b = Var("south_b", 0, 80)
south_c = Var("south_c", 0, 80)
by_ship = Var("by_ship", 0, 50)
by_rail = Var("by_rail", 0, 40)
lorries = Var("lorries", 0, 12, whole=True)
night_shift = Boolean("night_shift")  # nothing is said of it yet

model = Model()
model.declare(night_shift)
model.minimize(4 * north_a + "6.5" * north_b + 5 * south_b + 3 * south_c + "9/2" * by_ship + 7 * by_rail + 120 * lorries + 250)
model.add(
    north_a >= 35,  # the three towns
    north_b + south_b >= 45,
    south_c + by_ship + by_rail >= 50,
    north_a + north_b <= 90,  # the two plants
    south_b + south_c + by_ship + by_rail <= 110,
    north_a + north_b + south_b + south_c <= "12.5" * lorries,
)
model.add(Disjunction(Disjunct("hill_road", north_b >= "12.5"), Disjunct("no_hill_road", north_b == 0)))

changes = Disjunction(
    Disjunct("one_change", by_rail <= 25),
    Disjunct("two_changes", by_rail <= 40, lorries >= 2),
)
harbour = Disjunct("harbour", by_ship + by_rail >= 20)
harbour.add(Disjunction(Disjunct("ship", by_ship >= 15), Disjunct("railway", by_rail >= 10, changes), xor=False))
model.add(Disjunction(harbour, Disjunct("coast_road", south_c >= "12.5"), xor=False))  # one at least, or both

if __name__ == "__main__":
    print(model.solve())
