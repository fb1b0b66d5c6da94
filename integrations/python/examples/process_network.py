"""Which units a plant gets that makes a solvent from naphtha by way of an alcohol. Tonnes a day, hundred euros a day.

A superstructure of alternative units, as in Raman and Grossmann (1994), with numbers of its own.
"""

from datemound import Disjunct, Disjunction, Model, Var, implies, land, lnot

naphtha = Var("naphtha", 0, 160)  # bought
alcohol_made = Var("alcohol_made", 0, 130)
alcohol_bought = Var("alcohol_bought", 0, 50)
to_line_a = Var("to_line_a", 0, 90)  # alcohol to each line
to_line_b = Var("to_line_b", 0, 70)
from_line_a = Var("from_line_a", 0, 80)  # solvent from each line
from_line_b = Var("from_line_b", 0, 70)
gas = Var("gas", 0, 30)  # sold
reactor_cost = Var("reactor_cost", 0, 300)
line_a_cost = Var("line_a_cost", 0, 200)
line_b_cost = Var("line_b_cost", 0, 200)
separation_cost = Var("separation_cost", 0, 100)

# Where the alcohol comes from.
fixed_bed = Disjunct("fixed_bed", alcohol_made == "0.6" * naphtha, naphtha <= 120, reactor_cost >= 40 + naphtha / 10)
fluid_bed = Disjunct("fluid_bed", alcohol_made == "4/5" * naphtha, naphtha >= 60, reactor_cost >= 85 + naphtha / 5)
no_reactor = Disjunct("no_reactor", naphtha == 0, alcohol_made == 0)

# One line, or both; the heat of the second goes to the air or to the river, which more would warm.
line_a = Disjunct("line_a", from_line_a <= "0.8" * to_line_a, to_line_a >= 15, line_a_cost >= 60)
air_cooler = Disjunct("air_cooler", line_b_cost >= 125)
river_water = Disjunct("river_water", line_b_cost >= 105, to_line_b <= 50)
line_b = Disjunct("line_b", from_line_b <= "0.9" * to_line_b, to_line_b >= 20, Disjunction(air_cooler, river_water))

# What the reactor leaves over.
column = Disjunct("column", gas <= naphtha / 10, separation_cost >= 30)
membrane = Disjunct("membrane", gas <= "0.16" * naphtha, separation_cost >= 35 + gas / 2)
flare = Disjunct("flare", gas == 0)

model = Model()
income = 11 * from_line_a + 11 * from_line_b + 4 * gas
model.maximize(income - 3 * naphtha - 7 * alcohol_bought - reactor_cost - line_a_cost - line_b_cost - separation_cost)
model.add(
    alcohol_made + alcohol_bought == to_line_a + to_line_b,
    from_line_a + from_line_b <= 85,  # what the customers take
    Disjunction(fixed_bed, fluid_bed, no_reactor),
    Disjunction(line_a, line_b, xor=False),
    # A line that is not there makes nothing.
    Disjunction(Disjunct("a_stands", line_a), Disjunct("a_is_not_there", to_line_a == 0, from_line_a == 0, lnot(line_a))),
    Disjunction(Disjunct("b_stands", line_b), Disjunct("b_is_not_there", to_line_b == 0, from_line_b == 0, lnot(line_b))),
    Disjunction(column, membrane, flare),
    implies(line_b, lnot(fixed_bed)),  # line b wants alcohol without traces of the fixed bed
    implies(no_reactor, flare),
    implies(land(line_a, line_b), fluid_bed),  # both lines together want the large reactor
)

if __name__ == "__main__":
    print(model.solve())
