"""Three jobs on one machine, in hours from Monday morning, and one repair that may be done in two places."""

from fractions import Fraction

from datemound import Disjunct, Disjunction, Model, Var

hours = {"cut": 6, "weld": 8, "paint": 5}

cut, weld, paint, repair = (Var(name, 0, 40) for name in ("cut", "weld", "paint", "repair"))  # when each begins
finish = Var("finish", 0, 48)  # when all is done
helpers = Var("helpers", 0, 3, whole=True)


def after(later, earlier, least):
    """The later job begins at least so many hours after the earlier one."""
    return later - earlier >= least


model = Model()
model.minimize(finish + Fraction(1, 2) * helpers)
model.add(after(finish, job, hours[job.name]) for job in (cut, weld, paint))
model.add(after(weld, cut, hours["cut"]))  # what is not cut cannot be welded

# Fresh paint dries by itself, or under lamps that a helper moves.
drying = Disjunction(Disjunct("dries", after(cut, paint, 17)), Disjunct("lamps", after(cut, paint, "7.5"), helpers >= 1))
model.add(
    Disjunction(
        Disjunct("cut_before_paint", after(paint, cut, hours["cut"])),
        Disjunct("paint_before_cut", after(cut, paint, hours["paint"]), drying),
    ),
    Disjunction(
        Disjunct("weld_before_paint", after(paint, weld, hours["weld"])),
        Disjunct("paint_before_weld", after(weld, paint, hours["paint"])),
    ),
    Disjunction(
        Disjunct("in_the_hall", after(repair, weld, 8), after(finish, repair, 3)),
        Disjunct("in_the_yard", after(finish, repair, "4.5"), helpers >= 1),
    ),
)

if __name__ == "__main__":
    print(model.solve("logic"))
