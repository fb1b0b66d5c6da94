"""Three jobs in a shop with three stages, each with one machine; a job never waits between its stages. When is all done? Hours.

The small job shop of Raman and Grossmann (1994), which Lee and Grossmann (2000) state in this form. Published optimum: 11.
"""

from itertools import combinations

from datemound import Disjunct, Disjunction, Model, Var

stages = {"a": {1: 5, 3: 3}, "b": {2: 3, 3: 2}, "c": {1: 2, 2: 4}}

begins = {job: Var(job, 0, 30) for job in stages}
makespan = Var("makespan", 0, 50)


def free_after(job, stage):
    """The hours from a job's begin until it leaves a stage."""
    return sum(hours for at, hours in stages[job].items() if at <= stage)


def before(first, second, stage):
    """The first job leaves the stage before the second comes to it."""
    gap = free_after(first, stage) - sum(hours for at, hours in stages[second].items() if at < stage)
    return Disjunct(f"{first}_before_{second}", begins[first] - begins[second] <= -gap)


model = Model()
model.minimize(makespan)
model.add(makespan - begins[job] >= free_after(job, 3) for job in stages)
for stage in (1, 2, 3):
    for one, other in combinations([job for job in stages if stage in stages[job]], 2):
        model.add(Disjunction(before(one, other, stage), before(other, one, stage)))

if __name__ == "__main__":
    print(model.solve("logic"))
