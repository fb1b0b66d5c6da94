"""Models drawn by chance, always the same ones: their text, and their answers by two routes.

The texts are those that the end-to-end check draws, made again in Python. What they come to is said by `gdp format` and by the second
implementation in `.ci/reference/`, which finds an optimum by trying every setting.
"""

import concurrent.futures
import os
import random
import unittest

from datemound import RefusedError
from datemound.program import run

from .rebuilding import Rebuilding
from .support import use_reference

use_reference()
from drawn_models import drawn_models  # noqa: E402
from reference.enumeration import optimum  # noqa: E402
from reference.texts import Refused, canonical, read_model  # noqa: E402

DRAWN, STEPS, ROUTES = 450, 1000, ("logic", "hybrid")
# The models of which both routes and the second implementation know the answer.
LEAST_COMPARED = 300


def drawn():
    """The models, as the second implementation reads them, made again in Python."""
    draw = random.Random(22)
    for text in drawn_models(DRAWN):
        try:
            read = read_model(text)
        except Refused:
            continue
        yield read, Rebuilding(read, draw).model()


def answer(model, route):
    """The status, the objective and the verdict of a route; None where it gives up or needs bounds."""
    try:
        result = model.solve(route, STEPS, progress=False)
    except RefusedError as refused:
        assert refused.cause in ("no bound", "too wide", "too big"), refused
        return None
    return None if result.status == "gave_up" else (result.status, result.objective, str(result.check()))


def told(model):
    """What `gdp` says of a model: how it formats its text, and the answers of the routes."""
    return run(["format", "M"], {"M": model.text()}), [answer(model, route) for route in ROUTES]


class Drawn(unittest.TestCase):
    def test_each(self):
        models = list(drawn())
        compared = 0
        with concurrent.futures.ThreadPoolExecutor(os.cpu_count()) as pool:
            for (read, model), (formatted, answers) in zip(models, pool.map(told, [model for _, model in models])):
                self.assertEqual(model.text(), canonical(read))
                self.assertEqual((formatted.status, formatted.out), (0, model.text()))
                found = [given for given in answers if given]
                known = optimum(read)
                expected = [(known[0], known[1] if known[0] == "best" else None, "accepted")] if known else found[:1]
                for given in found:
                    self.assertEqual([given], expected, model.text())
                compared += bool(known) and len(found) == len(ROUTES)
        self.assertGreaterEqual(compared, LEAST_COMPARED)


if __name__ == "__main__":
    unittest.main()
