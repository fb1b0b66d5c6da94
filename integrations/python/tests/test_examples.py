"""The models of `examples/`, rebuilt in Python, have the same canonical text."""

import importlib.util
import unittest

from datemound.program import run

from .support import EXAMPLES, ROOT


def rebuilt(name):
    """The model that `integrations/python/examples/NAME.py` makes."""
    spec = importlib.util.spec_from_file_location(f"example_{name}", EXAMPLES / f"{name}.py")
    module = importlib.util.module_from_spec(spec)
    spec.loader.exec_module(module)
    return module.model


class Examples(unittest.TestCase):
    def test_each(self):
        names = sorted(path.stem for path in (ROOT / "examples").glob("*.gdp"))
        self.assertGreaterEqual(len(names), 10)
        for name in names:
            with self.subTest(name=name):
                self.assertTrue((EXAMPLES / f"{name}.py").exists(), f"examples/{name}.gdp has no integrations/python/examples/{name}.py")
                ran = run(["format", "M"], {"M": (ROOT / "examples" / f"{name}.gdp").read_text(encoding="utf-8")})
                self.assertEqual((ran.status, ran.err), (0, ""))
                self.assertEqual(rebuilt(name).text(), ran.out)


if __name__ == "__main__":
    unittest.main()
