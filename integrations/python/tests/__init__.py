"""The module's tests: `python3 -m unittest discover -s tests -t .` in `integrations/python`. They call `gdp` as the module finds it."""
