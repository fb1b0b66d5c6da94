#!/usr/bin/env python3
"""Tests of definitions.py, on a small tree of two crates: what `run` rests on, and what a contract names."""

import pathlib
import sys
import tempfile

sys.dont_write_bytecode = True
import definitions  # noqa: E402

FILES = {
    "crates.txt": "low:\nhigh: low\n",
    "crates/low/specs/Lib.antt": "pub mod Sums\n",
    "crates/low/specs/Sums.antt": """-- Sums.
use Rattle.std.specs.Prelude.{ℕ, List, [], ◌∷◌, ◌+◌}

-- the sum of a list
abbrev pub sum_of : List ℕ → ℕ
sum_of [] = 0
sum_of (x ∷ xs) = x ⊹ sum_of xs

infixl 10 ◌⊹◌
-- one more than the sum of two
abbrev pub ◌⊹◌ : ℕ → ℕ → ℕ
x ⊹ y = x + y + 1

-- a definition that nothing rests on
abbrev pub unused : ℕ
unused = sum_of []
""",
    "crates/low/src/kinds.rt": "//! Kinds.\n\n/// A kind.\npub enum Kind {\n    Odd,\n    Even,\n}\n",
    "crates/high/specs/Lib.antt": "pub use Rattle.low.specs.Sums\n",
    "crates/high/specs/Says.antt": """-- What is said.
use Rattle.high.specs.Sums.{sum_of, unused as other}
use Rattle.low.specs.declared.kinds.Kind.TheVariants as kind
use Rattle.low.specs.declared.kinds.Kind.{Kind}

-- how the list is, where `other` is bound and no definition
abbrev pub Says : Kind → List ℕ → Type 0
Says kind.Odd list = (other : ℕ) × (sum_of list ≡ other + other + 1)
Says kind.Even list = (other : ℕ) × (sum_of list ≡ other + other)
""",
    "crates/high/src/lib.rt": """//! The top.
ghost use Rattle.high.specs.Says.{Says};
use low::Kind;

/// Says it.
pub fn run<A>(list: &[u64]) -> Kind
    ensures complete { Says result list.now }
{
    Kind::Odd
}
""",
}


def main():
    with tempfile.TemporaryDirectory() as folder:
        root = pathlib.Path(folder)
        for name, text in FILES.items():
            (root / name).parent.mkdir(parents=True, exist_ok=True)
            (root / name).write_text(text)
        definitions.ROOT, definitions.CRATES = root, root / "crates"
        run, units, others = definitions.trusted_units()
        assert sorted(name for unit in units for name in unit.names) == ["Kind", "Says", "sum_of", "◌⊹◌"]
        assert {other.name for other in others} >= {"ℕ", "List", "◌∷◌"} and run.line == 6
        page = definitions.trusted_page()
        places = [page.index(text) for text in ("## `low`", "the sum of a list", "one more", "infixl 10", "pub enum Kind", "## `high`", "pub Says", "pub fn run")]
        assert places == sorted(places) and "unused" not in page
        index = definitions.index_page()
        assert "- `Says` (line 7 ★): how the list is" in index and "sum_of" not in index
    print("definitions.py: its tests pass")


if __name__ == "__main__":
    main()
