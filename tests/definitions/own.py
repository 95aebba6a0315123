#!/usr/bin/env python3
"""Tests the parser of definitions (tests/definitions/run.py) on small texts, because other checks of the whole repository rely on it.

  tests/definitions/own.py

The last line printed is 'N passed, M failed'.
"""
import importlib.machinery
import importlib.util
import sys
from pathlib import Path

HERE = Path(__file__).resolve().parent
sys.dont_write_bytecode = True
sys.path.insert(0, str(HERE.parent))
from counting import Count  # noqa: E402

LOADER = importlib.machinery.SourceFileLoader("definitions", str(HERE / "run.py"))
READ = importlib.util.module_from_spec(importlib.util.spec_from_loader("definitions", LOADER))
LOADER.exec_module(READ)

LOW = """-- Shapes.
use Rattle.std.specs.Prelude.{ℕ}

-- how long a side is
abbrev pub side : ℕ → ℕ
side n = n -- a remark

-- one of two
pub data Shape : Type 0 where
  Square : ℕ → Shape
  Point : Shape
"""
HIGH = """use Rattle.low.specs.Shapes.{side as length_of, Shape}
use Rattle.low.specs.Shapes.{Point}

pub record Drawing (n : ℕ) : Type 0 where
  pub one : Shape
  pub long : length_of n ≡ n
"""


def specs_of(**files):
    """Returns the definitions of these files only, each by its crate and module."""
    specs = READ.Specs.__new__(READ.Specs)
    specs.items, specs.inner, specs.scopes, specs.order = {}, {}, {}, []
    for place, text in files.items():
        crate, _, module = place.partition("_")
        specs.read(crate, module, text)
    return specs


def cases():
    names, handed = READ.imports("pub use Rattle.a.specs.B.{c, d as e}\nghost use Rattle.f.specs.G.{H};\n")
    yield "names in scope are paths", names == {"c": "Rattle.a.specs.B.c", "e": "Rattle.a.specs.B.d", "H": "Rattle.f.specs.G.H"}
    yield "and those of `pub use` are handed on", handed == ["c", "e"]
    yield "a brace ends where its own does", READ.matching("{ a { b } c } d", 0) == len("{ a { b } c }")
    specs = specs_of(low_Shapes=LOW, high_Drawings=HIGH)
    side, shape, drawing = "Rattle.low.specs.Shapes.side", "Rattle.low.specs.Shapes.Shape", "Rattle.high.specs.Drawings.Drawing"
    yield "each definition is found, in its order", specs.order == [side, shape, drawing]
    yield "with the comment above it", specs.items[side]["words"] == "how long a side is"
    yield "and without remarks", "remark" not in specs.items[side]["text"]
    yield "a variant is its type's", specs.home("Rattle.low.specs.Shapes.Point") == shape
    yield "what a definition cites is found under another name too", specs.uses(drawing) == {side, shape}
    yield "a definition that cites none of the repository", specs.uses(side) == set()
    yield "a name that nothing has", specs.home("Rattle.low.specs.Shapes.none") is None


def main():
    count = Count()
    for what, good in cases():
        count.note(good, what)
    return count.end()


if __name__ == "__main__":
    sys.exit(main())
