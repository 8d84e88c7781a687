"""Which crates a layer needs."""
from __future__ import annotations

import unittest

import by_path

needs = by_path.load("needs")

CRATES = """\
# tests are staticlib
low: itoa
middle: low byteorder
beside: low
top: beside middle low
tests staticlib: top
"""


class Needed(unittest.TestCase):
    def test_a_layer_and_all_below_it_the_lowest_first(self) -> None:
        crates = needs.read_crates(CRATES)
        self.assertEqual(crates["tests"], "tests staticlib: top")
        self.assertEqual(needs.needed(crates, ["low"]), ["low"])
        self.assertEqual(needs.needed(crates, ["top"]), ["low", "beside", "middle", "top"])
        self.assertEqual(needs.needed(crates, ["middle", "beside"]), ["low", "middle", "beside"])


if __name__ == "__main__":
    unittest.main()
