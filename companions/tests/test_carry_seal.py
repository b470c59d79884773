"""`argus seal` and `argus carry` with the built programs of this repository. What is expected was
worked out by hand, or by a few lines of the tries themselves.
"""

import unittest
from typing import Callable

import carry_and_seal
import tries
from support import Case


class CarryAndSeal(Case):
    """Each try in a folder of its own."""


def test_of(call: Callable[[str], None]) -> Callable[[CarryAndSeal], None]:
    """A test of one function of tries: what it counts as differing fails it."""

    def test(self: CarryAndSeal) -> None:
        tries.differing.clear()
        before = tries.count
        tries.run(call.__name__[4:].replace("_", " "), call)
        self.wants(tries.count > before, "something was tried")
        self.same(tries.differing, [], "what differs")

    test.__doc__ = (call.__doc__ or call.__name__[4:].replace("_", " ")).split("\n")[0]
    return test


for name, found in sorted(vars(carry_and_seal).items()):
    if name.startswith("try_"):
        setattr(CarryAndSeal, "test_" + name[4:], test_of(found))


if __name__ == "__main__":
    unittest.main()
