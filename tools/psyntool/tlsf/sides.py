"""The two sides of a specification: its assumptions and its guarantees."""
from dataclasses import dataclass, replace

from psyntool.tlsf.expanding import Basic
from psyntool.tlsf.keeping import ASSUMED, GUARANTEED


@dataclass(frozen=True)
class Sides:
    """A specification by its two sides: the sentences that are assumed, and those that are guaranteed."""

    basic: Basic
    assumptions: tuple
    guarantees: tuple

    def having(self, assumptions=None, guarantees=None):
        """The specification with only the given sentences of each side, or with all of them."""
        sides = (
            self.assumptions if assumptions is None else tuple(assumptions),
            self.guarantees if guarantees is None else tuple(guarantees),
        )
        return replace(self, assumptions=sides[0], guarantees=sides[1])

    @property
    def whole(self) -> Basic:
        return self.basic.having((*self.assumptions, *self.guarantees))

    def text(self) -> str:
        return self.whole.text()


def sides_of(basic: Basic) -> Sides:
    return Sides(
        basic, *(tuple(one for one in basic.sentences if one.word in words) for words in (ASSUMED, GUARANTEED))
    )
