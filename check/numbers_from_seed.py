"""Numbers from a seed, the same with every version of Python."""

from __future__ import annotations

from typing import Sequence

WORD = 1 << 64
FACTOR = 6364136223846793005
ADDEND = 1442695040888963407


class Numbers:
    """A linear congruential sequence modulo 2^64; its upper halves are used."""

    def __init__(self, seed: int) -> None:
        self._state = seed % WORD

    def _next(self) -> int:
        """The next number below 2^32."""
        self._state = (self._state * FACTOR + ADDEND) % WORD
        return self._state >> 32

    def between(self, low: int, high: int) -> int:
        """A number from low to high, both included; at most 2^32 of them."""
        return low + (self._next() * (high - low + 1) >> 32)

    def pick(self, choices: Sequence[int]) -> int:
        """One of the choices."""
        return choices[self.between(0, len(choices) - 1)]
