"""Schemes and labels, the check characters found by Gaussian elimination.

The rules are those of docs/labels.md; the methods differ from the ones
described there:

* whether the powers of the step are all different is asked of a set;
* q^k is an integer of any size;
* the check characters are the solution of the r equations that define a
  label.  The equations are solved once for a scheme, for a one in each of the
  k door places, and the solutions are combined for a door.
"""

from __future__ import annotations

import string
from functools import cached_property, lru_cache
from typing import Protocol, Sequence

from binary_field import Field, MethodsDisagree, Refused, open_field

MIN_LENGTH = 2
MAX_LENGTH = 64
MOST_DOORS = 1 << 32

REFUSED_LENGTHS = 5
REFUSED_POWERS = 6
REFUSED_DOORS = 7
REFUSED_DOOR = 8

ALPHABET = string.digits + string.ascii_uppercase + "-" + string.ascii_lowercase + "+"

Rows = list[list[int]]


class Arithmetic(Protocol):
    """A field: what the elimination and the schemes ask of it."""

    q: int
    step: int

    def add(self, a: int, b: int) -> int:
        """The sum of two codes."""

    def sub(self, a: int, b: int) -> int:
        """The difference of two codes."""

    def mul(self, a: int, b: int) -> int:
        """The product of two codes."""

    def inv(self, a: int) -> int:
        """The inverse of a nonzero code."""

    def less_multiple(self, row: list[int], factor: int, other: list[int]) -> list[int]:
        """row - factor * other, place by place, for rows of one length."""


class Residues:
    """The residues modulo 37."""

    q = 37
    step = 2

    def add(self, a: int, b: int) -> int:
        """The sum of two codes."""
        return (a + b) % self.q

    def sub(self, a: int, b: int) -> int:
        """The difference of two codes."""
        return (a - b) % self.q

    def mul(self, a: int, b: int) -> int:
        """The product of two codes."""
        return a * b % self.q

    def inv(self, a: int) -> int:
        """The inverse of a nonzero code: its power q-2."""
        return pow(a, self.q - 2, self.q)

    def less_multiple(self, row: list[int], factor: int, other: list[int]) -> list[int]:
        """row - factor * other, place by place, for rows of one length."""
        return [(a - factor * b) % self.q for a, b in zip(row, other)]


class BinaryElements:
    """The elements of a binary field, products from its table of powers."""

    step = 2

    def __init__(self, field: Field) -> None:
        self.q = field.q
        self.field = field

    def add(self, a: int, b: int) -> int:
        """The sum of two codes."""
        return a ^ b

    def sub(self, a: int, b: int) -> int:
        """The difference of two codes."""
        return a ^ b

    def mul(self, a: int, b: int) -> int:
        """The product of two codes."""
        return self.field.product_by_table(a, b)

    def inv(self, a: int) -> int:
        """The inverse of a nonzero code."""
        return self.field.inverse(a)

    def less_multiple(self, row: list[int], factor: int, other: list[int]) -> list[int]:
        """row - factor * other, place by place, for rows of one length."""
        return self.field.plus_multiple(row, factor, other)


RESIDUES = Residues()


@lru_cache(maxsize=None)
def binary_elements(polynomial: int) -> BinaryElements:
    """The elements of the field of F, or refusal 1 or 2."""
    return BinaryElements(open_field(polynomial))


def powers_of_step(arithmetic: Arithmetic, count: int) -> list[int]:
    """The powers of the step, g^0 to g^(count-1)."""
    powers = [1]
    while len(powers) < count:
        powers.append(arithmetic.mul(powers[-1], arithmetic.step))
    return powers


def solve(arithmetic: Arithmetic, left: Rows, right: Rows) -> Rows:
    """The X with left X = right, by Gauss-Jordan elimination.

    `left` is square.  Raises MethodsDisagree where there is not just one X.
    """
    size = len(left)
    rows = [a + b for a, b in zip(left, right)]
    for column in range(size):
        pivot = next((i for i in range(column, size) if rows[i][column]), None)
        if pivot is None:
            raise MethodsDisagree(f"no pivot in column {column}")
        rows[column], rows[pivot] = rows[pivot], rows[column]
        scale = arithmetic.inv(rows[column][column])
        scaled = [arithmetic.mul(scale, value) for value in rows[column]]
        for i, row in enumerate(rows):
            factor = row[column]
            if factor and i != column:
                rows[i] = arithmetic.less_multiple(row, factor, scaled)
        rows[column] = scaled
    return [row[size:] for row in rows]


class Scheme:
    """A scheme that was laid out."""

    def __init__(self, arithmetic: Arithmetic, n: int, k: int) -> None:
        self.arithmetic = arithmetic
        self.n = n
        self.k = k
        self.r = n - k
        self.doors: int = arithmetic.q**k

    @cached_property
    def solutions(self) -> Rows:
        """Row i, column p: c_i where door place p holds one, the others zero.

        Equation j, with the check characters on the left: the sum over i < r
        of c_i g^(ij) is minus the sum over the door characters.
        """
        n, r = self.n, self.r
        powers = powers_of_step(self.arithmetic, (n - 1) * r + 1)
        left = [[powers[i * j] for i in range(r)] for j in range(1, r + 1)]
        right = [
            [self.arithmetic.sub(0, powers[(n - 1 - p) * j]) for p in range(self.k)]
            for j in range(1, r + 1)
        ]
        return solve(self.arithmetic, left, right)

    def door_characters(self, door: int) -> list[int]:
        """The k characters of the door in base q, highest first."""
        q, k = self.arithmetic.q, self.k
        return [door // q ** (k - 1 - p) % q for p in range(k)]

    def door_of(self, characters: Sequence[int]) -> int:
        """The door with these k characters."""
        q, k = self.arithmetic.q, self.k
        return sum(characters[p] * q ** (k - 1 - p) for p in range(k))

    def label(self, door: int) -> list[int]:
        """The label of a door from place 0 on, or refusal 8."""
        if door >= self.doors:
            raise Refused(REFUSED_DOOR)
        arithmetic = self.arithmetic
        row = self.door_characters(door)
        for i in range(self.r - 1, -1, -1):
            check = 0
            for p in range(self.k):
                term = arithmetic.mul(self.solutions[i][p], row[p])
                check = arithmetic.add(check, term)
            row.append(check)
        return row

    def printed(self, door: int) -> str:
        """The label as text, or in decimal where q exceeds the alphabet."""
        row = self.label(door)
        if self.arithmetic.q > len(ALPHABET):
            return " ".join(str(code) for code in row)
        return "".join(ALPHABET[code] for code in row)


@lru_cache(maxsize=None)
def lay_out(arithmetic: Arithmetic, n: int, k: int) -> Scheme:
    """The scheme, or refusal 5, 6 or 7."""
    if not (MIN_LENGTH <= n <= MAX_LENGTH and 1 <= k <= n - 1):
        raise Refused(REFUSED_LENGTHS)
    if len(set(powers_of_step(arithmetic, n))) < n:
        raise Refused(REFUSED_POWERS)
    if arithmetic.q**k > MOST_DOORS:
        raise Refused(REFUSED_DOORS)
    return Scheme(arithmetic, n, k)
