"""Binary polynomials and binary fields on Python integers.

Bit i of an integer is the coefficient of z^i.  The rules are those of
docs/arithmetic.md; the methods differ from the ones described there:

* polynomials without a factor are found by a sieve that marks products;
* inverses come from a table of the powers of one element;
* the numbers h_j are read off as the coefficient of z^(m-1) in a z^j;
* the iteration is run directly, each polynomial being one integer.
"""

from __future__ import annotations

from functools import lru_cache
from typing import NamedTuple

MIN_DEGREE = 2
MAX_DEGREE = 16

REFUSED_DEGREE = 1
REFUSED_FACTOR = 2
REFUSED_CODE = 3
REFUSED_ZERO = 4


class Refused(Exception):
    """A refusal: its number and its place."""

    def __init__(self, number: int, place: int = 0) -> None:
        super().__init__(number, place)
        self.number = number
        self.place = place


class MethodsDisagree(Exception):
    """Two methods of this checker gave different values."""


class Run(NamedTuple):
    """What the iteration leaves: the small pair and the count."""

    remainder: int
    multiplier: int
    count: int


class Totals(NamedTuple):
    """The largest and the summed count over all nonzero codes."""

    most: int
    total: int


def degree(polynomial: int) -> int:
    """The degree; the zero polynomial has degree -1."""
    return polynomial.bit_length() - 1


def multiples(factor: int, top: int) -> list[int]:
    """All products of `factor` with a polynomial, of degree at most `top`.

    The product with the zero polynomial is the first entry, the product with
    the polynomial k is entry number k.
    """
    found = [0]
    for shift in range(top - degree(factor) + 1):
        shifted = factor << shift
        found += [product ^ shifted for product in found]
    return found


@lru_cache(maxsize=None)
def composite_marks() -> bytearray:
    """Byte F is 1 where F is a product of two polynomials of degree >= 1.

    Covers every F of degree at most MAX_DEGREE.  A product of that degree has
    a factor of at most half of it, so only such factors are worked through.
    """
    marks = bytearray(2 << MAX_DEGREE)
    for factor in range(2, 2 << (MAX_DEGREE // 2)):
        if marks[factor]:
            continue
        for product in multiples(factor, MAX_DEGREE)[2:]:
            marks[product] = 1
    return marks


def has_factor(polynomial: int) -> bool:
    """Whether a polynomial of degree 1 to MAX_DEGREE is such a product."""
    return composite_marks()[polynomial] == 1


def irreducible_of_degree(m: int) -> list[int]:
    """All polynomials of degree m without a factor of degree 1 to m-1."""
    return [f for f in range(1 << m, 2 << m) if not has_factor(f)]


class Field:
    """The binary field of a polynomial F without a factor."""

    def __init__(self, polynomial: int) -> None:
        self.polynomial = polynomial
        self.m = degree(polynomial)
        self.q = 1 << self.m
        self._powers: list[int] = []
        self._exponents: list[int] = []
        self._products: list[int] = []

    def product(self, a: int, b: int) -> int:
        """The product of two codes, one bit of b after the other."""
        result = 0
        while b:
            if b & 1:
                result ^= a
            b >>= 1
            a <<= 1
            if a & self.q:
                a ^= self.polynomial
        return result

    def _powers_of(self, base: int) -> list[int]:
        """base^0, base^1, ... up to the last one before 1 comes again."""
        powers = [1]
        value = base
        while value != 1:
            powers.append(value)
            value = self.product(value, base)
        return powers

    def _fill_tables(self) -> None:
        """Find an element whose powers are all nonzero codes; tabulate them."""
        for base in range(1, self.q):
            powers = self._powers_of(base)
            if len(powers) == self.q - 1:
                break
        else:
            raise MethodsDisagree(f"no generating element for {self.polynomial}")
        exponents = [0] * self.q
        for exponent, value in enumerate(powers):
            exponents[value] = exponent
        # Zero is no power.  Its exponent leads behind all sums of two others.
        exponents[0] = 2 * len(powers)
        self._powers = powers
        self._exponents = exponents
        self._products = powers + powers + [0] * len(powers)

    def inverse(self, a: int) -> int:
        """The inverse of a nonzero code, from the table of powers."""
        if not self._powers:
            self._fill_tables()
        return self._powers[-self._exponents[a] % (self.q - 1)]

    def product_by_table(self, a: int, b: int) -> int:
        """The product of two codes, from the table of powers."""
        if a == 0 or b == 0:
            return 0
        if not self._powers:
            self._fill_tables()
        exponents = self._exponents
        return self._powers[(exponents[a] + exponents[b]) % (self.q - 1)]

    def plus_multiple(self, row: list[int], factor: int, other: list[int]) -> list[int]:
        """row + factor * other, place by place, from the table of powers."""
        if factor == 0:
            return row
        if not self._powers:
            self._fill_tables()
        exponents, products = self._exponents, self._products
        shift = exponents[factor]
        return [a ^ products[shift + exponents[b]] for a, b in zip(row, other)]

    def top_coefficients(self, a: int, length: int) -> list[int]:
        """The coefficient of z^(m-1) in a z^j mod F, for j below `length`."""
        bits = []
        for _ in range(length):
            bits.append(a >> (self.m - 1))
            a <<= 1
            if a & self.q:
                a ^= self.polynomial
        return bits

    def triangular(self, a: int) -> list[int]:
        """The triangular coordinates of a code."""
        return self.top_coefficients(a, self.m)

    def hankel_polynomial(self, a: int) -> int:
        """R, the sum of h_i z^(2m-2-i)."""
        m, q, f = self.m, self.q, self.polynomial
        result = 0
        for _ in range(2 * m - 1):
            result = result << 1 | a >> (m - 1)
            a <<= 1
            if a & q:
                a ^= f
        return result

    def run(self, a: int) -> Run:
        """The iteration for a code: from z^(2m-1), stopping at m-1."""
        return iterate(2 * self.m - 1, self.m - 1, self.hankel_polynomial(a))

    def count(self, a: int) -> int:
        """The number of iterations for a nonzero code.

        Raises MethodsDisagree where the run does not leave the inverse that
        the table of powers gives.
        """
        run = self.run(a)
        if run.multiplier != self.inverse(a):
            raise MethodsDisagree(
                f"field {self.polynomial}, code {a}: the iteration leaves "
                f"{run.multiplier}, the powers give {self.inverse(a)}"
            )
        return run.count

    def totals(self) -> Totals:
        """The largest and the summed count over all nonzero codes."""
        counts = [self.count(a) for a in range(1, self.q)]
        return Totals(max(counts), sum(counts))


def iterate(start: int, stop: int, first: int) -> Run:
    """The iteration over bits, from z^start and `first`, down to `stop`."""
    big, big_multiplier = 1 << start, 0
    small, small_multiplier = first, 1
    count = 0
    while degree(small) > stop:
        shift = degree(big) - degree(small)
        new = big ^ small << shift
        new_multiplier = big_multiplier ^ small_multiplier << shift
        count += 1
        if degree(new) >= degree(small):
            big, big_multiplier = new, new_multiplier
        else:
            big, big_multiplier = small, small_multiplier
            small, small_multiplier = new, new_multiplier
    return Run(small, small_multiplier, count)


@lru_cache(maxsize=None)
def open_field(polynomial: int) -> Field:
    """The field of F, or refusal 1 or 2."""
    if not MIN_DEGREE <= degree(polynomial) <= MAX_DEGREE:
        raise Refused(REFUSED_DEGREE)
    if has_factor(polynomial):
        raise Refused(REFUSED_FACTOR)
    return Field(polynomial)


def check_operand(field: Field, a: int) -> None:
    """Refusal 3 for no code, then 4 for zero."""
    if a >= field.q:
        raise Refused(REFUSED_CODE)
    if a == 0:
        raise Refused(REFUSED_ZERO)
