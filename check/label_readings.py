"""Reading smudged labels, by search and by elimination.

The rules are those of docs/reading.md; the methods differ from the ones
described there.  There are two:

* the search goes through the labels of all doors, in a scheme that has few;
* the elimination finds two polynomials, one of which is zero at each wrong
  place, and from them the label.  It works on the legible places alone.

Where both are done they have to agree.  A label is answered only after it has
been held to the definition: that its sums are zero, and that it is within
reach.

What the elimination rests on
-----------------------------

x_p is the point of place p, the power g^(n-1-p).  u_p is x_p times the product
of x_p - x_l over all other places l.  It is not zero, as the points differ.

1.  A row c is a label just when a polynomial f of degree below k has the value
    c_p u_p at each point x_p.

    One polynomial f of degree below n has these values.  By Lagrange's formula
    it is the sum over p of c_p x_p times the product of x - x_l over the places
    l other than p.  Let M be the product of x - x_p over all places.  Then f/M
    is the sum over p of c_p x_p / (x - x_p).  In powers of 1/x this is
    S_1/x + S_2/x^2 + ..., where S_j is the sum over p of c_p x_p^j.  M has
    degree n.  So f has a degree below n - r = k just when S_1 to S_r are zero,
    which is the definition of a label.

Let s be the number of smudges and at most r, let e be (r-s)/2 rounded down, and
let b_p be the code read at a legible place p times u_p.  Sought are E of degree
at most e and N of degree below k+e, not both zero, with

    N(x_p) = b_p E(x_p)   at each legible place p.

These are n-s linear equations for the k+e coefficients of N and the e+1 of E.
k + 2e is at most k + r - s = n - s.

2.  Where a label is within reach, there are such N and E.  The label has v
    wrong places and v is at most e.  Let f belong to it by 1.  E is the product
    of x - x_p over the wrong places, and N is f E.
3.  E is not zero.  Otherwise N, of degree below k+e, would be zero at n-s
    points, and so be zero itself, as n-s is at least k+e.
4.  Where a label is within reach, it has the code read at each legible place
    where E is not zero, whichever N and E were found.  N - f E has a degree
    below k+e.  It is zero at each legible place that is not wrong, as b_p is
    f(x_p) there.  There are n-s-v such places, at least n-s-e, and so at least
    k+e.  So N is f E.  Then (b_p - f(x_p)) E(x_p) is zero at each legible place.
5.  E has at most e zeros, by 3.  So it is not zero at k or more legible places.
    The codes at k places decide a label, as two labels that have them differ in
    at most r places.  So the k equations for its k door characters have just
    one solution.

So a label within reach can only be the one that 5 gives.  No label within reach
is missed: where there are no N and E there is none by 2, and where the label
that 5 gives is not within reach there is none by 4.
"""

from __future__ import annotations

from functools import cached_property, lru_cache
from operator import ne
from typing import NamedTuple, Optional, Sequence

from binary_field import MethodsDisagree, Refused
from label_schemes import ALPHABET, Arithmetic, Rows, Scheme, powers_of_step, solve

# The labels of at most so many doors are gone through.
MOST_SEARCHED = 5000

# The number that stands for a smudge in a scan, the byte in a typed entry.
SMUDGE = (1 << 32) - 1
SMUDGED_BYTE = ord("?")

REFUSED_ALPHABET = 11
REFUSED_PIECES = 14
REFUSED_PIECE = 15
REFUSED_REACH = 16

# A code, or None for a smudge.
Cell = Optional[int]


class Found(NamedTuple):
    """The label within reach of a reading: its door, v, s and its codes."""

    door: int
    wrong: int
    smudges: int
    label: list[int]


def scanned_cell(scheme: Scheme, piece: int) -> Cell:
    """The cell of a number; ValueError where it has none."""
    if piece == SMUDGE:
        return None
    if piece < scheme.arithmetic.q:
        return piece
    raise ValueError(piece)


def typed_cell(scheme: Scheme, piece: int) -> Cell:
    """The cell of a byte; ValueError where it has none."""
    if piece == SMUDGED_BYTE:
        return None
    return ALPHABET[: scheme.arithmetic.q].index(chr(piece))


def cells_of(scheme: Scheme, pieces: Sequence[int], typed: bool) -> list[Cell]:
    """The cells of a reading, or refusal 11, 14 or 15."""
    if typed and scheme.arithmetic.q > len(ALPHABET):
        raise Refused(REFUSED_ALPHABET)
    if len(pieces) != scheme.n:
        raise Refused(REFUSED_PIECES)
    cell_of = typed_cell if typed else scanned_cell
    cells = []
    for place, piece in enumerate(pieces):
        try:
            cells.append(cell_of(scheme, piece))
        except ValueError:
            raise Refused(REFUSED_PIECE, place) from None
    return cells


def wrong_places(cells: Sequence[Cell], label: Sequence[int]) -> int:
    """v: how many legible cells differ from the label.

    A smudge differs from every code.
    """
    return sum(map(ne, cells, label)) - cells.count(None)


def dependence(arithmetic: Arithmetic, rows: Rows) -> Optional[list[int]]:
    """Factors, not all zero, with which the columns add up to zero.

    None where there are no such factors.  The rows are brought to a triangle,
    column after column.  The first column that has no pivot depends on those
    before it; the columns behind it get the factor zero.
    """
    width = len(rows[0])
    # The rows from the present column on, and the pivot rows, likewise cut.
    tails = rows
    pivots: Rows = []
    for column in range(width):
        number = next((i for i, tail in enumerate(tails) if tail[0]), None)
        if number is None:
            factors = substituted(arithmetic, pivots, column)
            return factors + [0] * (width - len(factors))
        pivot = tails[number]
        zero = [0] * len(pivot)
        scale = arithmetic.sub(0, arithmetic.inv(pivot[0]))
        unit = arithmetic.less_multiple(zero, scale, pivot)
        others = tails[:number] + tails[number + 1 :]
        tails = [arithmetic.less_multiple(tail, tail[0], unit)[1:] for tail in others]
        pivots.append(unit)
    return None


def substituted(arithmetic: Arithmetic, pivots: Rows, column: int) -> list[int]:
    """The factors of the columns up to `column`, whose own factor is 1.

    Row i of `pivots` begins at column i, with a 1.
    """
    factors = [0] * column + [1]
    for i in range(column - 1, -1, -1):
        total = 0
        for value, factor in zip(pivots[i][1:], factors[i + 1 :]):
            total = arithmetic.add(total, arithmetic.mul(value, factor))
        factors[i] = arithmetic.sub(0, total)
    return factors


class Reader:
    """Reads labels of one scheme."""

    def __init__(self, scheme: Scheme) -> None:
        self.scheme = scheme
        self.arithmetic = scheme.arithmetic

    @cached_property
    def labels(self) -> Rows:
        """The labels of all doors."""
        return [self.scheme.label(door) for door in range(self.scheme.doors)]

    @cached_property
    def powers(self) -> Rows:
        """Row p, column t: x_p^t, for t from 0 to n."""
        n = self.scheme.n
        powers = powers_of_step(self.arithmetic, (n - 1) * n + 1)
        return [[powers[(n - 1 - p) * t] for t in range(n + 1)] for p in range(n)]

    @cached_property
    def scales(self) -> list[int]:
        """u_p for each place p."""
        points = [row[1] for row in self.powers]
        scales = []
        for p, point in enumerate(points):
            scale = point
            for other in points[:p] + points[p + 1 :]:
                difference = self.arithmetic.sub(point, other)
                scale = self.arithmetic.mul(scale, difference)
            scales.append(scale)
        return scales

    def is_label(self, row: Sequence[int]) -> bool:
        """Whether the r sums of a row of n codes are zero."""
        r = self.scheme.r
        sums = [0] * r
        for code, powers in zip(row, self.powers):
            sums = self.arithmetic.less_multiple(sums, code, powers[1 : r + 1])
        return sums == [0] * r

    def in_reach(self, cells: Sequence[Cell], label: Sequence[int]) -> bool:
        """Whether 2v + s is at most r."""
        smudges = cells.count(None)
        return 2 * wrong_places(cells, label) + smudges <= self.scheme.r

    def by_search(self, cells: Sequence[Cell]) -> Optional[list[int]]:
        """The label within reach among the labels of all doors."""
        found = [label for label in self.labels if self.in_reach(cells, label)]
        if len(found) > 1:
            raise MethodsDisagree(f"{len(found)} labels within reach of {cells}")
        return found[0] if found else None

    def by_elimination(self, cells: Sequence[Cell]) -> Optional[list[int]]:
        """The label within reach, from the codes at places that are right."""
        if cells.count(None) > self.scheme.r:
            return None
        locator = self.locator(cells)
        if locator is None:
            return None
        label = self.label_through(cells, self.right_places(cells, locator))
        return label if self.in_reach(cells, label) else None

    def locator(self, cells: Sequence[Cell]) -> Optional[list[int]]:
        """The coefficients of E, the lowest first; None where there is none."""
        arithmetic, k = self.arithmetic, self.scheme.k
        e = (self.scheme.r - cells.count(None)) // 2
        zero = [0] * (e + 1)
        equations = []
        for p, code in enumerate(cells):
            if code is not None:
                value = arithmetic.mul(code, self.scales[p])
                right = arithmetic.less_multiple(zero, value, self.powers[p][: e + 1])
                equations.append(self.powers[p][: k + e] + right)
        factors = dependence(arithmetic, equations)
        return None if factors is None else factors[k + e :]

    def right_places(self, cells: Sequence[Cell], locator: list[int]) -> list[int]:
        """The first k legible places where E is not zero."""
        places = [
            p
            for p, code in enumerate(cells)
            if code is not None and self.value_at(p, locator) != 0
        ]
        if len(places) < self.scheme.k:
            raise MethodsDisagree(f"{locator} is zero at too many points")
        return places[: self.scheme.k]

    def value_at(self, place: int, polynomial: list[int]) -> int:
        """The value of a polynomial at the point of a place."""
        total = 0
        for coefficient, power in zip(polynomial, self.powers[place]):
            total = self.arithmetic.add(total, self.arithmetic.mul(coefficient, power))
        return total

    def shares(self, place: int) -> list[int]:
        """With which factors the door characters add up to the code at a place."""
        n, k = self.scheme.n, self.scheme.k
        if place < k:
            return [int(place == p) for p in range(k)]
        return self.scheme.solutions[n - 1 - place]

    def label_through(self, cells: Sequence[Cell], places: list[int]) -> list[int]:
        """The label that has the codes read at these k legible places."""
        left = [self.shares(p) for p in places]
        right = [[code] for p in places if (code := cells[p]) is not None]
        characters = [row[0] for row in solve(self.arithmetic, left, right)]
        return self.scheme.label(self.scheme.door_of(characters))

    def label_in_reach(self, cells: Sequence[Cell]) -> Optional[list[int]]:
        """The label within reach, by both methods where the doors are few."""
        label = self.by_elimination(cells)
        if self.scheme.doors <= MOST_SEARCHED and label != self.by_search(cells):
            raise MethodsDisagree(f"elimination gives {label} for {cells}")
        return label

    def read(self, cells: Sequence[Cell]) -> Found:
        """The label within reach, held to the definition, or refusal 16."""
        label = self.label_in_reach(cells)
        if label is None:
            raise Refused(REFUSED_REACH)
        if not (self.is_label(label) and self.in_reach(cells, label)):
            raise MethodsDisagree(f"{label} is no label within reach of {cells}")
        wrong, smudges = wrong_places(cells, label), cells.count(None)
        return Found(self.scheme.door_of(label), wrong, smudges, label)


@lru_cache(maxsize=None)
def reader_of(scheme: Scheme) -> Reader:
    """What reads the labels of a scheme."""
    return Reader(scheme)


def read_pieces(scheme: Scheme, pieces: Sequence[int], typed: bool) -> Found:
    """The answer to a reading, or refusal 11, 14, 15 or 16."""
    return reader_of(scheme).read(cells_of(scheme, pieces, typed))
