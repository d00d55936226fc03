"""Checks of the checker itself, on definitions and on worked examples."""

from __future__ import annotations

from itertools import combinations, product
from math import comb
from typing import Callable, Iterator, NamedTuple, Optional, Sequence

import labels_program
import reading_lines
import readings_program
from binary_field import (
    Field,
    MethodsDisagree,
    Refused,
    has_factor,
    irreducible_of_degree,
    open_field,
)
from field_program import LISTED, answer, parse
from label_readings import Cell, Found, Reader, cells_of, dependence, reader_of
from label_schemes import ALPHABET, RESIDUES, BinaryElements, Rows, Scheme, solve
from numbers_from_seed import Numbers

# How many polynomials of degree 1, 2, ... 16 have no factor.
IRREDUCIBLE_COUNTS = [
    2, 1, 2, 3, 6, 9, 18, 30, 56, 99, 186, 335, 630, 1161, 2182, 4080,
]

EXAMPLES = [
    ("19", "opens 4 16 most 5 total 43"),
    ("21", "refused 2 0"),
    ("7", "opens 2 4 most 2 total 3"),
    ("3", "refused 1 0"),
    ("65536", "refused 2 0"),
    ("131072", "refused 1 0"),
    ("19 3", "triangular 0 0 1 1 inverse 14 iterations 3"),
    ("19 1", "triangular 0 0 0 1 inverse 1 iterations 0"),
    ("19 0", "refused 4 0"),
    ("19 16", "refused 3 0"),
]

NUMBER_FORMS = [
    (b"19", (19, None)),
    (b"0000000019 3", (19, 3)),
    (b"4294967295 4294967295", (4294967295, 4294967295)),
    (b"4294967296", None),
    (b"04294967295", None),
    (b"00000000019", None),
    (b"19 ", None),
    (b" 19", None),
    (b"19  3", None),
    (b"19 3 1", None),
    (b"19\t3", None),
    (b"19\r", None),
    (b"+19", None),
    (b"-19", None),
    (b"\xd9\xa3", None),
]


# Lines of `labels`, each with its answer; None where nothing is printed.
LABEL_EXAMPLES = [
    ("door 0", "no query"),
    ("binary 11 4 2", None),
    ("door 1", "0163"),
    ("door 10", "1267"),
    ("door 23", "2760"),
    ("door 64", "refused 8 0"),
    ("binary 11 4", "no query"),
    ("door 10", "1267"),
    ("binary 31 5 2", None),
    ("binary 31 6 2", "refused 6 0"),
    ("door 10", "no query"),
    ("binary 19 10 8", None),
    ("door 0", "0000000000"),
    ("door 4294967295", "FFFFFFFF0F"),
    ("door 4294967296", "no query"),
    ("binary 19 11 9", "refused 7 0"),
    ("residue 3 1", None),
    ("door 1", "1V8"),
    ("residue 4 2", None),
    ("door 100", "2QA8"),
    ("residue 36 2", None),
    ("door 1368", "-" * 36),
    ("door 1369", "refused 8 0"),
    ("residue 37 2", "refused 6 0"),
    ("residue 36 6", None),
    ("residue 36 7", "refused 7 0"),
    ("residue 65 7", "refused 5 0"),
    ("residue 2 2", "refused 5 0"),
    ("binary 3 0 0", "refused 1 0"),
    ("binary 21 0 0", "refused 2 0"),
    ("binary 67 63 5", None),
    ("binary 67 64 5", "refused 6 0"),
    ("binary 131 4 2", None),
    ("door 1", "0 1 6 8"),
]

# Every row of n codes is tested, and each door has just one label.
SCHEMES_ROW_BY_ROW = [
    "binary 7 2 1", "binary 7 3 1", "binary 7 3 2", "binary 11 4 2",
    "binary 11 4 3", "binary 19 3 1", "residue 2 1", "residue 3 1", "residue 3 2",
]
# Every two labels are compared.
SCHEMES_PAIR_BY_PAIR = [
    "binary 7 3 1", "binary 7 3 2", "binary 11 4 2", "binary 11 7 2",
    "binary 11 7 3", "binary 19 5 2", "binary 19 15 2", "binary 31 5 2",
    "residue 5 1", "residue 36 1", "residue 3 2",
]
# Sampled doors; the largest n, k and q are among them.
SCHEMES_SAMPLED = [
    "binary 19 10 8", "binary 67 63 5", "binary 131 64 4", "binary 285 64 1",
    "binary 69643 64 1", "binary 69643 64 2", "residue 36 1", "residue 36 6",
]
LABEL_SAMPLES = 6

# Lines of `readings` that ask for readings, each with its answer.
READING_EXAMPLES = [
    ("read 1267", "no query"),
    ("scan 1 2 6 7", "no query"),
    ("binary 11 4 2", None),
    ("read 1267", "10 0 0 1 2 6 7"),
    ("read 12?7", "10 0 1 1 2 6 7"),
    ("read 1260", "10 1 0 1 2 6 7"),
    ("read ??67", "10 0 2 1 2 6 7"),
    ("read ??60", "23 0 2 2 7 6 0"),
    ("read 1?60", "refused 16 0"),
    ("read 1???", "refused 16 0"),
    ("read 12x7", "refused 15 2"),
    ("read 126", "refused 14 0"),
    ("scan 1 2 6 0", "10 1 0 1 2 6 7"),
    ("scan ? ? 6 0", "23 0 2 2 7 6 0"),
    ("scan ? 4294967295 6 0", "23 0 2 2 7 6 0"),
    ("scan 0000000001 2 6 0", "10 1 0 1 2 6 7"),
    ("scan 1 2 8 7", "refused 15 2"),
    ("scan 1 2 4294967294 8", "refused 15 2"),
    ("scan 1 2 6 7 8", "refused 14 0"),
    ("read ", "refused 14 0"),
    ("read", "no query"),
    ("scan 1 2  7", "no query"),
    ("read 1267\r", "refused 14 0"),
    ("read 126\r", "refused 15 3"),
    ("read 126 ", "refused 15 3"),
    ("scan 1 2 6 7\r", "no query"),
    ("door 10", "1267"),
    ("binary 31 6 2", "refused 6 0"),
    ("read 12?7", "no query"),
    ("residue 4 2", None),
    ("read 2QA8", "100 0 0 2 26 10 8"),
    ("read 2QA9", "100 1 0 2 26 10 8"),
    ("read 2QA7", "100 1 0 2 26 10 8"),
    ("read 2??8", "100 0 2 2 26 10 8"),
    ("read 2QAa", "refused 15 3"),
    ("residue 3 1", None),
    ("read ?V8", "1 0 1 1 31 8"),
    ("read ??-", "23 0 2 23 10 36"),
    ("binary 67 2 1", None),
    ("read +?", "63 0 1 63 61"),
    ("binary 131 4 2", None),
    ("read 1267", "refused 11 0"),
    ("read ", "refused 11 0"),
    ("scan 0 1 6 ?", "1 0 1 0 1 6 8"),
    ("scan 0 1 6 128", "refused 15 3"),
]

# Every cell is a code or a smudge, in all combinations.
SCHEMES_READING_BY_READING = [
    "binary 7 2 1", "binary 7 3 1", "binary 7 3 2", "binary 11 3 1", "binary 11 3 2",
    "binary 11 4 1", "binary 11 4 2", "binary 19 3 1", "residue 2 1",
]
# Sampled readings, by search and by elimination.
SCHEMES_SEARCHED = [
    "binary 11 7 1", "binary 11 7 3", "binary 11 7 4", "binary 31 5 3",
    "binary 19 15 2", "binary 19 15 3", "binary 25 4 3", "binary 67 63 1",
    "binary 67 63 2", "binary 131 64 1", "binary 285 20 1", "binary 2053 64 1",
    "residue 5 2", "residue 12 2", "residue 36 1", "residue 36 2",
]
# Sampled readings, by supposed wrong places and by elimination.
SCHEMES_SUPPOSED = [
    "binary 19 9 8", "binary 19 10 8", "binary 19 12 8", "binary 19 15 8",
    "binary 41 9 6", "binary 67 10 5", "binary 131 9 4", "binary 69643 9 2",
    "residue 9 6", "residue 10 5", "residue 12 6",
]
# Sampled readings of labels that are known.
SCHEMES_READ = [
    "binary 19 9 8", "binary 19 15 8", "binary 67 63 5", "binary 131 64 4",
    "binary 285 64 1", "binary 1033 64 3", "binary 69643 64 1", "binary 69643 64 2",
    "residue 7 6", "residue 36 6",
]
READING_SAMPLES = 24


class Checked(NamedTuple):
    """How many codes, labels and readings were worked through."""

    codes: int
    labels: int
    readings: int


def expect(holds: bool, what: str) -> None:
    """Raise AssertionError naming what does not hold."""
    if not holds:
        raise AssertionError(what)


def bit(word: int, place: int) -> int:
    """The coefficient of z^place."""
    return word >> place & 1


def triangular_by_definition(f: int, m: int, a: int) -> list[int]:
    """t_j = a_(m-1-j) + sum over i<j of f_(m-j+i) t_i."""
    t: list[int] = []
    for j in range(m):
        below = sum(bit(f, m - j + i) * t[i] for i in range(j))
        t.append((bit(a, m - 1 - j) + below) % 2)
    return t


def hankel_by_definition(f: int, m: int, a: int) -> list[int]:
    """h_j = t_j below m, then the sum over i<m of f_i h_(j-m+i)."""
    h = triangular_by_definition(f, m, a)
    for j in range(m, 2 * m - 1):
        h.append(sum(bit(f, i) * h[j - m + i] for i in range(m)) % 2)
    return h


def hankel_rows_hold(h: list[int], m: int, b: int) -> bool:
    """Row i: the sum over j of h_(i+j) b_j is 1 if i is m-1, else 0."""
    rows = [sum(h[i + j] * bit(b, j) for j in range(m)) % 2 for i in range(m)]
    return rows == [0] * (m - 1) + [1]


def check_code(field: Field, a: int) -> None:
    """All facts about one nonzero code."""
    name = f"field {field.polynomial}, code {a}"
    h = hankel_by_definition(field.polynomial, field.m, a)
    b = field.inverse(a)
    run = field.run(a)
    expect(field.product(a, b) == 1, f"{name}: product with the inverse is one")
    expect(field.triangular(a) == h[: field.m], f"{name}: triangular coordinates")
    expect(field.top_coefficients(a, 2 * field.m - 1) == h, f"{name}: h")
    expect(run.multiplier == b, f"{name}: U is the inverse")
    expect(run.remainder.bit_length() == field.m, f"{name}: R ends at degree m-1")
    expect(hankel_rows_hold(h, field.m, run.multiplier), f"{name}: Hankel rows")
    expect(run.count <= 2 * field.m - 2, f"{name}: count at most 2m-2")


def check_fields() -> int:
    """Every field of degree 2 to 8 and three listed ones, every code."""
    checked = 0
    polynomials = [f for m in range(2, 9) for f in irreducible_of_degree(m)]
    for polynomial in polynomials + LISTED[:3]:
        field = open_field(polynomial)
        expect(field.triangular(0) == [0] * field.m, f"{polynomial}: zero")
        for a in range(1, field.q):
            check_code(field, a)
            checked += 1
    return checked


def check_sieve() -> None:
    """The number of polynomials without a factor, degree by degree."""
    for m, count in enumerate(IRREDUCIBLE_COUNTS, start=1):
        expect(len(irreducible_of_degree(m)) == count, f"sieve, degree {m}")
    for m, polynomial in enumerate(LISTED, start=9):
        expect(polynomial.bit_length() - 1 == m, f"{polynomial} has degree {m}")
        expect(not has_factor(polynomial), f"{polynomial} has no factor")


def check_examples() -> None:
    """The worked examples and the forms of numbers."""
    for query, expected in EXAMPLES:
        expect(answer(query.encode()) == expected, f"example {query}")
    for line, numbers in NUMBER_FORMS:
        expect(parse(line) == numbers, f"form of {line!r}")


class Sums:
    """The sums that define the labels of a scheme, computed without tables."""

    def __init__(self, scheme: Scheme) -> None:
        arithmetic = scheme.arithmetic
        self.sum: Callable[[int, int], int] = arithmetic.add
        self.product: Callable[[int, int], int] = arithmetic.mul
        if isinstance(arithmetic, BinaryElements):
            self.product = arithmetic.field.product
        # Row j-1, column p: the power g^(ij) that stands at place p = n-1-i.
        self.rows = [
            [self.power(arithmetic.step, i * j) for i in range(scheme.n)][::-1]
            for j in range(1, scheme.r + 1)
        ]

    def power(self, base: int, exponent: int) -> int:
        """base^exponent, one squaring for each bit of the exponent."""
        if exponent == 0:
            return 1
        root = self.power(base, exponent // 2)
        square = self.product(root, root)
        return self.product(square, base) if exponent % 2 else square

    def is_label(self, row: Sequence[int]) -> bool:
        """For each j from 1 to r, the sum of c_i g^(ij) is zero."""
        for powers in self.rows:
            total = 0
            for code, power in zip(row, powers):
                total = self.sum(total, self.product(code, power))
            if total != 0:
                return False
        return True


def scheme_of(line: str) -> Scheme:
    """The scheme of a scheme line that is accepted."""
    scheme = labels_program.accepted(line)
    expect(scheme is not None, f"{line}: accepted")
    assert scheme is not None
    return scheme


def places_that_differ(one: Sequence[int], other: Sequence[int]) -> int:
    """In how many places two rows differ."""
    return sum(a != b for a, b in zip(one, other))


def door_of(scheme: Scheme, row: Sequence[int]) -> int:
    """The first k places as a number in base q."""
    door = 0
    for code in row[: scheme.k]:
        door = door * scheme.arithmetic.q + code
    return door


def check_solving() -> None:
    """The elimination, with a swap of rows, and a system without a pivot."""
    left, right = [[0, 2], [3, 4]], [[5, 1], [6, 0]]
    found = solve(RESIDUES, left, right)
    for i, column in product(range(2), range(2)):
        total = sum(left[i][t] * found[t][column] for t in range(2))
        expect(total % 37 == right[i][column], "elimination modulo 37")
    try:
        solve(RESIDUES, [[1, 2], [2, 4]], [[0], [0]])
    except MethodsDisagree:
        return
    expect(False, "a system without just one solution is noticed")


def check_label_examples() -> None:
    """The alphabet, the worked examples and the lines that are no query."""
    expect(len(set(ALPHABET)) == 64, "64 different characters")
    for code, character in ((0, "0"), (9, "9"), (10, "A"), (35, "Z"), (36, "-"),
                            (37, "a"), (62, "z"), (63, "+")):
        expect(ALPHABET[code] == character, f"character of {code}")
    for program in (labels_program, readings_program):
        answer_line = program.start()
        for line, expected in LABEL_EXAMPLES:
            expect(answer_line(line.encode()) == expected, f"labels example {line}")
        for line in filter(None, labels_program.NO_QUERIES):
            expect(program.parse(line.encode()) is None, f"no query: {line!r}")


def check_row_by_row(line: str) -> int:
    """Of all rows of n codes, just the labels of the doors are labels."""
    scheme = scheme_of(line)
    sums = Sums(scheme)
    found = {}
    for row in product(range(scheme.arithmetic.q), repeat=scheme.n):
        if sums.is_label(row):
            expect(door_of(scheme, row) not in found, f"{line}: a second label")
            found[door_of(scheme, row)] = list(row)
    expect(len(found) == scheme.doors, f"{line}: every door has a label")
    for door, row in found.items():
        expect(scheme.label(door) == row, f"{line}: label of door {door}")
    return len(found)


def check_pair_by_pair(line: str) -> int:
    """Two labels of different doors differ in more than r places."""
    scheme = scheme_of(line)
    sums = Sums(scheme)
    labels = [scheme.label(door) for door in range(scheme.doors)]
    for door, row in enumerate(labels):
        expect(sums.is_label(row), f"{line}: door {door} is a label")
        expect(door_of(scheme, row) == door, f"{line}: places of door {door}")
    least = min(places_that_differ(*pair) for pair in combinations(labels, 2))
    expect(least > scheme.r, f"{line}: labels that differ in {least} places")
    return len(labels)


def doors_to_sample(scheme: Scheme, numbers: Numbers) -> Iterator[int]:
    """The first two doors, the last, and some between."""
    yield from (0, 1, scheme.doors - 1)
    for _ in range(LABEL_SAMPLES):
        yield numbers.between(0, scheme.doors - 1)


def check_sampled(line: str, numbers: Numbers) -> int:
    """Sampled doors have labels; with one place changed they are none."""
    scheme = scheme_of(line)
    sums = Sums(scheme)
    checked = 0
    for door in doors_to_sample(scheme, numbers):
        row = scheme.label(door)
        expect(len(row) == scheme.n, f"{line}: length of door {door}")
        expect(sums.is_label(row), f"{line}: door {door} is a label")
        expect(door_of(scheme, row) == door, f"{line}: places of door {door}")
        place = numbers.between(0, scheme.n - 1)
        row[place] = (row[place] + 1) % scheme.arithmetic.q
        expect(not sums.is_label(row), f"{line}: door {door}, one place changed")
        checked += 1
    try:
        scheme.label(scheme.doors)
        expect(False, f"{line}: door q^k is refused")
    except Refused as refused:
        expect(refused.number == 8, f"{line}: door q^k is refused with 8")
    return checked


def check_labels() -> int:
    """All checks of labels; the number of labels that were worked through."""
    check_solving()
    check_label_examples()
    numbers = Numbers(1)
    checked = sum(check_row_by_row(line) for line in SCHEMES_ROW_BY_ROW)
    checked += sum(check_pair_by_pair(line) for line in SCHEMES_PAIR_BY_PAIR)
    checked += sum(check_sampled(line, numbers) for line in SCHEMES_SAMPLED)
    return checked


def check_dependence() -> None:
    """Columns that depend on each other, and columns that do not."""
    for rows in ([[0, 2, 4], [3, 1, 5]], [[1, 2], [2, 4]], [[0, 1]], [[2, 3, 0]] * 3):
        factors = dependence(RESIDUES, rows)
        assert factors is not None, rows
        expect(any(factors), f"factors of {rows} that are not all zero")
        for row in rows:
            total = sum(value * factor for value, factor in zip(row, factors))
            expect(total % 37 == 0, f"factors of {rows}")
    for rows in ([[0, 2], [3, 1]], [[1], [0]], [[0, 1], [0, 2], [1, 0]]):
        expect(dependence(RESIDUES, rows) is None, f"no factors of {rows}")


def check_multiples() -> None:
    """Differences of rows, against sums and products without a table."""
    for line in ("binary 7 3 1", "binary 67 63 1", "binary 69643 64 1", "residue 36 1"):
        scheme = scheme_of(line)
        arithmetic, sums, numbers = scheme.arithmetic, Sums(scheme), Numbers(1)
        codes = [0, 1, arithmetic.q - 1]
        codes += [numbers.between(0, arithmetic.q - 1) for _ in range(8)]
        for factor in codes:
            found = arithmetic.less_multiple(codes[::-1], factor, codes)
            for one, code, difference in zip(codes[::-1], codes, found):
                total = sums.sum(difference, sums.product(factor, code))
                expect(total == one, f"{line}: multiple of {code} by {factor}")


def check_reading_examples() -> None:
    """The worked examples, the lines that are no query and those beside them."""
    answer_line = readings_program.start()
    for line, expected in READING_EXAMPLES:
        expect(answer_line(line.encode()) == expected, f"readings example {line!r}")
    for line in reading_lines.NO_QUERIES:
        query = readings_program.parse(line.encode("latin-1"))
        expect(query is None, f"no query: {line!r}")
    for line in reading_lines.FORMS:
        query = readings_program.parse(line.encode("latin-1"))
        expect(query is not None, f"a query: {line!r}")


def found_by(reader: Reader, cells: Sequence[Cell]) -> Optional[Found]:
    """What reading answers; None where it refuses with 16."""
    try:
        return reader.read(cells)
    except Refused as refused:
        expect((refused.number, refused.place) == (16, 0), f"refusal of {cells}")
        return None


def readings_in_reach(scheme: Scheme) -> int:
    """How many readings have a label within reach.

    No reading has two, so those of one label are counted for each label: s of
    the n places are smudged, and v of the others have one of q-1 other codes.
    """
    n, r, q = scheme.n, scheme.r, scheme.arithmetic.q
    of_one = sum(
        comb(n, s) * comb(n - s, v) * (q - 1) ** v
        for s in range(r + 1)
        for v in range((r - s) // 2 + 1)
    )
    return of_one * scheme.doors


def check_reading_by_reading(line: str) -> int:
    """All readings: both methods agree, and as many are accepted as counted."""
    scheme = scheme_of(line)
    reader = reader_of(scheme)
    pieces: list[Cell] = [*range(scheme.arithmetic.q), None]
    checked = accepted = 0
    for cells in product(pieces, repeat=scheme.n):
        label = reader.by_search(cells)
        expect(reader.by_elimination(cells) == label, f"{line}: reading {cells}")
        accepted += label is not None
        checked += 1
    expect(accepted == readings_in_reach(scheme), f"{line}: readings in reach")
    return checked


def by_supposition(reader: Reader, cells: Sequence[Cell]) -> Rows:
    """All labels within reach, whose wrong places are supposed in turn.

    There are at most e wrong places.  Outside any e legible places that hold
    them, the label has the codes read, and k of these decide it.
    """
    k, r = reader.scheme.k, reader.scheme.r
    legible = [p for p, cell in enumerate(cells) if cell is not None]
    smudges = len(cells) - len(legible)
    found: Rows = []
    if smudges > r:
        return found
    for supposed in combinations(legible, (r - smudges) // 2):
        right = [p for p in legible if p not in supposed]
        label = reader.label_through(cells, right[:k])
        if reader.in_reach(cells, label) and label not in found:
            found.append(label)
    return found


def sampled_readings(scheme: Scheme, numbers: Numbers) -> Iterator[list[Cell]]:
    """Readings at the bounds of the reach, drawn ones, and any codes."""
    yield from reading_lines.readings(scheme, READING_SAMPLES, numbers)
    for _ in range(READING_SAMPLES // 3):
        yield reading_lines.any_codes(scheme, numbers)


def check_searched(line: str, numbers: Numbers) -> int:
    """Search and elimination find the same label, or none."""
    reader = reader_of(scheme_of(line))
    checked = 0
    for cells in sampled_readings(reader.scheme, numbers):
        label = reader.by_search(cells)
        expect(reader.by_elimination(cells) == label, f"{line}: reading {cells}")
        checked += 1
    return checked


def check_supposed(line: str, numbers: Numbers) -> int:
    """Supposed wrong places and elimination give the same label, or none."""
    reader = reader_of(scheme_of(line))
    checked = 0
    for cells in sampled_readings(reader.scheme, numbers):
        label = reader.by_elimination(cells)
        expected = [] if label is None else [label]
        expect(by_supposition(reader, cells) == expected, f"{line}: reading {cells}")
        checked += 1
    return checked


def check_read(line: str, numbers: Numbers) -> int:
    """Known labels are read within the reach, and not beyond it.

    What is answered meets the definition, with products that use no table.
    """
    scheme = scheme_of(line)
    reader, sums = reader_of(scheme), Sums(scheme)
    counts = reading_lines.bounds_of_reach(scheme)
    counts += [(v, scheme.r - 2 * v) for v in range(scheme.r // 2 + 1)]
    for wrong, smudges in counts:
        door = numbers.between(0, scheme.doors - 1)
        cells = reading_lines.spoiled(scheme, door, wrong, smudges, numbers)
        found = found_by(reader, cells)
        if 2 * wrong + smudges <= scheme.r:
            expected = Found(door, wrong, smudges, scheme.label(door))
            expect(found == expected, f"{line}: door {door}, reading {cells}")
        if found is not None:
            expect(sums.is_label(found.label), f"{line}: a label for {cells}")
            differ = places_that_differ(found.label, cells) - found.smudges
            cost = 2 * differ + cells.count(None)
            expect(cost <= scheme.r, f"{line}: within reach of {cells}")
    return len(counts)


def check_clean(line: str, numbers: Numbers) -> int:
    """A label that is printed and read back gives its door, v = 0 and s = 0."""
    scheme = scheme_of(line)
    for door in doors_to_sample(scheme, numbers):
        label = scheme.label(door)
        pieces = [(label, False)]
        if scheme.arithmetic.q <= len(ALPHABET):
            pieces.append((list(scheme.printed(door).encode("ascii")), True))
        for row, typed in pieces:
            cells = cells_of(scheme, row, typed)
            expect(cells == label, f"{line}: cells of door {door}")
            found = found_by(reader_of(scheme), cells)
            expect(found == Found(door, 0, 0, label), f"{line}: door {door} read back")
    return 3 + LABEL_SAMPLES


def check_readings() -> int:
    """All checks of readings; how many readings were worked through."""
    check_dependence()
    check_multiples()
    check_reading_examples()
    numbers = Numbers(1)
    checked = sum(map(check_reading_by_reading, SCHEMES_READING_BY_READING))
    checked += sum(check_searched(line, numbers) for line in SCHEMES_SEARCHED)
    checked += sum(check_supposed(line, numbers) for line in SCHEMES_SUPPOSED)
    checked += sum(check_read(line, numbers) for line in SCHEMES_READ)
    checked += sum(check_clean(line, numbers) for line in SCHEMES_READ)
    return checked


def run_selftest() -> Checked:
    """All checks; how many codes, labels and readings were worked through."""
    check_sieve()
    check_examples()
    return Checked(check_fields(), check_labels(), check_readings())
