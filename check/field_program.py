"""The program `field`: its answers, and queries to ask it."""

from __future__ import annotations

import re
from typing import Iterator, Optional

from binary_field import (
    Field,
    MAX_DEGREE,
    Refused,
    check_operand,
    has_factor,
    irreducible_of_degree,
    multiples,
    open_field,
)
from numbers_from_seed import Numbers

NUMBER_LIMIT = 1 << 32
LARGEST = NUMBER_LIMIT - 1
QUERY = re.compile(rb"([0-9]{1,10})(?: ([0-9]{1,10}))?")

# Degree 9 to 16, one for each degree.
LISTED = [529, 1033, 2053, 4179, 8219, 17475, 32771, 69643]
# Those whose codes are all inverted by a query `F`.
LISTED_IN_FULL = [529, 1033, 2053, 4179, 69643]

WORKED_EXAMPLES = [
    "19", "21", "7", "3", "65536", "131072",
    "19 3", "19 1", "19 0", "19 16",
]

# What stands at the bounds of the two forms, on either side.
FORMS = [
    "", "19 ", " 19", "19  3", "19 3 1", "19 3 ", " 19 3", "19 3 x",
    " ", "  ", "x", "19x", "x19", "19 x", "x 3", "19,3", "19.0", "0x13", "1_9",
    "-19", "+19", "-0", "19 -3", "19 +3", "19\r", "19 3\r", "\r", "\t", "19\t3",
    "\t19", "19\t",
    "4294967295", "4294967296", "4294967315", "9999999999",
    "04294967295", "18446744073709551635", "1000000000000000000000019",
    "00000000019", "0000000019", "0000000019 3", "00000000019 3",
    "019 003", "0000000000", "00000000000",
    "19 0000000003", "19 00000000003", "19 0000000000", "19 00000000000",
    "19 4294967295", "19 4294967296", "19 4294967299", "19 9999999999",
    "4294967296 3", "4294967315 3", "19 19x", "opens", "no query",
    "19 " + "3" * 300, "", "",
]

# Refusals of opening, alone and before those of an operand.
BOUNDS = [
    "0", "1", "2", "3", "4", "5", "6", "65535", "65537", "131071", "131073",
    "262144", "2147483648", "4294967295",
    "0 0", "1 1", "3 4294967295", "21 3", "21 0", "21 16", "65536 65536",
    "131072 0", "131072 131072", "131071 131072", "4294967295 4294967295",
]

EVERY_BELOW = 601
SAMPLES = 60
SPLIT_SAMPLES = 6
WORD_SAMPLES = 40


def parse(line: bytes) -> Optional[tuple[int, Optional[int]]]:
    """The numbers of a query: F and perhaps A; None for anything else."""
    match = QUERY.fullmatch(line)
    if match is None:
        return None
    polynomial = int(match.group(1))
    operand = None if match.group(2) is None else int(match.group(2))
    if polynomial > LARGEST or (operand is not None and operand > LARGEST):
        return None
    return polynomial, operand


def answer_opening(field: Field) -> str:
    """The answer to `F` where F opens."""
    totals = field.totals()
    return f"opens {field.m} {field.q} most {totals.most} total {totals.total}"


def answer_operand(field: Field, a: int) -> str:
    """The answer to `F A` where F opens."""
    check_operand(field, a)
    triangular = " ".join(str(bit) for bit in field.triangular(a))
    return (
        f"triangular {triangular} inverse {field.inverse(a)} "
        f"iterations {field.count(a)}"
    )


def answer(line: bytes) -> str:
    """The answer to one line that is not empty, without its line feed."""
    numbers = parse(line)
    if numbers is None:
        return "no query"
    polynomial, operand = numbers
    try:
        field = open_field(polynomial)
        if operand is None:
            return answer_opening(field)
        return answer_operand(field, operand)
    except Refused as refused:
        return f"refused {refused.number} {refused.place}"


def sampled_codes(q: int, numbers: Numbers) -> list[int]:
    """SAMPLES different nonzero codes, 1, 2 and q-1 among them."""
    codes = [1, 2, q - 1]
    while len(codes) < SAMPLES:
        code = numbers.between(1, q - 1)
        if code not in codes:
            codes.append(code)
    return codes


def small_fields() -> Iterator[str]:
    """Every F of degree 2 to 8 without a factor, with every code and beyond."""
    for m in range(2, 9):
        for polynomial in irreducible_of_degree(m):
            for a in range(1 << m):
                yield f"{polynomial} {a}"
            yield f"{polynomial} {1 << m}"
            yield f"{polynomial} {LARGEST}"


def listed_fields(numbers: Numbers) -> Iterator[str]:
    """The listed polynomials with sampled codes, zero, and no codes."""
    for polynomial in LISTED:
        q = 1 << (polynomial.bit_length() - 1)
        for a in sampled_codes(q, numbers) + [0, q, q + 1]:
            yield f"{polynomial} {a}"
    for polynomial in LISTED_IN_FULL:
        yield str(polynomial)


def split_polynomial(m: int, part: int, numbers: Numbers) -> int:
    """A product of degree m of two polynomials without a factor.

    One has degree `part`, the other the rest of m.
    """
    first = numbers.pick(irreducible_of_degree(part))
    second = numbers.pick(irreducible_of_degree(m - part))
    return multiples(first, m)[second]


def split_fields(numbers: Numbers) -> Iterator[str]:
    """Polynomials of degree 9 to 16 with a factor, some with a code."""
    for m in range(9, MAX_DEGREE + 1):
        parts = [1, 2, m // 2]
        parts += [numbers.between(1, m // 2) for _ in range(SPLIT_SAMPLES)]
        for part in parts:
            yield str(split_polynomial(m, part, numbers))
        yield f"{split_polynomial(m, m // 2, numbers)} {numbers.between(0, 1 << m)}"


def sampled_words(numbers: Numbers) -> Iterator[str]:
    """Any 32-bit F; those that would open are left out as too long to ask."""
    for _ in range(WORD_SAMPLES):
        polynomial = numbers.between(0, LARGEST) >> numbers.between(0, 16)
        if polynomial.bit_length() - 1 > MAX_DEGREE or has_factor(polynomial):
            yield str(polynomial)


def make(seed: int) -> bytes:
    """The stdin file: all queries, the last one without a line feed."""
    numbers = Numbers(seed)
    lines = WORKED_EXAMPLES + FORMS + BOUNDS
    lines += [str(polynomial) for polynomial in range(EVERY_BELOW)]
    lines += small_fields()
    lines += listed_fields(numbers)
    lines += split_fields(numbers)
    lines += sampled_words(numbers)
    lines += ["19 3"]
    return "\n".join(lines).encode("ascii")
