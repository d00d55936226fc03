"""The program `labels`: its answers, and lines to ask it."""

from __future__ import annotations

import re
from typing import Callable, Iterator, NamedTuple, Optional

from binary_field import Refused, irreducible_of_degree
from label_schemes import (
    MAX_LENGTH,
    RESIDUES,
    Scheme,
    binary_elements,
    lay_out,
    powers_of_step,
)
from numbers_from_seed import Numbers

LARGEST = (1 << 32) - 1
NUMBER = re.compile(rb"[0-9]{1,10}")
# The words, and how many numbers follow each.
WORDS = {b"binary": 3, b"residue": 2, b"door": 1}
SCHEME_WORDS = (b"binary", b"residue")

# A door before any scheme line; it has to be the first line that is not empty.
NO_SCHEME_YET = ["door 0"]

WORKED_EXAMPLES = [
    "binary 11 4 2", "door 1", "door 10", "door 23", "door 63", "door 64",
    "binary 31 5 2", "door 10", "binary 31 6 2", "door 10",
    "binary 19 10 8", "door 0", "door 1", "door 4294967295",
    "binary 19 11 9", "door 0",
    "residue 3 1", "door 1", "residue 4 2", "door 100",
    "residue 36 2", "door 1368", "door 1369", "residue 37 2", "door 0",
    "residue 36 6", "door 2565726408", "door 2565726409",
    "residue 36 7", "door 0",
    "binary 131 4 2", "door 16383", "binary 69643 4 2", "door 4294967295",
]

# With a scheme in force.  None of these lines changes it.
NO_QUERIES = [
    "", "binary", "binary ", "binary 11", "binary 11 4", "binary 11 4 ",
    "binary 19 5 2 ", " binary 19 5 2", "binary  19 5 2", "binary 19  5 2",
    "binary 19 5  2", "binary 19 5 2 1", "binary 19 5 x", "binary 19 x 2",
    "binary x 5 2", "binary 19 5 -2", "binary +19 5 2", "binary 0x13 5 2",
    "binary 19,5,2", "binary\t19 5 2", "binary 19\t5 2", "binary 19 5 2\r",
    "binary 19 5 2\t", "Binary 19 5 2", "BINARY 19 5 2", "binary19 5 2",
    "bin 19 5 2", "binarys 19 5 2", "19 5 2", "19 binary 5 2",
    "binary 4294967296 5 2", "binary 4294967315 5 2", "binary 19 4294967296 2",
    "binary 19 4294967301 2", "binary 19 5 4294967296", "binary 19 5 4294967298",
    "binary 9999999999 5 2", "binary 00000000019 5 2", "binary 19 00000000005 2",
    "binary 19 5 00000000002", "binary 18446744073709551635 5 2",
    "residue", "residue ", "residue 5", "residue 5 ", "residue 5 1 ",
    " residue 5 1", "residue  5 1", "residue 5  1", "residue 37 5 1",
    "residue 5 1 1", "residue 5 x", "residue -5 1", "residue 5\t1",
    "residue 5 1\r", "Residue 5 1", "RESIDUE 5 1", "residues 5 1", "residue5 1",
    "residue 4294967301 1", "residue 5 4294967297", "residue 00000000005 1",
    "residue 5 00000000001", "two 2 1",
    "door", "door ", "door  10", "door 10 ", " door 10", "door 10 1", "door -1",
    "door +1", "door 0x0", "door 1.0", "door 1_0", "door x", "door 10x",
    "door\t10", "door 10\t", "door 10\r", "door\r", "Door 10", "DOOR 10",
    "doors 10", "door10", "10 door", "10", "door 4294967296", "door 4294967306",
    "door 9999999999", "door 00000000010", "door 04294967295",
    "door 18446744073709551626", "door " + "1" * 300,
    " ", "  ", "\t", "\r", "x", "1267", "label 10", "test 1267", "no query",
    "refused 8 0", "binary 11 4 2 door 10", "door 10 door 10", "",
]
SHOWN_EVERY = 10

LEADING_ZEROS = [
    "binary 0000000011 4 2", "door 10", "binary 11 0000000004 0000000002",
    "door 0000000010", "door 0000000064", "door 00", "door 0000000000",
    "residue 05 01", "door 036", "door 037", "residue 0000000036 0000000002",
    "door 0000001368", "binary 00 4 2", "door 0", "residue 0000000000 1",
]

# n and k outside, also where a narrower or wrapped number would be inside.
OUTSIDE = [
    (0, 0), (0, 1), (1, 0), (1, 1), (2, 0), (2, 2), (2, 3), (3, 0), (3, 3),
    (7, 0), (7, 7), (7, 8), (64, 0), (64, 64), (64, 65), (65, 0), (65, 1),
    (65, 2), (65, 64), (65, 65), (66, 1), (100, 2), (128, 1), (255, 1), (256, 1),
    (260, 2), (260, 258), (4, 258), (65540, 2), (4, 65538), (0, 4294967295),
    (4, 4294967295), (64, 4294967295), (4294967295, 1), (4294967295, 2),
    (4294967295, 4294967294), (4294967295, 4294967295), (2147483652, 2),
    (4, 2147483650),
]

# Where two or three conditions hold at once.
ORDER_OF_REFUSALS = [
    "binary 0 4 2", "binary 0 0 0", "binary 3 0 0", "binary 3 65 64",
    "binary 21 4 2", "binary 21 0 0", "binary 21 65 1", "binary 21 64 63",
    "binary 131072 4 2", "binary 131072 65 1", "binary 65536 64 63",
    "binary 4294967295 4294967295 4294967295",
    "binary 31 65 2", "binary 31 6 6", "binary 31 6 0", "binary 19 11 11",
    "binary 69643 65 3", "binary 69643 4 4", "residue 37 37", "residue 65 7",
    "residue 37 0", "residue 7 7",
    "binary 31 10 9", "binary 31 64 63", "binary 19 16 9", "binary 19 64 63",
    "binary 7 64 63", "binary 7 4 3", "binary 7 64 17", "residue 37 7",
    "residue 37 36", "residue 64 63", "binary 67 64 63", "binary 283 52 5",
    "binary 19 15 9", "binary 69643 4 3", "binary 69643 5 4", "binary 69643 64 63",
    "binary 131 64 63", "residue 36 35", "residue 8 7", "binary 67 63 6",
]

EVERY_DOOR = [
    "binary 7 2 1", "binary 7 3 1", "binary 7 3 2", "binary 11 4 2",
    "binary 11 7 3", "binary 13 7 1", "binary 19 15 2", "binary 19 5 2",
    "binary 31 5 1", "residue 2 1", "residue 3 1", "residue 5 1", "residue 19 1",
    "residue 36 1", "residue 4 2",
]

# Each with k from 1 to n-1.
EVERY_K = ["binary 19 15", "binary 67 63", "binary 69643 64", "residue 36"]

SAMPLED = [
    "binary 11 7 6", "binary 13 7 6", "binary 31 5 2", "binary 31 5 4",
    "binary 25 15 3", "binary 19 9 8", "binary 19 15 8", "binary 19 12 5",
    "binary 37 31 6", "binary 41 7 6", "binary 61 30 1",
    "binary 67 63 1", "binary 67 63 2", "binary 67 63 5", "binary 67 6 5",
    "binary 91 63 3", "binary 73 9 5", "binary 87 21 4",
    "binary 131 64 1", "binary 131 64 2", "binary 131 64 3", "binary 131 64 4",
    "binary 131 5 4", "binary 137 33 3", "binary 283 51 4", "binary 285 64 4",
    "binary 285 5 4", "binary 529 64 3", "binary 529 4 3", "binary 1033 64 3",
    "binary 1033 20 2", "binary 2053 64 2", "binary 2053 3 1", "binary 4179 64 2",
    "binary 8219 64 2", "binary 17475 64 2", "binary 32771 64 2",
    "binary 32771 40 1", "binary 69643 64 1", "binary 69643 64 2",
    "binary 69643 3 2", "binary 69643 3 1", "binary 69643 2 1",
]
SAMPLES = 12
RESIDUE_SAMPLES = 8


class Query(NamedTuple):
    """A line that is a query: its word and its numbers."""

    word: bytes
    numbers: list[int]


def numbers_of(fields: list[bytes]) -> Optional[list[int]]:
    """The numbers that fields write; None where one of them writes none."""
    if not all(NUMBER.fullmatch(field) for field in fields):
        return None
    numbers = [int(field) for field in fields]
    return None if max(numbers) > LARGEST else numbers


def parse(line: bytes) -> Optional[Query]:
    """The query of a line; None for anything else."""
    word, *fields = line.split(b" ")
    if WORDS.get(word) != len(fields):
        return None
    numbers = numbers_of(fields)
    return None if numbers is None else Query(word, numbers)


def scheme_of(query: Query) -> Scheme:
    """The scheme of a scheme line, or refusal 1, 2, 5, 6 or 7."""
    if query.word == b"residue":
        n, k = query.numbers
        return lay_out(RESIDUES, n, k)
    polynomial, n, k = query.numbers
    return lay_out(binary_elements(polynomial), n, k)


def printed(scheme: Scheme, query: Query) -> str:
    """The label of a door, or its refusal."""
    return scheme.printed(query.numbers[0])


class Run:
    """One run of a program: it holds the scheme of the last scheme line.

    The program's `parse` gives the query of a line, and its `answer_in` the
    answer of a scheme to a query that is no scheme line.
    """

    def __init__(
        self,
        parse: Callable[[bytes], Optional[Query]],
        answer_in: Callable[[Scheme, Query], str],
    ) -> None:
        self._parse = parse
        self._answer_in = answer_in
        self._scheme: Optional[Scheme] = None

    def answer(self, line: bytes) -> Optional[str]:
        """The answer to one line that is not empty; None for no answer."""
        query = self._parse(line)
        if query is None:
            return "no query"
        try:
            if query.word in SCHEME_WORDS:
                self._scheme = None
                self._scheme = scheme_of(query)
                return None
            if self._scheme is None:
                return "no query"
            return self._answer_in(self._scheme, query)
        except Refused as refused:
            return f"refused {refused.number} {refused.place}"


def start() -> Callable[[bytes], Optional[str]]:
    """What answers the lines of one run."""
    return Run(parse, printed).answer


def accepted(line: str) -> Optional[Scheme]:
    """The scheme of a well-formed scheme line; None where it is refused."""
    query = parse(line.encode("ascii"))
    assert query is not None, line
    try:
        return scheme_of(query)
    except Refused:
        return None


def no_queries() -> Iterator[str]:
    """Lines that are no query, with doors between that show the scheme."""
    yield "binary 11 4 2"
    for number, line in enumerate(NO_QUERIES):
        if number % SHOWN_EVERY == 0:
            yield "door 10"
        yield line
    yield "door 10"


def no_scheme_left() -> Iterator[str]:
    """Refused scheme lines after an accepted one, and doors after them."""
    for refused in ("binary 3 4 2", "binary 21 4 2", "binary 11 4 4",
                    "binary 31 6 2", "residue 36 7"):
        yield from ("binary 11 4 2", "door 10", refused, "door 10", "door 64",
                    "door", "binary 11 4", "door 10", "")
    yield from ("residue 4 2", "residue 37 2", "door 100", "residue 4 2", "door 100")


def outside() -> Iterator[str]:
    """n and k outside, in three arithmetics."""
    for arithmetic in ("binary 11", "binary 69643", "residue"):
        for n, k in OUTSIDE:
            yield f"{arithmetic} {n} {k}"
    yield "door 0"


def every_door() -> Iterator[str]:
    """Every door of the small schemes, and two beyond."""
    for line in EVERY_DOOR:
        yield line
        scheme = accepted(line)
        assert scheme is not None, line
        yield from (f"door {door}" for door in range(scheme.doors + 1))
        yield f"door {LARGEST}"


def every_k() -> Iterator[str]:
    """Every k for one n, with the first and the last door."""
    for start_of_line in EVERY_K:
        n = int(start_of_line.split()[-1])
        for k in range(1, n):
            line = f"{start_of_line} {k}"
            yield line
            scheme = accepted(line)
            if scheme is not None:
                yield from ("door 0", f"door {scheme.doors - 1}")
    yield "door 0"


def largest_lengths() -> Iterator[str]:
    """For each F of degree 2 to 8, the largest n that is accepted, and n+1."""
    for m in range(2, 9):
        for polynomial in irreducible_of_degree(m):
            arithmetic = binary_elements(polynomial)
            n = len(set(powers_of_step(arithmetic, MAX_LENGTH)))
            yield f"binary {polynomial} {n} 1"
            yield f"door {arithmetic.q - 1}"
            yield f"binary {polynomial} {n + 1} 1"


def sampled_doors(scheme: Scheme, count: int, numbers: Numbers) -> Iterator[str]:
    """The doors at the bounds, on either side, and `count` others."""
    q, doors = scheme.arithmetic.q, scheme.doors
    chosen = [0, 1, q - 1, q, doors - 1, doors, LARGEST]
    chosen += [numbers.between(0, doors - 1) for _ in range(count)]
    chosen += [numbers.between(min(doors, LARGEST), LARGEST)]
    for door in dict.fromkeys(chosen):
        if door <= LARGEST:
            yield f"door {door}"


def sampled(numbers: Numbers) -> Iterator[str]:
    """Sampled doors of large schemes, binary and residue."""
    residues = [
        f"residue {n} {numbers.between(1, min(6, n - 1))}" for n in range(2, 37)
    ]
    residues += [f"residue {n} 6" for n in (7, 12, 24, 36)]
    counts = [(line, SAMPLES) for line in SAMPLED]
    counts += [(line, RESIDUE_SAMPLES) for line in residues]
    for line, count in counts:
        yield line
        scheme = accepted(line)
        if scheme is None:
            yield "door 0"
        else:
            yield from sampled_doors(scheme, count, numbers)


def door_lines(numbers: Numbers) -> list[str]:
    """Scheme lines, lines that ask for doors, and lines that are no query."""
    lines = list(WORKED_EXAMPLES)
    lines += no_queries()
    lines += LEADING_ZEROS
    lines += no_scheme_left()
    lines += outside()
    lines += ORDER_OF_REFUSALS
    lines += every_k()
    lines += every_door()
    lines += largest_lengths()
    lines += sampled(numbers)
    lines += ["binary 11 4 2", "door 10"]
    return lines


def make(seed: int) -> bytes:
    """The stdin file: all lines, the last one without a line feed."""
    lines = NO_SCHEME_YET + door_lines(Numbers(seed))
    return "\n".join(lines).encode("ascii")
