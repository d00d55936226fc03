"""Lines that ask the program `readings` for readings.

A line is a string here.  Each of its characters stands for the byte of the same
number, from 0 to 255.
"""

from __future__ import annotations

from itertools import product
from typing import Iterator, Sequence

from label_readings import SMUDGE, Cell
from label_schemes import ALPHABET, RESIDUES, Scheme, binary_elements, lay_out
from numbers_from_seed import Numbers

WORKED_EXAMPLES = [
    "binary 11 4 2", "read 1267", "read 12?7", "read 1260", "read ??67",
    "read ??60", "read 1?60", "read 1???", "read 12x7", "read 126",
    "scan 1 2 6 7", "scan 1 2 ? 7", "scan 1 2 6 0", "scan ? ? 6 7",
    "scan ? ? 6 0", "scan 1 ? 6 0", "scan 1 ? ? ?", "scan 1 2 8 7", "scan 1 2 6",
    "read ", "read", "scan 1 2  7", "binary 131 4 2", "read 1267",
]

# A reading that shows which scheme holds, and a door.
SHOWN = ["read 12?7", "door 10"]
SHOWN_EVERY = 10

# With a scheme in force.  None of these lines changes it, and none is a query.
NO_QUERIES = [
    "scan", "scan ", "scan  ", "read", "scan\r", "read\r", "scan\t", "read\t",
    "scan 1  2", "scan 1 2  7", "scan  1 2 6 7", "scan 1 2 6 7 ", "scan 1 2 6 7  ",
    " scan 1 2 6 7", " read 1267", "scan\t1 2 6 7", "scan 1\t2 6 7",
    "scan 1 2 6 7\t", "scan 1 2 6 7\r", "scan 1 2 6 \r", "scan 1 2 6 ?\r",
    "scan 1 2 6\r 7", "scan 1 2 6 7\x00", "scan 1 2 6 \x00", "scan\x001 2 6 7",
    "scan ? ?? 1", "scan ??", "scan ????", "scan ?1 2 6 7", "scan 1? 2 6 7",
    "scan 1 2 6 ?7", "scan 1 2 6 7?", "scan 1 2 x", "scan 1 2 6 x", "scan x 2 6 7",
    "scan 1 2 A 7", "scan * 2 6 7", "scan 1 2 6 -7", "scan -1 2 6 7",
    "scan +1 2 6 7", "scan 1 2 6 7.", "scan 1.0 2 6 7", "scan 0x1 2 6 7",
    "scan 1,2,6,7", "scan 1, 2, 6, 7", "scan 1_0 2 6 7", "scan 1e0 2 6 7",
    "scan 1 2 6 4294967296", "scan 4294967296 2 6 7", "scan 4294967297 2 6 7",
    "scan 1 2 6 4294967303", "scan 9999999999 2 6 7", "scan 1 2 6 9999999999",
    "scan 00000000001 2 6 7", "scan 1 2 6 00000000007", "scan 1 2 6 04294967295",
    "scan 18446744073709551617 2 6 7", "scan 1 2 6 18446744073709551623",
    "scan 1 2 6 8589934591", "scan 1 2 6 " + "7" * 300, "scan 4294967296",
    "scan \xb2 2 6 7", "scan 1 2 6 \xff", "scan \xd9\xa1 2 6 7",
    "scan 1\xa02 6 7", "\xffscan 1 2 6 7", "sc\xe4n 1 2 6 7",
    "Scan 1 2 6 7", "SCAN 1 2 6 7", "scans 1 2 6 7", "sca 1 2 6 7", "scan1 2 6 7",
    "scan? ? 6 0", "1 2 6 7", "? ? 6 0", "7 scan", "scan scan 1 2 6 7",
    "scan read 1267", "scan door 10", "scan 1 2 6 7 door 10", "scan 1267x",
    "Read 1267", "READ 1267", "reads x", "reads 1267", "rea 1267", "read1267",
    "read\t1267", "read\r1267", "read\x00 1267", "\tread 1267", "read\xa01267",
    "\xefread 1267", "1267", "12?7", "?", "read?", "door ?", "door 1?",
    "binary ? 4 2", "binary 11 ? 2", "binary 11 4 ?", "residue ? 2", "residue 4 ?",
    "scan " + "0 " * 64 + "x", "scan " + "0 " * 65 + "x", "scan " + "0 " * 66,
    "scan " + "0 " * 70 + "4294967296", "scan " + "? " * 300 + "??",
    "scan " + "0 " * 1000 + "x", "scan " + "0 " * 1200, "scan " + "0 " * 1024 + "x",
    "scan x " + "0 " * 1100 + "0", "scan " + "0 " * 70 + " 0",
]

# Queries beside them.
FORMS = [
    "read 1267 ", "read  1267", "read 126 ", "read  267", "read 1267\r", "read 126\r",
    "read 12\r7", "read \r", "read \r\r\r\r", "read 1267\t", "read 126\t",
    "read 1 67", "read ", "read  ", "read    ", "read     ", "read 1267 1267",
    "read 1", "read 12", "read 12677", "read ?", "read ????", "read ?????",
    "read 1267\x00", "read 126\x00", "read \x00\x00\x00\x00", "read \x00267",
    "read 126\xff", "read \xff\xfe\xfd\xfc", "read 1267\x80", "read 12\xbf7",
    "read \xb1\xb2\xb6\xb7",
    "read 1\xc3\xa97", "read 126\xb7", "read read 1267", "read scan", "read door 10",
    "read 1 2 6 7", "read x", "read xxxx", "read 8888", "read 1278", "read 12-7",
    "read 12+7", "read 12A7", "read 12/7", "read 12:7", "read 12!7", "read 12>7",
    "read 12@7", "read 12*7", "read \"12\"", "read '267",
    "scan 1267", "scan 1", "scan ?", "scan 1 2 6", "scan 1 2 6 7 7", "scan ? ? ?",
    "scan ? ? ? ?", "scan ? ? ? ? ?", "scan 01 002 0006 00007",
    "scan 0000000001 0000000002 ? 0000000007", "scan 0000000001 2 6 0",
    "scan 4294967295 4294967295 6 0", "scan ? 4294967295 6 7",
    "scan 1 4294967295 6 0", "scan 4294967295 4294967295 4294967295 4294967295",
    "scan 1 2 6 4294967295", "scan 1 2 6 4294967294", "scan 4294967294 2 6 7",
    "scan 4294967294 ? ? ?", "scan 4294967295", "scan 4294967294",
    "scan 1 2 6 8", "scan 8 2 6 7", "scan 1 8 ? 9", "scan 1 2 9 8", "scan ? ? ? 8",
    "scan 8 8 8 8", "scan 8 8 8", "scan 8 8 8 8 8", "scan 1 2 6 0000000008",
    "scan 1 2 6 00", "scan 1 2 6 263", "scan 257 2 6 7", "scan 1 2 6 65543",
    "scan 65537 2 6 7", "scan 2147483649 2 6 7", "scan 1 2 6 2147483655",
    "scan 4294967289 2 6 7", "scan 255 2 6 7", "scan 65535 2 6 7",
    "scan 1 2 6 255", "scan 1 2 6 65535", "scan 1 2 6 63", "scan 49 50 54 55",
]

# Refused scheme lines: no scheme is left after them.
REFUSED_SCHEMES = [
    "binary 3 4 2", "binary 21 4 2", "binary 11 4 4", "binary 31 6 2", "residue 36 7",
]

# Typed entries where q is above 64: 11 is checked before 14 and 15.
NO_TEXT = ["binary 131 4 2", "binary 285 5 4", "binary 69643 3 2", "binary 131 64 4"]

# Every cell is a code or a smudge, in all combinations.
EVERY_READING = ["binary 7 2 1", "binary 7 3 1", "binary 7 3 2"]

# One byte and a smudge; r is 1, so the code of the byte decides the door.
EVERY_BYTE = ["binary 67 2 1", "residue 2 1"]
PRINTABLE_BYTES = ["binary 11 2 1", "binary 37 2 1"]
LINE_FEED = 10

# A piece without a cell at each place.
EACH_PLACE = [
    "binary 11 4 2", "binary 19 10 8", "residue 36 4", "binary 67 63 3",
    "binary 69643 64 2",
]
NO_CHARACTERS = " !\"#%&'()*,./:;<=>@[]^_`{|}~\x00\t\r\x1b\x7f\x80\xa0\xbf\xff"

# Readings that have not n pieces.
OTHER_LENGTHS = [1, 2, 3, 5, 8, 35, 37, 62, 63, 64, 65, 66, 128, 256, 260, 320]
LONG_LENGTHS = [999, 1000, 1001, 1023, 1024, 1025, 1028, 1100]
LENGTHS_ASKED = ["residue 36 6", "binary 67 63 5", "binary 69643 64 1"]

# Codes changed by these amounts, around zero.
SMALL_AMOUNTS = [1, -1, 2, -2, 3, -3, 5, -5]
AROUND_ZERO = ["residue 4 2", "residue 5 1", "residue 12 6", "residue 36 1",
               "residue 36 2", "residue 36 6"]

# n = 64 with every k that fits; scans alone, as q is above 64.
LONGEST = [
    f"binary {polynomial} 64 {k}"
    for polynomial, most in (
        (131, 4), (285, 4), (529, 3), (1033, 3), (2053, 2), (4179, 2), (8219, 2),
        (17475, 2), (32771, 2), (69643, 2),
    )
    for k in range(1, most + 1)
]
# Each reading is asked as a scan and as a typed entry.
BOTH_KINDS = [f"binary 67 63 {k}" for k in range(1, 6)]
BOTH_KINDS += [f"residue 36 {k}" for k in range(1, 7)]

ONE_CHECK_CHARACTER = [
    "binary 19 9 8", "binary 7 3 2", "binary 11 7 6", "binary 31 5 4",
    "binary 37 7 6", "binary 67 6 5", "residue 2 1", "residue 7 6",
    "binary 131 5 4", "binary 529 4 3", "binary 69643 3 2", "binary 69643 2 1",
]

OTHERS = [
    "binary 7 2 1", "binary 7 3 1", "binary 11 3 1", "binary 11 4 2", "binary 11 5 2",
    "binary 13 7 1", "binary 11 7 2", "binary 13 7 3", "binary 11 7 4", "binary 13 7 5",
    "binary 31 5 1", "binary 31 5 2", "binary 31 5 3",
    "binary 19 15 1", "binary 25 15 2", "binary 19 15 3", "binary 25 15 4",
    "binary 19 15 5", "binary 25 15 6", "binary 19 15 7", "binary 25 15 8",
    "binary 19 10 8", "binary 19 12 5", "binary 37 31 1", "binary 41 31 2",
    "binary 37 31 4", "binary 41 31 6", "binary 61 30 3", "binary 37 9 6",
    "binary 67 8 5", "binary 73 9 5", "binary 87 21 4", "binary 91 63 3",
    "binary 67 33 2", "binary 131 7 4", "binary 137 33 3", "binary 283 51 4",
    "binary 285 8 3", "binary 285 33 4", "binary 1033 20 2", "binary 2053 3 1",
    "binary 4179 9 2", "binary 32771 40 1", "binary 69643 3 1", "binary 69643 8 2",
]

FIXED_DOORS = ["binary 11 7 3", "binary 19 15 8", "residue 36 6", "binary 67 63 5",
               "binary 131 64 4", "binary 69643 64 2"]

LONGEST_READINGS = 36
BOTH_READINGS = 30
OTHER_READINGS = 28
RESIDUE_READINGS = 16


def scheme_of(line: str) -> Scheme:
    """The scheme of a scheme line that is accepted."""
    word, *fields = line.split(" ")
    *polynomial, n, k = [int(field) for field in fields]
    arithmetic = binary_elements(polynomial[0]) if word == "binary" else RESIDUES
    return lay_out(arithmetic, n, k)


def has_text(scheme: Scheme) -> bool:
    """Whether the scheme takes typed entries."""
    return scheme.arithmetic.q <= len(ALPHABET)


def scan(cells: Sequence[Cell]) -> str:
    """The scan of a reading, each smudge as a question mark."""
    return "scan " + " ".join("?" if cell is None else str(cell) for cell in cells)


def typed(cells: Sequence[Cell]) -> str:
    """The typed entry of a reading."""
    return "read " + "".join("?" if cell is None else ALPHABET[cell] for cell in cells)


def either(scheme: Scheme, cells: Sequence[Cell], numbers: Numbers) -> str:
    """A typed entry or a scan, in some of which a number is the smudge."""
    if has_text(scheme) and numbers.between(0, 1):
        return typed(cells)
    if numbers.between(0, 3) == 0:
        return scan([SMUDGE if cell is None else cell for cell in cells])
    return scan(cells)


def shuffled(values: Sequence[int], numbers: Numbers) -> list[int]:
    """The values in another order."""
    rest, order = list(values), []
    while rest:
        order.append(rest.pop(numbers.between(0, len(rest) - 1)))
    return order


def some_places(n: int, count: int, numbers: Numbers) -> list[int]:
    """So many places: side by side at the left, the right or between, or any."""
    kind = numbers.between(0, 7)
    first = {0: 0, 1: n - count, 2: numbers.between(0, n - count)}.get(kind)
    if first is None:
        return shuffled(range(n), numbers)[:count]
    return shuffled(range(first, first + count), numbers)


def misread(q: int, code: int, numbers: Numbers) -> int:
    """Another code: zero, one near by, one with another bit, or any other."""
    kind = numbers.between(0, 5)
    other = (code + numbers.between(1, q - 1)) % q
    if kind == 0:
        other = 0
    elif kind == 1:
        other = (code + numbers.pick([1, -1, 2, -2])) % q
    elif kind == 2:
        other = code ^ 1 << numbers.between(0, q.bit_length() - 2)
    return other if other != code and other < q else (code + 1) % q


def spoiled(
    scheme: Scheme, door: int, wrong: int, smudges: int, numbers: Numbers
) -> list[Cell]:
    """The label of a door with so many places misread and so many smudged."""
    cells: list[Cell] = []
    cells += scheme.label(door)
    places = some_places(scheme.n, wrong + smudges, numbers)
    for place in places[:wrong]:
        code = cells[place]
        assert code is not None
        cells[place] = misread(scheme.arithmetic.q, code, numbers)
    for place in places[wrong:]:
        cells[place] = None
    return cells


def any_door(scheme: Scheme, numbers: Numbers) -> int:
    """A door, from the whole range."""
    return numbers.between(0, scheme.doors - 1)


def bounds_of_reach(scheme: Scheme) -> list[tuple[int, int]]:
    """v and s at the bounds of the reach, on either side, without repetition."""
    n, r = scheme.n, scheme.r
    half = r // 2
    counts = [
        (0, 0), (0, 1), (1, 0), (0, r - 1), (0, r), (0, r + 1), (0, n - 1), (0, n),
        (half, 0), (half, r % 2), (half, 1), (half, 2), (half + 1, 0), (1, r - 2),
        (1, r - 1), (1, r - 3), (half - 1, 2), (half - 1, 3),
    ]
    return [
        (wrong, smudges)
        for wrong, smudges in dict.fromkeys(counts)
        if wrong >= 0 and smudges >= 0 and wrong + smudges <= n
    ]


def near_the_reach(scheme: Scheme, beyond: int, numbers: Numbers) -> list[Cell]:
    """A label spoiled so that 2v + s is r + beyond."""
    cost = scheme.r + beyond
    wrong = numbers.between(max(0, cost - scheme.n), cost // 2)
    return spoiled(scheme, any_door(scheme, numbers), wrong, cost - 2 * wrong, numbers)


def below_the_reach(scheme: Scheme, numbers: Numbers) -> list[Cell]:
    """A label spoiled so that 2v + s is at most r."""
    wrong = numbers.between(0, scheme.r // 2)
    smudges = numbers.between(0, scheme.r - 2 * wrong)
    return spoiled(scheme, any_door(scheme, numbers), wrong, smudges, numbers)


def between_two(scheme: Scheme, numbers: Numbers) -> list[Cell]:
    """A reading between two labels that differ in r+1 places."""
    q, k = scheme.arithmetic.q, scheme.k
    one = scheme.door_characters(any_door(scheme, numbers))
    other = list(one)
    place = numbers.between(0, k - 1)
    other[place] = (one[place] + numbers.between(1, q - 1)) % q
    cells: list[Cell] = []
    cells += scheme.label(scheme.door_of(one))
    target = scheme.label(scheme.door_of(other))
    apart = [p for p in range(scheme.n) if cells[p] != target[p]]
    places = shuffled(apart, numbers)
    smudges = numbers.between(0, numbers.between(0, scheme.r))
    moved = (len(places) - smudges + numbers.between(0, 1)) // 2
    for p in places[:smudges]:
        cells[p] = None
    for p in places[smudges : smudges + moved]:
        cells[p] = target[p]
    return cells


def any_codes(scheme: Scheme, numbers: Numbers) -> list[Cell]:
    """Codes drawn without a label, with at most r smudges."""
    q, n = scheme.arithmetic.q, scheme.n
    cells: list[Cell] = [numbers.between(0, q - 1) for _ in range(n)]
    for place in some_places(n, numbers.between(0, scheme.r), numbers):
        cells[place] = None
    return cells


def drawn(scheme: Scheme, numbers: Numbers) -> Iterator[list[Cell]]:
    """Readings without end: within reach, at its bounds, and beyond."""
    while True:
        yield near_the_reach(scheme, 0, numbers)
        yield near_the_reach(scheme, -1, numbers)
        yield near_the_reach(scheme, 1, numbers)
        yield below_the_reach(scheme, numbers)
        yield between_two(scheme, numbers)
        yield any_codes(scheme, numbers)
        yield near_the_reach(scheme, 0, numbers)
        yield near_the_reach(scheme, min(2, scheme.k), numbers)


def readings(scheme: Scheme, count: int, numbers: Numbers) -> Iterator[list[Cell]]:
    """`count` readings: those at the bounds of the reach, then drawn ones."""
    bounds = bounds_of_reach(scheme)[: count // 2]
    for wrong, smudges in bounds:
        yield spoiled(scheme, any_door(scheme, numbers), wrong, smudges, numbers)
    source = drawn(scheme, numbers)
    for _ in range(count - len(bounds)):
        yield next(source)


def forms() -> Iterator[str]:
    """Lines that are no query and queries beside them, in one scheme."""
    yield "binary 11 4 2"
    for number, line in enumerate(NO_QUERIES + FORMS):
        if number % SHOWN_EVERY == 0:
            yield from SHOWN
        yield line
    yield from SHOWN


def without_scheme() -> Iterator[str]:
    """Readings where no scheme is left."""
    for refused in REFUSED_SCHEMES:
        yield from ("binary 11 4 2", "read 12?7", refused, "read 12?7", "read ",
                    "scan 1 2 ? 7", "scan ?", "scan", "read", "read x", "scan 9",
                    "binary 11 4", "read 12?7")
    yield from ("residue 4 2", "read 2Q?8", "scan 2 26 ? 8", "residue 37 2",
                "scan 2 26 ? 8", "read 2Q?8", "residue 4 2", "read 2Q?8")


def no_text() -> Iterator[str]:
    """Typed entries where q is above 64."""
    for line in NO_TEXT:
        n = scheme_of(line).n
        yield line
        for text in ("", "0" * n, "?" * n, "0" * (n - 1), "0" * (n + 1), "!" * n,
                     "\xff" * n, "\x00" * (n + 1), " ", "0" * 1100):
            yield f"read {text}"
        yield scan([0] * n)


def every_reading() -> Iterator[str]:
    """All readings of tiny schemes, as scans and typed entries in turn."""
    for line in EVERY_READING:
        scheme = scheme_of(line)
        yield line
        pieces: list[Cell] = [*range(scheme.arithmetic.q), None]
        for number, cells in enumerate(product(pieces, repeat=scheme.n)):
            yield typed(cells) if number % 2 else scan(cells)


def every_byte() -> Iterator[str]:
    """Every byte but the line feed as the first of two pieces."""
    for line in EVERY_BYTE:
        yield line
        for byte in range(256):
            if byte != LINE_FEED:
                yield f"read {chr(byte)}?"
    for line in PRINTABLE_BYTES:
        yield line
        for byte in range(ord(" "), 127):
            yield f"read ?{chr(byte)}"


def unfit_numbers(q: int, code: int) -> list[int]:
    """Numbers that are no code, some with the lower bits of a code."""
    largest = SMUDGE - 1
    near = [q, q, q + 1, largest, largest, (1 << 31) + code, (1 << 16) + code]
    return [*near, (1 << 24) + code, 256 + code if q <= 256 else 2 * q]


def unfit_characters(q: int, code: int) -> list[int]:
    """Bytes that are no character, some with the lower bits of one."""
    beyond = [ord(character) for character in ALPHABET[q:]]
    return beyond + [ord(c) for c in NO_CHARACTERS] + [128 + ord(ALPHABET[code])] * 8


def each_place(numbers: Numbers) -> Iterator[str]:
    """A piece without a cell at each place, alone or as the first of several."""
    for line in EACH_PLACE:
        scheme = scheme_of(line)
        q, n = scheme.arithmetic.q, scheme.n
        yield line
        for place in range(n):
            smudged = min(scheme.r, place) * numbers.between(0, 1)
            label = scheme.label(any_door(scheme, numbers))
            unfit = [place]
            if numbers.between(0, 1):
                unfit += [p for p in range(place + 1, n) if numbers.between(0, 2) == 0]
            yield unfit_scan(label, unfit, smudged, q, numbers)
            if has_text(scheme):
                yield unfit_typed(label, unfit, smudged, q, numbers)


def unfit_scan(
    label: list[int], unfit: list[int], smudged: int, q: int, numbers: Numbers
) -> str:
    """A scan with smudges at the left and numbers without a cell."""
    pieces: list[Cell] = [None] * smudged + label[smudged:]
    for place in unfit:
        pieces[place] = numbers.pick(unfit_numbers(q, label[place]))
    return scan(pieces)


def unfit_typed(
    label: list[int], unfit: list[int], smudged: int, q: int, numbers: Numbers
) -> str:
    """A typed entry with smudges at the left and bytes without a cell."""
    pieces = ["?"] * smudged + [ALPHABET[code] for code in label[smudged:]]
    for place in unfit:
        pieces[place] = chr(numbers.pick(unfit_characters(q, label[place])))
    return "read " + "".join(pieces)


def lengths() -> Iterator[str]:
    """Readings that have not n pieces."""
    yield "binary 11 4 2"
    for length in OTHER_LENGTHS + LONG_LENGTHS:
        pieces = [1, 2, 6, 7] * (length // 4) + [1, 2, 6, 7][: length % 4]
        yield from (scan(pieces), typed(pieces))
    for length in (3, 5, 64, 65, 1025):
        yield from (scan([None] * length), typed([None] * length))
        yield from (scan([8] * length), "read " + "x" * length)
    yield from SHOWN
    for line in LENGTHS_ASKED:
        yield line
        scheme = scheme_of(line)
        for length in OTHER_LENGTHS + LONG_LENGTHS[-3:]:
            yield scan([0] * length)
            if has_text(scheme):
                yield typed([0] * length)


def around_zero(numbers: Numbers) -> Iterator[str]:
    """Codes modulo 37 changed by small amounts, some beyond zero.

    The labels are those of the first and the last door, and drawn ones.
    """
    for line in AROUND_ZERO:
        scheme = scheme_of(line)
        yield line
        for amount in SMALL_AMOUNTS:
            doors = [0, scheme.doors - 1, any_door(scheme, numbers)]
            for door in doors + [any_door(scheme, numbers)]:
                label = scheme.label(door)
                for place in changed_first(label, amount, scheme.r // 2, numbers):
                    label[place] = (label[place] + amount) % scheme.arithmetic.q
                yield either(scheme, label, numbers)


def changed_first(
    label: list[int], amount: int, count: int, numbers: Numbers
) -> list[int]:
    """So many places, those first whose code plus the amount passes zero."""
    places = shuffled(range(len(label)), numbers)
    places.sort(key=lambda p: 0 <= label[p] + amount < RESIDUES.q)
    return places[:count]


def fixed_doors(numbers: Numbers) -> Iterator[str]:
    """The first, the second and the last door, at the bounds of the reach."""
    for line in FIXED_DOORS:
        scheme = scheme_of(line)
        yield line
        for wrong, smudges in bounds_of_reach(scheme):
            for door in (0, 1, scheme.doors - 1):
                cells = spoiled(scheme, door, wrong, smudges, numbers)
                yield either(scheme, cells, numbers)


def of_scheme(line: str, count: int, numbers: Numbers) -> Iterator[str]:
    """Readings in one scheme, each of either kind."""
    scheme = scheme_of(line)
    yield line
    for cells in readings(scheme, count, numbers):
        yield either(scheme, cells, numbers)


def of_both_kinds(line: str, count: int, numbers: Numbers) -> Iterator[str]:
    """Readings in one scheme, each as a scan and as a typed entry."""
    scheme = scheme_of(line)
    yield line
    for cells in readings(scheme, count, numbers):
        yield from (scan(cells), typed(cells))


def in_all_schemes(numbers: Numbers) -> Iterator[str]:
    """Readings in schemes of every size."""
    for line in LONGEST:
        yield from of_scheme(line, LONGEST_READINGS, numbers)
    for line in BOTH_KINDS:
        yield from of_both_kinds(line, BOTH_READINGS, numbers)
    for line in ONE_CHECK_CHARACTER + OTHERS:
        yield from of_scheme(line, OTHER_READINGS, numbers)
    for n in range(2, 37):
        k = numbers.between(1, min(6, n - 1))
        yield from of_scheme(f"residue {n} {k}", RESIDUE_READINGS, numbers)


def reading_lines(numbers: Numbers) -> list[str]:
    """All lines that ask for readings, with the scheme lines they need."""
    lines = SHOWN + WORKED_EXAMPLES
    lines += forms()
    lines += without_scheme()
    lines += no_text()
    lines += every_reading()
    lines += every_byte()
    lines += each_place(numbers)
    lines += lengths()
    lines += around_zero(numbers)
    lines += fixed_doors(numbers)
    lines += in_all_schemes(numbers)
    return lines + ["binary 11 4 2", "door 10", "read 12?7"]
