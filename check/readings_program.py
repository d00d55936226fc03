"""The program `readings`: its answers, and lines to ask it.

It answers all that the program `labels` does, and scans and typed entries.  The
lines that ask for readings are made in reading_lines.py.
"""

from __future__ import annotations

from typing import Callable, Optional

import labels_program
from label_readings import SMUDGE, read_pieces
from label_schemes import Scheme
from labels_program import Query, Run, door_lines, numbers_of
from numbers_from_seed import Numbers
from reading_lines import reading_lines

# Before any scheme line; these have to be the first lines that are not empty.
NO_SCHEME_YET = ["door 0", "scan 1 2 6 7", "read 1267", "read "]


def parse(line: bytes) -> Optional[Query]:
    """The query of a line; None for anything else.

    The numbers of a scan are its pieces, those of a typed entry its bytes.
    """
    word, space, rest = line.partition(b" ")
    if word == b"read" and space:
        return Query(word, list(rest))
    if word == b"scan" and space:
        pieces = [b"%d" % SMUDGE if piece == b"?" else piece for piece in rest.split(b" ")]
        numbers = numbers_of(pieces)
        return None if numbers is None else Query(word, numbers)
    return labels_program.parse(line)


def answer_in(scheme: Scheme, query: Query) -> str:
    """The answer to a door, a scan or a typed entry, or its refusal."""
    if query.word == b"door":
        return labels_program.printed(scheme, query)
    found = read_pieces(scheme, query.numbers, typed=query.word == b"read")
    answer = [found.door, found.wrong, found.smudges, *found.label]
    return " ".join(str(number) for number in answer)


def start() -> Callable[[bytes], Optional[str]]:
    """What answers the lines of one run."""
    return Run(parse, answer_in).answer


def make(seed: int) -> bytes:
    """The stdin file: all lines, the last one without a line feed."""
    numbers = Numbers(seed)
    lines = NO_SCHEME_YET + door_lines(numbers)
    lines += reading_lines(numbers)
    # A typed entry has any bytes: one for each character, by this encoding.
    return "\n".join(lines).encode("latin-1")
