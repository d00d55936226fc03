"""The cross-check: a second, independent answer to the programs' queries.

    python3 check/cross_check.py answer PROGRAM < stdin > answers
    python3 check/cross_check.py make PROGRAM [SEED] > stdin
    python3 check/cross_check.py compare
    python3 check/cross_check.py selftest
"""

from __future__ import annotations

import argparse
import sys
from pathlib import Path
from typing import Callable, NamedTuple, Optional

sys.dont_write_bytecode = True

import field_program  # noqa: E402
import labels_program  # noqa: E402
import readings_program  # noqa: E402
import selftest  # noqa: E402

ROOT = Path(__file__).resolve().parent.parent
DEFAULT_SEED = 1


class Program(NamedTuple):
    """What the checker knows of a program.

    `start` begins a run.  It gives what answers the lines that are not empty,
    one after the other: a line of output, or None where nothing is printed.
    """

    start: Callable[[], Callable[[bytes], Optional[str]]]
    make: Callable[[int], bytes]


class Answered(NamedTuple):
    """A query, its line in the stdin file (from 1), and its answer."""

    line: int
    query: bytes
    answer: bytes


PROGRAMS: dict[str, Program] = {
    "field": Program(lambda: field_program.answer, field_program.make),
    "labels": Program(labels_program.start, labels_program.make),
    "readings": Program(readings_program.start, readings_program.make),
}


def answer_all(program: Program, stdin: bytes) -> list[Answered]:
    """The answers to all lines that have one."""
    answer = program.start()
    answers = []
    for number, line in enumerate(stdin.split(b"\n"), start=1):
        text = answer(line) if line else None
        if text is not None:
            answers.append(Answered(number, line, text.encode("ascii")))
    return answers


def as_output(answers: list[Answered]) -> bytes:
    """The answers as a program prints them, each ended by a line feed."""
    return b"".join(one.answer + b"\n" for one in answers)


def shown(text: bytes) -> str:
    """Bytes on one line, whatever they are."""
    return ascii(text.decode("latin-1"))


def lines_with_ends(text: bytes) -> list[bytes]:
    """The lines, each with its line feed, which the last may lack."""
    lines = [line + b"\n" for line in text.split(b"\n")]
    lines[-1] = lines[-1][:-1]
    return lines if lines[-1] else lines[:-1]


def first_difference(answers: list[Answered], stdout: bytes) -> str:
    """Where the stdout file departs from the answers, in words."""
    printed = lines_with_ends(stdout)
    for number, one in enumerate(answers, start=1):
        found = printed[number - 1] if number <= len(printed) else b""
        expected = one.answer + b"\n"
        if found != expected:
            return (
                f"stdin line {one.line}, stdout line {number}\n"
                f"  query:       {shown(one.query)}\n"
                f"  stdout file: {shown(found)}\n"
                f"  cross-check: {shown(expected)}"
            )
    rest = printed[len(answers)]
    return f"stdout line {len(answers) + 1} answers no query: {shown(rest)}"


def compare(name: str, program: Program) -> bool:
    """Compare one program's files, print a line, say whether they agree."""
    crate = ROOT / "crates" / name
    try:
        stdin = (crate / "stdin").read_bytes()
        stdout = (crate / "stdout").read_bytes()
    except OSError as error:
        print(f"cross-check {name}: {error}")
        return False
    answers = answer_all(program, stdin)
    if as_output(answers) == stdout:
        print(f"cross-check {name}: {len(answers)} answers agree")
        return True
    print(f"cross-check {name}: differs at {first_difference(answers, stdout)}")
    return False


def compare_all() -> int:
    """Compare every program; the exit status."""
    agreed = [compare(name, program) for name, program in PROGRAMS.items()]
    return 0 if all(agreed) else 1


def run_selftest() -> int:
    """Run the selftest; the exit status."""
    try:
        checked = selftest.run_selftest()
    except AssertionError as error:
        print(f"selftest: does not hold: {error}")
        return 1
    print(
        f"selftest: {checked.codes} codes, {checked.labels} labels "
        f"and {checked.readings} readings hold"
    )
    return 0


def arguments() -> argparse.Namespace:
    """The command line."""
    parser = argparse.ArgumentParser(description="The cross-check.")
    commands = parser.add_subparsers(dest="command", required=True)
    answer = commands.add_parser("answer", help="answer stdin as a program does")
    answer.add_argument("program", choices=sorted(PROGRAMS))
    make = commands.add_parser("make", help="make the stdin file of a program")
    make.add_argument("program", choices=sorted(PROGRAMS))
    make.add_argument("seed", nargs="?", type=int, default=DEFAULT_SEED)
    commands.add_parser("compare", help="compare all crates' stdout files")
    commands.add_parser("selftest", help="check the checker")
    return parser.parse_args()


def main() -> int:
    """Run one subcommand; the exit status."""
    chosen = arguments()
    if chosen.command == "compare":
        return compare_all()
    if chosen.command == "selftest":
        return run_selftest()
    program = PROGRAMS[chosen.program]
    if chosen.command == "make":
        sys.stdout.buffer.write(program.make(chosen.seed))
    else:
        answers = answer_all(program, sys.stdin.buffer.read())
        sys.stdout.buffer.write(as_output(answers))
    return 0


if __name__ == "__main__":
    sys.exit(main())
