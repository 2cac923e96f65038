"""Sorts by `collate` of long lines, of many unlike ones and of much input.

Lines are of lower-case letters, which Mini orders as their code points are, so Python's own sort says what is wanted.
"""
import random

from sweeps import Run, run, wrapped

SORT, LETTERS = ["sort", "3"], "abcdefghijklmnopqrstuvwxyz"


def unlike(count):
    """So many different lines of three to eight letters, in no order."""
    dice, found = random.Random(count), set()
    while len(found) < count:
        found.add("".join(dice.choices(LETTERS, k=dice.randrange(3, 9))))
    lines = sorted(found)
    dice.shuffle(lines)
    return lines


def much():
    """5 MB: a line of 1 MB and 400 of 10,000 bytes."""
    dice = random.Random(5)
    return ["".join(dice.choices("ab", k=length)) for length in [1_000_000, *400 * [10_000]]]


def long_lines():
    return ["b", "a" * 9_999 + "b", "a" * 10_000, "ab", "a" * 9_999]


# The lines that are sorted, and a shell script around the true program with a fault that their sort has to find.
SORTS = {
    "lines of 10,000 bytes": (long_lines, '"$COLLATE" "$@" | cut -b -8192'),
    "100,000 unlike lines": (lambda: unlike(100_000), '"$COLLATE" "$@" | head -n 65536'),
    "5 MB": (much, 'head -c 4194304 | "$COLLATE" "$@"'),
}


def bytes_of(lines):
    return "".join(f"{it}\n" for it in lines).encode()


def wrong_sort(program, lines):
    """What is wrong with a sort of lines."""
    ran, wanted = run(program, SORT, bytes_of(lines)), Run(0, bytes_of(sorted(lines)), b"", None)
    return [] if ran.came_to() == wanted.came_to() else [f"{ran}; wanted: {wanted}"]


def check_long_sorts(report, room, program):
    for number, (what, (lines_of, fault)) in enumerate(SORTS.items()):
        lines = lines_of()
        faults = wrong_sort(program, lines)
        if not wrong_sort(wrapped(room, f"sort{number}", program, fault), lines):
            faults.append(f"not found: {fault}")
        report.say(f"collate: a sort of {what}, and of a program with a fault", faults, 2)
