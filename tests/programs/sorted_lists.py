"""Lists that the program `collate-cldr` sorts, beside the order of the keys that it writes. The lines of a list begin alike, in runs of
some length, so that they are sorted by numbers and comparisons, by the keys of a run, or by the keys of all."""
import random

from sweeps import faults_missed, run

LETTERS = "abcdefghijklmnopqrstuvwxyz"
# How many lines begin alike, and how many such runs there are: pairs, as many as are compared, and more; lists of which so many
# begin alike that all keys are written; and lines that begin with nothing in common.
SHAPES = [(2, 40), (3, 20), (4, 30), (5, 20), (9, 10), (200, 1), (200, 3), (40, 40), (1, 300), (1, 0), (1, 1)]
# Words of a sort, and of `keys` for the order that it has.
SORTS = [[], ["-s"], ["-r"], ["-s", "-r"], ["-u"], ["-u", "-r"]]
STRENGTHS = ["1", "3", "i"]


def in_cases(dice, text):
    return "".join(it.upper() if dice.random() < 0.3 else it for it in text)


def made_list(dice, length, count):
    """Lines of which so many begin alike but for their cases, some of them the same line, in no order, and a few that are damaged."""
    lines = []
    for _ in range(count):
        beginning = "".join(dice.choices(LETTERS, k=12))
        ends = ["", "a", "b", "\u0301", "\u0301a"]
        lines += [in_cases(dice, beginning).encode() + dice.choice(ends).encode() + dice.choice([b"", b"", b"\xC3"]) for _ in range(length)]
    lines += dice.choices(lines or [b""], k=len(lines) // 10)
    dice.shuffle(lines)
    return lines


def in_order(lines, keys, words):
    """Lines in the order of their keys, as these words ask for it."""
    turned = "-r" in words
    if "-u" in words:
        first = {}
        for key, line in zip(keys, lines):
            first.setdefault(key, line)
        return [first[key] for key in sorted(first, reverse=turned)]
    by = (lambda pair: pair[0]) if "-s" in words else (lambda pair: pair)
    return [line for _, line in sorted(zip(keys, lines), key=by, reverse=turned)]


def keys_of(program, over, given):
    ran = run(program, ["keys", *over], given)
    return [bytes.fromhex(line.partition(b"\t")[0].decode()) for line in ran.output.splitlines()]


def unlike_keys(program, letters, _room, rounds=2):
    """The sorts that don't have the order of the keys."""
    dice, found = random.Random(11), []
    for length, count in SHAPES * rounds:
        lines = made_list(dice, length, count)
        over = ["--root", letters, "--strength", dice.choice(STRENGTHS)]
        given = b"".join(line + b"\n" for line in lines)
        keys = keys_of(program, over, given)
        for words in SORTS:
            wanted = b"".join(line + b"\n" for line in in_order(lines, keys, words))
            ran = run(program, ["sort", *over, *words], given)
            if ran.came_to() != (0, wanted, b""):
                found.append(f"{count} runs of {length} lines, {' '.join([*over[2:], *words])}: {ran}")
    return found


# What is wrong with a program, a script around the true one, and the test that finds it.
FAULTY = [
    ("lines in the order of their bytes", 'if [ "$1" = sort ]; then LC_ALL=C sort; else "$COLLATE" "$@"; fi', unlike_keys),
    ("lines that compare equal in no order of their own", 'if [ "$1" = sort ]; then LC_ALL=C sort -r | "$COLLATE" "$@"; else "$COLLATE" "$@"; fi', unlike_keys),
]


def check_lists(report, room, program, letters):
    report.say("collate-cldr: lists whose lines begin alike", unlike_keys(program, letters, room), 2 * len(SHAPES) * (len(SORTS) + 1))
    report.say("collate-cldr: programs that sort lists otherwise are found", faults_missed(room, "lists", program, letters, FAULTY), len(FAULTY))
