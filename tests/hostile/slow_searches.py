#!/usr/bin/env python3
"""Times searches that are made to be slow, by the program `collate-cldr`: for four times as much text no more than 4.6 times the time.

usage: tests/hostile/slow_searches.py [MINUTES [SEED [PROGRAM [WORD..]]]]    looks for slow searches, and ends with status 1 if it finds some
       tests/hostile/slow_searches.py --keys [PROGRAM [WORD..]]              times searches beside sort keys, and ends with status 1 if one is slow

The gate times the kinds below over the small file with Mini's letters. By itself this makes random kinds of a text and a pattern, keeps
the slowest and changes them, for so many minutes (2); the words say by which tables, as `-l th` (none: the small file). With --keys the
kinds below are timed in lines of up to a million characters: one may take at most five times what the keys of the line and the pattern take.
"""
import math
import os
import random
import resource
import sys
import tempfile
import time

sys.path[:0] = [it.path for it in os.scandir(os.path.dirname(os.path.dirname(os.path.realpath(__file__)))) if it.is_dir()]
from sweeps import ENVIRONMENT, TOP, Run, ended, faults_missed

PROGRAM = os.path.join(TOP, "crates", "collate_cldr", "out", "collate_cldr")
LETTERS = os.path.join(TOP, "crates", "collate_cldr", "data", "letters.txt")
# How often each search is timed, of which the least time counts; how long a text is, and how many times as long the longer one; by how
# many times as much it may take, and so many seconds beside; how long a run may take before it is cut off.
RUNS, SIZE, MORE, GROWTH, ALSO, CUT_OFF = 2, 25_000, 4, 4.6, 0.15, 10
# Beside keys: how long a text is, how many times as long as the keys a search may take, and how long a run may take.
LONG, KEYS, LONG_CUT_OFF = 250_000, 5, 120


# ---- texts

def fibonacci(count):
    """The first characters of the word that is each time followed by the one before it."""
    before, word = "b", "a"
    while len(word) < count:
        before, word = word, word + before
    return word[:count]


def mixed(count, seed=1):
    dice = random.Random(seed)
    return "".join(dice.choice("aA") for _ in range(count))


def repeated(piece, count):
    return (piece * (count // len(piece) + 1))[:count]


# The words, the pattern and the text, for so many characters. U+0000 has no weights.
KINDS = {
    "an upper case letter in ignored characters": (["3"], lambda n: "A", lambda n: "a" + "\0" * n),
    "an accent in ignored characters": (["3"], lambda n: "á", lambda n: "a" + "\0" * n),
    "an accent in shifted hyphens": (["3", "--alternate=shifted"], lambda n: "á", lambda n: "a" + "-" * n),
    "a number in zeros": (["3", "--numeric"], lambda n: "1", lambda n: "0" * n),
    "a letter after as many others": (["3"], lambda n: "a" * (n // 2) + "b", lambda n: "a" * (n // 2)),
    "a letter after half as many others": (["3"], lambda n: "a" * (n // 2) + "b", lambda n: "a" * n),
    "an upper case letter after others": (["3"], lambda n: "a" * (n // 2) + "A", lambda n: "a" * n),
    "an accent after others": (["2"], lambda n: "a" * (n // 2) + "á", lambda n: "a" * n),
    "a mark among shifted spaces with it": (["3", "--alternate=shifted"], lambda n: "\u0323", lambda n: repeated(" \u0323", n)),
    "a mark among shifted spaces with many": (["3", "--alternate=shifted"], lambda n: "\u0323", lambda n: repeated(" " + "\u0323" * 9, n)),
    "another mark among shifted spaces, marks and ignored characters": (["3", "--alternate=shifted"], lambda n: "\u0301", lambda n: repeated(" \0\u0323", n)),
    "another mark among shifted spaces with many": (["3", "--alternate=shifted"], lambda n: "\u0301", lambda n: repeated(" " + "\u0323" * 39, n)),
    "another mark among marks and ignored characters": (["3"], lambda n: "\u0301", lambda n: repeated("\u0323\0", n)),
    "an accent in shifted hyphens with marks": (["3", "--alternate=shifted"], lambda n: "á", lambda n: "a" + repeated("-\u0323", n)),
    "an accent in shifted hyphens on all levels": (["4", "--alternate=shifted"], lambda n: "á", lambda n: "a" + "-" * n),
    "an accent in shifted hyphens before letters on all levels": (["4", "--alternate=shifted"], lambda n: "á", lambda n: "a" + "-" * n + "bb"),
    "a Fibonacci word and a letter in a longer one": (["1"], lambda n: fibonacci(n // 4) + "c", fibonacci),
    "a letter after as many others in both cases": (["1"], lambda n: "a" * (n // 4) + "b", mixed),
    "a letter after a thousand others in both cases": (["1"], lambda n: "a" * 1000 + "b", mixed),
    "letters in themselves": (["3"], lambda n: "a" * (n // 4), lambda n: "a" * n),
    "a word among words": (["1"], lambda n: "face", lambda n: repeated("a bad cab fed a deaf ace ", n)),
}


# ---- times

class TimedRun:
    """A run with some input, and the least processor time that it takes."""

    def __init__(self, command, given, runs=RUNS, cut_off=CUT_OFF):
        self.seconds = math.inf
        for _ in range(runs):
            began = resource.getrusage(resource.RUSAGE_CHILDREN)
            ran = ended(command, given.encode(), cut_off, env=ENVIRONMENT)
            over = resource.getrusage(resource.RUSAGE_CHILDREN)
            self.ran = Run(ran.returncode, ran.stdout, ran.stderr, None)
            self.seconds = min(self.seconds, over.ru_utime + over.ru_stime - began.ru_utime - began.ru_stime)
            if self.ran.status is None:
                break


class Timed(TimedRun):
    """A search of a line, and the least processor time that it takes."""

    def __init__(self, program, tables, words, pattern, text, runs=RUNS):
        strength, *others = words
        super().__init__([program, "search", *tables, "--strength", strength, *others, "-c", "--", pattern], f"{text}\n", runs)


class TimedByFile(TimedRun):
    """A search of a line for a pattern that a file has, since a word of a command has a bound."""

    def __init__(self, program, tables, words, pattern, text, room):
        strength, *others = words
        path = os.path.join(room, "patterns")
        with open(path, "w", encoding="utf-8") as it:
            it.write(f"{pattern}\n")
        super().__init__([program, "search", *tables, "--strength", strength, *others, "-c", "-f", path], f"{text}\n", RUNS, LONG_CUT_OFF)


class TimedKeys(TimedRun):
    """The sort keys of lines, and the least processor time that they take."""

    def __init__(self, program, tables, words, *lines):
        strength, *others = words
        super().__init__([program, "keys", *tables, "--strength", strength, *others], "".join(f"{it}\n" for it in lines), RUNS, LONG_CUT_OFF)


def wrong_growth(program, tables, kind, size):
    """What is wrong with the growth of a kind of search."""
    words, pattern, text = kind
    start = Timed(program, tables, words, "a", "b")
    once, more = (Timed(program, tables, words, pattern(n), text(n)) for n in (size, MORE * size))
    for timed in (once, more):
        if timed.ran.status not in (0, 1) or timed.ran.faults:
            return [str(timed.ran)]
    took, longer = (it.seconds - start.seconds for it in (once, more))
    limit = GROWTH * max(took, 0) + ALSO
    return [f"{longer:.2f} s for {MORE} times as many characters, {took:.2f} s for {size}"] * (longer > limit)


class BesideKeys:
    """How long a kind of search takes, in two sizes, and the sort keys of the longer line and its pattern, beyond an empty run's time."""

    def __init__(self, program, tables, kind, room):
        words, pattern, text = kind
        start = TimedByFile(program, tables, words, "a", "b", room)
        ran = [TimedByFile(program, tables, words, pattern(n), text(n), room) for n in (LONG, MORE * LONG)]
        keys = TimedKeys(program, tables, words, text(MORE * LONG), pattern(MORE * LONG))
        self.took, self.longer = (max(it.seconds - start.seconds, 0) for it in ran)
        self.keys = keys.seconds - TimedKeys(program, tables, words, "a", "b").seconds
        self.wrong = [f"not ended: {it.ran}" for it in ran if it.ran.status not in (0, 1) or it.ran.faults]
        self.wrong += [f"no keys: {keys.ran.faults}"] * (keys.ran.status != 0)
        self.wrong += ["grows faster than the line"] * (self.longer > GROWTH * self.took + ALSO)
        self.wrong += [f"takes more than {KEYS} times the keys"] * (self.longer > KEYS * self.keys + ALSO)

    def __str__(self):
        return f"{LONG} {self.took:.2f} s, {MORE * LONG} {self.longer:.2f} s, keys {self.keys:.2f} s{''.join(f'; {it}' for it in self.wrong)}"


def beside_keys(program, tables):
    """Times all kinds beside sort keys; whether one is slow."""
    slow = False
    with tempfile.TemporaryDirectory(prefix="slow-searches-") as room:
        for name, kind in KINDS.items():
            timed = BesideKeys(program, tables, kind, room)
            print(f"{name}: {timed}", flush=True)
            slow |= bool(timed.wrong)
    return slow


def wrong_searches(program, letters):
    return [f"{name}: {it}" for name, kind in KINDS.items() for it in wrong_growth(program, ["--root", letters], kind, SIZE)]


# A program that runs another one again, in proportion to the square of a text.
SQUARE = """cat >"$0.given"; n=$(wc -c <"$0.given"); i=0
while [ $i -lt $((n / 1000 * n / 200000)) ]; do i=$((i + 1)); "$COLLATE" "$@" <"$0.given" >"$0.printed"; done; exit 1"""
FAULTY = [("time that grows with the square", SQUARE,
           lambda program, letters, room: wrong_growth(program, ["--root", letters], KINDS["letters in themselves"], SIZE))]


def check_slow_searches(report, room, program):
    report.say("collate-cldr: searches in texts four times as long", wrong_searches(program, LETTERS), 2 * RUNS * len(KINDS))
    missed = faults_missed(room, "slow", program, LETTERS, FAULTY)
    report.say("collate-cldr: a program whose searches take too long is found", missed, len(FAULTY))


# ---- random kinds

CHARACTERS = ["a", "A", "b", "á", "a\u0301", "\u0301", "\u0323", "-", " ", "\0", "0", "1", "\ufffe", "l", "\u00b7", "\u20dd", "ch", "ö", "ก", "เ", "가", "か"]
SETTINGS = [["--alternate=shifted"], ["--numeric"], ["--case-level"], ["--letters"], []]
SMALL = 1_500


class Kind:
    """A search by random words: a pattern and a text of a head, a piece many times, and a tail."""

    def __init__(self, dice):
        few = [dice.choice(CHARACTERS) for _ in range(dice.randint(1, 3))]
        piece = lambda most: "".join(dice.choice(few) for _ in range(dice.randint(0, most)))
        self.few = few
        self.words = [dice.choice("12344"), *dice.choice(SETTINGS), *dice.choice(SETTINGS)]
        self.text = [piece(2), piece(6) or few[0], piece(2)]
        self.pattern = [piece(1), piece(3), dice.choice([piece(1), dice.choice(CHARACTERS)])]
        self.share = dice.choice([0, 0, 8, 3, 2])

    def changed(self, dice):
        other, new = Kind(dice), Kind.__new__(Kind)
        new.__dict__.update(self.__dict__)
        for part in dice.sample(["words", "text", "pattern", "share"], 1):
            setattr(new, part, getattr(other, part))
        return new

    def parts(self):
        def of_pattern(count):
            head, piece, tail = self.pattern
            return (head + (repeated(piece, count // self.share) if piece and self.share else piece) + tail) or "a"

        return self.words, of_pattern, lambda count: self.text[0] + repeated(self.text[1], count) + self.text[2]

    def __str__(self):
        return f"words {self.words}, pattern {self.pattern} of 1 in {self.share}, text {self.text}"


def looked_for(program, tables, seconds, seed):
    """The slowest random kinds, with what is wrong with their growth."""
    dice, kept, ends = random.Random(seed), [], time.monotonic() + seconds
    while time.monotonic() < ends:
        kind = dice.choice(kept)[1].changed(dice) if kept and dice.random() < 0.7 else Kind(dice)
        words, pattern, text = kind.parts()
        if "\0" in pattern(SMALL):
            continue
        took = Timed(program, tables, words, pattern(SMALL), text(SMALL), 1).seconds
        kept = sorted([*kept, (took, kind)], key=lambda it: -it[0])[:8]
    return [(kind, wrong_growth(program, tables, kind.parts(), SMALL)) for _, kind in kept]


def main():
    if sys.argv[1:2] == ["--keys"]:
        program, *tables = sys.argv[2:] or [PROGRAM]
        return 1 if beside_keys(os.path.realpath(program), tables or ["--root", LETTERS]) else 0
    minutes, seed, program, *tables = [*sys.argv[1:], *["2", "1", PROGRAM][len(sys.argv) - 1 :]]
    found = looked_for(os.path.realpath(program), tables or ["--root", LETTERS], 60 * float(minutes), int(seed))
    for kind, wrong in found:
        print(f"{kind}: {'; '.join(wrong) or 'in proportion'}", flush=True)
    return 1 if any(wrong for _, wrong in found) else 0


if __name__ == "__main__":
    sys.exit(main())
