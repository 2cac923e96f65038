#!/usr/bin/env python3
"""Random runs of `sort` and `search` beside those of GNU `sort` and `grep -F` under LC_ALL=C, over lists of ASCII, by a table that orders
ASCII by code point. The gate runs some over the small file's letters; by itself it is no part of the gate.

  tests/programs/gnu_words.py [PROGRAM [TIMES [SEED]]]    2,000 runs of each over a table of CLDR's data, compiled with rules that order ASCII"""
import collections
import os
import random
import subprocess
import sys
import tempfile

from sweeps import built, run

FOLDER = "/usr/share/unicode/cldr"
ASCII = "".join(map(chr, range(0x20, 0x7F)))
# Characters whose primary weights in the small file have the order of their bytes.
SMALL = " --..0011223789abc"
# Options of GNU grep that the program spells otherwise.
SPELLED = {"-l": "--files-with-matches"}


def words_for_sort(chance):
    """Options that both programs take."""
    words = [it for it in ("-r", "-s", "-u", "-n", "-b") if chance.random() < 0.25]
    letters = lambda: "".join(it for it in "bnr" if chance.random() < 0.2)
    place = lambda: f"{chance.randint(1, 3)}" + (f".{chance.randint(1, 4)}" if chance.random() < 0.3 else "") + letters()
    for _ in range(chance.choice([0, 0, 1, 2])):
        words += ["-k", place() + ("," + place() if chance.random() < 0.6 else "")]
    words += ["-t", chance.choice([".", "-", "a", "\\0"])] * (chance.random() < 0.4)
    return words + chance.choice([[], [], ["--parallel=2"], ["--batch-size=9"], ["-z"], ["-c"], ["-C"], ["--debug"]])


def words_for_search(chance):
    """Options that both programs take, with the patterns behind them."""
    words = [it for it in ("-n", "-b", "-x", "-v", "-H", "-h", "-o", "--line-buffered") if chance.random() < 0.2]
    words += chance.choice([[], [], [], ["-c"], ["-l"], ["-L"], ["-q"], ["-z"]])
    words += chance.choice([[], [], [f"-m{chance.randint(0, 4)}"]])
    for option in "ABC":
        words += [f"-{option}{chance.randint(0, 3)}"] * (chance.random() < 0.25)
    return words


def pattern(chance, letters):
    return "".join(chance.choice(letters) for _ in range(chance.choice([0, 1, 1, 1, 2, 2, 3])))


def lines(chance, letters, end="\n"):
    """Lines of which some are alike; the last one may lack its end."""
    some = ["".join(chance.choice(letters) for _ in range(chance.randint(0, 10))) for _ in range(chance.randint(1, 12))]
    text = end.join(chance.choice(some) for _ in range(chance.randint(0, 40)))
    return text + (end if text and chance.random() < 0.8 else "")


def by_gnu(command, words, given):
    ran = subprocess.run([command, *words], input=given, capture_output=True, env={**os.environ, "LC_ALL": "C"}, check=False)
    return ran.returncode, ran.stdout


EMPTY, NONE_COUNTED, NEARBY = "matches of an empty pattern", "a count of at most no lines", "matches of lines nearby"
REASONS = [EMPTY, NONE_COUNTED, NEARBY]


def reason_of_search(words, patterns):
    """Why two searches may print unlike things, or none."""
    # GNU grep passes over an empty pattern if it prints matches, and where lines end with zero bytes takes a line feed for no end of a pattern.
    if "-o" in words and "-v" not in words and "" in patterns:
        return EMPTY
    # GNU grep prints no count if no line is wanted, as with -m0, or if those without an empty text are.
    if "-c" in words and ("-m0" in words or "-v" in words and patterns == [""]):
        return NONE_COUNTED
    # GNU grep prints the matches of lines near those that hold none.
    if {"-o", "-v"} <= {*words} and any(it[:2] in ("-A", "-B", "-C") for it in words):
        return NEARBY
    return None


def tried_sort(chance, program, over, letters, room):
    words, end = words_for_sort(chance), "\n"
    if "-z" in words:
        end = "\0"
    given = lines(chance, letters, end).encode()
    if chance.random() < 0.3:
        files = [os.path.join(room, it) for it in ("sort-one", "sort-two")]
        for file in files:
            with open(file, "wb") as it:
                it.write(lines(chance, letters, end).encode())
        if not {"-c", "-C"} & {*words}:
            words += files
    wanted = by_gnu("sort", words, given)
    ran = run(program, ["sort", *over, *words], given)
    return None if (ran.status, ran.output) == wanted else f"sort {words} of {given!r}: {ran}; wanted: {wanted}"


def tried_search(chance, program, over, letters, room):
    options, patterns = words_for_search(chance), [pattern(chance, letters) for _ in range(chance.choice([1, 1, 1, 2, 3]))]
    end = "\0" if "-z" in options else "\n"
    given, files = lines(chance, letters, end).encode(), []
    if chance.random() < 0.4:
        files = [os.path.join(room, it) for it in ("search-one", "search-two")][: chance.randint(1, 2)]
        for file in files:
            with open(file, "wb") as it:
                it.write(lines(chance, letters, end).encode())
    named = [word for it in patterns for word in ("-e", it)]
    # Debian's grep may be told otherwise by the environment.
    wanted = by_gnu("grep", ["-F", *options, *named, *files], given)
    ran = run(program, ["search", *over, *[SPELLED.get(it, it) for it in options], *named, *files], given)
    if (ran.status, ran.output) == wanted:
        return None
    reason = reason_of_search(options, patterns)
    return reason or f"search {options} {named} of {given!r}: {ran}; wanted: {wanted}"


def unlike(program, over, letters, room, times, seed=81):
    """What differs in so many runs of each command that has no reason, and how many differ for each reason."""
    chance, found, reasons = random.Random(seed), [], collections.Counter()
    for _ in range(times):
        for tried in (tried_sort, tried_search):
            said = tried(chance, program, over, letters, room)
            if said in REASONS:
                reasons[said] += 1
            elif said:
                found.append(said)
    return found, reasons


def rules():
    """Rules by which each character of ASCII that is printed has a primary weight, in the order of code points."""
    spelled = {"'": "''", "\\": "'\\\\'"}
    return "&[last regular]" + "".join("<" + spelled.get(it, "'" + it + "'") for it in ASCII)


def main(program=built("collate_cldr"), times="2000", seed="81"):
    with tempfile.TemporaryDirectory(prefix="gnu-words-") as room:
        tables = os.path.join(room, "ascii.tables")
        ran = run(program, ["compile", "--cldr", FOLDER, "-l", "und", "--rules", rules(), "-o", tables])
        if ran.status:
            sys.exit(f"no table: {ran}")
        found, reasons = unlike(program, ["--tables", tables], ASCII, room, int(times), int(seed))
    for line in found:
        print(line)
    print(f"{times} runs of each, {len(found)} unlike; for a reason: {dict(reasons)}")
    return bool(found)


if __name__ == "__main__":
    sys.exit(main(*sys.argv[1:]))
