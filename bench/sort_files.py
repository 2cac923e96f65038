#!/usr/bin/env python3
"""Times the program `collate-cldr` where it sorts lines, beside a program that sorts by ICU4C's keys and beside GNU `sort`.

usage: bench/sort_files.py [--lines N ..] [--locale TAG ..] [--rounds N] [--seed N] [--cldr DIR] [--program FILE] [--folder FOLDER]

--lines N ..      how many lines are sorted (100000)
--locale TAG ..   by which languages; und is the root (und)
--rounds N        how often each program is run, by turns; the least time and the least memory count (3)
--seed N          the seed of the lines (1)
--cldr DIR        CLDR's data (where Debian's package unicode-cldr-core installs it)
--program FILE    a program `collate-cldr` that was built elsewhere, in place of the proved one
--folder FOLDER   where the program and the lines are kept, outside of the repository (collation-bench in the user's cache)

The table goes to standard output: seconds from start to end, seconds of processor, of all threads together, and megabytes at the peak.
`collate-cldr` and ICU4C's program have one thread; GNU `sort` is run with one, and with as many as it takes by itself. The program takes
table files that were compiled before; what it takes to start, by CLDR's text and by such a file, is printed first, with the number of
processors. Status 1: lines were sorted otherwise than by ICU4C, those with ideographs left out, which it has by radicals and strokes
(docs/DIFFERENCES.md).
"""
import argparse
import os
import re
import shlex
import subprocess
import sys

import building
import corpus
from building import say
from run import CACHE, print_line

LOCALE = "en_US.UTF-8"
# How much is wanted at most of what ICU4C's program takes: from start to end, of processor, of memory.
LIMITS = (0.5, 0.5, 1.2)
IDEOGRAPHS = re.compile("[\u3400-\u9FFF\uF900-\uFAFF\U00020000-\U0003FFFF]")


def compiled(folder, name, *libraries):
    """A program of this folder."""
    program = os.path.join(folder, name)
    words = [building.COMPILER, "-std=c++20", "-O2", "-Wall", "-o", program, os.path.join(building.HERE, f"{name}.cpp")]
    flags = shlex.split(building.output(["pkg-config", "--cflags", "--libs", *libraries])) if libraries else []
    building.run(words + flags)
    return program


class Programs:
    """The programs that are timed, and the one that times them."""

    def __init__(self, program, folder):
        self.ours = os.path.abspath(program)
        self.peer = compiled(folder, "icu_sort", "icu-i18n", "icu-uc")
        self.timer = compiled(folder, "cost")
        self.figures = os.path.join(folder, "figures")

    def cost(self, words, source, target, **more):
        """Runs a program, and returns its seconds from start to end, its seconds of processor and its megabytes."""
        with open(source, "rb") as lines, open(target, "wb") as sorted_lines:
            streams = {"stdin": lines, "stdout": sorted_lines}
            subprocess.run([self.timer, self.figures, *words], env={**os.environ, **more}, check=True, **streams)
        with open(self.figures, encoding="utf-8") as it:
            wall, processor, kilobytes, status = it.read().split()
        if int(status) != 0:
            sys.exit(f"bench: {words[0]} ended with status {os.waitstatus_to_exitcode(int(status))}")
        return float(wall), float(processor), int(kilobytes) / 1024

    def least(self, rounds, source, *runs):
        """Makes runs, pairs of words and of a file for what is printed, by turns, and returns the least of each figure for each."""
        costs = [[self.cost(words, source, target) for words, target in runs] for _ in range(rounds)]
        return [tuple(map(min, zip(*of_run))) for of_run in zip(*costs)]


def shown(costs):
    return f"{costs[0]:.2f}, {costs[1]:.2f}, {costs[2]:.0f}"


def write_lines(file, seed, name, count):
    with open(file, "w", encoding="utf-8") as it:
        it.writelines(f"{name}\n" for name in corpus.Lists(seed).many(name, count))


def sorts_by_bytes(programs, locale, lines):
    """What GNU `sort` takes, with one thread and with as many as it takes by itself; nothing where it hasn't the locale."""
    if locale != "und" or not has_locale():
        return [None, None]
    runs = (["sort", "--parallel=1"], ["sort"])
    return [programs.cost(words, lines, f"{lines}.plain", LC_ALL=LOCALE) for words in runs]


def row(name, count, locale, words, programs, folder):
    """Sorts so many lines by each program, prints what that takes, and returns whether ICU4C's order is ours."""
    lines = os.path.join(folder, "lines")
    write_lines(lines, words.seed, name, count)
    ours, peers = (f"{lines}.{it}" for it in ("ours", "peers"))
    tables = building.tables_of(programs.ours, locale, words.cldr, folder)
    library, peer = programs.least(
        words.rounds, lines, ([programs.ours, "sort", "--stable", "--tables", tables], ours), ([programs.peer, locale], peers))
    ratios = [mine / theirs for mine, theirs in zip(library, peer)]
    marked = [f"{it:.2f}{' (above)' if it > limit else ''}" for it, limit in zip(ratios, LIMITS)]
    sorts = [shown(it) if it else "-" for it in sorts_by_bytes(programs, locale, lines)]
    print_line([name, f"{count:,}", locale, shown(library), shown(peer), *marked, *sorts])
    return plain_lines(ours) == plain_lines(peers)


def plain_lines(file):
    """The lines of a file that have no ideographs."""
    with open(file, encoding="utf-8") as it:
        return [line for line in it if not IDEOGRAPHS.search(line)]


def print_starts(locale, words, programs, folder):
    """Prints what it takes to sort one line, by the text of CLDR and by a table file."""
    line, ours = os.path.join(folder, "line"), os.path.join(folder, "line.ours")
    with open(line, "w", encoding="utf-8") as it:
        it.write("a\n")
    tables = building.tables_of(programs.ours, locale, words.cldr, folder)
    runs = ([programs.ours, "sort", "--cldr", words.cldr, "-l", locale], [programs.ours, "sort", "--tables", tables], [programs.peer, locale])
    text, compiled_tables, peer = map(shown, programs.least(words.rounds, line, *((it, ours) for it in runs)))
    say(f"one line by {locale}: {text} by CLDR's text, {compiled_tables} by a table file, {peer} by ICU4C's program")


def has_locale():
    names = building.output(["locale", "-a"]).splitlines()
    return LOCALE in (it.replace("utf8", "UTF-8") for it in names)


def asked():
    parser = argparse.ArgumentParser(usage=__doc__.partition("usage: ")[2])
    parser.add_argument("--lines", type=int, nargs="+", default=[100_000])
    parser.add_argument("--rounds", type=int, default=3)
    parser.add_argument("--seed", type=int, default=1)
    parser.add_argument("--locale", nargs="+", default=["und"])
    parser.add_argument("--cldr", default=building.CLDR)
    parser.add_argument("--program")
    parser.add_argument("--folder", default=os.path.join(CACHE, "collation-bench"))
    return parser.parse_args()


def main():
    words = asked()
    building.want_commands()
    folder = os.path.abspath(words.folder)
    os.makedirs(folder, exist_ok=True)
    programs = Programs(words.program or building.proved_program(), folder)
    say(f"{len(os.sched_getaffinity(0))} processors")
    for locale in words.locale:
        print_starts(locale, words, programs, folder)
    figures = "s, s of processor, MB"
    limits = [f"{it}, at most {limit}" for it, limit in zip(("time", "processor", "memory"), LIMITS)]
    columns = ["Lines", "Count", "Language", *(f"{it}, {figures}" for it in ("`collate-cldr`", "ICU4C's keys")), *limits]
    print_line(columns + [f"`sort`, one thread, {figures}", f"`sort`, {figures}"])
    print("|---" * 10 + "|")
    unlike = [(name, count, locale) for count in words.lines for name in ("ASCII names", "twelve scripts") for locale in words.locale
              if not row(name, count, locale, words, programs, folder)]
    for name, count, locale in unlike:
        say(f"{count} lines of {name} by {locale} are not sorted as by ICU4C's keys")
    return 1 if unlike else 0


if __name__ == "__main__":
    sys.exit(main())
