#!/usr/bin/env python3
"""Builds the bench, runs it, and prints a table of its rows.

usage: bench/run.py [--group GROUP ..] [--list] [--rounds N] [--seed N] [--both-seeds] [--root FILE | --mini]
                    [--folder FOLDER] [--program FILE] [--jobs N] [--shift N] [--built]

--group GROUP ..  the rows of these groups alone
--list            print the groups and their rows, and measure nothing
--rounds N        how often each row is measured; the least time counts (100)
--seed N          the seed of the texts (1)
--both-seeds      measure the texts of the seed and of the next one, and say where their ratios differ by more than a tenth
--root FILE       FractionalUCA.txt of CLDR (where Debian's package unicode-cldr-core installs it)
--mini            measure by Mini, the small table of icu_table_mini: the groups that need no other
--folder FOLDER   where proofs, programs and texts are kept, outside of the repository (collation-bench in the user's cache)
--program FILE    a program `collate-cldr` that was built elsewhere, in place of the proved one: it compiles the tables of languages
--jobs N          passed on to `rt`
--shift N         link the library so many bytes further (0)
--built           measure with the program that the last run built, and build nothing

The table goes to standard output, all else to standard error: the ten greatest ratios, and the median, first. Status 1: a text was not
ordered as it should be.
"""
import argparse
import itertools
import os
import statistics
import subprocess
import sys

import building
import corpus
from building import say

CACHE = os.environ.get("XDG_CACHE_HOME") or os.path.expanduser("~/.cache")
ROOT = f"{building.CLDR}/common/uca/FractionalUCA.txt"
UNITS = {"ms": 1e6, "ns": 1.0}


def add_common_words(parser, rounds):
    """The words that scripts over table files have in common."""
    parser.add_argument("--rounds", type=int, default=rounds)
    parser.add_argument("--seed", type=int, default=1)
    parser.add_argument("--folder", default=os.path.join(CACHE, "collation-bench"))
    parser.add_argument("--program")


class Measured:
    """A row, with what the program printed of it. Beside keys the time of the library's key stands for the peer's."""

    def __init__(self, row, lines):
        words = [line.split("\t") for line in lines]
        self.row = row
        self.peer, self.library = map(float, words[0][:2])
        self.unlike_peer, self.unlike_keys = map(sum, zip(*(map(int, it[2:]) for it in words)))
        if row.operation == corpus.BESIDE_KEYS:
            self.peer = float(words[1][1]) / sum(len(text.encode("utf-16-le")) // 2 for _, text in row.pairs())

    def ratio(self):
        return self.library / self.peer

    def is_above_limit(self):
        if isinstance(self.row.limit, str):
            number, unit = self.row.limit.split()
            return self.library > float(number) * UNITS[unit]
        return self.ratio() > self.row.limit

    def is_wrong(self):
        """Whether a text was not ordered as it should be: where there are ideographs, the peer may order them otherwise."""
        return self.unlike_keys > 0 or (self.unlike_peer > 0 and not corpus.has_ideographs(self.row))

    def complaints(self):
        where = f"{self.row.operation}, {self.row.name}"
        if self.unlike_peer:
            why = " (ideographs: by code point here, by radical there)" if corpus.has_ideographs(self.row) else ""
            yield f"{where}: {self.unlike_peer} pairs or lists are not in ICU4C's order{why}"
        if self.unlike_keys:
            yield f"{where}: {self.unlike_keys} pairs are not in the order of their keys"

    def cells(self):
        ratio = f"{self.ratio():,.2f}"
        mark = "above" if self.is_above_limit() else ""
        return [self.row.operation, self.row.name, self.row.limit, f"{self.peer:,.0f}", f"{self.library:,.0f}", ratio, mark]


def measured(program, folder, rows, rounds, root, tables):
    """Measures the rows, with texts of their seed, and returns a list of `Measured`."""
    corpus.write(folder, rows, tables)
    words = [program, os.path.join(folder, "plan"), str(rounds), *([root] if root else [])]
    say(" ".join(words))
    ran = subprocess.run(words, stdout=subprocess.PIPE, text=True, check=False)
    lines = ran.stdout.splitlines()
    counts = [len(corpus.passes(row)) for row in rows]
    if ran.returncode != 0 or len(lines) != sum(counts):
        sys.exit(f"bench: {program} ended with status {ran.returncode}")
    left = iter(lines)
    return [Measured(row, list(itertools.islice(left, count))) for row, count in zip(rows, counts)]


def print_line(cells):
    print(f"| {' | '.join(map(str, cells))} |")


def print_table(first, second):
    """The rows of one seed, with the ratio of another one where there is one."""
    columns = ["Measured", "Texts", "At most", "ICU4C, ns", "library, ns", "ratio", "limit"]
    print_line(columns + (["other seed"] if second else []))
    print("|---" * (len(columns) + bool(second)) + "|")
    for number, it in enumerate(first):
        print_line(it.cells() + ([f"{second[number].ratio():,.2f}"] if second else []))


def differ(first, second):
    """Whether one ratio is more than a tenth above the other."""
    return max(first.ratio(), second.ratio()) > 1.1 * min(first.ratio(), second.ratio())


def say_worst(found):
    """Says the ten greatest ratios, and how large half of them are at most, of those that have a peer."""
    found = sorted((it for it in found if not isinstance(it.row.limit, str)), key=Measured.ratio)
    for it in found[:-11:-1]:
        say(f"{it.ratio():.2f}: {it.row.operation}, {it.row.name} (at most {it.row.limit})")
    if found:
        shares = [f"{sum(it.ratio() > limit for it in found) / len(found):.1%} above {limit}" for limit in (1.0, 0.7)]
        say(f"median {statistics.median(it.ratio() for it in found):.2f}, {', '.join(shares)}")


def processor():
    with open("/proc/cpuinfo", encoding="utf-8") as it:
        names = [line.partition(":")[2].strip() for line in it if line.startswith("model name")]
    return names[0] if names else "unknown"


def asked():
    parser = argparse.ArgumentParser(usage=__doc__.partition("usage: ")[2])
    parser.add_argument("--group", nargs="+")
    parser.add_argument("--list", action="store_true")
    parser.add_argument("--rounds", type=int, default=100)
    parser.add_argument("--seed", type=int, default=1)
    parser.add_argument("--both-seeds", action="store_true")
    tables = parser.add_mutually_exclusive_group()
    tables.add_argument("--root", default=ROOT)
    tables.add_argument("--mini", action="store_true")
    parser.add_argument("--folder", default=os.path.join(CACHE, "collation-bench"))
    parser.add_argument("--program")
    parser.add_argument("--jobs")
    parser.add_argument("--shift", type=int, default=0)
    parser.add_argument("--built", action="store_true")
    return parser.parse_args()


def chosen(words, seed):
    """The rows that are asked for, with texts of a seed."""
    rows = list(corpus.rows(seed))
    groups = list(dict.fromkeys(row.group for row in rows))
    unknown = [it for it in words.group or [] if it not in groups]
    if unknown:
        sys.exit(f"bench: there is no group {', '.join(unknown)}: the groups are {', '.join(groups)}")
    return [row for row in rows if (not words.group or row.group in words.group) and (not words.mini or row.group in corpus.MINI_GROUPS)]


def print_list(rows):
    for row in rows:
        print(f"{row.group}: {row.operation}, {row.name} (at most {row.limit})")


def program_of(words, folder):
    """The program that measures, built where that is asked for."""
    program = os.path.join(folder, building.NAME)
    if not words.built:
        building.build(program, folder, words.jobs, words.shift)
    elif not os.path.exists(program):
        sys.exit(f"bench: there is no program {program}: run without --built first")
    return program


def tables_of_languages(words, rows, folder):
    """The table files of the languages that the rows need."""
    needed = corpus.languages(rows)
    program = (words.program or building.proved_program()) if needed else None
    return {it: building.tables_of(program, it, building.CLDR, folder) for it in needed}


def main():
    words = asked()
    rows = chosen(words, words.seed)
    if words.list:
        return print_list(rows)
    building.want_commands()
    if not words.mini and not os.path.exists(words.root):
        sys.exit(f"bench: there is no file {words.root}: install the package unicode-cldr-core, or run with --mini")
    folder = os.path.abspath(words.folder)
    os.makedirs(folder, exist_ok=True)
    program = program_of(words, folder)
    root = None if words.mini else words.root
    tables = tables_of_languages(words, rows, folder)
    first = measured(program, os.path.join(folder, "texts"), rows, words.rounds, root, tables)
    second = []
    if words.both_seeds:
        second = measured(program, os.path.join(folder, "other-texts"), chosen(words, words.seed + 1), words.rounds, root, tables)
    say_worst(first)
    print_table(first, second)
    for it, other in zip(first, second):
        if differ(it, other):
            say(f"{it.row.operation}, {it.row.name}: {it.ratio():.2f} by one seed, {other.ratio():.2f} by the other")
    for it in first + second:
        for line in it.complaints():
            say(line)
    above = [it for it in first if it.is_above_limit()]
    say(f"{len(first)} rows, {len(above)} above their limit, {sum(it.ratio() > 1 for it in first)} above 1")
    say(f"{processor()}; ICU4C {building.peer_version()}; {words.rounds} rounds, seed {words.seed}, shift {words.shift}")
    return 1 if any(it.is_wrong() for it in first + second) else 0


if __name__ == "__main__":
    sys.exit(main())
