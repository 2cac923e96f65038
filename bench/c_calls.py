#!/usr/bin/env python3
"""Times comparisons and sort keys by the library for C beside ICU4C: the rows of the bench that have such, by table files.

usage: bench/c_calls.py [--group GROUP ..] [--rounds N] [--seed N] [--folder FOLDER] [--program FILE] [--library FILE]

--group GROUP ..  the rows of these groups alone
--rounds N        how often each row is measured; the least time counts (20)
--seed N          the seed of the texts (1)
--folder FOLDER   where the program, texts and table files are kept (collation-bench in the user's cache)
--program FILE    a program `collate-cldr` that was built elsewhere, in place of the proved one: it compiles the table files
--library FILE    a libcollate.a in place of the one that bin/c-library makes

Prints a table as bench/run.py does. Status 1: a text was not ordered as it should be.
"""
import argparse
import os
import shlex
import sys

import building
import corpus
import run
from building import say

OPERATIONS = ("compare", "compare UTF-16", "keys")


def asked():
    parser = argparse.ArgumentParser(usage=__doc__.partition("usage: ")[2])
    parser.add_argument("--group", nargs="+")
    run.add_common_words(parser, 20)
    parser.add_argument("--library")
    parser.set_defaults(mini=False)
    return parser.parse_args()


def library_of(words):
    if words.library:
        return os.path.abspath(words.library)
    building.run([os.path.join(building.TOP, "bin", "c-library")])
    return os.path.join(building.TOP, "out", "c-library", "libcollate.a")


def compiled(library, folder):
    program = os.path.join(folder, "c_calls")
    words = [building.COMPILER, "-std=c++20", "-O2", "-Wall", "-o", program, os.path.join(building.HERE, "c_calls.cpp"), library]
    building.run(words + shlex.split(building.output(["pkg-config", "--cflags", "--libs", "icu-i18n", "icu-uc"])))
    return program


def main():
    words = asked()
    rows = [it for it in run.chosen(words, words.seed) if it.operation in OPERATIONS]
    folder = os.path.abspath(words.folder)
    os.makedirs(folder, exist_ok=True)
    program = compiled(library_of(words), folder)
    compiler = words.program or building.proved_program()
    languages = [corpus.TERTIARY.language, *corpus.languages(rows)]
    tables = {it: building.tables_of(compiler, it, building.CLDR, folder) for it in languages}
    found = run.measured(program, os.path.join(folder, "c-texts"), rows, words.rounds, None, tables)
    run.say_worst(found)
    run.print_table(found, [])
    for it in found:
        for line in it.complaints():
            say(line)
    say(f"{len(found)} rows, {sum(it.ratio() > 1 for it in found)} above 1")
    say(f"{run.processor()}; ICU4C {building.peer_version()}; {words.rounds} rounds, seed {words.seed}")
    return 1 if any(it.is_wrong() for it in found) else 0


if __name__ == "__main__":
    sys.exit(main())
