#!/usr/bin/env python3
"""Times SQLite with the extension of bindings/sqlite beside SQLite with ICU4C (sqlite_icu.c) and beside its own order by bytes.

usage: bench/sqlite_sorts.py [--names N] [--locale LOCALE] [--rounds N] [--seed N] [--folder FOLDER] [--program FILE] [--extension FILE]

--names N         how many names the table has (100000)
--locale LOCALE   the language (sv)
--rounds N        how often each query is run; the least time counts (5)
--seed N          the seed of the names (1)
--folder FOLDER   where table files and programs are kept (collation-bench in the user's cache)
--program FILE    a program `collate-cldr` that was built elsewhere, in place of the proved one: it compiles the table file
--extension FILE  a collate_sqlite.so in place of the one that bin/c-library makes

Prints a table: seconds of processor of each query and its peer, as `sqlite3` times them, and their ratio with what is wanted. Names are
read once before, and the table has another column. Status 1: the orders differ.
"""
import argparse
import os
import re
import shlex
import subprocess
import sys

import building
import corpus
import run
from building import say

KINDS = ("ASCII names", "twelve scripts")
PAGES = "SELECT count(*) FROM places AS p WHERE (SELECT group_concat(id) FROM (SELECT id FROM names INDEXED BY {} LIMIT 20)) > ''"
# What is timed, each query beside its peer, and the greatest ratio that is wanted.
ROWS = [
    ("`ORDER BY name COLLATE`, beside ICU4C", "SELECT id, name, more FROM names ORDER BY name COLLATE {locale}",
     "SELECT id, name, more FROM names ORDER BY name COLLATE icu", 0.5),
    ("an index of the collation made, beside ICU4C", "CREATE INDEX one ON names(name COLLATE {locale}); DROP INDEX one",
     "CREATE INDEX one ON names(name COLLATE icu); DROP INDEX one", None),
    ("by an index on keys, beside one on names by bytes", "SELECT id, name, more FROM names INDEXED BY by_key ORDER BY {key}",
     "SELECT id, name, more FROM names INDEXED BY by_name ORDER BY name", 1.0),
    ("1,000 pages of 20 names by the first, beside the second", PAGES.format("by_key WHERE {key} > p.key ORDER BY {key}"),
     PAGES.format("by_name WHERE name > p.name ORDER BY name"), None),
]


def asked():
    parser = argparse.ArgumentParser(usage=__doc__.partition("usage: ")[2])
    parser.add_argument("--names", type=int, default=100_000)
    parser.add_argument("--locale", default="sv")
    run.add_common_words(parser, 5)
    parser.add_argument("--extension")
    return parser.parse_args()


class Shell:
    """A program `sqlite3` over a file of a table, which both extensions are loaded into."""

    def __init__(self, words, folder, extension, peer):
        self.file, self.locale = os.path.join(folder, "names.db"), words.locale
        self.key = f"collate_key(name, '{words.locale}')"
        self.head = f".load {extension}\n.load {peer}\n.output /dev/null\nSELECT icu_load('{words.locale}');\n.timer on\n"
        self.env = {**os.environ, "COLLATE_TABLES": folder}

    def said(self, text):
        ran = subprocess.run(["sqlite3", self.file], input=text, env=self.env, capture_output=True, text=True, check=False)
        if ran.returncode or ran.stderr:
            sys.exit(f"bench: sqlite3: {ran.stderr}")
        return ran.stdout

    def fill(self, names):
        if os.path.exists(self.file):
            os.remove(self.file)
        quoted = ",".join("('" + it.replace("'", "''") + "')" for it in names)
        self.said(f"{self.head}CREATE TABLE names(id INTEGER PRIMARY KEY, name TEXT, more TEXT DEFAULT 'more');\n"
                  f"INSERT INTO names(name) VALUES {quoted};\nCREATE INDEX by_key ON names({self.key});\nCREATE INDEX by_name ON names(name);\n"
                  f"CREATE TABLE places AS SELECT name, {self.key} AS key FROM names LIMIT 1000;\n")

    def seconds(self, query):
        """The processor time of a query, whose rows are read and not printed."""
        asked = query.format(locale=self.locale, key=self.key)
        said = self.said(f"{self.head}PRAGMA cache_size = -400000;\nSELECT sum(length(name) + length(more)) FROM names;\n{asked};\n")
        times = re.findall(r"user ([0-9.]+) sys ([0-9.]+)", said)
        return sum(float(it) for pair in times[2:] for it in pair)

    def order(self, collation):
        head = self.head.replace(".output /dev/null\n", "").replace(".timer on\n", "")
        return self.said(f"{head}SELECT id FROM names ORDER BY name COLLATE {collation}, id;\n")


def built(words, folder):
    """The table file, the extension and its peer."""
    tables = building.tables_of(words.program or building.proved_program(), words.locale, building.CLDR, folder)
    os.replace(tables, os.path.join(folder, f"{words.locale}.table"))
    if not words.extension:
        building.run([os.path.join(building.TOP, "bin", "c-library")])
    peer = os.path.join(folder, "sqlite_icu.so")
    flags = shlex.split(building.output(["pkg-config", "--cflags", "--libs", "icu-i18n", "icu-uc"]))
    building.run(["cc", "-O2", "-Wall", "-shared", "-fPIC", "-o", peer, os.path.join(building.HERE, "sqlite_icu.c"), *flags])
    return os.path.abspath(words.extension or os.path.join(building.TOP, "out", "c-library", "collate_sqlite.so")), peer


def main():
    words = asked()
    folder = os.path.abspath(words.folder)
    os.makedirs(folder, exist_ok=True)
    shell = Shell(words, folder, *built(words, folder))
    run.print_line(["Names", "Query", "seconds", "its peer's", "ratio", "at most"])
    print("|---" * 6 + "|")
    status = 0
    for kind in KINDS:
        shell.fill(corpus.Lists(words.seed).many(kind, words.names))
        for name, query, peer, limit in ROWS:
            costs = [(shell.seconds(query), shell.seconds(peer)) for _ in range(words.rounds)]
            ours, theirs = map(min, zip(*costs))
            run.print_line([kind, name, f"{ours:.3f}", f"{theirs:.3f}", f"{ours / theirs:.2f}", limit or "-"])
        if shell.order(words.locale) != shell.order("icu"):
            say(f"{kind}: not in ICU4C's order")
            status = 1
    say(f"{run.processor()}; SQLite {building.output(['sqlite3', '--version']).split()[0]}; ICU4C {building.peer_version()}")
    return status


if __name__ == "__main__":
    sys.exit(main())
