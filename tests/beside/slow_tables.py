#!/usr/bin/env python3
"""Searches for tables whose check is slow: random ones that are made to be slow, of which the slowest are kept and changed.

usage: tests/beside/slow_tables.py [PROGRAM [MINUTES [SEED ..]]]    prints each set of tables that is slower than those before, by how many
                                                             times as long as Mini's its check takes for each number that is stored

It is no part of the gate. Each seed makes the same tables where the machine is as fast. PROGRAM is the driver (test_driver).
"""
import os
import random
import sys
import time

sys.path[:0] = [it.path for it in os.scandir(os.path.dirname(os.path.dirname(os.path.realpath(__file__)))) if it.is_dir()]
from driver import Driver, DriverFault
from hostile_tables import COUNTED_ELEMENT, COUNTED_ENTRY, LISTED, MAPPED, PREFIXED, Builder, unlike_elements, unlike_entry
from timed_tables import Check, TimedTables

TOP = os.path.dirname(os.path.dirname(os.path.dirname(os.path.realpath(__file__))))
PROGRAM = os.path.join(TOP, "crates", "test_driver", "out", "test_driver")
# How many sets are kept, how many minutes a seed takes, and how long one check may take: one that is cut off is the slowest.
KEPT, MINUTES, SEEDS, SECONDS = 8, 2, (1, 2, 3), 60
# How many rows all contexts of a set have at most, how many values name something, and how many entries a context has beside those.
ROWS, VALUES, BESIDE = 20_000, 20_000, 24
IMPLICIT, LIST_LENGTH, LISTS = 0xCF, 31, 8


def any_entry(dice):
    """What an entry is: a kind, and a number that tells those of a kind apart."""
    kind = dice.choice(("implicit", "counted", "counted", "list", "context", "context", "plain"))
    return kind, dice.randrange(32)


def any_context(dice):
    """A context: whether it is a prefix, how many plain rows it has, what other rows it has, and how many contexts are left out
    before it."""
    beside = [any_entry(dice) for _ in range(dice.choice((0, 1, 2, 12, 17)))]
    return [dice.random() < 0.3, dice.choice((0, 1, 100, 1_000, 3_000)), beside, dice.choice((0, 0, 1, 1_023))]


def any_tables(dice):
    """A set of tables: what all other characters have, the contexts, how many values name which entry, each how far from the one
    before, lead bytes that are counted from, whether the root is the tailoring too, and a reordering's lead byte and ranges."""
    return {
        "others": any_entry(dice),
        "contexts": [any_context(dice) for _ in range(dice.choice((1, 1, 2, 4)))],
        "values": [any_values(dice) for _ in range(dice.choice((0, 1, 2)))],
        "leads": dice.randrange(0x08, 0xC8),
        "tailored": dice.random() < 0.2,
        "reordering": any_reordering(dice),
    }


def any_values(dice):
    return [any_entry(dice), dice.choice((1, 64, 1_000, 6_400)), dice.choice((1, 1, 7, 64)), dice.randrange(32)]


def any_reordering(dice):
    if dice.random() < 0.5:
        return None
    return [dice.choice((0x30, 0x31, 0x61, 0xA0, 0xFE)), dice.choice((0, 1, 100, 10_000)), dice.choice((0, 2, 0x60, 0x90, 0xFF))]


def changed(dice, tables):
    """The tables with one of their parts made anew, or another size."""
    tables = dict(tables)
    part = dice.choice(sorted(tables))
    if part in ("contexts", "values") and tables[part] and dice.random() < 0.7:
        tables[part] = [list(it) for it in tables[part]]
        resize(dice, dice.choice(tables[part]))
    else:
        tables[part] = any_tables(dice)[part]
    return tables


def resize(dice, item):
    """Another size, or other rows, for a context or some values."""
    place = dice.choice([at for at, it in enumerate(item) if isinstance(it, (int, list)) and not isinstance(it, bool)])
    if isinstance(item[place], list):
        item[place] = item[place] + [any_entry(dice)] if len(item[place]) < BESIDE else item[place][1:]
    else:
        item[place] = min(max(1, int(item[place] * dice.choice((0.5, 2, 4)))), ROWS)


class Made:
    """The builder of a set of tables, whose entries are made in turn."""

    def __init__(self, tables):
        self.builder, self.named, self.rows, self.tables = Builder(IMPLICIT), [], ROWS, tables
        leads = [(tables["leads"] + 7 * number) % 0xC0 + 8 << 56 for number in range(32)]
        self.builder.ces = [lead | COUNTED_ELEMENT for lead in leads] + unlike_elements(LIST_LENGTH * LISTS)
        for context in tables["contexts"]:
            self.add_context(*context)
        self.builder.entries = [self.entry(tables["others"])] * len(self.builder.entries)
        self.code = 0x4000
        for values in tables["values"]:
            self.add_values(*values)

    def entry(self, what):
        kind, number = what
        if kind == "context" and self.named:
            return self.named[number % len(self.named)]
        entries = {"counted": number << 13 | COUNTED_ENTRY, "list": LISTED | 32 + number % LISTS * LIST_LENGTH << 13}
        return entries.get(kind, unlike_entry(0x31, number) if kind == "plain" else IMPLICIT)

    def add_context(self, is_prefix, rows, beside, gap):
        for _ in range(gap):
            self.builder.add_context(unlike_entry(0x31, 0), [])
        rows = min(rows, self.rows)
        self.rows -= rows
        default, *others = [self.entry(it) for it in beside] or [unlike_entry(0x31, 1)]
        mappings = [([0x20000 + number], unlike_entry(0x30, number)) for number in range(rows)]
        mappings += [([0x30000 + number], entry) for number, entry in enumerate(others)]
        self.named.append(self.builder.add_context(default, mappings) << 13 | (PREFIXED if is_prefix else MAPPED))

    def add_values(self, what, count, step, hints):
        entry = self.entry(what)
        for number in range(min(count, VALUES)):
            spelled = entry | number % (1 + hints) << 8 if what[0] == "context" else entry
            self.builder.set_entry(self.code, spelled)
            self.code = min(self.code + step, 0x10_0000)

    def reordering(self):
        if not self.tables["reordering"]:
            return []
        lead, count, other = self.tables["reordering"]
        leads = [0 if it == lead and other == 0 else other if it == lead else it for it in range(256)]
        ranges = [0x0300_0001 + number * 0x10000 for number in range(count)]
        lists = {"leads": leads, "ranges": ranges, "limit": [(lead << 24 | 0x80_0000) & 0xFFFF_FFFF]}
        return [f"set reordering.{name} {' '.join(f'{it:X}' for it in numbers)}".rstrip() for name, numbers in lists.items()]

    def timed(self):
        """These tables, to be timed."""
        made = TimedTables("", "Mini", self.builder, self.builder if self.tables["tailored"] else None)
        made.made += self.reordering()
        return made


def slowness(driver, mini, tables):
    """How many times as long as Mini's the check takes for each number, how long it takes, and what it answers."""
    try:
        check = Check(driver, Made(tables).timed(), 2)
    except DriverFault as fault:
        return float("inf"), SECONDS, str(fault)[:60]
    answer = check.faults[0].partition(": ")[2] if check.faults else "ok"
    return check.for_each() / mini.for_each(), check.seconds, answer


def search(driver, mini, seed, seconds):
    """The slowest tables of a seed, as many as are kept, with what is known of each."""
    dice, kept, ends = random.Random(seed), [], time.monotonic() + seconds
    while time.monotonic() < ends:
        fresh = len(kept) < KEPT or dice.random() < 0.2
        tables = any_tables(dice) if fresh else changed(dice, dice.choice(kept)[1])
        found = slowness(driver, mini, tables)
        if len(kept) < KEPT or found > kept[-1][0]:
            if not kept or found > kept[0][0]:
                print(f"  {found[0]:.0f} times Mini's for each number, {found[1]:.3f} s, {found[2]}: {tables}", flush=True)
            kept = sorted([*kept, (found, tables)], key=lambda it: it[0], reverse=True)[:KEPT]
    return kept


def main(words):
    driver = Driver(words[0] if words else PROGRAM, SECONDS)
    minutes, seeds = float(words[1]) if len(words) > 1 else MINUTES, [int(it) for it in words[2:]] or SEEDS
    mini = Check(driver, TimedTables("mini", "Mini"), 60)
    print(mini)
    for seed in seeds:
        print(f"seed {seed}", flush=True)
        search(driver, mini, seed, 60 * minutes)


if __name__ == "__main__":
    main(sys.argv[1:])
