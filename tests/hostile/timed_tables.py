"""Checks of hostile tables, which are timed: none may take more than ten times as long as Mini's for each number that is stored, or
more than so many times as long as Mini's.

The time is that of some checks more, so that reading the questions is no part of it.
"""
from driver import numbers
from hostile_tables import (DATA, GROWING, REORDERED, SIZES, of_counted_rows, of_counted_weights, of_implicit, of_listed_mappings,
                            of_lists, of_many_lists, of_mappings, of_unlike_blocks, root_like_cldr, splits_implicit,
                            tailoring_like_cldr)
from timing import RUNS, Slowed, Times, lasting_faults

# How often a check is made beyond the first time, and how many times as long as Mini's it may take for each number that its tables
# store.
CHECKS, DEARER = 60, 10
# How many times as long as Mini's the checks of some of the growing tables may take in all.
LIMITS = {"spellings-2": 25, "far-contexts-4": 35, "prefixes-4": 17, "implicit-rows-2": 17, "many-ranges-4": 45, "split-implicit-4": 25}


class TimedTables:
    """Tables whose check is timed: those of a base, with another root and perhaps a tailoring, and perhaps another reordering, and what
    the check comes to."""

    def __init__(self, name, base, root=None, tailoring=None, reordering=None, wanted="ok"):
        self.name, self.wanted = name, wanted
        self.made = [f"base {base}", *(root.questions() if root else [])]
        self.made += tailoring.questions("tailoring.") if tailoring else []
        self.made += reordering.questions() if reordering else []
        self.shown = [f"show {table}{name}" for table in ("", "tailoring.") for name in DATA] + ["show reordering.ranges"]


def refused_implicit():
    reordering = splits_implicit(4, 1)
    return TimedTables("refused-implicit", "swapped leads", of_implicit(), None, reordering, "Reordering Reordering")


# Tables that are held against Mini's by time alone, by how many times as long their checks may take: in which all characters reach
# entries that count their weights, 1.1 million for each entry, one of them beside 2,000 mappings, eleven from lead bytes in a row, or seventeen,
# more than are kept; in which 1,000 blocks have unlike entries that lead to such; 2,400 lists of 31 elements, which share their members; and a reordering that takes half of the implicit weights to a lead byte where
# none may be.
LIMITED = {
    "counted-rows": (lambda: TimedTables("counted-rows", "Mini", of_counted_rows(4)), 150),
    "counted-weights": (lambda: TimedTables("counted-weights", "Mini", of_counted_weights(range(0x44, 0x4F))), 900),
    "more-counted": (lambda: TimedTables("more-counted", "Mini", of_counted_weights(range(0x20, 0x31))), 2_000),
    "unlike-blocks": (lambda: TimedTables("unlike-blocks", "Mini", of_unlike_blocks(4)), 600),
    "many-lists": (lambda: TimedTables("many-lists", "Mini", of_many_lists(4)), 100),
    "refused-implicit": (refused_implicit, 100),
}


def stored_numbers(driver, tables):
    """How many numbers the root, the tailoring and the ranges of some tables have."""
    shown = driver.ask([*tables.made, *tables.shown])[len(tables.made) :]
    return sum(len(numbers(it)) for it in shown if it != "none") or 1


class Check:
    """How long a check of some tables takes, how many numbers their root and tailoring store, and what is wrong with what it
    comes to."""

    def __init__(self, driver, tables, times=CHECKS):
        self.tables, self.wanted, self.checks = tables.name, tables.wanted, times
        self.numbers = stored_numbers(driver, tables)
        self.times = Times(driver, *([*tables.made, f"times {count:X}", "check"] for count in (1, 1 + times)))

    def measure(self):
        self.times.measure()

    @property
    def seconds(self):
        once, more = self.times.least
        return max(more - once, 0) / self.checks

    @property
    def faults(self):
        return [f"{self.tables}: {it[-1]}" for it in self.times.answers if {*it[:-1]} != {"ok"} or it[-1] != self.wanted]

    def for_each(self):
        return self.seconds / self.numbers

    def __str__(self):
        return f"{self.tables}: {1e3 * self.seconds:.2f} ms, {self.numbers} numbers, {1e9 * self.for_each():.0f} ns for each"


def dear_tables(mini, check):
    """What is wrong with the check of hostile tables, beside Mini's."""
    allowed = DEARER * max(mini.for_each(), 2e-9)
    return check.faults + [f"{check}; {mini}"] * (check.for_each() > allowed)


def dear_checks(mini, checks):
    return [it for check in checks for it in dear_tables(mini, check)]


def growing_tables(mini, checks):
    """What is wrong with the checks of one kind of tables in sizes 1, 2 and 4: one takes long, or the time grows faster than the size."""
    faults = dear_checks(mini, checks)
    faults += [it for check in checks if check.tables in LIMITS for it in slow_tables(mini, check, LIMITS[check.tables])]
    least, greatest = checks[0], checks[-1]
    # more than twice the growth of the numbers is no other work of the machine
    allowed = 2 * least.seconds * greatest.numbers / least.numbers
    return faults + [f"grows too fast: {least}; {greatest}"] * (greatest.seconds > max(allowed, 1e-3))


def slow_tables(mini, check, times):
    """What is wrong with the check of tables that may take so many times as long as Mini's."""
    allowed = times * max(mini.seconds, 1e-4)
    return check.faults + [f"takes more than {times} of Mini's: {check}; {mini}"] * (check.seconds > allowed)


def lasting(found, mini, checks):
    return lasting_faults(lambda: found(mini, checks), [mini, *checks])


def limited_tables(mini, checks):
    """What is wrong with checks that are held against Mini's by time alone."""
    return mini.faults + [it for check in checks for it in slow_tables(mini, check, LIMITED[check.tables][1])]


def check_limited(report, driver, mini):
    """Roots whose checks are held against Mini's by time alone."""
    checks = [Check(driver, make(), CHECKS // 12) for make, _ in LIMITED.values()]
    faults = [it for check in checks for it in lasting(limited_tables, mini, [check])]
    report.say("hostile input: checks of the dearest tables take no more than so many of Mini's", faults, 2 * RUNS * len(checks))
    for check in checks:
        print(f"       {check}", flush=True)


def grown_tables(name, size):
    """The tables of one kind in one size: a reordering stands over tables that have one."""
    reordering = REORDERED[name](size) if name in REORDERED else None
    return TimedTables(f"{name}-{size}", "swapped leads" if reordering else "Mini", GROWING[name](size), None, reordering)


def grown_checks(driver, name):
    """The checks of one kind of tables in each size."""
    return [Check(driver, grown_tables(name, size), CHECKS // 6) for size in SIZES]


def check_growth(report, driver, mini):
    """Hostile tables by a generator, each in three sizes."""
    grown = [grown_checks(driver, name) for name in GROWING]
    faults = mini.faults + [it for checks in grown for it in lasting(growing_tables, mini, checks)]
    report.say("hostile input: checks take no more than in proportion to the tables", faults, 2 * RUNS * len(SIZES) * len(grown))
    for check in [it for checks in grown for it in checks]:
        print(f"       {check}", flush=True)


def check_times(report, driver):
    """Small hostile tables, whose checks are held against Mini's, and large good ones, of which the times are printed alone."""
    hostile = [
        TimedTables("lists", "Mini", of_lists()),
        TimedTables("mappings", "Mini", of_mappings(100)),
        TimedTables("listed-mappings", "Mini", of_listed_mappings()),
        TimedTables("many-mappings", "Mini", of_mappings(0x10000)),
    ]
    root = root_like_cldr()
    large = [TimedTables("root", "Mini", root), TimedTables("tailored", "swapped leads", root, tailoring_like_cldr())]
    others = [Check(driver, it, CHECKS // 6) for it in large]
    mini = Check(driver, TimedTables("mini", "Mini"), 4 * CHECKS)
    checks = [Check(driver, it) for it in hostile]
    faults = [it for check in [mini, *others] for it in check.faults]
    faults += [it for check in checks for it in lasting(dear_checks, mini, [check])]
    report.say("hostile input: checks of hostile tables take little", faults, 2 * RUNS * (1 + len(checks) + len(others)))
    for check in [mini, *checks, *others]:
        print(f"       {check}", flush=True)
    check_growth(report, driver, mini)
    check_limited(report, driver, mini)


def dear_checks_missed(driver):
    """Whether a check that takes long is let through."""
    slowed = Slowed(driver, [f"times {1 + CHECKS:X}"], 3 * DEARER)
    dear = dear_tables(Check(driver, TimedTables("mini", "Mini")), Check(slowed, TimedTables("lists", "Mini", of_lists())))
    return [] if any("ns for each" in it for it in dear) else ["not found: a check that takes long"]
