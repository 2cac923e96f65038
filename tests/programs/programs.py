#!/usr/bin/env python3
"""Runs the built programs and looks at what proofs do not speak of: the rows that the driver answers (rows.py), hostile input
(hostile.py), refused memory (refusals.py), an index whose program is stopped at each write (index_program.py), and of `collate` and
`collate-cldr` the status that each ends with, what goes to which stream, and what becomes of a request that the system refuses. It
also runs the tests in Rattle (rattle_tests.py), which it compiles itself.

usage: tests/programs/programs.py      after `rt ci`, which builds the programs (bin/test does both)

Each memory request, read and write of a run is refused in turn, by the library refuse.c, which is preloaded. Where one is
refused, a program says so, or asks again and gives the right answer; anything else is a fault. The last line is
`N passed, M failed`. It needs `cc`, a C compiler.
"""
import os
import shutil
import subprocess
import sys
import tempfile

sys.path[:0] = [it.path for it in os.scandir(os.path.dirname(os.path.dirname(os.path.realpath(__file__)))) if it.is_dir()]
import sweeps
from c_library import check_c_library
from calls import check_calls
from cldr_program import check_collate_cldr, cut_lines, letter_lines, wrong_cuts
from examples import check_examples
from first_run import check_first_run
from held_memory import check_memory
from hostile import check_hostile
from index_program import check_collate_index
from installed import check_installed
from long_orders import check_long_orders
from long_sorts import check_long_sorts
from names_program import check_sort_names
from rattle_tests import check_rattle_tests
from reads import check_reads
from refusals import check_refusals, driver_is_right, other_answers_missed
from rows import check_rows
from settings_pairs import check_settings
from slow_searches import check_slow_searches
from sweeps import REQUESTS, TESTS, Run, built, faults_of, losses_missed, run, run_on_streams, says_refusals, sweep, wrapped, wrong_over
from timed_files import check_files
from vendored import check_vendor

USAGE = b"usage: collate compare STRENGTH A B | collate key STRENGTH TEXT | collate sort STRENGTH\n"
collate_is_right = says_refusals("collate", b"collate: read failed\n")


# ---- what the program `collate` does


A_LONG, B_LONG = "a" * 10_000, "a" * 9_999 + "b"
MARKS = "é" * 5_000 + "\u4E00" * 5_000

# The words of a run, and the status, output and faults that are wanted.
COMPARED = [
    ("3", "ab", "aB", "<"),
    ("3", "aB", "ab", ">"),
    ("1", "as", "às", "="),
    ("1", "às", "at", "<"),
    ("2", "Ao", "aò", "<"),
    ("2", "A", "\u24B6", "="),
    ("3", "A", "\u24B6", "<"),
    ("3", "", "", "="),
    ("1", "", "a", "<"),
    ("3", "di Silva", "Di Silva", "<"),
    ("3", "Di Silva", "diSilva", "<"),
    ("3", "diSilva", "U.S.A.", "<"),
    ("3", "U.S.A.", "USA", "<"),
    ("3", "á", "a\u0301", "="),
    ("3", "\uAC01", "\u1100\u1161\u11A8", "="),
    ("3", "á\u0F73", "a\u0F71\u0F72\u0301", "="),
    ("4", "A", "\u24B6", "<"),
    ("4", "a", "a\uFFFE", "<"),
    ("i", "\uFFFE", "a", "<"),
    ("i", "á", "a\u0301", "="),
]
KEYS = [
    ("3", "ab", b"61 10 14 01 06 01 01 06 01\n"),
    ("i", "a", b"61 10 01 05 01 01 05 01 01 01 01 92\n"),
    ("1", "", b"\n"),
]
WRONG_WORDS = [
    [],
    ["compare"],
    ["compare", "3", "ab"],
    ["compare", "3", "ab", "aB", "x"],
    ["compare", "0", "ab", "aB"],
    ["compare", "5", "ab", "aB"],
    ["compare", "I", "ab", "aB"],
    ["compare", "33", "ab", "aB"],
    ["Compare", "3", "ab", "aB"],
    ["order", "3", "ab", "aB"],
    ["key", "3"],
    ["key", "3", "ab", "aB"],
    ["key", "6", "ab"],
    ["keys", "3", "ab"],
    ["sort"],
    ["sort", "5"],
    ["sort", "3", "ab"],
]
COLLATE_RUNS = [
    *((["compare", *words], 0, f"{sign}\n".encode(), b"") for *words, sign in COMPARED),
    *((["key", *words], 0, line, b"") for *words, line in KEYS),
    (["sort", "3"], 0, b"", b""),
    *((words, 2, b"", USAGE) for words in WRONG_WORDS),
]
# An argument that isn't UTF-8 is a wrong word, wherever it stands.
DAMAGED_RUNS = [
    ([b"\xff", b"3", b"ab", b"aB"], 2, b"", USAGE),
    ([b"compare", b"\xc3", b"ab", b"aB"], 2, b"", USAGE),
    ([b"compare", b"3", b"a\xf0\x90", b"aB"], 2, b"", USAGE),
    ([b"compare", b"3", b"ab", b"\xed\xa0\x80"], 2, b"", USAGE),
    ([b"key", b"3", b"a\xff"], 2, b"", USAGE),
]
LONG_RUNS = [
    (["compare", "3", A_LONG, B_LONG], 0, b"<\n", b""),
    (["compare", "3", B_LONG, A_LONG], 0, b">\n", b""),
    (["compare", "3", MARKS, MARKS.replace("é", "e\u0301")], 0, b"=\n", b""),
    (["compare", "2", A_LONG + "A", A_LONG + "a"], 0, b"=\n", b""),
    (["key", "1", A_LONG], 0, b"61" + 10_000 * b" 10" + b"\n", b""),
]
# The words of a sort, its input, and the status, output and faults that are wanted. Bytes that aren't UTF-8 are U+FFFD in
# the order, and are printed as they came.
SORT, LINES = ["sort", "3"], b"b\nA\na\n"
SORT_RUNS = [
    (SORT, LINES, 0, b"a\nA\nb\n", b""),
    (SORT, b"b\nA\na", 0, b"a\nA\nb\n", b""),
    (SORT, b"", 0, b"", b""),
    (SORT, b"\n", 0, b"\n", b""),
    (SORT, b"b\n\na\n\n", 0, b"\n\na\nb\n", b""),
    (["sort", "1"], "b\ná\nA\na\n".encode(), 0, "á\nA\na\nb\n".encode(), b""),
    (SORT, b"b\n\xff\na\n", 0, b"a\nb\n\xff\n", b""),
    (SORT, b"b\n" * 20_000 + b"a\n" * 20_000, 0, b"a\n" * 20_000 + b"b\n" * 20_000, b""),
]
# The words, where the streams go, and what is wanted. What goes to a full device or a closed stream is lost.
RIGHT, WRONG, KEY = ["compare", "3", "ab", "aB"], ["compare", "3"], ["key", "3", "ab"]
FAILED = b"collate: write failed\n"
STREAM_RUNS = [
    (RIGHT, "<&-", 0, b"<\n", b""),
    (RIGHT, ">/dev/full", 1, b"", FAILED),
    (RIGHT, ">&-", 1, b"", FAILED),
    (RIGHT, ">/dev/full 2>/dev/full", 1, b"", b""),
    (RIGHT, ">&- 2>&-", 1, b"", b""),
    (RIGHT, "2>&-", 0, b"<\n", b""),
    (KEY, "<&-", 0, b"61 10 14 01 06 01 01 06 01\n", b""),
    (KEY, ">/dev/full", 1, b"", FAILED),
    (KEY, ">&-", 1, b"", FAILED),
    (SORT, "<&-", 1, b"", b"collate: read failed\n"),
    (SORT, "</", 1, b"", b"collate: read failed\n"),
    (WRONG, "2>/dev/full", 2, b"", b""),
    (WRONG, "2>&-", 2, b"", b""),
    (WRONG, ">&-", 2, b"", USAGE),
]


RUNS = {"words": COLLATE_RUNS, "arguments that aren't UTF-8": DAMAGED_RUNS, "long texts": LONG_RUNS}


def wrong_runs(program, runs):
    """The runs that came to something else than is wanted, as lines."""
    found = []
    for words, *wanted in runs:
        ran = run(program, words)
        if ran.came_to() != tuple(wanted):
            brief = [it if len(it) < 40 else f"({len(it)} characters)" for it in words]
            found.append(f"{brief}: {ran}; wanted: {Run(*wanted, None)}")
    return found


def wrong_streams(program, runs):
    found = []
    for words, redirections, *wanted in runs:
        ran = run_on_streams(program, words, redirections)
        if ran.came_to() != tuple(wanted):
            found.append(f"{words} {redirections}: {ran}; wanted: {Run(*wanted, None)}")
    return found


# ---- that the checks can fail: programs with a fault, each of which must be found

# How many runs a program comes to that makes one request of each kind: alone and with all after it, by a signal, by one byte, and
# by a stream that isn't ready.
CARELESS_RUNS = 3 * 2 + 2 * 3 + 2
# Shell scripts around the true program, and which of the runs above must find each.
FAULTY = [
    ("status 0 whatever happens", '"$COLLATE" "$@"; exit 0', "words"),
    ("faults on standard output", 'exec "$COLLATE" "$@" 2>&1', "words"),
    ("an argument that isn't UTF-8 called out of memory",
     '"$COLLATE" "$@" 2>/dev/null && exit; echo "collate: no memory" >&2; exit 1', "arguments that aren't UTF-8"),
    ("giving up on a long input",
     'for word; do if [ ${#word} -gt 5000 ]; then echo "collate: no memory" >&2; exit 1; fi; done; exec "$COLLATE" "$@"',
     "long texts"),
    ("an output that is lost and not missed",
     'line=$("$COLLATE" "$@"); status=$?; [ -z "$line" ] || echo "$line" 2>/dev/null; exit $status', "streams"),
]


def wrong_by_runs(program):
    """What is wrong with a program, by the runs that show it."""
    found = {what: wrong_runs(program, runs) for what, runs in RUNS.items()}
    found["streams"] = wrong_streams(program, STREAM_RUNS)
    return found


def faults_missed(room, program):
    """The faulty programs that the runs of `collate` let through, and what they find wrong with a script that has no fault."""
    sound = wrong_by_runs(wrapped(room, "sound", program, 'exec "$COLLATE" "$@"'))
    missed = [f"found wrong: {it}" for wrong in sound.values() for it in wrong]
    for at, (what, text, runs) in enumerate(FAULTY):
        if not wrong_by_runs(wrapped(room, f"faulty{at}", program, text))[runs]:
            missed.append(f"not found: {what}")
    return missed


def refusals_missed(shim, careless):
    """The kinds of refusal of which a program that looks at none is not found."""
    outcomes = sweep(shim, careless, [], b"b\na\n", REQUESTS, collate_is_right)
    outcomes += sweep(shim, careless, [], b"b\na\n", ["allocation"], driver_is_right)
    return [f"not found: {it.refused}" for it in outcomes if not it.fault] + ["too few"] * (len(outcomes) < CARELESS_RUNS)


# A script that never ends, as what it waits for doesn't, and how many seconds it is given.
ENDLESS, BRIEFLY = '"$COLLATE" 600; exit 0', 0.2
# Checks that such a program may neither pass nor end by a fault of their own.
ENDLESS_CHECKS = {
    "runs": lambda _, endless: wrong_runs(endless, COLLATE_RUNS[:1]),
    "sorts": lambda _, endless: wrong_over(endless, SORT_RUNS[:1]),
    "streams": lambda _, endless: wrong_streams(endless, STREAM_RUNS[:1]),
    "refused requests": lambda shim, endless: faults_of(sweep(shim, endless, [], b"", REQUESTS, collate_is_right)),
    "losses": lambda shim, endless: losses_missed([], run(endless, [], shim=shim), collate_is_right),
    "other answers": lambda shim, endless: other_answers_missed(shim, endless),
    "cut files": lambda _, endless: wrong_cuts(endless, os.path.dirname(endless), cut_lines(letter_lines())[:1]),
}


def endless_passed(shim, endless):
    """The checks that a program which never ends passes, and those that end early by it."""
    found, kept = [], sweeps.SECONDS
    sweeps.SECONDS = BRIEFLY
    for what, check in ENDLESS_CHECKS.items():
        try:
            found += [f"not found: {what}"] * (not check(shim, endless))
        except Exception as fault:
            found.append(f"{what}: {fault!r}")
    sweeps.SECONDS = kept
    return found


# ---- the run of all checks


class Report:
    """Says of each check how it went, and counts them."""

    def __init__(self):
        self.passed, self.failed = 0, 0

    def say(self, what, faults, runs):
        self.passed, self.failed = self.passed + (not faults), self.failed + bool(faults)
        print(f"{'ok    ' if not faults else 'FAILED'} {what} ({runs} runs)", flush=True)
        for it in faults[:12]:
            print(f"       {it}", flush=True)
        if len(faults) > 12:
            print(f"       and {len(faults) - 12} more", flush=True)

    def also(self, what, check, *given):
        """Makes some checks. What ends them early counts as failed, as a run of the driver without an answer for each question, and
        the checks after them are made."""
        try:
            check(self, *given)
        except Exception as fault:
            self.say(f"{what}: ended early", [f"{type(fault).__name__}: {fault}"], 1)

    def end(self):
        print(f"{self.passed} passed, {self.failed} failed")
        return 1 if self.failed else 0


class Counted(Report):
    """Counts checks alone."""

    def say(self, what, faults, runs):
        self.passed, self.failed = self.passed + (not faults), self.failed + bool(faults)


def early_ends_missed():
    """What is wrong where a check ends early: it counts as failed, and those after it are made."""
    counted = Counted()
    counted.also("a number that isn't there", lambda _: {}["allocation"])
    counted.also("a check after it", lambda report: report.say("", [], 1))
    return [] if (counted.passed, counted.failed) == (1, 1) else [f"{counted.passed} passed, {counted.failed} failed"]


def compiled(room, name, *options):
    to = os.path.join(room, name)
    subprocess.run(["cc", "-O1", *options, "-o", to, os.path.join(TESTS, "programs", f"{name}.c")], check=True)
    return to


def check_collate(report, room, shim):
    program = built("collate")
    for what, wanted in RUNS.items():
        report.say(f"collate: {what}", wrong_runs(program, wanted), len(wanted))
    report.say("collate: sorts", wrong_over(program, SORT_RUNS), len(SORT_RUNS))
    report.say("collate: closed and full streams", wrong_streams(program, STREAM_RUNS), len(STREAM_RUNS))
    report.say("collate: programs with a fault are found", faults_missed(room, program), len(FAULTY))
    for what, words, given, requests in [
        ("an answer", RIGHT, b"", REQUESTS),
        ("a key", KEY, b"", REQUESTS),
        ("wrong words", WRONG, b"", REQUESTS),
        ("long texts", LONG_RUNS[0][0], b"", REQUESTS),
        ("the key of a long text", LONG_RUNS[-1][0], b"", REQUESTS),
        ("a sort", SORT, LINES, REQUESTS),
        ("a sort of many lines", SORT, SORT_RUNS[-1][1], ["read", "write"]),
    ]:
        outcomes = sweep(shim, program, words, given, requests, collate_is_right)
        report.say(f"collate: each request refused, {what}", faults_of(outcomes), len(outcomes))
    missed = losses_missed(outcomes, run(program, words, given, shim=shim), collate_is_right)
    report.say("collate: a sort that ends where a request is refused is found", missed, len(outcomes))
    check_long_sorts(report, room, program)


def missing_programs():
    """The programs that the checks run and that aren't there. The driver is built by both compilers."""
    paths = [built(it) for it in ("collate", "collate_cldr", "collate_index", "sort_names")] + drivers()
    return [os.path.basename(it) for it in paths if not os.access(it, os.X_OK)]


def drivers():
    """The driver as LLVM built it, and as Rattle's own compiler did."""
    return [built("test_driver"), f"{built('test_driver')}.by-rattle"]


def check_faults(report, room, shim):
    """Checks that programs which do wrong whatever is asked of them are found."""
    missed = refusals_missed(shim, compiled(room, "careless"))
    report.say("a program that looks at no refusal is found", missed, CARELESS_RUNS)
    passed = endless_passed(shim, wrapped(room, "endless", "sleep", ENDLESS))
    report.say("a program that never ends is found", passed, len(ENDLESS_CHECKS))
    report.say("a check that ends early is found", early_ends_missed(), 2)


def check_all(report, room):
    shim = compiled(room, "refuse", "-shared", "-fPIC")
    report.also("programs that do wrong", check_faults, room, shim)
    report.also("the first run of a program", check_first_run)
    report.also("copies of crates", check_vendor)
    report.also("pages", check_examples)
    report.also("collate", check_collate, room, shim)
    report.also("collate-cldr", check_collate_cldr, room, shim)
    report.also("searches that are made to be slow", check_slow_searches, room, built("collate_cldr"))
    report.also("the library for C", check_c_library, room, built("collate_cldr"))
    report.also("collate-index", check_collate_index, room, built("collate_index"), compiled(room, "stop", "-shared", "-fPIC"))
    report.also("sort_names", check_sort_names, shim)
    report.also("what is installed", check_installed, room)
    report.also("calls", check_calls)
    report.also("tests in Rattle", check_rattle_tests)
    report.also("rows", check_rows, drivers())
    report.also("long texts", check_long_orders, drivers()[0])
    report.also("settings", check_settings, drivers()[0])
    report.also("hostile input", check_hostile, drivers()[0])
    report.also("memory of checks", check_memory, compiled(room, "peak", "-shared", "-fPIC"), drivers()[0])
    report.also("refused memory", check_refusals, shim, drivers()[0])
    report.also("a file of CLDR", check_reads, shim, drivers()[0])
    report.also("files of CLDR's form that are made to be dear", check_files, drivers()[0])


def main():
    report = Report()
    if not shutil.which("cc"):
        print("tests/programs/programs.py: the C compiler 'cc' is not on the PATH")
        report.failed += 1
        return report.end()
    missing = missing_programs()
    if missing:
        print(f"tests/programs/programs.py: not built: {', '.join(missing)}; 'rt ci' builds them")
        report.failed += len(missing)
        return report.end()
    with tempfile.TemporaryDirectory(prefix="collate-tests-") as room:
        report.also("the programs", check_all, room)
    return report.end()


if __name__ == "__main__":
    sys.exit(main())
