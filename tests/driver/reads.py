"""Each read refused in turn while the driver reads a file of the form of FractionalUCA.txt.

A read that fails is no end of the file, even where all its lines came before: the file is answered by `read failed`, the tables
stay as they were, and the same file is read when it is asked for again. A read that a signal interrupts, or that gives one byte,
changes nothing.
"""
import os
import tempfile

from sweeps import TOP, Outcome, Run, faults_of, is_beginning, run, sweep

LETTERS = os.path.join(TOP, "crates", "collate_cldr", "data", "letters.txt")
# Comments before the lines of the file, so that it takes several reads.
COMMENTS = 1_000 * b"# a line that says nothing\n"
FAILED = b"read failed\n"
# How many reads are of standard input: that of the questions, and that of their end. The driver makes them again.
OF_QUESTIONS = 2


def is_said(plain):
    """What the driver may say where reads of the file fail: for the first question, the second or both. The tables before the
    file, the answer of the file and its tables stand in the answers of a run without a refusal."""
    before, read, tables = plain.output.splitlines(keepends=True)[:3]
    good, failed = (read, tables), (FAILED, None)
    said = []
    for first, second in [(failed, good), (good, failed), (failed, failed)]:
        after = first[1] or before
        said.append(b"".join([before, first[0], after, second[0], second[1] or after]))
    return said


def driver_is_right(plain, refused, ran):
    """Whether the driver did right: it says that a read of the file failed, once for each that did."""
    if not refused.is_error():
        return ran.came_to() == plain.came_to()
    said = [plain.output, *is_said(plain)]
    if refused.also_after:
        return ran.status == 1 and bool(ran.faults) and any(is_beginning(ran.output, it) for it in said)
    return (ran.status, ran.faults) == (0, b"") and ran.output in said[:3]


def unnoticed(outcomes):
    """The reads of the file whose refusal the driver doesn't say, where there are as many reads as a file of many lines needs."""
    alone = [it for it in outcomes if it.refused and it.refused.how == "fail" and not it.refused.also_after]
    failed = [it for it in alone if FAILED in it.ran.output]
    if len(failed) < 8 or len(failed) != len(alone) - OF_QUESTIONS:
        return [f"{len(failed)} of {len(alone)} refused reads are said"]
    return []


def spoilt(outcomes, old, new):
    """The outcomes whose answers have one text, with another in its place."""
    some = [it for it in outcomes if it.refused and old in it.ran.output]
    runs = [Run(it.ran.status, it.ran.output.replace(old, new), it.ran.faults, it.ran.counts) for it in some]
    return [Outcome(it.refused, ran, None) for it, ran in zip(some, runs)]


def missed(plain, outcomes):
    """Faults in the answers that are not found: a failure taken for the file's end, and tables of a file that wasn't read."""
    before, _, tables = plain.output.splitlines(keepends=True)[:3]
    found = [] if unnoticed(spoilt(outcomes, FAILED, b"ok\n")) else ["not found: a failure taken for the end of the file"]
    changed = spoilt(outcomes, FAILED + before, FAILED + tables)
    if not changed or any(driver_is_right(plain, it.refused, it.ran) for it in changed):
        found.append("not found: tables that change where a file isn't read")
    return found


def check_reads(report, shim, driver):
    """Refuses each read of a run that asks for the tables, a file, the tables, and both once more."""
    with tempfile.TemporaryDirectory(prefix="reads-") as room:
        path = os.path.join(room, "letters.txt")
        with open(LETTERS, "rb") as it, open(path, "wb") as padded:
            padded.write(COMMENTS + it.read())
        asked = f"file {path}\nshow last\n"
        questions = f"show last\n{asked}{asked}".encode()
        plain = run(driver, [], questions, shim=shim)
        outcomes = sweep(shim, driver, [], questions, ["read"], driver_is_right)
    report.say("a file of CLDR: each read refused", faults_of(outcomes) + unnoticed(outcomes), len(outcomes))
    report.say("a file of CLDR: faults in the answers are found", missed(plain, outcomes), 2)
