"""How much a call holds at most, by the library peak.c, which is preloaded: a check of tables beside the tables, at most 16 bytes for
each number that is stored, and 20 megabytes; and an iterator of elements beside the text and the list of its elements, 20 kilobytes,
however long the text is."""
import os
import tempfile
import unicodedata

from driver import Driver, DriverFault, text
from hostile_tables import by_ranges, of_counted_weights, of_many_lists, of_moved_lead, of_prefixes, of_spellings
from sweeps import ENVIRONMENT, ended
from timed_tables import TimedTables, stored_numbers

FOR_EACH, BESIDE = 16, 20_000_000
# How many characters texts decompose to whose elements are read, and how many bytes an element takes in a list.
DECOMPOSED, ELEMENT = 2**19, 8
# What the texts repeat, and how many bytes an iterator of their elements holds at most.
REPEATED = {"letters with a mark": "\u00E9", "letters with two marks": "\u1EBF", "letters with three marks": "\u1F82",
            "syllables of two jamo": "\uAC00", "syllables of three jamo": "\uAC01"}
HELD = 20_000
# Lines that say nothing stand before the question, so that all that comes before is answered when the last lines are read.
PADDING = ["#" * 99] * 3_000


def hostile_tables():
    return [
        TimedTables("spellings", "Mini", of_spellings(4)),
        TimedTables("prefixes", "Mini", of_prefixes(4)),
        TimedTables("counted weights", "Mini", of_counted_weights(range(0x44, 0x4F))),
        TimedTables("lists", "Mini", of_many_lists(16)),
        TimedTables("ranges", "swapped leads", of_moved_lead(4), None, by_ranges(4)),
    ]


def held_bytes(counter, program, questions, last):
    """How many bytes a run holds at most while it answers the last question, beyond those that it held before."""
    with tempfile.TemporaryDirectory(prefix="held-") as room:
        path = os.path.join(room, "peak")
        given = "".join(f"{it}\n" for it in [*questions, *PADDING, last]).encode()
        ran = ended([program], given, env={**ENVIRONMENT, "LD_PRELOAD": counter, "PEAK_FILE": path})
        if ran.returncode != 0 or ran.stderr:
            raise DriverFault(f"{program}: status {ran.returncode}, faults {ran.stderr[:200]!r}")
        with open(path, encoding="utf-8") as it:
            return int(it.read().split()[1])


def held_too_much(counter, driver, tables, question):
    """What is wrong with how much the answer to a question about tables holds; and a line that says it."""
    held, stored = held_bytes(counter, driver.path, tables.made, question), stored_numbers(driver, tables)
    line = f"{tables.name}: {held / 1e6:.1f} megabytes, {stored} numbers"
    return [line] * (held > FOR_EACH * stored + BESIDE or held == 0), line


def room_of(size):
    """How many bytes a list has room for that grew to this size: it doubles its room."""
    return 1 << (size - 1).bit_length()


def held_by_iterator(counter, program, characters):
    """How many bytes an iterator of elements holds at most beside the text of these characters and the list of all its elements."""
    elements = len(unicodedata.normalize("NFD", characters))
    held = held_bytes(counter, program, ["base Mini", "taken 0 1 c 61"], f"taken 0 {elements:X} {text('c', characters)}")
    return held - room_of(ELEMENT * elements) - room_of(len(characters.encode()))


def held_by_elements(counter, program, name, characters):
    """What is wrong with how much an iterator of elements holds; and a line that says it."""
    held = held_by_iterator(counter, program, characters)
    line = f"elements of {name}: {held:,} bytes, {len(characters):,} characters"
    return [line] * (not 0 <= held <= HELD), line


def check_elements(report, counter, program):
    repeated = {name: it * (DECOMPOSED // len(unicodedata.normalize("NFD", it))) for name, it in REPEATED.items()}
    found = [held_by_elements(counter, program, *it) for it in repeated.items()]
    report.say("hostile input: elements hold no more of a long text than its marks", [it for some, _ in found for it in some], len(found))
    for _, line in found:
        print(f"       {line}", flush=True)
    # the marks behind a letter, which may change places
    missed, _ = held_by_elements(counter, program, "marks", "q" + "\u0301" * (DECOMPOSED - 1))
    report.say("hostile input: elements that hold more are found", [] if missed else ["not found: a run of marks"], 1)


def check_memory(report, counter, program):
    check_elements(report, counter, program)
    driver = Driver(program)
    found = [held_too_much(counter, driver, it, "check") for it in hostile_tables()]
    report.say("hostile input: checks hold no more than in proportion to the tables", [it for some, _ in found for it in some], len(found))
    for _, line in found:
        print(f"       {line}", flush=True)
    # a slice of 32 megabytes in place of a check
    more = TimedTables("a slice", "Mini")
    more.made.append("make 0 FF FF FF FF FF")
    missed, _ = held_too_much(counter, driver, more, "slice 2000000 c 61")
    report.say("hostile input: what holds too much is found", [] if missed else ["not found: a slice of 32 megabytes"], 1)
