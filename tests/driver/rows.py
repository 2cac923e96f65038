#!/usr/bin/env python3
"""Checks worked rows by the program `test_driver`. The rows stand in tests/driver/rows, a line each, with what is expected at its end:
values from outside, none from the program.

usage: tests/driver/rows.py [PROGRAM ..]    prints the rows that don't hold, how many do, and what comes to light that no row can write;
                                     without a program the builds of both compilers are asked
       tests/driver/rows.py --stdin [PROGRAM]    prints questions that stand for many of the rows, as crates/test_driver/stdin has them
       tests/driver/rows.py --stdout [PROGRAM]   prints the answers that they want, as crates/test_driver/stdout has them
"""
import os
import sys

sys.path[:0] = [it.path for it in os.scandir(os.path.dirname(os.path.dirname(os.path.realpath(__file__)))) if it.is_dir()]
import cldr_questions
import long_files
import many_names
import row_questions
from driver import Driver, DriverFault, text, written
from row_faults import CARELESS, PLANTED, careless_missed, spoilt
from row_questions import Case
from row_readings import check_row_readings
from tables import FIELDS, bases

TOP = os.path.dirname(os.path.dirname(os.path.dirname(os.path.realpath(__file__))))
ROWS = os.path.join(TOP, "tests", "driver", "rows")
FOLDER = os.path.join(TOP, "crates", "test_driver")
PROGRAMS = [os.path.join(FOLDER, "out", it) for it in ("test_driver", "test_driver.by-rattle")]
# Each file of rows: how many it has, so that none is lost, and what makes a case of a row.
FILES = {
    "refusals.txt": (310, row_questions.refusals),
    "order.txt": (253, row_questions.order),
    "keys.txt": (125, row_questions.keys),
    "elements.txt": (75, row_questions.elements),
    "values.txt": (166, row_questions.values),
    "settings.txt": (37, row_questions.settings),
    "encodings.txt": (478, row_questions.encodings),
    "letters.txt": (34, row_questions.letters),
    "cldr/lines.txt": (58, cldr_questions.line),
    "cldr/entries.txt": (58, cldr_questions.entries),
    "cldr/tables.txt": (23, cldr_questions.companions),
    "cldr/refused.txt": (10, cldr_questions.refused),
    "matches.txt": (15, row_questions.elements),
    "taken.txt": (58, row_questions.taken),
    "sinks.txt": (14, row_questions.sinks),
    "names.txt": (32, row_questions.names),
    "requests.txt": (49, row_questions.requests),
    "resolved.txt": (5, row_questions.resolved),
    "kept.txt": (17, row_questions.kept),
}
# What --stdin has at most, in bytes: of a row, and of all questions or answers.
GREATEST_ROW, GREATEST = 4_000, 1_000_000
# How a long text is shown.
SHOWN = 300


# ---- rows and their cases


class Row:
    """A row, and the case that it makes; none where it can't be read."""

    def __init__(self, line, case):
        self.line, self.case = line, case

    def questions(self):
        return self.case.questions() if self.case else []

    def fault(self, answers):
        """What is wrong with the answers to the questions of the row, if anything is."""
        if self.case is None:
            return f"{self.line}, but can't be read"
        return None if self.case.holds(answers) else f"{self.line}, but found {brief(answers)}"


def brief(answers):
    """Answers as they are printed: those that only say `ok` are left out."""
    said = [it for it in answers if it != "ok"]
    said = "; ".join(it if len(it) < SHOWN else f"{it[:SHOWN]} .." for it in said[:8])
    return said if len(said) < 3 * SHOWN else f"{said[:3 * SHOWN]} .."


def lines_of(name):
    """The rows of a file as it has them, with tables that a line `let NAME = TABLES` names in the place of the name."""
    with open(os.path.join(ROWS, name), encoding="utf-8", newline="\n") as it:
        lines = it.read().split("\n")
    comment, named = "//" if name.startswith("cldr/") else "#", {}
    for line in lines:
        if line.startswith("let "):
            what, _, tables = line[len("let ") :].partition(" = ")
            named[what] = tables
        elif line and not line.startswith(comment):
            first, bar, rest = line.partition(" |")
            yield f"{named[first]}{bar}{rest}" if first in named else line


def rows_of(name, every):
    """The rows of a file. `every` has the tables of each base."""
    found = []
    for line in lines_of(name):
        try:
            found.append(Row(line, FILES[name][1](every, line)))
        except (ValueError, KeyError, IndexError, TypeError):
            found.append(Row(line, None))
    return found


def asked(driver, rows):
    """The answers to the questions of rows, a list for each of them."""
    lists = [row.questions() for row in rows]
    answers = iter(driver.ask(question for some in lists for question in some))
    return [[next(answers) for _ in some] for some in lists]


def faults_of(name, rows, answers):
    """The rows of a file that don't hold, and a wrong number of rows."""
    found = [row.fault(some) for row, some in zip(rows, answers)]
    wanted = FILES[name][0]
    lost = [f"{name} has {len(rows)} rows in place of {wanted}"] if len(rows) != wanted else []
    return [it for it in found if it] + lost


# ---- what no row can write


# A line of 10,000 mapped characters and as many elements, and what it says; a file whose second line is no UTF-8.
LONG_LINE = "0041" + 9_999 * " 0042" + ";" + 10_000 * " [2A, 05, 05]"
SAID_BY_IT = "map | 0041" + 9_999 * " 0042" + ":" + 10_000 * " 2A000000.0500.0500"
DAMAGED = b"# a\n# \xFF\n"
# Questions that can't be read: names and a file that there aren't, too few words, and what is no number.
UNREADABLE = ["base Maxi", "file none", "compare c 61", "key 32 61", "make 2 FF FF", "set values G", "show weights", "ask"]


def unwritten():
    """Cases that no row can write, by what they are about."""
    lists = [f"bytes {it}" for it in row_questions.LISTS]
    return {
        "a long line": Case([], [f"line {text('c', LONG_LINE)}"], [SAID_BY_IT]),
        "an empty file": Case([], [f"root {text('8', [])}"], ["the file is empty"]),
        "a file that is cut off": cut_off(),
        "texts behind prefixes": behind_prefixes(),
        "many ranges of ideographs": Case([], [f"root {text('8', ranges(count))}" for count in (256, 10_000)], [CUT_OFF, CUT_OFF]),
        "bytes that are no UTF-8": Case([], [f"root {text('8', list(DAMAGED))}"], ["line 2: expected UTF-8"]),
        "a file by its name": named_file(),
        "bytes written one by one": Case([], lists, len(lists) * [written([row_questions.HELD, 0x61, 0x10, *40 * [5]])]),
        "a collator after refusals": after_refusals(),
        "questions that can't be read": Unread(UNREADABLE),
        **many_names.cases(),
        **long_files.cases(),
    }


CUT_OFF = "at the end: the file is cut off: expected its last line, [fixed first ignorable tertiary byte 3C]"


def ranges(count):
    """A line of so many ranges of ideographs."""
    return f"[Unified_Ideograph{count * ' 4E00'}]\n"


def cut_off():
    """A file that ends behind each of its lines, and within the last one: each is refused. It is read without its last line feed."""
    lines = [f"{it}\n" for it in (cldr_questions.FIRST_LINES + cldr_questions.LAST_LINE).splitlines()]
    whole = [f"root {text('8', ''.join(lines[:end]))}" for end in range(1, len(lines))]
    within = [f"root {text('8', ''.join(lines)[:-end])}" for end in range(1, len(lines[-1]))]
    in_line = [f"line {len(lines)}: expected `]`"] * (len(within) - 1)
    return Case([], [*whole, *within], [*[CUT_OFF] * len(whole), "ok", *in_line])


# Mappings of "c" and of more around it, and of "q", "r" and "s", which have the elements that "acx", "pch" and "pcde" have by these:
# a longer prefix counts before a longer suffix, and where none of its suffixes fits, those without it count (as ICU4C 72 has it for
# the rules `&b<a|c&d<cx`, `&b<ch&d<p|cd` and `&b<cde&d<p|cd`).
AROUND = """\
0061; [61 10, 05, 05]
0063; [61 14, 05, 05]
0064; [61 18, 05, 05]
0065; [61 1C, 05, 05]
0068; [61 20, 05, 05]
0070; [61 24, 05, 05]
0078; [61 28, 05, 05]
0061 | 0063; [62 10, 05, 05]
0063 0078; [62 14, 05, 05]
0063 0068; [62 18, 05, 05]
0063 0064 0065; [62 1C, 05, 05]
0070 | 0063 0064; [62 20, 05, 05]
0071; [61 10, 05, 05][62 10, 05, 05][61 28, 05, 05]
0072; [61 24, 05, 05][62 18, 05, 05]
0073; [61 24, 05, 05][62 20, 05, 05][61 1C, 05, 05]
"""


def behind_prefixes():
    made = [cldr_questions.file_of(AROUND), f"make 2 {row_questions.six(row_questions.UNNAMED[1:])}"]
    same = [("acx", "q"), ("pch", "r"), ("pcde", "s")]
    return Case(made, [f"compare {text('c', one)} , {text('c', other)}" for one, other in same], len(same) * ["Equal"])


def named_file():
    """A file that is read by its name, and its content, which come to the same tables."""
    letters = os.path.join(TOP, "crates", "collate_cldr", "data", "letters.txt")
    with open(letters, "rb") as it:
        content = list(it.read())
    shown = [f"show {it}" for it in FIELDS if "." not in it]
    return Case([], [f"file {letters}", *shown, f"root {text('8', content)}", *shown], is_said_twice)


def after_refusals():
    """A collator after refused tables, a refused request and a file that isn't read: it is the same, and gives the same answers."""
    made = f"make 4 {row_questions.six(row_questions.UNNAMED[1:])}"
    refused = [("set jamo 0", "ok"), (made, "Jamo Length"), ("refuse empty Root Absent", "ok"),
               ("request el trad", "Root : Root Absent"), ("root 8 61", "line 1: expected `;` after the characters")]
    same = [("compare c 61 62 , c 61 42", "Less"), ("compare 8 C3 A1 , 8 61 CC 81", "Equal"), ("resolved", "4 0 1 0*3"),
            ("key 16 61", "61 10 1 5 1*2 5 1*4 92"), ("names 8 62 , 8 61", "2 : 61 , 62")]
    pairs = [*same, *(pair for it in refused for pair in [it, *same])]
    return Case(["base Mini", made], *([pair[at] for pair in pairs] + end for at, end in ((0, ["refuse none"]), (1, ["ok"]))))


class Unread(Case):
    """Questions that the driver has to call unreadable."""

    def __init__(self, asked):
        super().__init__([], asked, [])

    def holds(self, answers):
        return all(it == "?" for it in answers)


def is_said_twice(found):
    half = len(found) // 2
    return found[0] == "ok" and found[:half] == found[half:]


def unwritten_faults(driver):
    """What of it isn't as it is wanted."""
    rows = [Row(name, case) for name, case in unwritten().items()]
    found = [row.fault(some) for row, some in zip(rows, asked(driver, rows))]
    return [it for it in found if it]


# ---- planted faults


def missed(recorded):
    """The planted faults that the rows let through. `recorded` has the rows of each file, and the answers of a driver."""
    found = []
    for what, name, pattern, spoil in PLANTED:
        rows, answers = recorded[name]
        wrong = [spoilt(pattern, spoil, row.questions(), some) for row, some in zip(rows, answers)]
        if len(faults_of(name, rows, wrong)) <= len(faults_of(name, rows, answers)):
            found.append(f"not found: {what}")
    return found


# ---- the questions and answers that the gate asks of each build as a program of its own


def chosen(rows):
    """Questions that stand for rows which say all answers, and are short; a comment says from which file they come."""
    found = []
    for name in FILES:
        found.append((f"# {name}", ""))
        for row in rows[name]:
            answers = row.case.answers() if row.case else None
            if answers is not None:
                pairs = list(zip(row.questions(), answers))
                if sum(len(question) + len(answer) + 2 for question, answer in pairs) <= GREATEST_ROW:
                    found += pairs
    return without_repeats(found)


def without_repeats(pairs):
    """Questions and answers without those that make the tables or the collator which there are."""
    found, tables, collator, waiting = [], None, None, []
    for question, answer in pairs:
        word = question.partition(" ")[0]
        if word == "base":
            waiting = [(question, answer)]
        elif word in ("set", "drop") and waiting:
            waiting.append((question, answer))
        else:
            if waiting and waiting != tables:
                found += waiting
                tables, collator = waiting, None
            waiting = []
            if word == "root":
                tables = collator = None
            if word != "make" or question != collator:
                found.append((question, answer))
            collator = question if word == "make" else collator
    return found


def files_of(rows):
    """What crates/test_driver has for the gate, by the files' names."""
    pairs = chosen(rows)
    return {"stdin": "".join(f"{it}\n" for it, _ in pairs), "stdout": "".join(f"{it}\n" for _, it in pairs)}


def stale_files(rows):
    """The files of crates/test_driver that are not what the rows come to."""
    found = []
    for name, wanted in files_of(rows).items():
        found += [f"{name} would have {len(wanted)} bytes"] * (len(wanted) > GREATEST)
        path = os.path.join(FOLDER, name)
        if content_of(path) != wanted:
            found.append(f"crates/test_driver/{name} is not what `tests/driver/rows.py --{name}` prints")
    return found


def content_of(path):
    """What a file has; nothing where there is none."""
    if not os.path.exists(path):
        return None
    with open(path, encoding="utf-8", newline="\n") as it:
        return it.read()


# ---- the run of all


def check_rows(report, programs):
    """Checks all rows by each of these programs, and by the first one that faults are found."""
    recorded = None
    for path in programs:
        driver, name_of = Driver(path), os.path.basename(path)
        try:
            every = bases(driver)
            found = {name: rows_and_answers(driver, every, name) for name in FILES}
            for name, (rows, answers) in found.items():
                report.say(f"{name_of}: rows of {name}", faults_of(name, rows, answers), len(rows))
            report.say(f"{name_of}: what no row can write", unwritten_faults(driver), len(unwritten()))
        except (DriverFault, OSError, ValueError) as fault:
            report.say(f"{name_of}: rows", [str(fault)], 1)
            continue
        if recorded is None:
            recorded = found
            report.say("rows: planted faults are found", missed(recorded), len(PLANTED))
            report.say("rows: faults with many names and long keys are found", many_names.missed(driver), len(many_names.PLANTED))
            report.say("rows: a driver that doesn't answer is found", careless_missed(path), len(CARELESS))
            rows = {name: rows for name, (rows, _) in found.items()}
            check_row_readings(report, driver, every, lines_of)
            report.say("rows: the gate's questions are those of the rows", stale_files(rows), 2)


def rows_and_answers(driver, every, name):
    rows = rows_of(name, every)
    return rows, asked(driver, rows)


class Printed:
    """Prints the rows that don't hold, and how many do, a line for each file."""

    def __init__(self):
        self.failed = False

    def say(self, what, faults, runs):
        self.failed = self.failed or bool(faults)
        for it in faults:
            print(it)
        held = runs - min(runs, len(faults))
        _, _, name = what.rpartition("rows of ")
        verdict = "ok    " if not faults else "FAILED"
        print(f"{name}: {held} rows hold" if name in FILES else f"{verdict} {what} ({runs} runs)", flush=True)


def main(words):
    if words[:1] in (["--stdin"], ["--stdout"]):
        every = bases(Driver(words[1] if words[1:] else PROGRAMS[0]))
        sys.stdout.write(files_of({name: rows_of(name, every) for name in FILES})[words[0][2:]])
        return 0
    report = Printed()
    check_rows(report, words or PROGRAMS)
    return int(report.failed)


if __name__ == "__main__":
    sys.exit(main(sys.argv[1:]))
