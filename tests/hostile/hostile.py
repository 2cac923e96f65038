"""Hostile input, by questions to the driver (driver.py): damaged tables, and random texts that are compared and read.

All random choices come from generators whose seeds are the numbers of the sets and the texts, so each run makes the same ones.
The parts run side by side, as many as there are processors.
"""
import collections
import concurrent.futures
import functools
import os
import random

from damage import damage
from driver import Driver, DriverFault, written
from long_texts import check_long_texts, slow_texts_missed
from random_texts import DECODED, any_text, of_bytes, pair_agrees, pair_questions, two_texts, wrong_decoders
from tables import BASES, bases
from timed_tables import check_times, dear_checks_missed

# How many sets of tables are damaged and how many texts are compared, and how many of them a run has.
SETS, TEXTS, PART = 2_000, 2_000, 100
# How many texts are read in several ways, with the two parts of each, and how many of them a run has.
READ, READ_PART = 100_000, 10_000
# One in so many of these is repeated so often.
LONG, REPEATED = 1024, 2000
# One in so many is a run of random marks behind one of these characters. A run has about as many characters as the arrays have
# room for in which pieces are put in order, or other numbers of them.
RUN, BEFORE_MARKS, MARKS = 255, "a1\u0301\u1100", "\u0301\u0302\u0307\u030A\u0323"
RUNS = [40, 62, 63, 64, 65, 66, 100, 700, 1_022, 1_023, 1_024, 1_025, 1_026, 1_500]
# How many pairs of texts a collator of accepted tables orders.
PAIRS = 3
# What random damage must be refused for at least once: all kinds but `NoMemory`, which must not occur.
REFUSED = ["Absent", "Length", "Index", "Digit", "Chain", "Tag", "Element", "Context", "Overlap", "Compression", "Reordering",
           "SpecialPrimary"]
# The strength Identical, and all other settings unnamed.
IDENTICAL = "4 FF FF FF FF FF"
# The collators of random texts, by their tables and their settings: all strengths, and each other setting and each kind of
# table at some of them.
COLLATORS = [
    ("Mini", "0 0 3 0 0 0"),
    ("Mini", "4 0 3 0 0 0"),
    ("backward", "1 0 3 0 0 0"),
    ("Lithuanian", "2 0 3 0 0 0"),
    ("a ring", "4 0 3 0 0 0"),
    ("double l", "2 0 3 0 0 0"),
    ("b after a", "0 0 3 0 0 0"),
    ("swapped leads", "4 0 3 0 0 0"),
    ("two mappings", "4 0 3 0 0 1"),
    ("c after ab", "3 1 3 0 0 0"),
    ("backward", "4 1 3 1 0 0"),
    ("high currency", "4 2 3 0 0 0"),
    ("kana", "0 0 3 1 0 0"),
    ("tertiary alone", "3 0 3 0 2 1"),
    ("split lead", "2 0 3 0 1 0"),
]


class Found:
    """What was found of so many sets or texts: sums by their names, and what is wrong."""

    def __init__(self):
        self.sums, self.faults = collections.Counter(), []

    def take(self, name, fault=None):
        """Counts one more of a name, with what is wrong with it."""
        self.sums[name] += 1
        self.faults += [fault] * (fault is not None)

    def and_also(self, other):
        self.sums.update(other.sums)
        self.faults += other.faults


def counted(judge, driver, count, size=PART):
    """What a judge finds of so many sets or texts. It takes a driver, the first number and how many there are."""
    found = Found()
    with concurrent.futures.ProcessPoolExecutor(os.cpu_count() or 1) as pool:
        runs = [pool.submit(judge, driver, first, min(size, count - first)) for first in range(0, count, size)]
        for it in runs:
            try:
                found.and_also(it.result())
            except DriverFault as fault:
                found.take("runs that ended early", str(fault))
    return found


# ---- damaged tables


@functools.lru_cache(maxsize=None)
def bases_of(path):
    return bases(Driver(path))


class DamagedSet:
    """Damaged tables of a number, and pairs of texts."""

    def __init__(self, original, number):
        self.number, self.original, self.fields = number, original, dict(original)
        dice = random.Random(number)
        damage(dice, self.fields)
        self.pairs = [(any_text(dice), any_text(dice)) for _ in range(PAIRS)]
        self.changed = [name for name in self.fields if self.fields[name] is not original[name]]

    def sets(self, fields):
        """What gives the lists that are damaged these numbers."""
        return [f"set {name} {written(fields[name])}".rstrip() for name in self.changed]

    def questions(self):
        """The damaged lists, the check by the constructors, a collator by a provider, and the pairs, whose answers count where it
        was made. The lists are set back behind them."""
        pairs = [question for pair in self.pairs for question in pair_questions(*pair)]
        return [*self.sets(self.fields), "check", f"make {IDENTICAL}", *pairs, *self.sets(self.original)]

    def judge(self, answers, found):
        """Counts what became of the tables: both ways agree, and a collator of accepted tables orders the texts by their keys."""
        place = len(self.changed)
        checked, made = answers[place : place + 2]
        if {*answers[:place], *answers[-place:]} != {"ok"}:
            found.take("apart", f"set {self.number}: its lists can't be set: {self.changed}")
        elif checked != made:
            found.take("apart", f"set {self.number}: {checked} by the constructors, {made} by a provider")
        elif made != "ok":
            found.take(f"refused {made.rpartition(' ')[2]}")
        else:
            found.take("accepted")
            self.judge_pairs(answers[place + 2 :], found)

    def judge_pairs(self, answers, found):
        at = 0
        for left, right in self.pairs:
            end = at + len(pair_questions(left, right))
            if not pair_agrees(left, right, answers[at:end]):
                found.take("disordered", f"set {self.number}, {left['16']} , {right['16']}: {answers[at:end]}")
            at = end


def judge_tables(driver, first, count):
    """What becomes of so many damaged sets of tables, from one number on."""
    found = Found()
    for base, tables in bases_of(driver.path).items():
        sets = [DamagedSet(tables.original, it) for it in range(first, first + count) if BASES[it % len(BASES)] == base]
        questions = [it.questions() for it in sets]
        made, *answers = driver.ask([f"base {base}", *(question for some in questions for question in some)])
        if made != "ok":
            found.take("apart", f"no tables {base}")
        judge_each(sets, questions, answers, found)
    return found


def judge_each(sets, questions, answers, found):
    """Has each set judge the answers to its questions."""
    at = 0
    for it, asked in zip(sets, questions):
        it.judge(answers[at : at + len(asked)], found)
        at += len(asked)


def wrong_tables(driver, count):
    """What is wrong with what becomes of so many damaged sets of tables."""
    found = counted(judge_tables, driver, count)
    sums, faults = found.sums, found.faults
    judged = sums["accepted"] + sum(number for name, number in sums.items() if name.startswith("refused "))
    faults += [f"{judged} sets were judged alike"] * (judged != count)
    faults += [f"{sums[it]} sets {it}" for it in ("apart", "disordered", "refused NoMemory") if sums[it]]
    faults += [f"no set was refused for {it}" for it in REFUSED if not sums[f"refused {it}"]]
    return faults + ["few sets were accepted"] * (sums["accepted"] < count // 10)


# ---- random texts that are compared


def judge_texts(driver, first, count):
    """What becomes of so many pairs of texts, and of the two parts of the first at each byte of its UTF-8."""
    by_collator = collections.defaultdict(list)
    for number in range(first, first + count):
        dice = random.Random(number)
        collator = dice.choice(COLLATORS)
        left, right = two_texts(dice)
        by_collator[collator] += [(left, right), *(left.parts(at) for at in range(len(left.utf8)))]
    found = Found()
    for (base, settings), pairs in by_collator.items():
        judge_pairs(driver, [f"base {base}", f"make {settings}"], pairs, found)
    return found


def judge_pairs(driver, made, pairs, found):
    """Counts what becomes of pairs of texts by one collator."""
    questions = [pair_questions(*it) for it in pairs]
    answers = iter(driver.ask([*made, *(question for some in questions for question in some)]))
    if any(next(answers) != "ok" for _ in made):
        found.take("apart", f"no collator: {made}")
    for (left, right), asked in zip(pairs, questions):
        answered = [next(answers) for _ in asked]
        found.take("compared")
        found.sums["in Latin-1"] += left.is_latin1()
        if not pair_agrees(left, right, answered):
            found.take("apart", f"{made}, {left['16']} , {right['16']}: {answered}")


def wrong_texts(driver, count):
    """What is wrong with the comparisons of so many random texts."""
    found = counted(judge_texts, driver, count)
    sums, faults = found.sums, found.faults
    faults += ["pairs were left out"] * (sums["compared"] < 5 * count) + ["few were Latin-1"] * (sums["in Latin-1"] < count // 10)
    return faults + [f"{sums['apart']} pairs apart"] * (sums["apart"] > 0)


# ---- random texts that are read in several ways


def run_of_marks(dice):
    """A character and random marks, most of which don't stand in order."""
    return of_bytes((dice.choice(BEFORE_MARKS) + "".join(dice.choices(MARKS, k=dice.choice(RUNS) - 1))).encode())


def texts_of(number):
    """The text of a number, of which one in `LONG` is long and one in `RUN` is a run of marks, and the two parts into which it
    falls at a byte of its UTF-8."""
    dice = random.Random(number)
    text = any_text(dice)
    if number % LONG == 0:
        text = text.repeated(REPEATED)
    elif number % RUN == 0:
        text = run_of_marks(dice)
    cut = dice.randrange(len(text.utf8)) if text.utf8 else 0
    return [text, *text.parts(cut)]


def reading(text, numeric):
    """All ways of reading a text at once: whole and one by one by its characters, and by a cursor in each encoding."""
    encodings = ["c", "8", "16"] + ["1"] * text.is_latin1()
    return f"readings {numeric} {' , '.join(text[it] for it in encodings)}"


def judge_readers(driver, first, count):
    """What becomes of so many texts and their parts: each of the tables, with digits as digits and as numbers, reads some."""
    found = Found()
    for place, base in enumerate(BASES):
        mine = [it for it in range(first, first + count) if it // 2 % len(BASES) == place]
        texts = [(text, numeric) for numeric in (0, 1) for it in mine if it % 2 == numeric for text in texts_of(it)]
        questions = [reading(*it) for it in texts]
        made, *answers = driver.ask([f"base {base}", *questions])
        found.sums["read"] += len(texts)
        found.sums["in Latin-1"] += sum(text.is_latin1() for text, _ in texts)
        for question, answer in zip(questions, answers):
            if made != "ok" or " / " in answer or "?" in answer:
                found.take("apart", f"{base}: {question[:200]}: {answer[:200]}")
    return found


def wrong_readers(driver, count):
    """What is wrong with the ways of reading so many random texts."""
    found = counted(judge_readers, driver, count, READ_PART)
    sums, faults = found.sums, found.faults
    faults += ["texts were left out"] * (sums["read"] != 3 * count) + ["few were Latin-1"] * (sums["in Latin-1"] < count // 2)
    return faults + [f"{sums['apart']} texts apart"] * (sums["apart"] > 0)


# ---- faults that are planted in the driver's answers


class Altered:
    """A driver that reads other questions than it is asked. What it reads in place of one is a list, whose last answer counts."""

    def __init__(self, driver, alter):
        self.path, self.driver, self.alter = driver.path, driver, alter

    def ask(self, questions):
        read = [self.alter(it) for it in questions]
        answers = iter(self.driver.ask([question for some in read for question in some]))
        return [[next(answers) for _ in some][-1] for some in read]


def other_tables(question):
    """A collator is made of tables whose list of jamo is short."""
    return ["set jamo 0", question] if question.startswith("make ") else [question]


def other_utf16(question):
    """The key of a text in UTF-16 is that of one with another unit at its end."""
    return [f"{question} 62"] if question.startswith("key 16") else [question]


def other_order(question):
    """Texts in Latin-1 are compared the other way round."""
    left, _, right = question.partition(" , ")
    if not left.startswith("compare 1") or not right.startswith("1 "):
        return [question]
    return [f"compare {right} , {left.partition(' ')[2]}"]


def other_cursor(question):
    """A cursor reads a text in UTF-8 with another byte at its end."""
    return [question.replace(" , 16", " 62 , 16")] if question.startswith("readings ") else [question]


PLANTED = [
    ("other tables by a provider", judge_tables, other_tables, PART),
    ("another text in UTF-16", judge_texts, other_utf16, PART),
    ("another order in Latin-1", judge_texts, other_order, PART),
    ("another text for a cursor", judge_readers, other_cursor, PART),
]


def faults_missed(driver):
    """The planted faults that the checks above let through."""
    return [
        f"not found: {what}"
        for what, judge, alter, count in PLANTED
        if not counted(judge, Altered(driver, alter), count).sums["apart"]
    ]


def check_hostile(report, program):
    """All checks of hostile input, by the driver that was built as this program."""
    driver = Driver(program)
    report.say("hostile input: Python's decoders are as the Unicode Standard says", wrong_decoders(), DECODED)
    report.say("hostile input: damaged tables", wrong_tables(driver, SETS), SETS)
    report.say("hostile input: random texts", wrong_texts(driver, TEXTS), TEXTS)
    report.say("hostile input: random texts read in several ways", wrong_readers(driver, READ), READ)
    report.say("hostile input: planted faults are found", faults_missed(driver), len(PLANTED))
    check_long_texts(report, driver)
    check_times(report, driver)
    report.say("hostile input: planted delays are found", slow_texts_missed(driver) + dear_checks_missed(driver), 2)
