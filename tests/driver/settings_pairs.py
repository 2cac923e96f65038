"""Collators for each pair of values of two settings, and for all values of all settings: each is made, returns the settings that were
named, and orders short texts as its settings say.

What settings say of these texts is worked out here, from what each setting means in UTS #35: no row could be typed for so many.
"""
import itertools

from driver import Driver, numbers
from random_texts import KEYS, of_bytes, pair_agrees, pair_questions
from row_faults import TURNED, spoilt
from row_questions import SETTINGS, UNNAMED, six

NAMES = list(SETTINGS)
VALUES = [range(len(values)) for _, values in SETTINGS.values()]
# What Mini's metadata comes to where a setting isn't named: Tertiary, NonIgnorable, Punctuation, and the rest off.
DEFAULTS = [2, 0, 1, 0, 0, 0]
SPACE, PUNCTUATION = 0, 1
SECONDARY, TERTIARY, QUATERNARY, IDENTICAL = 1, 2, 3, 4
NON_IGNORABLE, SHIFTED = 0, 1
UPPER = 2


def pairs():
    """The settings of each collator, by their numbers, with two of them named."""
    for first, second in itertools.combinations(range(len(NAMES)), 2):
        for one, other in itertools.product(VALUES[first], VALUES[second]):
            named = list(UNNAMED)
            named[first], named[second] = one, other
            yield named


def all_values():
    """The settings of each collator with all of them named."""
    return map(list, itertools.product(*VALUES))


def resolved(named):
    return [default if it == UNNAMED[0] else it for it, default in zip(named, DEFAULTS)]


# ---- what settings say of two texts


def by_variable(settings, group):
    """The order of a text with a variable character of a group amid it and the text without it."""
    strength, handling, last, *_ = settings
    if handling == NON_IGNORABLE or last < group or strength == IDENTICAL:
        return "Less"
    return "Less" if handling == SHIFTED and strength == QUATERNARY else "Equal"


def by_case(settings):
    """The order of a lower-case letter and its upper-case one."""
    strength, _, _, level, first, _ = settings
    if strength < TERTIARY and not level:
        return "Equal"
    return "Greater" if first == UPPER else "Less"


# Two texts, and their order by resolved settings.
TEXTS = [
    ("a", "A", by_case),
    ("a", "á", lambda it: "Less" if it[0] >= SECONDARY else "Equal"),
    ("A", "á", lambda it: "Less" if it[0] >= SECONDARY else TURNED.get(by_case(it), "Equal")),
    ("a b", "ab", lambda it: by_variable(it, SPACE)),
    ("a-b", "ab", lambda it: by_variable(it, PUNCTUATION)),
    ("10", "9", lambda it: "Greater" if it[5] else "Less"),
    ("07", "7", lambda it: "Less" if not it[5] or it[0] == IDENTICAL else "Equal"),
    ("a", "a\0", lambda it: "Less" if it[0] == IDENTICAL else "Equal"),
    ("á", "a\u0301", lambda it: "Equal"),
    ("z", "b", lambda it: "Greater"),
]


PAIRED = [(of_bytes(left.encode()), of_bytes(right.encode()), order) for left, right, order in TEXTS]
ASKED = [pair_questions(left, right) for left, right, _ in PAIRED]


def questions_of(named):
    return [f"make {six(named)}", "resolved", *itertools.chain(*ASKED)]


def shown(settings):
    return " ".join(names[it] for it, (_, names) in zip(settings, SETTINGS.values()))


def wrong_pairs(settings, answers):
    """What is wrong with the orders of the texts: one by a call that isn't that of the keys, or not what settings say."""
    answers = iter(answers)
    for (left, right, order), asked in zip(PAIRED, ASKED):
        mine, wanted = [next(answers) for _ in asked], order(settings)
        found = mine[2 * len(KEYS)]
        if found != wanted or not pair_agrees(left, right, mine):
            yield f"{shown(settings)}: {left.characters!r} {right.characters!r} {found}; wanted: {wanted}"


def faults_of(named, answers):
    """What is wrong with the answers of a collator."""
    settings, (made, returned, *rest) = resolved(named), answers
    if made != "ok" or numbers(returned) != settings:
        return [f"{shown(settings)}: {made}, {returned}"]
    return [*wrong_pairs(settings, rest)]


def wrong_collators(driver, every, spoil=lambda asked, answers: answers):
    """What is wrong with the collators of these settings. The answers may be spoilt first."""
    every = [*every]
    asked = [questions_of(it) for it in every]
    made, *said = driver.ask(["base Mini", *itertools.chain(*asked)])
    found, said = [f"no tables: {made}"] * (made != "ok"), iter(said)
    for named, questions in zip(every, asked):
        found += faults_of(named, spoil(questions, [next(said) for _ in questions]))
    return found


# ---- faults that are planted in the answers

# What is wrong, of which questions, and what becomes of their answers.
PLANTED = [
    ("a collator given up", "make . 2 ", lambda it: "Root NoMemory"),
    ("a strength that isn't kept", "resolved", lambda it: it.replace("4 ", "3 ", 1)),
    ("a variable group that isn't kept", "resolved", lambda it: it.replace(" 3 ", " 2 ")),
    ("an order turned by the call for Latin-1", "compare 1 61 , 1 41", lambda it: TURNED.get(it, it)),
    ("numbers that are digits", "compare .* 31 30 , .* 39", lambda it: TURNED.get(it, it)),
    ("keys that are the same", "key", lambda it: "61 10"),
]


def missed(driver):
    """The planted faults that the pairs of settings let through."""
    return [
        f"not found: {what}"
        for what, pattern, fault in PLANTED
        if not wrong_collators(driver, pairs(), lambda asked, answers: spoilt(pattern, fault, asked, answers))
    ]


def check_settings(report, program):
    driver = Driver(program)
    report.say("settings: each pair of values of two", wrong_collators(driver, pairs()), len([*pairs()]))
    report.say("settings: all values of all", wrong_collators(driver, all_values()), len([*all_values()]))
    report.say("settings: faults in the answers are found", missed(driver), len(PLANTED))
