"""Long texts in each setting and each kind of table, by all calls that compare and all that write keys.

Their orders are known from what they are made of: both texts have the same 9,999 letters or more, and differ in one place, mostly
the last. The keys in all encodings are the same, begin as is said, have the length that is said, and are ordered as the texts are.
"""
from driver import Driver, numbers, units_of, written
from random_texts import KEYS, Text, pair_agrees, pair_questions
from row_faults import TURNED, spoilt
from row_questions import made_by, order_of, run_numbers
from tables import bases

MANY = 9_999
AS = MANY * "a"
# Tables, settings, two texts, their order, and of the first one's key its beginning, and its length where that is known.
CASES = [
    ("Mini", "3", AS + "a", AS + "b", "Less", "61 10*10000 01 25*303", None),
    ("Mini", "3", "A" + AS, "a" + AS, "Greater", "61 10*10000 01 25*303", None),
    ("Mini", "1", AS + "a", AS + "A", "Equal", "61 10*10000", 10_001),
    ("Mini", "3", "", AS, "Less", "01 01", None),
    # Marks, which count from the second level on, composed and not, and syllables.
    ("Mini", "1", AS + "à", AS + "á", "Equal", "61 10*10000", 10_001),
    ("Mini", "2", AS + "à", AS + "á", "Less", "61 10*10000 01 25*303 45 46", None),
    ("Mini", "i", MANY * "é", MANY * "e\u0301", "Equal", "61 20*9999 01", None),
    ("Mini", "i", MANY * "é" + "a", MANY * "é" + "b", "Less", "61 20*9999 10 01", None),
    ("Mini", "i", MANY * "\uAC01", MANY * "\u1100\u1161\u11A8", "Equal", "65 10 71 FF 66 38", None),
    # A reordering: letters with one lead byte come before those with another, or after them.
    ("swapped leads", "1", MANY * "b" + "å", MANY * "b" + "a", "Less", "62 14*9999", None),
    ("swapped leads", "4", "åa" + AS, "aå" + AS, "Less", "", None),
    ("split lead", "1", MANY * "x" + "a", MANY * "x" + "m", "Greater", "", None),
    ("split lead", "i", MANY * "x" + "z", MANY * "x" + "m", "Greater", "", None),
    # A level of case, and case that comes first.
    ("Mini", "1, case-level On", AS + "A", AS + "a", "Greater", "61 10*10000 01 77*714", None),
    ("Mini", "1, case-level On", AS + "á", AS + "a", "Equal", "61 10*10000 01", 10_002),
    ("Mini", "2, case-level On, case-first Upper", AS + "A", AS + "a", "Less", "61 10*10000 01 25*303", None),
    ("Mini", "3, case-first Upper", AS + "A", AS + "a", "Less", "61 10*10000 01 25*303", None),
    ("Mini", "3, case-first Lower", AS + "A", AS + "a", "Greater", "61 10*10000 01 25*303", None),
    # Variable characters.
    ("Mini", "3", AS + " b", AS + "b", "Less", "61 10*9999 03 03", None),
    ("Mini", "3, alternate Shifted", AS + " b", AS + "b", "Equal", "61 10*9999 14 01", None),
    ("Mini", "4, alternate Shifted", AS + " b", AS + "b", "Less", "61 10*9999 14 01", None),
    ("Mini", "4, alternate Blanked", AS + " b", AS + "b", "Equal", "61 10*9999 14 01", None),
    ("Mini", "4, alternate Shifted", MANY * " " + "b", MANY * "-" + "b", "Less", 
     "61 14 01 05 01 01 05 01 01 03 10 03 10", 20_009),
    ("Mini", "3, alternate Shifted, max-variable Space", AS + "-b", AS + "b", "Less", "61 10*9999", None),
    # Numbers.
    ("Mini", "3", AS + "10", AS + "9", "Less", "61 10*9999", None),
    ("Mini", "3, numeric True", AS + "10", AS + "9", "Greater", "61 10*9999 03 0F 0C 01", None),
    ("Mini", "3, numeric True", MANY * "1" + "1", MANY * "1" + "2", "Less", "0F FF 21 21 0F 21 21 21", None),
    ("Mini", "3, numeric True", MANY * "0" + "7", "7", "Equal", "0F 09 01 05 01 01 05 01", 8),
    ("Mini", "i, numeric True", MANY * "0" + "7", "7", "Less", "0F 09 01 05 01 01 05 01 01 01", None),
    # A secondary level that runs backward.
    ("backward", "2", "á" + AS, "a" + AS[1:] + "á", "Less", "61 10*10000 01 25*303", None),
    ("Mini", "2", "á" + AS, "a" + AS[1:] + "á", "Greater", "61 10*10000 01 45 47", None),
    ("backward", "2", AS + "á", AS + "à", "Greater", "61 10*10000 01 47 25*303", None),
    # The strength Identical.
    ("Mini", "4", AS + "\0", AS, "Equal", "61 10*9999 01", None),
    ("Mini", "i", AS + "\0", AS, "Greater", "61 10*9999 01", None),
    ("Mini", "i", AS + "\u24B6", AS + "A", "Greater", "61 10*10000 01 25*303", None),
    ("Mini", "i", AS + "\uFFFE" + AS, AS + "a" + AS, "Less", "61 10*9999 02 61 10*9999 01", None),
]


def text_of(characters):
    utf16 = b"".join(it.to_bytes(2, "big") for it in units_of("16", characters))
    return Text(characters, characters.encode(), utf16)


def questions_of(case, every):
    base, named, left, right, *_ = case
    return [*made_by(every, base, named), *pair_questions(text_of(left), text_of(right))]


def fault_of(case, answers, every):
    """What is wrong with the answers about two texts, if anything is."""
    base, named, left, right, order, beginning, length = case
    made, answers = answers[: -len(pair_questions(text_of(left), text_of(right)))], answers[len(made_by(every, base, named)) :]
    keys = [numbers(answers[at]) for at in (0, len(KEYS))]
    begins = run_numbers(beginning)
    if set(made) != {"ok"} or not pair_agrees(text_of(left), text_of(right), answers):
        return f"{base}, {named}: the calls differ"
    if order_of(*keys) != order or keys[0][: len(begins)] != begins or length not in (None, len(keys[0])):
        return f"{base}, {named}: {order_of(*keys)}, a key of {len(keys[0])} bytes; wanted: {order}, {beginning} .."
    return None


# ---- faults that are planted in the answers

# What is wrong, of which questions, what becomes of their answers, and the place of a case that has to find it.
PLANTED = [
    ("an order in Latin-1 turned", "compare 1 .*, 1", lambda it: TURNED.get(it, it), 0),
    ("an order of Latin-1 and UTF-16 given up", "compare 1 .*, 16", lambda it: "Equal", 1),
    ("a key of UTF-16 that ends early", "key 16", lambda it: it.rpartition(" ")[0], 2),
    ("keys that end after 8,192 bytes", "key", lambda it: written(numbers(it)[:8_192]), 0),
    ("all texts equal", "compare", lambda it: "Equal", -1),
]


def missed(asked, answers, every):
    found = []
    for what, pattern, spoil, at in PLANTED:
        wrong = spoilt(pattern, spoil, asked[at], answers[at])
        found += [f"not found: {what}"] * (fault_of(CASES[at], wrong, every) is None)
    return found


def check_long_orders(report, program):
    driver = Driver(program)
    every = bases(driver)
    asked = [questions_of(it, every) for it in CASES]
    said = iter(driver.ask(question for some in asked for question in some))
    answers = [[next(said) for _ in some] for some in asked]
    faults = [fault_of(case, some, every) for case, some in zip(CASES, answers)]
    report.say("long texts: settings and tables, by all calls", [it for it in faults if it], len(CASES))
    report.say("long texts: faults in the answers are found", missed(asked, answers, every), len(PLANTED))
