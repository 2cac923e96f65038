"""Long texts, whose comparisons and keys are timed: calls on a text that is four times as long may take at most twice as long as
four times as many calls on the text.

Both have as many characters to read, in the questions too: each call is a question of its own. So their times are alike if time is in
proportion to the text. Making a collator is a small part of either. The least of several times counts.
"""
from hostile_tables import Builder, Reordering
from timing import ATTEMPTS, Slowed, Times, lasting_faults

# How often each call is made on the longer text, how many times as long that is, and how many times as long its calls may
# take as those on the shorter text.
TIMES, LONGER, SLOWER = 2, 4, 2
IDENTICAL, PRIMARY = "4 0 3 0 0 0", "0 0 3 0 0 0"
NUMERIC = "4 0 3 0 0 1", "0 0 3 0 0 1"
# Identical, shifted, with a case level: all levels that there are.
SHIFTED = "4 1 3 1 0 0"
A, B, C, CAPITAL, ZERO, ONE, ACUTE, RING, DOT = 0x61, 0x62, 0x63, 0x41, 0x30, 0x31, 0x301, 0x30A, 0x323
# Marks of the classes 129, 130, 10, 27 and 103.
SIGN_AA, SIGN_I, SHEVA, FATHATAN, SARA_U = 0xF71, 0xF72, 0x5B0, 0x64B, 0xE38
KA, VOICED, GA, GAG = 0x304B, 0x3099, 0x304C, 0xAC01
SEVERAL = [SIGN_AA, SHEVA, FATHATAN, SARA_U]
SPACE, SEPARATOR, NOTHING, NONE = 0x20, 0xFFFE, 0x1, 0x2


class LongTexts:
    """Two texts of a kind, by their size: each is a list of parts, and a part some characters and how often they come. Beside
    them how they are ordered at the strength Identical, and how many bytes the first one's key has at Primary."""

    def __init__(self, kind, size, made, settings, texts, wanted):
        self.kind, self.size, self.made, self.settings = kind, size, made, settings
        self.texts, self.wanted = texts, wanted

    def questions(self, size, times):
        left, right = ("c " + " ".join(repeated(*part) for part in parts) for parts in self.texts(size))
        identical, primary = self.settings
        _, length = self.wanted(size)
        compared, written = [f"compare {left} , {right}"] * times, [f"slice {length:X} {left}"] * times
        return [*self.made, f"make {identical}", *compared, f"make {primary}", *written]

    def is_right(self, size, answers):
        wanted, length = self.wanted(size)
        key = f"ok {length:X} :"
        return {key if it.startswith(key) else it for it in answers} == {"ok", wanted, key}


class LongElements:
    """A text of a kind, by its size, whose elements are read at once and one by one: a list of parts, and the elements as the driver
    writes them."""

    def __init__(self, kind, size, made, text, wanted):
        self.kind, self.size, self.made, self.text, self.wanted = kind, size, made, text, wanted

    def questions(self, size, times):
        text = "c " + " ".join(repeated(*part) for part in self.text(size))
        return [*self.made, *[f"{way} 0 {text}" for way in ("whole", "next")] * times]

    def is_right(self, size, answers):
        made, read = answers[:len(self.made)], answers[len(self.made):]
        return {*made} == {"ok"} and {*read} == {self.wanted(size)}


def repeated(characters, count):
    """Characters as often as a number says. What repeats one character is written with its count."""
    if len(characters) == 1:
        return f"{characters[0]:X}*{count:X}"
    return " ".join([" ".join(f"{it:X}" for it in characters)] * count)


def elements(*runs):
    """Elements as the driver writes them, with common lower weights: their primary weights, and how often each comes."""
    return " ".join(f"{primary:08X}.0500.0500*{count:X}".removesuffix("*1") for primary, count in runs)


def with_beginnings():
    """Mini with a tailoring in which "a" begins the contractions "ab", "aab" and so on, up to seven times "a"."""
    builder = Builder(0xC0)
    builder.set_entry(A, 0xC9)
    builder.add_context(0x6110_0505, [([A] * count + [B], 0x6210_0505) for count in range(6, -1, -1)])
    return ["base Mini", *builder.questions("tailoring."), "set metadata 9"]


def tailored(fill):
    """Mini with a tailoring that is filled so."""
    builder = Builder(0xC0)
    fill(builder)
    return ["base Mini", *builder.questions("tailoring."), "set metadata 9"]


def begin_marks(builder):
    """A mark is an "a", and begins a contraction with a mark of the next class."""
    builder.set_entry(SIGN_AA, 0xC9)
    builder.add_context(0x6110_0505, [([SIGN_I], 0x6210_0505)])


def begin_several(builder):
    """So do marks of four classes, with another weight each."""
    for number, mark in enumerate(SEVERAL):
        index = builder.add_context(0x6110_0505 + 0x10_0000 * number, [([SIGN_I], 0x6210_0505 + 0x10_0000 * number)])
        builder.set_entry(mark, index << 13 | 0xC9)


def look_back(builder):
    """An "a" has another weight behind one of its own, and behind two."""
    builder.set_entry(A, 0xC8)
    builder.add_context(0x6110_0505, [([A], 0x6120_0505), ([A, A], 0x6130_0505)])


def ignore(builder):
    """Two characters are completely ignorable."""
    builder.set_entry(NOTHING, 0)
    builder.set_entry(NONE, 0)


MINI, RINGED = ["base Mini"], ["base a ring"]
# No size is small: what fits into a processor's own cache takes less time for a character.
LONG_TEXTS = [
    # Letters, of which the first differs in case.
    LongTexts("letters", 250_000, MINI, (IDENTICAL, PRIMARY),
              lambda n: ([([A], n)], [([CAPITAL], 1), ([A], n - 1)]),
              lambda n: ("Less", n + 1)),
    # A letter and marks of two classes in turn, and the same marks by class.
    LongTexts("marks", 50_000, MINI, (IDENTICAL, PRIMARY),
              lambda n: ([([A], 1), ([ACUTE, DOT], n // 2)], [([A], 1), ([DOT], n // 2), ([ACUTE], n // 2)]),
              lambda n: ("Equal", 2)),
    # The digits of a number, of which the last differs.
    LongTexts("digits", 100_000, MINI, NUMERIC,
              lambda n: ([([ONE], 1), ([ZERO], n)], [([ONE], 1), ([ZERO], n - 1), ([ONE], 1)]),
              lambda n: ("Less", 5)),
    # Letters each of which begins contractions that go on through the letters after it and come to no end, but for the last few.
    LongTexts("beginnings", 25_000, with_beginnings(), ("4 FF FF FF FF FF", "0 FF FF FF FF FF"),
              lambda n: ([([A], n), ([B], 1)], [([A], n), ([C], 1)]),
              lambda n: ("Greater", n - 3)),
    # A letter that begins a contraction, and marks between it and the mark that ends the contraction.
    LongTexts("passed", 50_000, RINGED, (IDENTICAL, PRIMARY),
              lambda n: ([([A], 1), ([DOT], n), ([RING], 1)], [([0xE5], 1), ([DOT], n)]),
              lambda n: ("Equal", 2)),
    # Letters that begin a contraction, each with a mark that is passed over and none that ends it.
    LongTexts("unended", 100_000, RINGED, (IDENTICAL, PRIMARY),
              lambda n: ([([A, DOT], n // 2)], [([A, DOT], n // 2), ([RING], 1)]),
              lambda n: ("Less", n // 2 + 1)),
    # Marks each of which begins a contraction, and stands before marks of its own class; one behind them all joins the first.
    LongTexts("begun", 50_000, tailored(begin_marks), ("4 FF FF FF FF FF", "0 FF FF FF FF FF"),
              lambda n: ([([SIGN_AA], n)], [([SIGN_AA], n), ([SIGN_I], 1)]),
              lambda n: ("Less", n + 1)),
    # Such marks with marks of a higher class in turn, which don't stand in order, and the same marks by class.
    LongTexts("disordered", 25_000, tailored(begin_marks), ("4 FF FF FF FF FF", "0 FF FF FF FF FF"),
              lambda n: ([([SIGN_AA, DOT], n // 2)], [([SIGN_AA], n // 2), ([DOT], n // 2)]),
              lambda n: ("Equal", n // 2 + 1)),
    # Marks of four classes in turn, each of which begins a contraction; a mark behind them all joins the first.
    LongTexts("several begun", 50_000, tailored(begin_several), ("4 FF FF FF FF FF", "0 FF FF FF FF FF"),
              lambda n: ([(SEVERAL, n // 4)], [(SEVERAL, n // 4), ([SIGN_I], 1)]),
              lambda n: ("Less", n + 1)),
    # Letters whose weights go by those before.
    LongTexts("prefixes", 100_000, tailored(look_back), ("4 FF FF FF FF FF", "0 FF FF FF FF FF"),
              lambda n: ([([A], n)], [([A], n), ([B], 1)]),
              lambda n: ("Less", n + 1)),
    # Separators, between which the second level is read backward: a key has each on both levels, and two bytes 01.
    LongTexts("separators", 100_000, ["base backward"], (IDENTICAL, "1 0 3 0 0 0"),
              lambda n: ([([SEPARATOR], n)], [([SEPARATOR], n), ([A], 1)]),
              lambda n: ("Less", 2 * n + 2)),
    # Characters that are completely ignorable behind a variable one.
    LongTexts("ignorable", 100_000, tailored(ignore), (SHIFTED, "0 1 3 0 0 0"),
              lambda n: ([([SPACE], 1), ([NOTHING], n)], [([SPACE], 1), ([NOTHING], n), ([A], 1)]),
              lambda n: ("Less", 0)),
]

def of_one_weight(builder):
    """A kana and its voiced sound mark have the same element."""
    for c in (KA, VOICED):
        builder.set_entry(c, 0x6110_0505)


LONG_ELEMENTS = [
    # Composed letters, and syllables of three jamo, whose elements are all the same.
    LongElements("elements of composed letters", 50_000, tailored(of_one_weight),
                 lambda n: [([GA], n)],
                 lambda n: elements((0x6110_0000, 2 * n))),
    LongElements("elements of syllables", 50_000, ["base Mini", "set jamo 65100505*100"],
                 lambda n: [([GAG], n)],
                 lambda n: elements((0x6510_0000, 3 * n))),
    # Marks each of which begins a contraction; one behind them all joins the first.
    LongElements("elements of begun", 50_000, tailored(begin_marks),
                 lambda n: [([SIGN_AA], n), ([SIGN_I], 1)],
                 lambda n: elements((0x6210_0000, 1), (0x6110_0000, n - 1))),
    # So do marks of four classes in turn. By class the one behind them all joins the first of the lowest class.
    LongElements("elements of several begun", 50_000, tailored(begin_several),
                 lambda n: [(SEVERAL, n // 4), ([SIGN_I], 1)],
                 lambda n: elements((0x6220_0000, 1), (0x6120_0000, n // 4 - 1), (0x6130_0000, n // 4), (0x6140_0000, n // 4),
                                    (0x6110_0000, n // 4))),
]


def wrong_answers(texts, size, answers):
    """What is wrong with the answers to the questions on the texts of one size."""
    if texts.is_right(size, answers):
        return []
    return [f"{texts.kind}, {size}: {[it[:60] for it in answers]}; wanted: {texts.wanted(size)}"]


def wrong_long_texts(driver, texts, attempts=ATTEMPTS):
    """What is wrong with texts of a size and of a greater one: another answer, or a time that grows beyond proportion; and how
    many runs there were."""
    sizes = [texts.size, texts.size * LONGER]
    times = Times(driver, texts.questions(sizes[0], LONGER * TIMES), texts.questions(sizes[1], TIMES))

    def found():
        faults = [fault for place, it in enumerate(times.answers) for fault in wrong_answers(texts, sizes[place % 2], it)]
        many, one = times.least
        said = f"{texts.kind}: {many:.3f} seconds for {LONGER} of {sizes[0]}, {one:.3f} for one of {sizes[1]}"
        return faults or [said] * (one > SLOWER * many)

    return lasting_faults(found, [times], attempts), len(times.answers)


# ---- one call beside another


# Texts that differ by the Identical level alone, of which a comparison reads all levels: what they repeat, by their kind. How many
# characters each has, and how many times as long as the keys of both it may take to compare them.
LEVELS = {"letters": [A], "letters and spaces": [A, SPACE], "letters with accents": [A, ACUTE]}
CHARACTERS, DEARER = 500_000, 2
# How many times as long as by a reordering without ranges a key may take by one of 100,000 ranges.
BY_RANGES = 4


def beside(driver, first, second, allowed):
    """The least times of two lists of questions, and their answers: more than so many times the second's only where that lasts."""
    times = Times(driver, first, second)
    lasting_faults(lambda: times.least[0] > allowed * times.least[1], [times])
    return times.least, times.answers


def wrong_levels(driver):
    """What is wrong with comparisons that go on to the last level, beside the keys of both texts."""
    faults, made = [], [*tailored(ignore), f"make {SHIFTED}", f"times {TIMES:X}"]
    for kind, repeat in LEVELS.items():
        left, right = (f"c {it:X} {repeated(repeat, CHARACTERS // len(repeat))}" for it in (NOTHING, NONE))
        asked = [*made, f"compare {left} , {right}"], [*made, f"slice 0 {left}", f"slice 0 {right}"]
        (order, keys), answers = beside(driver, *asked, DEARER)
        faults += [f"{kind}: {answers[0][-1]}"] * (answers[0][-1] != "Less")
        faults += [f"{kind}: {order:.3f} seconds, {keys:.3f} for both keys"] * (order > DEARER * keys)
    return faults


def wrong_ranges(driver):
    """What is wrong with the time of a key by a reordering of many ranges, beside one by a reordering of none."""
    none, many = Reordering(0x61, []), Reordering(0x61, [0x0300_0000 + it % 0xFC00 * 0x1_0000 for it in range(100_000)])
    text = f"slice 0 c {A:X}*{4 * CHARACTERS:X}"
    asked = [["base swapped leads", *it.questions(), f"make {IDENTICAL}", f"times {TIMES:X}", text] for it in (many, none)]
    (by_many, by_none), answers = beside(driver, *asked, BY_RANGES)
    faults = [f"unlike answers: {answers[0][-1][:40]}"] * (answers[0][-1] != answers[1][-1])
    return faults + [f"{by_many:.3f} seconds by 100,000 ranges, {by_none:.3f} by none"] * (by_many > BY_RANGES * by_none)


def check_long_texts(report, driver):
    for texts in LONG_TEXTS + LONG_ELEMENTS:
        faults, runs = wrong_long_texts(driver, texts)
        report.say(f"hostile input: long texts, {texts.kind}", faults, runs)
    report.say("hostile input: all levels of long texts take no more than twice their keys", wrong_levels(driver), len(LEVELS))
    report.say("hostile input: a key by many ranges", wrong_ranges(driver), 2)


def slow_texts_missed(driver):
    """Whether a time beyond proportion is let through."""
    texts = LONG_TEXTS[0]
    found, _ = wrong_long_texts(Slowed(driver, [f"{A:X}*{texts.size * LONGER:X}"], 2 * SLOWER), texts, 1)
    return [] if any(" seconds for " in it for it in found) else ["not found: a time beyond proportion"]
