"""The rows that the bench measures, by groups, and their texts: the same for a seed on every machine that has the same words.

`rows(seed)` gives all rows, in order. A row makes its texts only where it is asked for its pairs.
"""
import functools
import os
import unicodedata
from collections import Counter, namedtuple

from scripts import LANGUAGE_WORDS, SCRIPTS, TWELVE, Script, Texts, as_they_are, base, composed, decomposed, emoji, names_of, words_of, words_of_cldr

PAIRS = 5_000
NAMES = 20_000
SORTED = 100_000
LONG = 10_000
MEGABYTE = 1_000_000
SEARCHED = 100_000

# A search whose limit is a ratio to the library's own time for a key of the text that is searched.
BESIDE_KEYS = "search beside keys"

# A row of the bench: what is measured, the texts, the greatest ratio to the peer's time that is wanted, or the greatest time, such as
# "6 ms", the settings, and what makes the pairs of texts. Keys, elements and sorts are of all texts of the pairs.
Row = namedtuple("Row", "group operation name limit settings pairs")

# The number of the strength as ICU has it, and what is on: digits as numbers, variable elements shifted, the case level, and for the
# peer alone that it normalizes texts, which it leaves to its caller else. The tables are those of a language, und for the root.
Settings = namedtuple("Settings", "strength numeric shifted case_level normalized language", defaults=(2, 0, 0, 0, 0, "und"))
TERTIARY = Settings()

# What needs no table but Mini's, the small one of `icu_table_mini`.
MINI_GROUPS = ("latin", "korean", "digits", "long")

# What has ideographs, which the peer orders by radical and stroke, and the library by code point.
WITH_IDEOGRAPHS = ("Han", "Japanese", "mixed scripts", "twelve scripts")

# The greatest ratios that are wanted of a language's words: of a comparison, of a key, of elements.
LANGUAGE_LIMITS = {
    "hu": (0.8, 0.7, 0.8),
    "fr-CA": (0.8, 0.8, 0.8),
    "ja": (0.8, 0.8, 0.8),
    **dict.fromkeys(("cs", "da", "de-u-co-phonebk", "es-u-co-trad", "pl", "sv"), (0.7, 0.7, 0.8)),
}

# Letters as often as English has them, so that beginnings repeat as in real lists.
LETTERS = "eeeeeeeeeeeettttttttaaaaaaaaoooooooiiiiiiinnnnnnnsssssshhhhhhrrrrrrddddllllcccuuummwwffggyyppbbvkjxqz"
VIETNAMESE = Script("Vietnamese", "ties", 0.8, "vi", "LATIN", " ", as_they_are)
MARKS = [chr(code) for code in range(0x300, 0x34F) if code not in (0x340, 0x341, 0x343, 0x344)]


def is_accented(letter):
    """Whether the letter is an ASCII letter with marks that Mini knows."""
    first, *marks = decomposed(letter)
    return first.isascii() and first.isalpha() and marks != [] and all("\u0300" <= mark <= "\u034e" for mark in marks)


ACCENTED = [letter for letter in map(chr, range(0xC0, 0x250)) if is_accented(letter)]


def word(texts, shortest, longest):
    return texts.picked(LETTERS, shortest, longest).capitalize()


def ascii_name(texts):
    """10 to 20 characters: two names, and what parts them."""
    return word(texts, 3, 8) + texts.pick("       -.") + word(texts, 6, 11)


def with_accents(texts, text):
    """The text with one letter in four replaced by one with accents, composed."""
    return "".join(texts.pick(ACCENTED) if it.isalpha() and texts.below(4) == 0 else it for it in text)


SYLLABLES = [chr(code) for code in range(0xAC00, 0xD7A4)]


def hangul_name(texts):
    return texts.picked(SYLLABLES, 2, 4) + " " + texts.picked(SYLLABLES, 3, 7)


def item(texts):
    """A number of 8 to 127 digits between letters."""
    return "item " + texts.pick("123456789") + texts.picked("0123456789", 7, 126) + texts.pick("abcdefghijklmnopqrstuvwxyz")


def file_name(texts):
    kind = texts.pick(("IMG_", "scan ", "Chapter ", "report-", "track"))
    return f"{kind}{texts.below(10 ** (1 + texts.below(5)))}{texts.pick(('', ' (1)', '-2', 'b'))}.{texts.pick(('jpg', 'txt', 'pdf'))}"


def phrase(texts):
    """Three to five short words, parted by hyphens and spaces."""
    return "".join(word(texts, 2, 5) + texts.pick(" -") for _ in range(2 + texts.below(3))) + word(texts, 3, 6)


def other_case(texts, name):
    """The name with one of its letters in the other case."""
    places = [place for place, letter in enumerate(name) if letter.isalpha()]
    place = texts.pick(places)
    return name[:place] + name[place].swapcase() + name[place + 1 :]


def marked(texts, name):
    """The name with a run of 20 to 60 marks behind one of its letters."""
    place = 1 + texts.below(len(name) - 1)
    return name[:place] + texts.picked(MARKS, 20, 60) + name[place:]


class Lists:
    """The lists of names, each made once, where it is asked for."""

    def __init__(self, seed):
        self.seed = seed
        self.scripts = {script.name: script for script in (*SCRIPTS, VIETNAMESE)}
        self.of = functools.cache(self.made)

    def texts(self, name):
        return Texts(self.seed, name)

    def made(self, name):
        """The list of a script's names, or of another kind."""
        if name in self.scripts:
            return names_of(self.scripts[name], self.seed, NAMES)
        texts = self.texts(name)
        if name in LANGUAGE_WORDS:
            language, letters = LANGUAGE_WORDS[name]
            return texts.in_any_order(words_of_cldr(language, letters))
        if name == "composed names":
            return [with_accents(texts, ascii_name(texts)) for _ in range(NAMES)]
        if name == "decomposed names":
            return [decomposed(it) for it in self.of("composed names")]
        if name == "mixed scripts":
            return [" ".join(texts.pick(self.words(texts.pick(TWELVE))) for _ in range(2)) for _ in range(NAMES)]
        if name == "emoji":
            return [texts.picked(self.emoji(), 2, 5) for _ in range(NAMES)]
        kinds = {"ASCII names": ascii_name, "Hangul": hangul_name, "digits": item, "file names": file_name, "phrases": phrase}
        return [kinds[name](texts) for _ in range(NAMES)]

    @functools.cache
    def words(self, script):
        return words_of(self.scripts[script], self.texts(script))

    @functools.cache
    def emoji(self):
        return emoji()

    def many(self, name, count):
        """So many names, of ASCII or of one to three words of twelve scripts."""
        texts = self.texts(f"many {name}")
        if name == "ASCII names":
            return [ascii_name(texts) for _ in range(count)]
        scripts = [texts.pick(TWELVE) for _ in range(count)]
        return [" ".join(texts.pick(self.words(script)) for _ in range(1 + texts.below(3))) for script in scripts]

    def cut(self, length):
        """Texts of so many letters, all in all a hundred thousand."""
        letters = "".join(it for name in self.of("ASCII names") for it in name if it.isalpha())
        return [letters[at : at + length] for at in range(0, min(100_000, length * PAIRS), length)]

    def long(self, name):
        """A text of 10,000 characters."""
        texts = self.texts(f"long {name}")
        if name == "Hangul":
            return texts.picked(SYLLABLES, LONG - 1, LONG - 1) + "a"
        names = "".join(ascii_name(texts) + " " for _ in range(LONG))[: LONG - 1]
        return (with_accents(texts, names) if name == "accents" else names) + "a"


def as_they_come(names):
    return list(zip(names[:PAIRS], names[1 : PAIRS + 1]))


def neighbours(names):
    """Neighbours of the sorted list, from all of it: they begin alike, and differ."""
    ordered = sorted(set(names))
    return list(zip(ordered[::4], ordered[1::4]))[:PAIRS]


def in_pairs(names):
    return list(zip(names[::2], names[1::2]))


WAYS = (("random", as_they_come), ("sorted", neighbours))


def compare_rows(lists, group, name, limit, operation="compare", settings=TERTIARY, source=None):
    """Two rows: the names as they come, and neighbours."""
    for way, pairs in WAYS:
        yield Row(group, operation, f"{name}, {way}", limit, settings, lambda pairs=pairs: pairs(lists.of(source or name)))


def list_row(lists, group, operation, name, limit, settings=TERTIARY, source=None):
    return Row(group, operation, name, limit, settings, lambda: as_they_come(lists.of(source or name)))


def name_rows(lists, group, name, limit, key_limit):
    """The rows of a list of names."""
    yield from compare_rows(lists, group, name, limit)
    yield list_row(lists, group, "keys", name, key_limit)
    yield list_row(lists, group, "elements", name, 0.8)
    if name in ("ASCII names", "composed names", "Cyrillic", "Han"):
        yield list_row(lists, group, "elements of characters", name, 0.8)


def long_rows(lists):
    all_kinds = ("ASCII", "accents", "Hangul")
    changes = (
        ("the first character differs", 1.1, all_kinds, lambda it: (it, "z" + it[1:])),
        ("the last character differs", 0.15, all_kinds, lambda it: (it, it[:-1] + "b")),
        ("identical", 0.15, all_kinds, lambda it: (it, it)),
        ("composed and decomposed", 0.9, ("accents", "Hangul"), lambda it: (it, decomposed(it))),
    )
    for what, limit, kinds, change in changes:
        for kind in kinds:
            pairs = lambda kind=kind, change=change: [change(lists.long(kind))]
            yield Row("long", "compare", f"10,000 {kind}, {what}", limit, TERTIARY, pairs)


def tie_rows(lists):
    """Texts that differ at no level, or at a later one than the first."""
    texts = lists.texts("ties")
    plain = lambda name: "".join(map(base, name))
    katakana = lambda name: "".join(chr(ord(it) + 0x60) if "\u3041" <= it <= "\u3096" else it for it in name)
    ties = (
        ("Cyrillic, but for case", "Cyrillic", lambda it: (it.lower(), it.title())),
        ("Hiragana beside Katakana", "Hiragana", lambda it: (it, katakana(it))),
        ("Hebrew with points beside without", "Hebrew with points", lambda it: (it, plain_hebrew(it))),
        ("accented names beside plain ones", "composed names", lambda it: (it, plain(it))),
        ("ASCII, but for case of one letter", "ASCII names", lambda it: (it, other_case(texts, it))),
        ("Latin, one of two decomposed", "composed names", lambda it: (it, decomposed(it))),
        ("Vietnamese, one of two decomposed", "Vietnamese", lambda it: (composed(it), decomposed(it))),
        ("Korean, one of two decomposed", "Hangul", lambda it: (it, decomposed(it))),
    )
    for name, source, change in ties:
        pairs = lambda source=source, change=change: [change(it) for it in lists.of(source)[:PAIRS]]
        yield Row("ties", "compare", name, 0.8, TERTIARY, pairs)
    short = lambda: [(it[:6], it[:6]) for it in lists.of("ASCII names")[:PAIRS]]
    yield Row("ties", "compare", "the same short text twice", 1.0, TERTIARY, short)


def language_rows(lists):
    """Words of languages, by their own tables, as they stand in lists: in any order, and sorted."""
    for language in LANGUAGE_WORDS:
        limits = LANGUAGE_LIMITS.get(language, (0.9, 0.9, 0.9))
        settings, source = Settings(language=language), language
        yield from compare_rows(lists, "languages", f"{language} words", limits[0], settings=settings, source=source)
        yield list_row(lists, "languages", "keys", f"{language} words", limits[1], settings, source)
        yield list_row(lists, "languages", "elements", f"{language} words", limits[2], settings, source)
    changes = (("hu", "hu", "capitals", str.upper), ("fr-CA", "fr-CA", "unaccented ones", unaccented), ("und", "fr-CA", "unaccented ones", unaccented),
               ("und", "es-u-co-trad", "capitals", str.upper), ("und", "es-u-co-trad", "one capital", str.capitalize))
    for language, source, what, change in changes:
        pairs = lambda source=source, change=change: [(it, change(it)) for it in lists.of(source)[:PAIRS] if change(it) != it]
        yield Row("languages", "compare", f"{source} words beside {what}, by {language}", 0.8, Settings(language=language), pairs)


def unaccented(word):
    return "".join(map(base, word))


def difference_rows(lists):
    """Texts of many lengths that differ at one place: in an accent, in case, or in a letter."""
    changes = (("an accent", accented), ("case", str.swapcase), ("a letter", lambda letter: "x" if letter != "x" else "y"))
    for length in (3, 10, 40, 150, 500):
        for place, at in (("first", 0), ("middle", length // 2), ("last", length - 1)):
            for what, change in changes:
                pairs = lambda length=length, at=at, change=change: [with_change(it, at, change) for it in lists.cut(length)]
                limit = 0.2 if length == 500 and place == "middle" else 0.8
                yield Row("differences", "compare", f"{length} characters, {what} in the {place} one", limit, TERTIARY, pairs)


def accented(letter):
    return composed(letter + "\u0301")


def with_change(text, at, change):
    return text, text[:at] + change(text[at]) + text[at + 1 :]


def plain_hebrew(name):
    return "".join(it for it in name if not "\u0591" <= it <= "\u05c7")


def settings_rows(lists):
    """Rows at other settings than strength tertiary."""
    numeric, shifted = Settings(numeric=1), Settings(shifted=1)
    yield from compare_rows(lists, "settings", "file names, digits as numbers", 0.8, settings=numeric, source="file names")
    yield from compare_rows(lists, "settings", "hyphens and spaces shifted", 0.8, settings=shifted, source="phrases")
    choices = (
        ("at Primary", 0.6, Settings(0)),
        ("at Secondary", 0.6, Settings(1)),
        ("at Quaternary, shifted", 0.8, Settings(3, shifted=1)),
        ("at Identical", 0.8, Settings(15)),
        ("with the case level", 0.7, Settings(case_level=1)),
    )
    for what, limit, settings in choices:
        for source in ("ASCII names", "composed names", "Cyrillic"):
            yield list_row(lists, "settings", "keys", f"{source} {what}", limit, settings, source)


def mark_rows(lists):
    """Long runs of marks, which the peer is asked to put in order."""
    settings = Settings(normalized=1)
    texts = lists.texts("marks")
    names = functools.cache(lambda: [marked(texts, it) for it in lists.of("ASCII names")[: PAIRS + 1]])
    yield Row("marks", "compare", "names with 20 to 60 marks, random", 1.0, settings, lambda: as_they_come(names()))
    yield Row("marks", "compare", "names with 20 to 60 marks, put in order", 1.0, settings, lambda: [(it, decomposed(it)) for it in names()])
    yield Row("marks", "keys", "names with 20 to 60 marks", 1.0, settings, lambda: as_they_come(names()))
    run = lambda: "a" + texts.picked(MARKS, 1_000, 1_000)
    yield Row("marks", "compare", "1,000 marks, put in order", 1.0, settings, lambda: [(it := run(), decomposed(it))])
    yield Row("marks", "keys", "1,000 marks", 1.0, settings, lambda: [(run(), run())])


def megabyte(names):
    """A text of a megabyte: the names, again and again, with a space behind each."""
    once = "".join(f"{it} " for it in names).encode()
    return (once * (MEGABYTE // len(once) + 1))[:MEGABYTE].decode(errors="ignore")


def most_frequent_pair(text):
    """The two letters that stand together most often."""
    pairs = Counter(text[at : at + 2] for at in range(len(text) - 1))
    return max((it for it in pairs if it.isalpha()), key=lambda it: (pairs[it], it))


def absent(name, text):
    """The name with another last letter, so that it isn't in the text, whatever the case."""
    folded = base_letters(text)
    return next(it for it in (name[:-1] + letter for letter in sorted(set(folded)) if letter.isalpha()) if base_letters(it) not in folded)


def base_letters(text):
    """The letters of a text without marks or case."""
    return "".join(it for it in decomposed(text) if not unicodedata.combining(it)).casefold()


def search_rows(lists):
    """A pattern that is found a few times in a megabyte, one that is found often, and one that begins as a rare one and isn't
    found at all."""
    for name in ("ASCII names", "composed names", "Cyrillic", "Han", "Hangul"):
        text = functools.cache(lambda name=name: megabyte(lists.of(name)))
        rare = functools.cache(lambda text=text: text()[: 2 * len(text()) // 3].split(" ")[-2])
        patterns = (
            ("rare", rare),
            ("frequent", lambda text=text: most_frequent_pair(text())),
            ("missing", lambda text=text, rare=rare: absent(rare(), text())),
        )
        for strength, settings in (("Primary", Settings(0)), ("Tertiary", TERTIARY)):
            for what, pattern in patterns:
                pairs = lambda pattern=pattern, text=text: [(pattern(), text())]
                yield Row("search", "search", f"{name}, a {what} pattern at {strength}", 1.0, settings, pairs)


PROSE = (
    "the quick brown fox jumped over the lazy dog and then the r\u00e9sum\u00e9 of Zo\u00eb was found in a caf\u00e9 at the corner "
    "where nobody had ever looked for anything but coffee "
)
# What is searched beside a key of the same text: the strength, whether variable elements are shifted, the pattern, and what the
# text is made of, again and again.
BESIDE_KEYS_ROWS = (
    ("prose, resume", 0, 0, "resume", PROSE),
    ("prose, zoe", 0, 0, "zoe", PROSE),
    ("prose, the", 0, 0, "the", PROSE),
    ("prose, xylophone", 0, 0, "xylophone", PROSE),
    ("prose, cornerwhere, shifted", 0, 1, "cornerwhere", PROSE),
    ("prose, the", 2, 0, "the", PROSE),
    ("prose, resume", 2, 0, "resume", PROSE),
    ("prose, the, shifted", 2, 1, "the", PROSE),
    ("hyphens, ab, shifted", 0, 1, "ab", "-"),
    ("a and 9 hyphens, aaaab, shifted", 0, 1, "aaaab", "a" + 9 * "-"),
    ("a and 9 hyphens, aaaab, shifted", 2, 1, "aaaab", "a" + 9 * "-"),
    ("a, 20 times a", 0, 0, 20 * "a", "a"),
    ("a, 20 times a, then b", 0, 0, 20 * "a" + "b", "a"),
    ("a, 20 times a, then b", 2, 0, 20 * "a" + "b", "a"),
    ("a, 20 times a, then U+0301", 1, 0, 20 * "a" + "\u0301", "a"),
)


def repeated(text, length):
    """The text again and again, cut off at a length."""
    return (text * (1 + length // len(text)))[:length]


def beside_keys_rows():
    """Texts in which many parts begin as the pattern does, or vanish: the limit is a ratio to the time that their key takes."""
    strengths = ("Primary", "Secondary", "Tertiary")
    for name, strength, shifted, pattern, text in BESIDE_KEYS_ROWS:
        pairs = lambda pattern=pattern, text=text: [(pattern, repeated(text, SEARCHED))]
        settings = Settings(strength, shifted=shifted)
        yield Row("search", BESIDE_KEYS, f"{name} at {strengths[strength]}", 3.0, settings, pairs)


def sort_rows(lists):
    for name in ("ASCII names", "twelve scripts"):
        for operation, limit in (("sort by keys", 0.6), ("sort by comparisons", 0.7), ("index", 0.8)):
            pairs = lambda name=name: in_pairs(lists.many(name, SORTED))
            yield Row("sorting", operation, f"100,000 {name}", limit, TERTIARY, pairs)


def rows(seed):
    """All rows, with texts of a seed."""
    lists = Lists(seed)
    yield from name_rows(lists, "latin", "ASCII names", 0.6, 0.5)
    yield from name_rows(lists, "latin", "composed names", 0.7, 0.55)
    yield from name_rows(lists, "latin", "decomposed names", 0.7, 0.55)
    yield from name_rows(lists, "korean", "Hangul", 0.7, 0.5)
    yield from name_rows(lists, "digits", "digits", 0.7, 0.4)
    yield from compare_rows(lists, "digits", "digits as numbers", 1.0, settings=Settings(numeric=1), source="digits")
    yield from long_rows(lists)
    for script in SCRIPTS:
        yield from name_rows(lists, script.group, script.name, script.limit, 0.7)
    yield from name_rows(lists, "mixed", "mixed scripts", 0.7, 0.7)
    yield from name_rows(lists, "mixed", "emoji", 0.9, 1.0)
    yield from tie_rows(lists)
    yield from difference_rows(lists)
    yield from language_rows(lists)
    yield from settings_rows(lists)
    for name, limit in (("Thai", 0.9), ("Arabic", 0.7), ("Cyrillic", 0.7), ("ASCII names", 0.6)):
        yield from compare_rows(lists, "utf16", name, limit, operation="compare UTF-16")
    yield from mark_rows(lists)
    yield from search_rows(lists)
    yield from beside_keys_rows()
    yield from sort_rows(lists)
    short = lambda: [("a", "b")]
    yield Row("making", "make", "a collator of tables that were read", "6 ms", TERTIARY, short)
    yield Row("making", "make from another", "a collator of the same tables with other settings", "0.05 ms", Settings(0), short)


def has_ideographs(row):
    return any(name in row.name for name in WITH_IDEOGRAPHS)


def passes(row):
    """What is timed for a row, each with its pairs of texts: its operation, or a search without the peer, and then keys."""
    if row.operation != BESIDE_KEYS:
        return [(row.operation, row.pairs)]
    return [("search alone", row.pairs), ("keys", lambda: [(text, text) for _, text in row.pairs()])]


def languages(chosen):
    """The languages whose tables the rows need, but for the root."""
    return sorted({row.settings.language for row in chosen} - {TERTIARY.language})


def write(folder, chosen, tables):
    """Writes a file of texts for all that is timed, one text a line and so two lines a pair, and the plan: a line a file. `tables` has
    the table files of the languages."""
    os.makedirs(folder, exist_ok=True)
    plan = []
    for row in chosen:
        for operation, pairs in passes(row):
            file = os.path.join(folder, f"{len(plan)}.txt")
            with open(file, "wb") as it:
                it.write("".join(f"{text}\n" for pair in pairs() for text in pair).encode("utf-8"))
            *numbers, language = row.settings
            plan.append("\t".join((operation, " ".join(map(str, numbers)), file, language, tables.get(language, ""))))
    with open(os.path.join(folder, "plan"), "w", encoding="utf-8") as it:
        it.write("".join(f"{line}\n" for line in plan))
