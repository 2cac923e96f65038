"""Scripts, words of them, and names made of such words.

Words are those that CLDR has of a language, in the package unicode-cldr-core: names of languages, regions, cities and currencies,
and what emoji are called. Where the package isn't installed they are made up of the letters and marks of the script.
"""
import functools
import os
import random
import re
import sys
import unicodedata
from collections import namedtuple

LANGUAGES = "/usr/share/unicode/cldr/common"
FOLDERS = ("main", "annotations", "subdivisions")
FEWEST = 100

# A script as the bench names it, its group, the greatest ratio of a comparison that is wanted, the language of CLDR, how the names of
# its characters begin, what stands between two words, and what becomes of a name.
Script = namedtuple("Script", "name group limit language letters joiner changed")

# What a word may have beside letters and marks: the joiners that Persian and the Indic scripts write within words.
JOINERS = "\u200c\u200d"
# Vowels, alone and behind the mark of a double consonant.
POINTS = [twice + vowel for twice in ("", "\u05bc") for vowel in map(chr, range(0x5B0, 0x5BC))]
HARAKAT = [twice + vowel for twice in ("", "\u0651") for vowel in "\u064b\u064c\u064d\u064e\u064f\u0650\u0652"]


def decomposed(text):
    return unicodedata.normalize("NFD", text)


def composed(text):
    return unicodedata.normalize("NFC", text)


class Texts:
    """Random choices, by a seed and a name. Only `random()` of Python's generator is called: it is the same in every version."""

    def __init__(self, seed, name):
        self.random = random.Random(f"{seed} {name}").random

    def below(self, count):
        return int(self.random() * count)

    def pick(self, items):
        return items[self.below(len(items))]

    def in_any_order(self, items):
        keyed = sorted((self.random(), it) for it in items)
        return [it for _, it in keyed]

    def picked(self, items, fewest, most):
        """So many items, joined."""
        return "".join(self.pick(items) for _ in range(fewest + self.below(most - fewest + 1)))


def as_they_are(_, name):
    return name


def with_marks(marks):
    """A change that puts marks behind half of the letters, in canonical order."""

    def change(texts, name):
        return composed("".join(it + (texts.pick(marks) if it.isalpha() and texts.below(2) else "") for it in name))

    return change


def base(letter):
    return decomposed(letter)[0]


# The letters with breathings and accents of each letter of Greek.
POLYTONIC = {}
for code in range(0x1F00, 0x1FFD):
    if chr(code).isalpha():
        POLYTONIC.setdefault(base(chr(code)), []).append(chr(code))


def polytonic(texts, name):
    """The name with half of its vowels replaced by ones with breathings and accents."""
    return composed("".join(texts.pick(POLYTONIC.get(base(it), it)) if texts.below(2) else it for it in name))


JAPANESE = ("CJK UNIFIED", "HIRAGANA", "KATAKANA")
SCRIPTS = (
    Script("Cyrillic", "alphabets", 0.7, "ru", "CYRILLIC", " ", as_they_are),
    Script("Greek", "alphabets", 0.7, "el", "GREEK", " ", as_they_are),
    Script("polytonic Greek", "alphabets", 0.7, "el", "GREEK", " ", polytonic),
    Script("Georgian", "alphabets", 0.7, "ka", "GEORGIAN", " ", as_they_are),
    Script("Armenian", "alphabets", 0.7, "hy", "ARMENIAN", " ", as_they_are),
    Script("Ethiopic", "alphabets", 0.7, "am", "ETHIOPIC", " ", as_they_are),
    Script("Arabic", "arabic", 0.7, "ar", "ARABIC", " ", as_they_are),
    Script("Arabic with marks", "arabic", 0.9, "ar", "ARABIC", " ", with_marks(HARAKAT)),
    Script("Persian", "arabic", 0.7, "fa", "ARABIC", " ", as_they_are),
    Script("Urdu", "arabic", 0.7, "ur", "ARABIC", " ", as_they_are),
    Script("Hebrew", "hebrew", 0.7, "he", "HEBREW", " ", as_they_are),
    Script("Hebrew with points", "hebrew", 0.7, "he", "HEBREW", " ", with_marks(POINTS)),
    Script("Devanagari", "indic", 0.8, "hi", "DEVANAGARI", " ", as_they_are),
    Script("Bengali", "indic", 0.8, "bn", "BENGALI", " ", as_they_are),
    Script("Gurmukhi", "indic", 0.8, "pa", "GURMUKHI", " ", as_they_are),
    Script("Gujarati", "indic", 0.8, "gu", "GUJARATI", " ", as_they_are),
    Script("Odia", "indic", 0.8, "or", "ORIYA", " ", as_they_are),
    Script("Tamil", "indic", 0.8, "ta", "TAMIL", " ", as_they_are),
    Script("Telugu", "indic", 0.8, "te", "TELUGU", " ", as_they_are),
    Script("Kannada", "indic", 0.8, "kn", "KANNADA", " ", as_they_are),
    Script("Malayalam", "indic", 0.8, "ml", "MALAYALAM", " ", as_they_are),
    Script("Sinhala", "indic", 0.8, "si", "SINHALA", " ", as_they_are),
    Script("Khmer", "southeast", 0.8, "km", "KHMER", "", as_they_are),
    Script("Myanmar", "southeast", 0.8, "my", "MYANMAR", "", as_they_are),
    Script("Thai", "southeast", 0.9, "th", "THAI", "", as_they_are),
    Script("Lao", "southeast", 0.9, "lo", "LAO", "", as_they_are),
    Script("Han", "eastasian", 0.7, "zh", "CJK UNIFIED", "", as_they_are),
    Script("Hiragana", "eastasian", 0.7, "ja", "HIRAGANA", "", as_they_are),
    Script("Katakana with long marks", "eastasian", 0.7, "ja", "KATAKANA", "ー", as_they_are),
    Script("Japanese", "eastasian", 0.7, "ja", JAPANESE, "", as_they_are),
)
# Languages that have an order of their own, and where CLDR has their words: the file, and how the names of the characters begin.
LANGUAGE_WORDS = {
    **{it: (it, "LATIN") for it in "az bs cs cy da et fi hr hu is lt lv pl ro sk sl sq sv tr vi".split()},
    "nb": ("no", "LATIN"),
    "de-u-co-phonebk": ("de", "LATIN"),
    "es-u-co-trad": ("es", "LATIN"),
    "fr-CA": ("fr", "LATIN"),
    **{it: (it, "CYRILLIC") for it in "be kk ky mk uk".split()},
    "ar": ("ar", "ARABIC"),
    "fa": ("fa", "ARABIC"),
    "bn": ("bn", "BENGALI"),
    "gu": ("gu", "GUJARATI"),
    "hi": ("hi", "DEVANAGARI"),
    "kn": ("kn", "KANNADA"),
    "km": ("km", "KHMER"),
    "lo": ("lo", "LAO"),
    "my": ("my", "MYANMAR"),
    "si": ("si", "SINHALA"),
    "ta": ("ta", "TAMIL"),
    "te": ("te", "TELUGU"),
    "th": ("th", "THAI"),
    "ja": ("ja", JAPANESE),
    "ko": ("ko", "HANGUL"),
    "zh": ("zh", "CJK UNIFIED"),
}
# Those whose names sorts of many scripts mix.
TWELVE = "Cyrillic Greek Georgian Armenian Arabic Hebrew Devanagari Bengali Tamil Thai Han Hiragana".split()


def is_of(word, letters):
    """Whether all letters of a word are of a script, and all else marks and joiners."""
    category = unicodedata.category
    own = lambda it: category(it) in ("Lu", "Ll", "Lt", "Lo", "Lm") and unicodedata.name(it, "").startswith(letters)
    return own(word[0]) and all(own(it) or category(it) in ("Mn", "Mc") or it in JOINERS for it in word)


@functools.cache
def words_of_cldr(language, letters):
    """The words of a language, of two characters or more, in one order."""
    found = set()
    for folder in FOLDERS:
        file = os.path.join(LANGUAGES, folder, f"{language}.xml")
        if os.path.exists(file):
            with open(file, encoding="utf-8") as it:
                found.update(re.split(r"[\s|/.,;:!?(){}\[\]'’\"-]+", re.sub(r"<[^>]*>", " ", it.read())))
    return sorted(word for word in found if len(word) > 1 and is_of(word, letters))


def made_up(script, texts):
    """Words of the script's letters, with a mark behind each third of them."""
    named = [it for it in map(chr, range(0x370, 0x10000)) if unicodedata.name(it, "").startswith(script.letters)]
    letters = [it for it in named if unicodedata.category(it) in ("Ll", "Lo")]
    marks = [it for it in named if unicodedata.category(it) in ("Mn", "Mc")] or [""]
    syllables = [texts.pick(letters) + (texts.pick(marks) if texts.below(3) == 0 else "") for _ in range(500)]
    return [texts.picked(syllables, 3, 7) for _ in range(5_000)]


def words_of(script, texts):
    words = words_of_cldr(script.language, script.letters)
    if len(words) >= FEWEST:
        return words
    print(f"bench: no words of {script.name} in {LANGUAGES}: they are made up", file=sys.stderr)
    return made_up(script, texts)


def names_of(script, seed, count):
    """So many names, each of two words."""
    texts = Texts(seed, script.name)
    words = words_of(script, texts)
    names = (texts.pick(words) + script.joiner + texts.pick(words) for _ in range(count))
    return [script.changed(texts, name) for name in names]


def emoji():
    """The emoji that CLDR has names of, sequences of several characters too, or those of one block."""
    found = set()
    for folder in ("annotations", "annotationsDerived"):
        file = os.path.join(LANGUAGES, folder, "en.xml")
        if os.path.exists(file):
            with open(file, encoding="utf-8") as it:
                found.update(re.findall(r'<annotation cp="([^"&]+)"', it.read()))
    pictures = sorted(it for it in found if any(ord(char) >= 0x2300 for char in it))
    return pictures or [chr(code) for code in range(0x1F300, 0x1F650)]
