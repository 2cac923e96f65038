"""Random texts, in each encoding that holds them, and the calls by which two of them are compared.

What damaged UTF-8 and UTF-16 say is left to Python's own decoders, which know nothing of the library's.
"""
import struct

from driver import numbers

# Letters, digits, variable characters, marks of several classes and such as stand for two, jamo and syllables, characters with
# implicit weights, noncharacters, surrogates of both kinds.
UNITS = [0x61, 0x62, 0x63, 0x6C, 0x41, 0x65, 0x7A, 0xE1, 0xE5, 0xE9, 0xDF, 0x30, 0x31, 0x39, 0x20, 0x2D, 0x2E, 0x24, 0x00, 0x01,
         0x300, 0x301, 0x307, 0x308, 0x30A, 0x323, 0x327, 0x340, 0x344, 0x34F, 0xF71, 0xF72, 0xF73, 0x1100, 0x1161, 0x11A8,
         0xAC00, 0xAC01, 0x3B1, 0x3B2, 0x3042, 0x30A2, 0x4E00, 0x2126, 0xFFFE, 0xFFFF, 0xFFFD, 0xFDD0, 0xFDEF, 0xD800, 0xD834,
         0xDBFF, 0xDC00, 0xDD1E, 0xDFFF, 0xD835]
# Damaged UTF-8 and what it says: a U+FFFD for each maximal part of an ill-formed sequence. The first five are the examples of
# the Unicode Standard ("U+FFFD Substitution of Maximal Subparts").
DAMAGED_UTF8 = [
    ("61 F1 80 80 E1 80 C2 62 80 63 80 BF 64", "a\uFFFD\uFFFD\uFFFDb\uFFFDc\uFFFD\uFFFDd"),
    ("C0 AF E0 80 BF F0 81 82 41", "\uFFFD" * 8 + "A"),
    ("ED A0 80 ED BF BF ED AF 41", "\uFFFD" * 8 + "A"),
    ("F4 91 92 93 FF 41 80 BF 42", "\uFFFD" * 5 + "A\uFFFD\uFFFDB"),
    ("E1 80 E2 F0 91 92 F1 BF 41", "\uFFFD" * 4 + "A"),
    ("F0 9D 84", "\uFFFD"),
    ("9D 84 9E", "\uFFFD" * 3),
]
# Units of UTF-16 and what they say: a U+FFFD for each surrogate that stands alone.
DAMAGED_UTF16 = [
    ([0xD800], "\uFFFD"),
    ([0xDC00, 0x61], "\uFFFDa"),
    ([0x61, 0xD834, 0x62], "a\uFFFDb"),
    ([0xD834, 0xD834, 0xDD1E], "\uFFFD\U0001D11E"),
    ([0xDD1E, 0xD834], "\uFFFD\uFFFD"),
    ([0xD834, 0xDD1E, 0xDD1E], "\U0001D11E\uFFFD"),
    ([0xDBFF, 0xDFFF, 0xFFFE], "\U0010FFFF\uFFFE"),
]
DECODED = len(DAMAGED_UTF8) + len(DAMAGED_UTF16)


def from_utf8(text):
    return text.decode("utf-8", "replace")


def from_utf16(units):
    return struct.pack(f">{len(units)}H", *units).decode("utf-16-be", "replace")


def wrong_decoders():
    """What Python's decoders say that is not as the Unicode Standard has it."""
    found = [(it, from_utf8(bytes.fromhex(it)), wanted) for it, wanted in DAMAGED_UTF8]
    found += [(it, from_utf16(it), wanted) for it, wanted in DAMAGED_UTF16]
    return [f"{given} is read as {read!r}; wanted: {wanted!r}" for given, read, wanted in found if read != wanted]


class Text:
    """A text as questions write it, by the names of the encodings that hold it: `c`, `8`, `16`, and `1` where each character has
    a byte in Latin-1."""

    def __init__(self, characters, utf8, utf16):
        self.characters, self.utf8 = characters, utf8
        self.written = {
            "c": f"c {characters.encode('utf-32-be').hex(' ', 4)}".rstrip(),
            "8": f"8 {utf8.hex(' ')}".rstrip(),
            "16": f"16 {utf16.hex(' ', 2)}".rstrip(),
        }
        if not characters or max(characters) <= "\xFF":
            self.written["1"] = f"1 {characters.encode('latin-1').hex(' ')}".rstrip()

    def __getitem__(self, encoding):
        return self.written[encoding]

    def is_latin1(self):
        return "1" in self.written

    def parts(self, at):
        """The two parts into which the text falls at a byte of its UTF-8."""
        return of_bytes(self.utf8[:at]), of_bytes(self.utf8[at:])

    def repeated(self, times):
        return of_bytes(self.utf8 * times)


def of_units(units):
    """The text of units of UTF-16, with surrogates alone as they are in that encoding."""
    characters = from_utf16(units)
    return Text(characters, characters.encode(), struct.pack(f">{len(units)}H", *units))


def of_bytes(utf8):
    """The text that bytes spell in UTF-8, which may be damaged."""
    characters = from_utf8(utf8)
    return Text(characters, utf8, characters.encode("utf-16-be"))


def any_unit(dice):
    """A unit: mostly one of those above."""
    return dice.randrange(0x10000) if dice.randrange(16) == 0 else dice.choice(UNITS)


def any_units(dice):
    """The units of a text: one in four is of bytes alone, one in sixteen is long."""
    length = dice.randrange(60 if dice.randrange(16) == 0 else 8)
    limit = 0x100 if dice.randrange(4) == 0 else 0x10000
    return [any_unit(dice) % limit for _ in range(length)]


def any_text(dice):
    return of_units(any_units(dice))


def two_texts(dice):
    """A text, and one to compare it with: as often as not the same with another unit in one place."""
    units = any_units(dice)
    left = of_units(units)
    if dice.randrange(2) == 0:
        return left, any_text(dice)
    if units:
        units[dice.randrange(len(units))] = any_unit(dice)
    return left, of_units(units)


# ---- two texts, by all calls

KEYS = ["c", "8", "16"]
SWAPPED = {"Less": "Greater", "Equal": "Equal", "Greater": "Less"}


def calls(left, right):
    """The encodings in which a call compares two texts."""
    found = [("c", "c"), ("8", "8"), ("16", "16")]
    found += [("1", "16")] * left.is_latin1()
    return found + [("1", "1")] * (left.is_latin1() and right.is_latin1())


def comparisons(left, right):
    return [f"compare {left[mine]} , {right[other]}" for mine, other in calls(left, right)]


def pair_questions(left, right):
    """The keys of two texts in all encodings that keys are written of, and their order by all calls, both ways round."""
    keys = [f"key {text[encoding]}" for text in (left, right) for encoding in KEYS]
    return keys + comparisons(left, right) + comparisons(right, left)


def pair_agrees(left, right, answers):
    """Whether each text has one key in all its encodings, all calls give the order of the keys, and the texts swapped the other
    one."""
    keys = answers[: len(KEYS)], answers[len(KEYS) : 2 * len(KEYS)]
    if any(len(set(it)) != 1 or "?" in it[0] for it in keys):
        return False
    mine, other = (numbers(it[0]) for it in keys)
    order = "Less" if mine < other else "Equal" if mine == other else "Greater"
    wanted = [order] * len(calls(left, right)) + [SWAPPED[order]] * len(calls(right, left))
    return answers[2 * len(KEYS) :] == wanted
