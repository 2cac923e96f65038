"""Tables that are made to be dear to check, and large good ones, as lists of numbers."""
import functools
import random

from driver import written

BLOCK, CODES = 64, 0x110000
DATA = ["blocks", "values", "ces", "ce32s", "chars", "contexts", "mappings"]


class Builder:
    """A root or a tailoring, as a list of numbers for each field: all characters have one entry, but those that are given
    another. Blocks of 64 equal entries are stored once."""

    def __init__(self, others):
        self.entries, self.ces, self.ce32s, self.contexts, self.mappings, self.chars = [others] * CODES, [], [], [], [], []

    def set_entry(self, c, entry):
        self.entries[c] = entry

    def set_entries(self, first, last, entry):
        self.entries[first : last + 1] = [entry] * (last + 1 - first)

    def add_context(self, default, mappings):
        """Adds a context, and returns its index: an entry for all texts but those of its mappings, and the mappings, each a list of
        characters and its entry."""
        self.contexts += [default, len(self.mappings) // 3, len(mappings)]
        for characters, entry in mappings:
            self.mappings += [len(self.chars), len(characters), entry]
            self.chars += characters
        return len(self.contexts) // 3 - 1

    def fields(self):
        found, blocks = {}, []
        for first in range(0, CODES, BLOCK):
            blocks.append(found.setdefault(tuple(self.entries[first : first + BLOCK]), len(found)))
        values = [entry for block in found for entry in block]
        return dict(zip(DATA, (blocks, values, self.ces, self.ce32s, self.chars, self.contexts, self.mappings)))

    def questions(self, table=""):
        """What makes this the driver's root, or its tailoring."""
        return [f"set {table}{name} {written(numbers)}".rstrip() for name, numbers in self.fields().items()]


class Reordering:
    """A reordering, as its three lists of numbers: all lead bytes stay, but one that goes by ranges."""

    def __init__(self, lead, ranges):
        self.leads, self.ranges = [0 if it == lead else it for it in range(256)], ranges

    def questions(self):
        """What makes this the driver's reordering."""
        lists = {"leads": self.leads, "ranges": self.ranges, "limit": [0xFFFF_FFFF]}
        return [f"set reordering.{name} {' '.join(f'{it:X}' for it in numbers)}" for name, numbers in lists.items()]


# ---- hostile tables

LISTED, PREFIXED, MAPPED = 0x1FC6, 0xC8, 0xC9


def unlike_primary(lead, number):
    """The primary weight of a number, of three bytes."""
    return lead << 24 | number // 250 % 250 + 4 << 16 | number % 250 + 4 << 8


def unlike_entry(lead, number):
    """The entry of an element with that primary weight, and with common weights below."""
    return unlike_primary(lead, number) | 0xC1


def list_entry(number):
    """The entry of a list of 31 elements, by the list's number."""
    return LISTED | number % 4 * 31 << 13


def unlike_elements(count):
    """So many elements of unlike weights."""
    below = [0xA000_0600 | number % 250 + 4 << 16 | number % 60 + 4 for number in range(count)]
    return [unlike_primary(0x30, number) << 32 | low for number, low in enumerate(below)]


def of_lists():
    """A root in which all characters have one list of 31 unlike elements."""
    builder = Builder(list_entry(0))
    builder.ces = unlike_elements(31)
    return builder


def of_mappings(count):
    """A root in which all characters have one contraction of so many mappings."""
    builder = Builder(MAPPED)
    builder.add_context(unlike_entry(0x31, 0), [([0x20000 + number], unlike_entry(0x30, number)) for number in range(count)])
    return builder


def of_listed_mappings():
    """A root in which all characters have one contraction whose default and three mappings are lists of 31 unlike elements."""
    builder = Builder(MAPPED)
    builder.ces = unlike_elements(4 * 31)
    builder.add_context(list_entry(0), [([0x20000 + number], list_entry(number + 1)) for number in range(3)])
    return builder


def context_entry(index, hints):
    """A contraction's entry, by its context's index and the five bits between that and the kind, which say nothing."""
    return index << 13 | hints << 8 | MAPPED


def add_mapped(builder, lead, count):
    """Adds a context of so many mappings with unlike weights, and returns its index."""
    mappings = [([0x20000 + number], unlike_entry(lead, number)) for number in range(count)]
    return builder.add_context(unlike_entry(0x31, 0), mappings)


def of_spellings(size):
    """A root in which 3,200 values a size name one context of 5,000 mappings a size, by 32 spellings of the bits that say nothing."""
    rng, builder = random.Random(size), Builder(0xCF)
    index = add_mapped(builder, 0x30, 5_000 * size)
    for number in range(3_200 * size):
        builder.set_entry(0x4000 + number, context_entry(index, rng.randrange(32)))
    return builder


def of_far_contexts(size):
    """A root in which 1,600 values a size name two contexts of 2,500 mappings a size, 1,024 indices apart."""
    rng, builder = random.Random(size), Builder(0xCF)
    first = add_mapped(builder, 0x30, 2_500 * size)
    for _ in range(1_023):
        builder.add_context(unlike_entry(0x31, 0), [])
    second = add_mapped(builder, 0x32, 2_500 * size)
    for number in range(1_600 * size):
        builder.set_entry(0x4000 + number, context_entry(rng.choice((first, second)), 0))
    return builder


def of_random_contexts(seed, size):
    """A root in which 1,600 values a size name six contexts of some 4,000 mappings a size, with gaps between their indices, in any
    order and by any spelling."""
    rng, builder = random.Random(seed), Builder(0xCF)
    shares = [rng.random() for _ in range(6)]
    named = []
    for lead, share in enumerate(shares, 0x30):
        for _ in range(rng.choice((0, 1, 511, 1_023))):
            builder.add_context(unlike_entry(0x31, 0), [])
        named.append(add_mapped(builder, lead, 1 + int(4_000 * size * share / sum(shares))))
    for number in range(1_600 * size):
        builder.set_entry(0x4000 + number, context_entry(rng.choice(named), rng.randrange(32)))
    return builder


# What offset entries count from: U+0000 has the weight with this lead byte, and each character after it the next one.
COUNTED_ENTRY, COUNTED_ELEMENT = 0xCE, 0x0002_0200_0000_0001


def with_rows(entries, count):
    """A root in which all characters have one contraction of so many mappings, with these entries beyond them."""
    builder = Builder(MAPPED)
    mappings = [([0x20000 + number], unlike_entry(0x30, number)) for number in range(count)]
    mappings += [([0x30000 + number], entry) for number, entry in enumerate(entries)]
    builder.add_context(unlike_entry(0x31, 0), mappings)
    return builder


def of_implicit_rows(size):
    """A root in which all characters have one contraction of 500 mappings a size, and one that is an implicit weight."""
    return with_rows([0xCF], 500 * size)


def of_counted_rows(size):
    """A root in which all characters have one contraction of 500 mappings a size, and one that counts its weight by the character."""
    builder = with_rows([COUNTED_ENTRY], 500 * size)
    builder.ces = [0xA0 << 56 | COUNTED_ELEMENT]
    return builder


def of_counted_weights(leads):
    """A root in which all characters have one contraction whose default and other mappings count their weights by the character, each
    from another lead byte."""
    builder = Builder(MAPPED)
    builder.ces = [lead << 56 | COUNTED_ELEMENT for lead in leads]
    first, *others = [number << 13 | COUNTED_ENTRY for number in range(len(leads))]
    builder.add_context(first, [([0x30000 + number], entry) for number, entry in enumerate(others)])
    return builder


def of_unlike_blocks(size):
    """A root in which all characters have one contraction of 100 mappings, a list of 31 elements, and two that count their weights, but
    one character in each of 250 blocks a size, which has an entry of its own."""
    builder = with_rows([COUNTED_ENTRY, 1 << 13 | LISTED, 32 << 13 | COUNTED_ENTRY], 100)
    builder.ces = [0xA0 << 56 | COUNTED_ELEMENT, *unlike_elements(31), 0xA1 << 56 | COUNTED_ELEMENT]
    for number in range(250 * size):
        builder.set_entry(0x4000 + BLOCK * number, unlike_entry(0x32, number))
    return builder


def of_prefixes(size):
    """A root in which a prefix has 750 mappings a size, each to one contraction of as many."""
    builder = Builder(0xCF)
    index = add_mapped(builder, 0x30, 750 * size)
    mappings = [([0x20000 + number], context_entry(index, 0)) for number in range(750 * size)]
    prefix = builder.add_context(unlike_entry(0x31, 1), mappings)
    builder.set_entry(0x4000, prefix << 13 | PREFIXED)
    return builder


def of_many_lists(size):
    """A root in which 600 characters a size have lists of 31 unlike elements, each another one: they share their members."""
    builder = Builder(0xCF)
    builder.ces = unlike_elements(600 * size + 31)
    for number in range(600 * size):
        builder.set_entry(0x4000 + number, LISTED | number << 13)
    return builder


def of_moved_lead(size):
    """A root in which 2,500 characters a size have unlike weights with one lead byte."""
    builder = Builder(0xCF)
    for number in range(2_500 * size):
        builder.set_entry(0x4000 + number, unlike_entry(0x61, 0x80 * 250 + number))
    return builder


def by_ranges(size):
    """A reordering in which that lead byte goes by 25,000 ranges a size."""
    return Reordering(0x61, [0x0300_0000 + number % 0xFC00 * 0x1_0000 for number in range(25_000 * size)])


def of_implicit(_size=1):
    """A root in which all characters have implicit weights."""
    return Builder(0xCF)


def splits_implicit(size, moved=0):
    """A reordering in which the lead byte of implicit weights goes by 2,500 ranges a size, of which the last one ends in its middle,
    and takes what lies below to a lead byte so many further on."""
    return Reordering(0xFE, [0x0300_0000 + number * 0x1_0000 for number in range(2_500 * size - 1)] + [0xFE80_0000 + moved])


# What makes tables by their size, by name: a root, and perhaps a reordering.
GROWING = {"spellings": of_spellings, "far-contexts": of_far_contexts, "prefixes": of_prefixes}
GROWING |= {"implicit-rows": of_implicit_rows, "many-ranges": of_moved_lead, "split-implicit": of_implicit}
GROWING |= {f"random-contexts-{seed}": functools.partial(of_random_contexts, seed) for seed in range(3)}
REORDERED = {"many-ranges": by_ranges, "split-implicit": splits_implicit}
SIZES = (1, 2, 4)


# ---- tables of the size of CLDR's

# The element that ideographs are counted by: U+3400 has the weight A00202, and each character after it the next one.
OFFSET_ENTRY, OFFSET_ELEMENT = 0xCE, 0xA002_0200_0034_0001
IDEOGRAPHS = [(0x3400, 0x4DBF), (0x4E00, 0x9FFF), (0x20000, 0x2A6DF), (0x2A700, 0x2EBE0), (0x30000, 0x3134A)]
# The characters of other scripts. Each sixth has an entry of its own.
SCRIPTS = [range(0x100, 0x3400), range(0x10000, 0x17000), range(0x1D000, 0x1E000)]
MAPPED_CHARACTERS = [ord(it) for it in "abcdefghijklmnopq"]


def root_like_cldr():
    """A root of 7,600 entries, 1,140 elements in lists, 64 contexts with 1,088 mappings, and 93,000 ideographs by an offset entry, in
    some 720 blocks."""
    builder = Builder(0xCF)
    builder.ces = [OFFSET_ELEMENT]
    for first, last in IDEOGRAPHS:
        builder.set_entries(first, last, OFFSET_ENTRY)
    for script in SCRIPTS:
        for c in script:
            set_char(builder, c)
    return builder


def set_char(builder, c):
    """Gives a character what its code says: an entry of its own, a list of three elements, contractions with each of 17 others,
    or nothing."""
    number, sort = divmod(c, 6)
    if sort == 0:
        builder.set_entry(c, unlike_entry(0x20, number))
    elif sort == 1 and number % 20 == 0:
        first = number // 20 * 3
        builder.set_entry(c, len(builder.ces) << 13 | 0x3C6)
        builder.ces += [unlike_primary(0x22, it) << 32 | 0x0500_0500 for it in range(first, first + 3)]
    elif sort == 2 and number % 119 == 0:
        of_mapping = [unlike_entry(0x23, number // 119 * 17 + place) for place in range(17)]
        mappings = [([letter], entry) for letter, entry in zip(MAPPED_CHARACTERS, of_mapping)]
        builder.set_entry(c, builder.add_context(unlike_entry(0x24, number // 119), mappings) << 13 | MAPPED)


def tailoring_like_cldr():
    """A tailoring of 2,000 characters."""
    builder = Builder(0xC0)
    for c in range(0x100, 0x8D0):
        builder.set_entry(c, unlike_entry(0x26, c))
    return builder
