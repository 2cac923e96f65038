"""The tables of Mini and of its variants, as lists of numbers that a test may change, and the changes that rows write.

The lists have the names of the driver's fields. A context is three numbers: its default, where its mappings begin, and how many they
are; a mapping is three: where its characters begin, how many they are, and its entry.
"""
from driver import characters, numbers, written

BASES = ["Mini", "backward", "Lithuanian", "a ring", "double l", "b after a", "offsets", "sharp s", "swapped leads", "two mappings",
         "c after ab", "jamo list", "kana", "high currency", "secondary alone", "tertiary alone", "split lead"]
DATA = ["blocks", "values", "ces", "ce32s", "chars", "contexts", "mappings"]
TAILORING = [f"tailoring.{it}" for it in DATA]
REORDERING = ["reordering.leads", "reordering.ranges", "reordering.limit"]
FIELDS = [*DATA, *TAILORING, "jamo", "diacritics", "last", "numeric", "metadata", *REORDERING]
# What a list is filled with that gets longer.
FILLED = {"jamo": 0x6510_0505, "diacritics": 0x9500, "leads": 0, "blocks": 0, "values": 0xCF}
BLOCKS, BLOCK = 17408, 64


class Tables:
    """Tables that begin as those of a base, which the driver makes by its name."""

    def __init__(self, base, original):
        self.base, self.original = base, original
        self.fields = {name: list(numbers) for name, numbers in original.items()}

    def copy(self):
        """The same tables once more, with lists of their own."""
        copied = Tables(self.base, self.original)
        copied.fields = {name: list(numbers) for name, numbers in self.fields.items()}
        return copied

    def questions(self):
        """What makes these the driver's tables, whatever it holds: the base, and the fields that differ from it."""
        dropped = [name.partition(".")[0] for name in self.original if name not in self.fields]
        changed = [name for name in self.fields if self.fields[name] != self.original.get(name)]
        sets = [f"set {name} {written(self.fields[name])}".rstrip() for name in changed]
        return [f"base {self.base}", *(f"drop {name}" for name in sorted(set(dropped))), *sets]


def bases(driver):
    """The tables of each base, by its name, as the driver shows them."""
    asked = [question for name in BASES for question in [f"base {name}", *(f"show {field}" for field in FIELDS)]]
    answers = iter(driver.ask(asked))
    found = {}
    for name in BASES:
        if next(answers) != "ok":
            raise ValueError(f"the driver has no tables {name}")
        shown = {field: next(answers) for field in FIELDS}
        found[name] = Tables(name, {field: numbers(it) for field, it in shown.items() if it != "none"})
    return found


# ---- tables as rows write them


def number(word):
    """A number of a row: hexadecimal behind `0x`, else decimal."""
    return int(word[2:], 16) if word.startswith("0x") else int(word)


def listed(words):
    """The numbers that words write; `7*3` is 7 three times."""
    found = []
    for word in words:
        first, _, count = word.partition("*")
        found += [number(first)] * int(count or "1")
    return found


def codes(word):
    return [ord(it) for it in characters(word)]


def code(word):
    """The number of the one character of a word."""
    (found,) = codes(word)
    return found


def tables_of(every, notation):
    """Tables as a row writes them: the name of a base and changes, with commas between."""
    name, *changes = [it.strip() for it in notation.split(",")]
    tables = every[name].copy()
    for it in changes:
        if it:
            change(tables.fields, it.split())
    return tables


def change(fields, words):
    """Makes one change. The page of the rows, tests/driver/rows/README.md, has all of them."""
    first, *rest = words
    if first == "tailoring":
        change_data(fields, "tailoring.", *rest)
    elif first == "reordering":
        change_reordering(fields, *rest)
    elif first in ("jamo", "diacritics"):
        put_or_resize(fields[first], FILLED[first], rest)
    elif first in ("last", "numeric", "metadata"):
        fields[first] = listed(rest)
    else:
        change_data(fields, "", *words)


def put_or_resize(items, filled, words):
    """Gives a list another length, or one of its members another number."""
    if len(words) == 1:
        resize(items, number(words[0]), filled)
    else:
        at, member = words
        put(items, number(at), number(member))


def resize(items, length, filled):
    del items[length:]
    items += [filled] * (length - len(items))


def put(items, at, member):
    if not 0 <= at < len(items):
        raise ValueError(f"no member {at}")
    items[at] = member


def change_reordering(fields, what, *words):
    if what == "leads":
        resize(fields["reordering.leads"], number(*words), FILLED["leads"])
    elif what == "lead":
        put(fields["reordering.leads"], *map(number, words))
    elif what in ("limit", "ranges"):
        fields[f"reordering.{what}"] = listed(words)
    else:
        raise ValueError(what)


def change_data(fields, table, what, *words):
    """Makes a change to the root or the tailoring."""
    lists = {name: fields[table + name] for name in DATA}
    if what == "all":
        fields.update({table + name: [] for name in DATA})
        fields[table + "blocks"], fields[table + "values"] = [0] * BLOCKS, [number(*words)] * BLOCK
    elif what in ("blocks", "values"):
        resize(lists[what], number(*words), FILLED[what])
    elif what in ("block", "ce", "ce32"):
        put(lists[f"{what}s"], *map(number, words))
    elif what in ("ces", "ce32s"):
        lists[what] += listed(words)
    elif what == "chars":
        lists[what] += codes(*words)
    elif what == "entry":
        set_entry(lists, code(words[0]), number(words[1]))
    elif what in ("elements", "entries"):
        set_list(lists, code(words[0]), listed(words[1:]), *{"elements": ("ces", 0xC6), "entries": ("ce32s", 0xC5)}[what])
    elif what == "context":
        add_context(lists, number(words[0]), words[1:])
    elif what in ("stored-context", "stored-mapping"):
        three = [number(it) for it in words]
        if len(three) != 3:
            raise ValueError(words)
        lists[{"stored-context": "contexts", "stored-mapping": "mappings"}[what]] += three
    else:
        raise ValueError(what)


def set_entry(lists, c, entry):
    """Gives a character another entry: its block is copied, in case others share it."""
    block, offset = divmod(c, BLOCK)
    start = lists["blocks"][block] * BLOCK
    number_of_copy = len(lists["values"]) // BLOCK
    lists["values"] += lists["values"][start : start + BLOCK]
    lists["blocks"][block] = number_of_copy
    lists["values"][number_of_copy * BLOCK + offset] = entry


def set_list(lists, c, members, name, tag):
    """Gives a character a list of elements or of entries."""
    start = len(lists[name])
    lists[name] += members
    set_entry(lists, c, start << 13 | len(members) << 8 | tag)


def add_context(lists, default, mappings):
    """Adds a context with its mappings, each characters, a colon and an entry."""
    context = [default, len(lists["mappings"]) // 3, len(mappings)]
    for mapping in mappings:
        before, _, entry = mapping.partition(":")
        lists["mappings"] += [len(lists["chars"]), len(codes(before)), number(entry)]
        lists["chars"] += codes(before)
    lists["contexts"] += context
