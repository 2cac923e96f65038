"""How a row becomes questions to the driver, and which answers it wants. tests/driver/rows/README.md says how rows are written."""
from driver import characters, numbers, text, units_of, written
from tables import code, number, tables_of

SETTINGS = {
    "strength": (0, ["Primary", "Secondary", "Tertiary", "Quaternary", "Identical"]),
    "alternate": (1, ["NonIgnorable", "Shifted", "Blanked"]),
    "max-variable": (2, ["Space", "Punctuation", "Symbol", "Currency"]),
    "case-level": (3, ["Off", "On"]),
    "case-first": (4, ["False", "Lower", "Upper"]),
    "numeric": (5, ["False", "True"]),
}
STRENGTHS = "1234i"
UNNAMED = [0xFF] * 6
ENCODINGS = {"utf8": "8", "utf16": "16", "latin1": "1"}
# The encodings of which a call compares a text with another's.
COMPARED = [("c", "c"), ("8", "8"), ("16", "16"), ("1", "1"), ("1", "16")]
MOST = 2**64 - 1
# What a slice and a list hold before a key is written to them.
HELD = 0x7F
LISTS = ["vector", "inline", "deque"]


class Case:
    """What is asked about a row: questions that the driver obeys by `ok`, and questions with the answers that are wanted, each a
    text or a function that says of an answer whether it is right; or one function that says it of all answers."""

    def __init__(self, setup, asked, wanted):
        self.setup, self.asked, self.wanted = setup, asked, wanted

    def questions(self):
        return [*self.setup, *self.asked]

    def holds(self, answers):
        done, found = answers[: len(self.setup)], answers[len(self.setup) :]
        if any(it != "ok" for it in done) or "?" in found:
            return False
        if callable(self.wanted):
            return self.wanted(found)
        return len(found) == len(self.wanted) and all(map(is_wanted, self.wanted, found))

    def answers(self):
        """The answers that are wanted, where the row says them all; else nothing."""
        if callable(self.wanted) or any(callable(it) for it in self.wanted):
            return None
        return ["ok"] * len(self.setup) + self.wanted


def is_wanted(wanted, found):
    return wanted(found) if callable(wanted) else found == wanted


def bars(row, count):
    """The parts of a row, between bars."""
    parts = [it.strip() for it in row.split("|")]
    if len(parts) != count:
        raise ValueError(f"{len(parts)} parts")
    return parts


# ---- what rows write


def run_numbers(notation):
    """Numbers in hexadecimal digits: `61*3` is three of them, `0-FF` each from 0 to FF. The count is decimal."""
    found = []
    for word in notation.split():
        first, dash, last = word.partition("-")
        if dash:
            found += range(int(first, 16), int(last, 16) + 1)
        else:
            digits, _, count = word.partition("*")
            found += [int(digits, 16)] * int(count or "1")
    return found


def encoded(notation):
    """The encoding of a row's text, and its units."""
    name, _, rest = notation.partition(" ")
    if name in ENCODINGS:
        return ENCODINGS[name], run_numbers(rest)
    return "c", units_of("c", characters(notation))


def text_of(notation):
    return text(*encoded(notation))


def sources_of(notation):
    """The metadata and the settings that a row names, once for each part between words `resolved`."""
    metadata, named, found = 0, list(UNNAMED), []
    for words in (it.split() for it in notation.split(",")):
        if words == ["resolved"]:
            found.append((metadata, named))
            named = list(UNNAMED)
        elif words[:1] == ["metadata"]:
            metadata = number(words[1])
        elif len(words) == 1:
            named[0] = STRENGTHS.index(words[0])
        elif words:
            place, names = SETTINGS[words[0]]
            named[place] = names.index(words[1])
    return [*found, (metadata, named)]


def six(settings):
    return " ".join(f"{it:X}" for it in settings)


def made_by(every, tables, named):
    """What makes a collator of a row's tables by its settings."""
    ((_, settings),) = sources_of(named)
    return [*tables_of(every, tables).questions(), f"make {six(settings)}"]


def reads_numbers(notation):
    return ["", "numbers"].index(notation)


# ---- tables and collators


def refusals(every, row):
    _name, tables, wanted = bars(row, 3)
    return Case(tables_of(every, tables).questions(), ["alone", "together"], wanted.split(", "))


def order(every, row):
    tables, named, left, right, wanted = bars(row, 5)
    setup, texts = made_by(every, tables, named), [text_of(left), text_of(right)]
    if (encoded(left)[0], encoded(right)[0]) in COMPARED:
        return Case(setup, [f"compare {texts[0]} , {texts[1]}"], [wanted])
    return Case(setup, [f"key {it}" for it in texts], lambda found: order_of(*map(numbers, found)) == wanted)


def order_of(left, right):
    return "Equal" if left == right else "Less" if left < right else "Greater"


def keys(every, row):
    tables, named, of, wanted = bars(row, 4)
    return Case(made_by(every, tables, named), [f"key {text_of(of)}"], [written(run_numbers(wanted))])


def elements(every, row):
    """The elements in each way: as one list, one by one, and from the text in UTF-8 and UTF-16."""
    tables, numeric, of, wanted = bars(row, 4)
    of = characters(of)
    ways = " , ".join(text(encoding, of) for encoding in ("c", "8", "16"))
    found = " ".join(element_as_answered(it) for it in wanted.split())
    return Case(made_by(every, tables, ""), [f"readings {reads_numbers(numeric)} {ways}"], [found])


def element_as_answered(word):
    element, _, count = word.partition("*")
    return f"{element}*{int(count):X}" if count else element


def letters(every, row):
    tables, numeric, c, wanted = bars(row, 4)
    asked = f"letter {reads_numbers(numeric)} {code(c):X}"
    return Case(tables_of(every, tables).questions(), [asked], [wanted])


def settings(_every, row):
    named, wanted = bars(row, 2)
    parts = [f"{metadata:X} {six(settings)}" for metadata, settings in sources_of(named)]
    return Case([], [f"merge {' / '.join(parts)}"], [wanted])


def resolved(every, row):
    tables, named, wanted = bars(row, 3)
    indices = [names.index(it) for it, (_, names) in zip(wanted.split(), SETTINGS.values())]
    return Case(made_by(every, tables, named), ["resolved"], [written(indices)])


def kept(every, row):
    tables, wanted = bars(row, 2)
    return Case(tables_of(every, tables).questions(), ["kept"], [wanted])


# ---- single values of tables


def values(every, row):
    tables, question, wanted = bars(row, 3)
    setup = tables_of(every, tables).questions()
    words = question.split()
    if words[0] in ("metadata", "reordered", "compressible", "last"):
        return Case(setup, *asked_value(words, wanted))
    table = "tailoring." if words[0] == "tailoring" else ""
    what, *rest = words[1:] if table else words
    if what == "entry":
        return Case(setup, [f"{table}entry {code(*rest):X}"], [f"{int(wanted, 16):X}"])
    if what == "lengths":
        return shown(setup, table, ["blocks", "values", "ces", "ce32s", "contexts"], lengths, wanted)
    if what == "context":
        names = ["contexts", "mappings", "chars"]
        return shown(setup, table, names, lambda *lists: context(*lists, int(rest[0])), wanted)
    name, digits = {"ce": ("ces", 16), "ce32": ("ce32s", 8), "jamo": ("jamo", 8), "diacritic": ("diacritics", 4)}[what]
    return shown(setup, table, [name], lambda members: f"{members[int(rest[0])]:0{digits}X}", wanted)


def asked_value(words, wanted):
    """The question of a value that the driver works out, and its answer."""
    what, *rest = words
    if what == "metadata":
        return ["metadata"], [wanted]
    if what == "reordered":
        return [f"reorder {number(*rest):X}"], [f"{int(wanted, 16):X}"]
    if what == "compressible":
        return [f"compressible {number(*rest):X}"], [wanted]
    return [f"last {SETTINGS['max-variable'][1].index(*rest):X}"], [f"{int(wanted, 16):X}"]


def shown(setup, table, names, printed, wanted):
    """A value that is printed of the lists of a table."""
    return Case(setup, [f"show {table}{name}" for name in names], lambda found: is_printed(found, printed, wanted))


def is_printed(found, printed, wanted):
    """Whether lists that the driver shows come to what is wanted. A list that is too short is wrong."""
    try:
        return printed(*map(numbers, found)) == wanted
    except (ValueError, IndexError):
        return False


def lengths(blocks, values, ces, ce32s, contexts):
    return " ".join(str(it) for it in (len(blocks), len(values), len(ces), len(ce32s), len(contexts) // 3))


def mapping_parts(context, mappings, chars):
    """The default of a context, and the characters and the entry of each of its mappings."""
    default, start, count = context
    three = [mappings[at : at + 3] for at in range(3 * start, 3 * (start + count), 3)]
    return default, [(chars[first : first + length], entry) for first, length, entry in three]


def context(contexts, mappings, chars, at):
    """A context: its default, and its mappings."""
    default, parts = mapping_parts(contexts[3 * at : 3 * at + 3], mappings, chars)
    printed = ["".join(f"{{{it:X}}}" for it in before) + f":{entry:08X}" for before, entry in parts]
    return " ".join([f"{default:08X}", *printed])


# ---- encodings


def encodings(_every, row):
    question, *texts, wanted = [it.strip() for it in row.split("|")]
    asked = " , ".join(text_of(it) for it in texts)
    if question == "characters":
        return Case([], [f"characters {asked}"], [written(run_numbers(wanted))])
    if question == "common":
        return Case([], [f"common {asked}"], [f"{int(wanted):X}"])
    if question in ("first", "first ASCII"):
        return Case([], [f"{'first' if question == 'first' else 'ascii'} {asked}"], [first_as_answered(wanted)])
    at = int(question[len("after ") :])
    return Case([], [f"after {at:X} {asked}"], [wanted if wanted == "no cut" else rest_as_answered(wanted)])


def first_as_answered(wanted):
    if wanted == "none":
        return wanted
    first, _, rest = wanted.partition(", then ")
    return f"{int(first, 16):X} : {rest_as_answered(rest)}"


def rest_as_answered(wanted):
    """What is left of a text, `units 2: 0042 0043` or `nothing`, as the driver answers it."""
    if wanted == "nothing":
        return "0 : "
    units, _, rest = wanted[len("units ") :].partition(": ")
    return f"{int(units):X} : {written(run_numbers(rest))}"


# ---- keys in sinks


def sinks(every, row):
    """A key in sinks: slices of each length up to one more than the key's by the call for each encoding, lists, sinks of each
    size, one that refuses to finish, and one that takes one byte of each write."""
    tables, named, of, wanted = bars(row, 4)
    key, of = run_numbers(wanted), characters(of)
    asked = [("list", kind, written([HELD, *key])) for kind in LISTS]
    asked += [("limited", f"{size:X} {MOST:X} 1", limited(key, size)) for size in some_lengths(len(key))]
    asked += [("limited", f"{MOST:X} {MOST:X} 0", f"Unfinished : {written(key)}")]
    asked += [("limited", f"{MOST:X} 1 1", lambda found: is_by_one(found, key))]
    questions = [(f"{what} {how} {text('c', of)}", right) for what, how, right in asked]
    for encoding in ("c", "8", "16"):
        for length in [*some_lengths(len(key)), len(key) + 1]:
            right = slice_of(key, length)
            questions.append((f"slice {length:X} {text(encoding, of)}", right))
    return Case(made_by(every, tables, named), *map(list, zip(*questions)))


def some_lengths(length):
    """Each length up to one, or of a great one the first and the last."""
    return [*range(length + 1)] if length < 100 else [0, 1, 2, length - 1, length]


def limited(key, size):
    return f"Full : {written(key[:size])}" if size < len(key) else f"ok : {written(key)}"


def is_by_one(found, key):
    """Whether a sink of one byte a write took a beginning of the key, and refused where that isn't all."""
    said, _, taken = found.partition(" :")
    taken = numbers(taken)
    return taken == key[: len(taken)] and said == ("ok" if taken == key else "Full")


def slice_of(key, length):
    """What a slice of a length holds and says after the key: where it is too short, a beginning of the key."""
    if length >= len(key):
        return f"ok {len(key):X} : {written([*key, *[HELD] * (length - len(key))])}"

    def is_beginning(found):
        said, _, held = found.partition(" :")
        held = numbers(held)
        same = next((at for at, (left, right) in enumerate(zip(held, key)) if left != right), length)
        return said == f"too small {len(key):X}" and len(held) == length and set(held[same:]) <= {HELD}

    return is_beginning


# ---- names, elements that are asked for, requests


def listing(names):
    """Names as the driver lists them."""
    return f"{len(names):X} : " + " , ".join(written(it) for it in names)


def names(every, row):
    """The listing of an index, or the names in it that are equal to one, or from one on and before another."""
    tables, named, question, inserted, wanted = bars(row, 5)
    texts = [text("8", characters(it)) for it in inserted.split()]
    right = listing([units_of("8", characters(it)) for it in wanted.split()])
    setup = made_by(every, tables, named)
    if question == "listed":
        return Case(setup, [f"names {' , '.join(texts)}"], [right])
    if question.startswith("from "):
        bounds = [text("8", characters(it)) for it in question[len("from ") :].split(" to ")]
        return Case(setup, [f"between {' , '.join([*bounds, *texts])}"], [right])
    name = text("8", characters(question[len("equal to ") :]))
    return Case(setup, [f"equals {' , '.join([name, *texts])}"], [right])


def taken(every, row):
    """How many characters are read once so many elements were asked for: the number for each of them in turn, or how many more
    than elements at most."""
    tables, numeric, of, asked, wanted = bars(row, 5)
    first, _, last = asked.partition("-")
    counts = range(int(first), int(last or first) + 1)
    questions = [f"taken {reads_numbers(numeric)} {count:X} {text('c', characters(of))}" for count in counts]
    return Case(made_by(every, tables, ""), questions, taken_as_answered(counts, wanted))


def taken_as_answered(counts, wanted):
    """`1 2 2 characters`, a number for each count of elements, or `2 more`, at most so many more than elements."""
    *some, word = wanted.split()
    if word == "characters" and len(some) == len(counts):
        return [f"{int(it):X}" for it in some]
    if word != "more":
        raise ValueError(wanted)
    (most,) = map(int, some)
    return [lambda found, count=count: int(found, 16) <= count + most for count in counts]


def requests(every, row):
    """The requests that are made of a provider which refuses some, and what becomes of them."""
    tables, typed, refused, request, wanted = bars(row, 5)
    setup = [*tables_of(every, typed or tables).questions(), "typed", *tables_of(every, tables).questions(), "refuse none"]
    setup += [f"refuse {' '.join(it.split())}" for it in refused.split(",") if it.strip()]
    return Case(setup, [f"request {request}"], [wanted])
