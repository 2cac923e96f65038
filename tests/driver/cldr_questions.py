"""How a row about lines or a small file of FractionalUCA.txt becomes questions to the driver, and which answers it wants."""
import collections

from driver import text
from row_questions import Case, is_printed, mapping_parts

# What each file begins with: without these lines none is read.
FIRST_LINES = """# a small file
[Unified_Ideograph 4E00..4E0F 3400..3401 20000..2000F FA11]
[top_byte\t61\tLatn COMPRESS ]
0000; [,,]
FDD1 201C; [05 06 02, 05, 05]
FDD1 263A; [0C 02 02, 05, 05]
FDD1 20AC; [0D 89 02, 05, 05]
FDD1 0034; [0E 02 02, 05, 05]
FDD0 0034; [0F, 05, 05]
""" + "".join(f"{0x300 + at:04X}; [, {0x46 + at:02X}, 05]\n" for at in range(79))
# What each file ends with: without this line it is cut off.
LAST_LINE = "[fixed first ignorable tertiary byte 3C]\n"
DATA = ["ces", "ce32s", "contexts", "mappings", "chars"]
Lists = collections.namedtuple("Lists", DATA)


def line(_every, row):
    """What a line says, and, where it is read, what each beginning of it says."""
    of, wanted = row.rsplit(" => ", 1)
    asked = [f"line {text('c', of[:end])}" for end in range(len(of) + 1)]
    if is_expectation(wanted):
        return Case([], asked[-1:], [wanted])
    return Case([], asked, [*[lambda found: is_beginning_of_line(found, wanted)] * (len(asked) - 1), wanted])


def is_expectation(said):
    return said.startswith("expected ")


def is_beginning_of_line(found, whole):
    return is_expectation(found) or found == "nothing" or whole.startswith(found)


def file_of(lines):
    """What reads a file: the first lines, those of a row, between which a row writes `\\n`, and the last."""
    content = FIRST_LINES + lines.replace("\\n", "\n") + "\n" + LAST_LINE
    return f"root {text('8', content)}"


def entries(_every, row):
    lines, c, wanted = row.rsplit(" => ", 2)
    asked = [f"entry {c}", *(f"show {name}" for name in DATA)]
    return Case([file_of(lines)], asked, lambda found: is_printed(found, entry_printed, wanted))


def entry_printed(entry, *lists):
    """An entry with what it refers to; of a prefix or a contraction also its context."""
    (entry,), lists = entry, Lists(*lists)
    return context_printed(entry, lists) or final_printed(entry, lists)


def context_printed(entry, lists):
    """A prefix or a contraction with its context, each contraction in a prefix in brackets; of another entry nothing."""
    what = {0xC8: "prefix", 0xC9: "contraction"}.get(entry & 0xFF)
    if not what:
        return ""
    at = 3 * (entry >> 13)
    default, parts = mapping_parts(lists.contexts[at : at + 3], lists.mappings, lists.chars)
    printed = [" ".join(f"{it:04X}" for it in before) + f"={member_printed(entry, lists)}" for before, entry in parts]
    return " ".join([what, member_printed(default, lists), *printed])


def member_printed(entry, lists):
    inner = context_printed(entry, lists)
    return f"[{inner}]" if inner else final_printed(entry, lists)


def final_printed(entry, lists):
    """An entry that has no context, with the members of its list."""
    start, length, tag = entry >> 13, entry >> 8 & 0x1F, entry & 0xFF
    if tag == 0xC5:
        return "".join(f"({it:08X})" for it in lists.ce32s[start : start + length])
    if tag == 0xC6:
        return "".join(f"({it:016X})" for it in lists.ces[start : start + length])
    if tag == 0xCA:
        return f"digit {length & 0xF} {lists.ce32s[start]:08X}"
    if tag == 0xCE:
        return f"offset {lists.ces[start]:016X}"
    return f"{entry:08X}"


def companions(_every, row):
    """A value of the tables beside the root."""
    lines, question, wanted = row.rsplit(" => ", 2)
    asked, right = companion(question.split(), wanted)
    return Case([file_of(lines)], [asked], [right])


def companion(words, wanted):
    """What is asked about such a value, and the answer that is wanted."""
    what = words[0]
    if what in ("jamo", "diacritic"):
        name, digits = {"jamo": ("jamo", 8), "diacritic": ("diacritics", 4)}[what]
        return f"show {name}", lambda found: is_printed([found], lambda it: f"{it[int(words[1])]:0{digits}X}", wanted)
    if what == "compressible":
        return f"compressible {words[1]}", wanted
    if what == "numeric":
        return "show numeric", f"{int(wanted, 16):X}"
    if what == "last":
        return "show last", lambda found: is_printed([found], lambda it: " ".join(f"{of:04X}" for of in it[:4]), wanted)
    if what == "metadata":
        return "show metadata", f"{int(wanted):X}"
    return "absent", lambda found: found.split(", ")[["tailoring", "reordering"].index(what)] == wanted


def refused(_every, row):
    lines, wanted = row.rsplit(" => ", 1)
    return Case([], [file_of(lines)], [wanted])
