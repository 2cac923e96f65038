"""Files of the form of FractionalUCA.txt with more than 10,000 lines: each line of them counts, also the last ones. What the lines
come to is written beside them, in the form of tests/driver/rows/cldr/entries.txt.
"""
from cldr_questions import DATA, FIRST_LINES, LAST_LINE, entry_printed
from driver import numbers, text
from row_questions import Case

# How many characters are mapped: the private ones of a plane, from its first on.
COUNT, FIRST = 8_000, 0xF0000


def weight(at):
    """A primary weight of three bytes, another one for each number."""
    return [0x61, 2 + at // 254, 2 + at % 254]


def lines_of(at):
    """The lines of a character and its entry: by turns with one element, with two, with a contraction, behind a prefix, and
    between comments."""
    c, own = f"{FIRST + at:X}", weight(at)
    element, entry = f"[{' '.join(f'{it:02X}' for it in own)}, 05, 05]", f"{bytes(own).hex().upper()}C1"
    other, other_entry = element.replace("[61", "[62"), f"62{entry[2:]}"
    return [
        ([f"{c}; {element}"], entry),
        ([f"{c}; {element}[, 46, 06]"], f"({entry})(00004606)"),
        ([f"{c}; {element}", f"{c} 0061 {c}; {other}"], f"contraction {entry} 0061 {c}={other_entry}"),
        ([f"0061 | {c}; {other}", f"{c}; {element}"], f"prefix {entry} 0061={other_entry}"),
        ([f"# {at}", "", f"{c}; {element}\t# a comment; [61, 05, 05]"], entry),
    ][at % 5]


def file_of(lines):
    return "root " + text("8", FIRST_LINES + "".join(f"{it}\n" for it in lines) + LAST_LINE)


def joined_lines():
    """Lines of a character with 3,000 prefixes that have a contraction and no mapping of the character alone, and with 6,000
    contractions without a prefix, which count behind each of them."""
    element = "[61 10, 05, 05]"
    behind = [f"{FIRST + at:X} | 0063 0064; {element}" for at in range(3_000)]
    return [f"0063; {element}", *behind, *(f"0063 {FIRST + at:X}; {element}" for at in range(6_000))]


def cases():
    """The cases, by what they are about."""
    said = [lines_of(at) for at in range(COUNT)]
    lines = [line for some, _ in said for line in some]
    number = FIRST_LINES.count("\n") + len(lines) + 1
    shown = [f"show {it}" for it in DATA]
    asked = [*(f"entry {FIRST + at:X}" for at in range(COUNT)), *shown]
    return {
        "a file of many lines": Case([file_of(lines)], asked, lambda found: has_entries(found, [entry for _, entry in said])),
        "mappings of shorter prefixes, too many": Case([], [file_of(joined_lines())], ["at the end: expected fewer contractions and digits"]),
        "the number of a late line": Case([], [
            file_of([*lines, "0061; [61 10, 05, 05"]), file_of([*lines, lines[0]]), file_of([*lines[:-1], lines[0], lines[-1]]),
        ], [
            f"line {number}: expected `]`",
            f"line {number}: expected a text or a fact that no line before has",
            f"line {number - 1}: expected a text or a fact that no line before has",
        ]),
    }


def has_entries(found, wanted):
    """Whether answers about all entries, and the lists of the tables, come to these entries."""
    lists = [numbers(it) for it in found[len(wanted):]]
    return [entry_printed(numbers(it), *lists) for it in found[:len(wanted)]] == wanted
