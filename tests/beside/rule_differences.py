"""Where ICU4C orders texts by rules otherwise, each with its name. docs/LANGUAGES.md ("Where ICU differs") has an example of each and the reason.

- "weakened": ICU4C holds what stands directly before a weight of [before 2] or [before 3], which a relation of that level made, as an
  element of that level, whatever its primary weight. A later reset to it with a stronger relation passes it over.
- "composed": ICU4C reads a composed character as it stands, so it has two keys for canonically equivalent texts where a contraction begins
  within the character, or was suppressed for the letter of its decomposition alone. Keys of decomposed texts are compared.
- "unchanged": ICU4C stores no mapping where a relation gives a string the elements that it has, as one of a string to itself, so a later
  relation that moves a letter of the string moves the string.
"""
import re
import unicodedata

TEXT = r"(?:'[^']*'|[^&<=\[\]'])+"
PARTS = re.compile(rf"&(?:\[before ([123])\])?(\[[^\]]*\]|{TEXT})|(<{{1,4}}|=)(\*?)({TEXT})|\[[^\[\]]*(?:\[[^\[\]]*\])?\]")


def decomposed(text):
    return unicodedata.normalize("NFD", text)


def plain(text):
    """A string of rules without its quotes, its prefix and its extension, decomposed."""
    return decomposed(text.replace("'", "").partition("/")[0].rpartition("|")[2])


def spread(text):
    """The strings of a starred relation."""
    strings, text = [], text.replace("'", "")
    for at, character in enumerate(text):
        if character == "-" and 0 < at:
            strings += (chr(it) for it in range(ord(text[at - 1]) + 1, ord(text[at + 1])))
        else:
            strings.append(character)
    return [decomposed(it) for it in strings]


def related(rules):
    """The resets and relations of rules, in turn: the level of [before n] or none, the reset's place, the level of a relation, its strings."""
    for found in PARTS.finditer(rules):
        before, anchor, sign, star, text = found.groups()
        if anchor:
            yield int(before or 0), anchor, None, []
        elif sign:
            yield None, None, 5 if sign == "=" else len(sign), spread(text) if star else [plain(text)]


class Weakened:
    """What rules place, as far as ICU4C holds it weaker than it is."""

    def __init__(self):
        # the level by which a string was placed, and behind which string
        self.placed = {}
        # the level as which ICU4C holds the last element of a string
        self.weak = {}
        self.last = None
        self.held = 0
        self.before = 0
        self.passed_over = False

    def is_made_at(self, string, level):
        """Whether the weight of a level that a string has was made by a relation."""
        seen = set()
        while string in self.placed and self.placed[string][0] > level and string not in seen:
            seen.add(string)
            string = self.placed[string][1]
        return string in self.placed and self.placed[string][0] == level

    def reset(self, before, anchor):
        self.before = before
        self.last = None if anchor.startswith("[") else plain(anchor)
        self.held = max((level for it, level in self.weak.items() if self.last and it in self.last), default=0)
        if before and before < self.held:
            self.passed_over = True
        if before > 1 and self.is_made_at(self.last, before):
            self.held = before

    def relate(self, level, string):
        # neither takes a relation that is stronger than its [before n]
        if self.before <= level < self.held:
            self.passed_over = True
        if level < 5:
            self.placed[string] = level, self.last
        elif self.last in self.placed:
            self.placed[string] = self.placed[self.last]
        self.weak.pop(string, None)
        if self.held:
            self.weak[string] = self.held
        self.last = string


def has_weakened(rules):
    """Whether ICU4C passes an element over by these rules that it holds weaker than it is."""
    state = Weakened()
    for before, anchor, level, strings in related(rules):
        if anchor:
            state.reset(before, anchor)
        for string in strings:
            state.relate(level, string)
    return state.passed_over


def has_unchanged(rules):
    """Whether a string is related to itself."""
    last = None
    for _, anchor, level, strings in related(rules):
        if anchor:
            last = None if anchor.startswith("[") else plain(anchor)
        for string in strings:
            if level == 5 and string == last:
                return True
            last = string
    return False


def name_of(rules):
    """The name of a reason for which ICU4C orders texts otherwise by these rules, if there is one."""
    if has_weakened(rules):
        return "weakened"
    return "unchanged" if has_unchanged(rules) else None
