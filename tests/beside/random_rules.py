#!/usr/bin/env python3
"""Makes random small lists of rules, and compares the order of texts by them with that of ICU4C, over the root of CLDR.

    tests/beside/random_rules.py PROGRAM [--sets N] [--seed N] [--root FILE]

It is no part of the gate. It wants g++, libicu-dev and pkg-config. PROGRAM is `collate-cldr`, which is run once for each list, by `keys --rules`.
Of its sort keys and of those that ICU4C prints (tests/beside/rule_keys) the order and the level of difference are compared for all pairs of the texts
of a list. First the program is asked for the rows of tests/beside/rule_keys/rows.txt, whose levels are ICU4C's. ICU4C is asked for keys, since the order of its comparisons isn't always theirs,
and of the decomposed texts, since it may have two keys for equivalent ones. It prints how many lists were compared, how many were refused by both, by ICU4C alone, and by the program alone
with the reasons, and each pair that is ordered otherwise. What differs for a reason that tests/beside/rule_differences.py names is counted by this name. Status 1: some pairs differ
without such a name, or ICU4C alone refuses some.
"""
import argparse
import collections
import itertools
import os
import random
import re
import subprocess
import sys
import tempfile
from concurrent.futures import ThreadPoolExecutor

from rule_differences import decomposed, has_weakened, name_of

HERE = os.path.dirname(os.path.realpath(__file__))
NAME = "rule_keys"
ROOT = "/usr/share/unicode/cldr/common/uca/FractionalUCA.txt"
LETTERS = "aAbBcdeEfæÆßäáàǎåéœhzʒαβиѝй"
MARKS = "\u0300\u0301\u0308\u030a\u0323"
OTHERS = "12-_+ あア一"
POSITIONS = (
    "first tertiary ignorable", "last tertiary ignorable", "first secondary ignorable", "last secondary ignorable",
    "first primary ignorable", "last primary ignorable", "first variable", "last variable", "first regular", "last regular",
    "first implicit", "top", "variable top",
)
SETTINGS = (
    "alternate shifted", "alternate non-ignorable", "maxVariable space", "maxVariable punct", "maxVariable symbol", "maxVariable currency",
    "caseFirst upper", "caseFirst lower", "caseFirst off", "backwards 2", "suppressContractions [и]", "suppressContractions [a-c и]",
    "suppressContractions [^a]", "suppressContractions [[:Cyrl:]-[а-и]]", "suppressContractions [[:L:]&[^и æ]]",
    "optimize [a]", "hiraganaQ off",
)
RELATIONS = ("<", "<<", "<<<", "<<<<", "=")
CHANCES = (8, 6, 6, 1, 1)
SIGNS = ("=", "<", "<<", "<<<", "<<<<")
TEXTS = 12


def quoted(text):
    """The text as rules have it: what isn't a letter or a digit of ASCII is quoted."""
    return "".join(f"'{c}'" if ord(c) < 0x80 and not c.isalnum() else c for c in text)


class Maker:
    """Makes lists of rules, and texts that they order."""

    def __init__(self, seed):
        self.random = random.Random(seed)
        self.strings = []

    def character(self):
        kind = self.random.random()
        return self.random.choice(LETTERS if kind < 0.85 else MARKS if kind < 0.92 else OTHERS)

    def string(self, most=3):
        """A new string, or one that the list had before."""
        if self.strings and self.random.random() < 0.4:
            return self.random.choice(self.strings)
        length = self.random.choice([1] * 6 + [2] * 3 + [most])
        text = "".join(self.character() for _ in range(length))
        self.strings.append(text)
        return text

    def reset(self):
        before = self.random.choice([0] * 5 + [1, 2, 3])
        where = f"[before {before}]" if before else ""
        if self.random.random() < 0.12:
            return f"&{where}[{self.random.choice(POSITIONS)}]", before
        return f"&{where}{quoted(self.string())}", before

    def starred(self):
        first = self.random.choice("abcdefα")
        return f"{first}-{chr(ord(first) + self.random.randint(1, 3))}" + self.random.choice(["", "z", "x"])

    def relation(self, strength):
        if self.random.random() < 0.06 and strength != "<<<<":
            return f"{strength}*{self.starred()}"
        text = quoted(self.string())
        if self.random.random() < 0.12:
            text = f"{quoted(self.string(2))}|{text}"
        if self.random.random() < 0.12:
            text += f"/{quoted(self.string())}"
        return strength + text

    def statement(self):
        if self.random.random() < 0.1:
            return f"[{self.random.choice(SETTINGS)}]"
        parts = []
        text, before = self.reset()
        for at in range(self.random.choice([1, 1, 1, 2, 2, 3, 4])):
            strength = self.random.choices(RELATIONS, CHANCES)[0]
            if before and at == 0:
                strength = RELATIONS[before - 1]
            parts.append(self.relation(strength))
        return text + "".join(parts)

    def line(self):
        """A list of rules, and texts of its strings and of some other characters."""
        self.strings = []
        rules = "".join(self.statement() for _ in range(self.random.randint(1, 5)))
        return "\t".join([rules, *(self.text() for _ in range(TEXTS))])

    def text(self):
        parts = (self.random.choice(self.strings) if self.strings and self.random.random() < 0.6 else self.character()
                 for _ in range(self.random.randint(1, 3)))
        return "".join(parts)


def difference(first, second):
    """The level at which two keys differ first, with a sign, or 0. Each key is a list of levels."""
    for number, (one, other) in enumerate(itertools.zip_longest(first, second, fillvalue=b""), 1):
        if one != other:
            return number if one > other else -number
    return 0


def levels(key):
    """The levels of a key."""
    return bytes.fromhex(key).split(b"\1")


def without_case(key):
    """The levels of a key of the library but the case level, for which ICU4C writes nothing where it is off, and what is empty between
    the separators that close the tertiary level and open the quaternary one."""
    primary, secondary, _, tertiary, _, *others = levels(key)
    return [primary, secondary, tertiary, *others]


def unlike_pairs(texts, ours, peers):
    """The pairs of texts that are ordered otherwise, or at another level."""
    ours, peers = [without_case(key) for key in ours], [levels(key) for key in peers]
    for i, j in itertools.combinations(range(len(texts)), 2):
        here, there = difference(ours[i], ours[j]), difference(peers[i], peers[j])
        if here != there:
            yield texts[i], texts[j], here, there


class Program:
    """The program, over a root."""

    def __init__(self, program, root, folder):
        self.words = [os.path.realpath(program), "keys", "--root", root, "--strength=4"]
        self.folder = folder

    def keys(self, numbered):
        """The keys of the texts of a list with its number, parted by tabs, or why there are none."""
        number, line = numbered
        rules, *texts = line.split("\t")
        place = os.path.join(self.folder, f"rules-{number}")
        with open(place, "w", encoding="utf-8", newline="") as it:
            it.write(rules)
        asked = "".join(f"{text}\n" for text in texts).encode()
        done = subprocess.run([*self.words, "--rules", place], input=asked, capture_output=True, env={"LC_ALL": "C"}, check=False)
        os.remove(place)
        if done.returncode:
            return f"refused {done.stderr.decode()}".strip().replace(f"{place}: ", "")
        return "\t".join(["ok", *(key.partition(b"\t")[0].decode() for key in done.stdout.split(b"\n")[:-1])])


def unescaped(text):
    """A text of a row."""
    return re.sub(r"\\u([0-9A-F]{4})", lambda it: chr(int(it[1], 16)), text)


def rows():
    """The rows of small rules: the rules, the texts, and the levels between them."""
    with open(os.path.join(HERE, NAME, "rows.txt"), encoding="utf-8") as it:
        for line in it:
            if " => " not in line or line.startswith("# "):
                continue
            rules, order = line.rstrip("\n").split(" => ")
            words = order.split(" ")
            yield rules.replace("\\n", "\n"), [unescaped(word) for word in words[::2]], [SIGNS.index(word) for word in words[1::2]]


def wrong_rows(asked, answers):
    """Prints the rows that have another order. Returns how many have."""
    wrong = 0
    for (rules, texts, wanted), answer in zip(asked, answers):
        keys = [without_case(key) for key in answer.split("\t")[1:]] if answer.startswith("ok") else []
        found = [-difference(one, other) for one, other in itertools.pairwise(keys)]
        if found != wanted:
            wrong += 1
            print(f"row: {rules}: {texts}: {found or answer}, not {wanted}")
    print(f"{len(asked)} rows, {wrong} wrong")
    return wrong


def keys_there(folder, lines):
    """What ICU4C prints."""
    program = os.path.join(folder, "icu_rule_keys")
    flags = subprocess.run(["pkg-config", "--cflags", "--libs", "icu-i18n", "icu-uc"], capture_output=True, text=True, check=True)
    source = os.path.join(HERE, NAME, "icu_rule_keys.cpp")
    subprocess.run(["g++", "-O1", "-o", program, source, *flags.stdout.split()], check=True)
    done = subprocess.run([program], input="".join(f"{line}\n" for line in lines), capture_output=True, text=True, check=True)
    return done.stdout.splitlines()


def with_decomposed(lines):
    """The lists of rules with each text as it stands, and decomposed."""
    for line in lines:
        rules, *texts = line.split("\t")
        yield "\t".join([rules, *texts, *map(decomposed, texts)])


def unlike_by(rules, texts, ours, peers):
    """What differs: the name of the reason, or none, and what it is."""
    ours, whole, parted = ours.split("\t")[1:], *halves(peers.split("\t")[1:])
    for text, one, other in zip(texts, whole, parted):
        if one != other:
            yield "composed", f"two keys by ICU4C: {text!r}"
    for first, second, level, other in unlike_pairs(texts, ours, parted):
        yield name_of(rules), f"{first!r} {second!r}: {level}, by ICU4C {other}"


def halves(keys):
    middle = len(keys) // 2
    return keys[:middle], keys[middle:]


def compare(lines, ours, peers):
    """Prints what differs. Returns whether nothing does that should not."""
    counts, names, unlike = collections.Counter(), collections.Counter(), 0
    for line, here, there in zip(lines, ours, peers):
        rules, *texts = line.split("\t")
        accepted = here.startswith("ok"), there.startswith("ok")
        if accepted == (True, False) and has_weakened(rules):
            names["weakened"] += 1
            print(f"weakened: {rules}: {there}")
            continue
        counts[accepted] += 1
        if accepted == (False, True):
            print(f"refused here alone: {rules}: {here}")
        if accepted == (True, False):
            print(f"refused by ICU4C alone: {rules}: {there}")
        if accepted != (True, True):
            continue
        found = list(unlike_by(rules, texts, here, there))
        names.update({name for name, _ in found if name})
        unlike += sum(name is None for name, _ in found)
        for name, what in found:
            print(f"{name or 'unlike'}: {rules}: {what}")
    named = "".join(f", {count} {name}" for name, count in sorted(names.items()))
    print(f"{counts[True, True]} sets compared, {counts[True, True] * TEXTS * (TEXTS - 1) // 2} pairs, {unlike} unlike{named}; refused by both "
          f"{counts[False, False]}, here alone {counts[False, True]}, by ICU4C alone {counts[True, False]}")
    return unlike == 0 and counts[True, False] == 0


def main():
    words = argparse.ArgumentParser()
    words.add_argument("program")
    words.add_argument("--sets", type=int, default=20)
    words.add_argument("--seed", type=int, default=1)
    words.add_argument("--root", default=ROOT)
    chosen = words.parse_args()
    maker = Maker(chosen.seed)
    lines = [maker.line() for _ in range(chosen.sets)]
    small = [row for row in rows() if "\n" not in row[0]]
    asked = ["\t".join([rules, *texts]) for rules, texts, _ in small] + lines
    with tempfile.TemporaryDirectory() as folder, ThreadPoolExecutor() as runs:
        peers = keys_there(folder, list(with_decomposed(lines)))
        ours = list(runs.map(Program(chosen.program, chosen.root, folder).keys, enumerate(asked)))
    wrong = wrong_rows(small, ours)
    sys.exit(0 if compare(lines, ours[len(small):], peers) and not wrong else 1)


if __name__ == "__main__":
    main()
