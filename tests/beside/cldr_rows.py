#!/usr/bin/env python3
"""tests/beside/cldr_rows.py PROGRAM [FOLDER [TABLE]]: the orders of CLDR's locales and types, as the program `collate-cldr` has them.

tests/beside/cldr_rows.txt has rows of texts for each locale and type whose rules say something, and tests/beside/cldr_exemplars.txt the letters of
each locale that has such rules, in the order that the keys of ICU 72 give them by the rules of CLDR 41, with the level of each
difference. (The last row has canonically equivalent texts, which ICU parts by `vi`. Its comparison contradicts its keys in the two rows
before.) The program is asked for the sort keys at each strength, which have to differ from that level on and no earlier, and by `check` whether it
compares the texts so. FOLDER is that of CLDR's data. A row with `proposed` behind the name is of rules that are a proposal
(`alt="proposed"`), which no tag asks for: it is asked of a copy of the files in which these rules are accepted.

tests/beside/cldr_pairs.txt has the pairs of ICU4C's own tests of languages, Spanish, Finnish, German, Japanese, Thai, Turkish and of currencies,
and after these pairs of more languages and tags in the order that ICU 72 gives them: a tag with its settings, two texts, and whether the first
is less or they are equal. The program is asked for the sort keys by each tag.

It prints each type that is refused with what is said of it, each row that isn't in order, and counts and times. TABLE is written:
for each locale what its types take, in seconds of processor and in memory at most, from start to end of a comparison. Its status is 1
where a row isn't in order, a type is refused, or nothing is asked. It isn't part of the gate."""
import os
import re
import shutil
import subprocess
import sys
import tempfile
from collections import namedtuple

HERE = os.path.dirname(os.path.realpath(__file__))
STRENGTHS = "1234"
ESCAPE = re.compile(r"\\u([0-9A-Fa-f]{4})|\\U([0-9A-Fa-f]{8})")
# Types, as tags name them.
KEYWORDS = {"phonebook": "phonebk", "traditional": "trad", "dictionary": "dict", "gb2312han": "gb2312"}
COLLATION = re.compile(r"<collation\s[^>]*>")
TYPE = re.compile(r"""\stype\s*=\s*["']([^"']*)["']""")
PROPOSED = re.compile(r"""\salt\s*=\s*["']proposed["']""")
# A row: the locale and the type, whether these rules are a proposal, and the texts, each with the sign before it (the first with "").
Row = namedtuple("Row", "name is_proposed parts")


def rows(file):
    with open(os.path.join(HERE, file), encoding="utf-8") as it:
        for line in it:
            said, _, row = line.rstrip("\n").partition(" => ")
            name, _, mark = said.partition(" ")
            yield Row(name, mark == "proposed", parts_of(row))


def tag_of(name):
    locale, _, kind = name.partition("/")
    locale = "und" if locale == "root" else locale.replace("_", "-")
    return f"{locale}-u-co-{KEYWORDS.get(kind, kind)}"


def parts_of(row):
    text = ESCAPE.sub(lambda it: chr(int(it[1] or it[2], 16)), row)
    words = re.split(r" (<|<<|<<<|<<<<|=) ", text)
    return list(zip(["", *words[1::2]], words[::2]))


def accepted(text):
    """A file of collations in which proposals are accepted, in place of those of their types."""
    proposed = {TYPE.search(it)[1] for it in COLLATION.findall(text) if PROPOSED.search(it)}

    def turned(it):
        if PROPOSED.search(it[0]):
            return PROPOSED.sub("", it[0])
        return it[0][:-1] + ' alt="replaced">' if TYPE.search(it[0])[1] in proposed else it[0]

    return COLLATION.sub(turned, text)


def copy_accepted(folder, copy):
    """Writes the files of collations, with proposals accepted, beside the root's data."""
    os.makedirs(os.path.join(copy, "common", "collation"))
    os.symlink(os.path.abspath(os.path.join(folder, "common", "uca")), os.path.join(copy, "common", "uca"))
    for name in os.listdir(os.path.join(folder, "common", "collation")):
        source = os.path.abspath(os.path.join(folder, "common", "collation", name))
        with open(source, encoding="utf-8") as it:
            text = it.read()
        if name.endswith(".xml") and PROPOSED.search(text):
            with open(os.path.join(copy, "common", "collation", name), "w", encoding="utf-8") as it:
                it.write(accepted(text))
        else:
            os.symlink(source, os.path.join(copy, "common", "collation", name))


def asked(words, texts):
    given = "".join(f"{it}\0" for it in texts).encode("utf-8", "surrogatepass")
    return subprocess.run(words, input=given, capture_output=True, check=False)


def is_as_said(sign, strength, first, second):
    """Whether two keys at a strength are as a sign says."""
    return first < second if sign != "=" and len(sign) <= int(strength) else first == second


def wrong_pairs(program, folder, row):
    """The pairs of a row whose keys aren't as their sign says, and whether texts are out of order by comparison; or what refuses the
    type."""
    texts, wrong = [text for _, text in row.parts], []
    options = ["--cldr", folder, "-z", "-l", tag_of(row.name)]
    for strength in STRENGTHS:
        ran = asked([program, "keys", *options, "--strength", strength], texts)
        if ran.returncode:
            return None, ran.stderr.decode(errors="replace").strip()
        keys = [bytes.fromhex(it.partition(b"\t")[0].decode()) for it in ran.stdout.split(b"\0")[:-1]]
        pairs = zip(row.parts, row.parts[1:], keys, keys[1:])
        wrong += [f"{a[1]} {b[0]} {b[1]} at {strength}" for a, b, x, y in pairs if not is_as_said(b[0], strength, x, y)]
        if len(keys) != len(texts):
            wrong.append(f"{len(keys)} keys of {len(texts)} texts")
    if asked([program, "check", *options, "-s", "--strength", "4"], texts).returncode:
        wrong.append("out of order by comparison")
    return wrong, ""


def wrong_by_settings(program, folder):
    """How many of the pairs of tags with settings are ordered otherwise, each of which is printed, and how many pairs there are."""
    by_tag, wrong, pairs = {}, 0, 0
    for row in rows("cldr_pairs.txt"):
        by_tag.setdefault(row.name, []).append(row.parts)
    for tag, found in by_tag.items():
        ran = asked([program, "keys", "--cldr", folder, "-z", "-l", tag], [text for (_, one), (_, other) in found for text in (one, other)])
        keys = [bytes.fromhex(it.partition(b"\t")[0].decode()) for it in ran.stdout.split(b"\0")[:-1]]
        keys += [b""] * (2 * len(found) - len(keys))
        for ((_, one), (sign, other)), first, second in zip(found, keys[::2], keys[1::2]):
            pairs += 1
            if not (first and second) or (first > second) - (first < second) != (-1 if sign == "<" else 0):
                wrong += 1
                print(f"{tag}: not so: {one} {sign} {other} {ran.stderr.decode(errors='replace').strip()}", flush=True)
    return wrong, pairs


def cost(program, folder, tag):
    """The processor time and the memory at most of a comparison, from start to end: the least of three runs."""
    costs = []
    for _ in range(3):
        it = subprocess.Popen([program, "compare", "--cldr", folder, "-l", tag, "a", "b"], stdout=subprocess.DEVNULL)
        _, _, used = os.wait4(it.pid, 0)
        it.returncode = 0
        costs.append((used.ru_utime + used.ru_stime, used.ru_maxrss))
    return min(costs)


def table(costs):
    """What the types of each locale take, as a table of Markdown, and the sums."""
    lines, by_locale = ["| Locale | Types, each with seconds and megabytes |", "|---|---|"], {}
    for name, (seconds, kilobytes) in costs.items():
        locale, _, kind = name.partition("/")
        by_locale.setdefault(locale.replace("_", "-"), []).append(f"`{kind}` {seconds:.2f} s, {kilobytes / 1000:.0f} MB")
    lines += [f"| `{locale}` | {'; '.join(types)} |" for locale, types in sorted(by_locale.items())]
    return "\n".join(lines) + "\n"


class Count:
    """What was found of a file's rows."""

    def __init__(self):
        self.names, self.pairs, self.wrong, self.refused, self.rows = set(), 0, 0, 0, 0

    def add(self, row, found, said):
        self.rows += 1
        label = f"{row.name}{' proposed' if row.is_proposed else ''}"
        if found is None:
            self.refused += 1
            print(f"{label}: refused: {said}", flush=True)
        elif found:
            self.wrong += 1
            print(f"{label}: not in order: {found[:10]}", flush=True)
        else:
            self.names.add(row.name)
            self.pairs += len(row.parts) - 1

    def say(self, file):
        print(f"{file}: {self.rows} rows, {self.wrong} not in order, {self.refused} refused; "
              f"{len(self.names)} types in order ({self.pairs} pairs)", flush=True)
        return self.wrong or self.refused or not self.names


def main(program, folder="/usr/share/unicode/cldr", written=None):
    copy, costs, failed = tempfile.mkdtemp(), {}, False
    try:
        copy_accepted(folder, os.path.join(copy, "cldr"))
        for file in ["cldr_rows.txt", "cldr_exemplars.txt"]:
            count = Count()
            for row in rows(file):
                data = os.path.join(copy, "cldr") if row.is_proposed else folder
                count.add(row, *wrong_pairs(program, data, row))
                if row.name not in costs:
                    costs[row.name] = cost(program, data, tag_of(row.name))
            failed = bool(count.say(file)) or failed
        wrong, pairs = wrong_by_settings(program, folder)
        print(f"cldr_pairs.txt: {pairs} pairs, {wrong} ordered otherwise", flush=True)
        failed = failed or wrong or not pairs
    finally:
        shutil.rmtree(copy)
    for seconds, name in sorted(((it[0], name) for name, it in costs.items()), reverse=True)[:3]:
        print(f"{name}: {seconds:.2f} seconds of processor, {costs[name][1] / 1000:.0f} MB")
    if written:
        with open(written, "w", encoding="utf-8") as it:
            it.write(table(costs))
    return int(failed)


if __name__ == "__main__":
    sys.exit(main(*sys.argv[1:]))
