"""Writes the lists of CLDR that are compiled into `icu_cldr_locales`, or compares those that stand there with a folder of CLDR.

A list is rows of three words: a subtag, one that stands with it or nothing, and the value; or it is words alone (`LANGUAGES`).

    python3 tests/beside/locale_texts.py FOLDER            compares; the status is 1 if a list differs
    python3 tests/beside/locale_texts.py FOLDER --write    writes
"""
import pathlib
import re
import string
import sys
import xml.etree.ElementTree as ET

HERE = pathlib.Path(__file__).resolve().parents[2] / "crates/icu_cldr_locales/src/resolution/compiled"
LETTERS = string.ascii_lowercase
# How many characters of a list stand on a line of the source.
WIDTH = 100


def alias_table(folder, kind):
    """The aliases of a kind: the old code, and what replaces it."""
    tree = ET.parse(folder / "common/supplemental/supplementalMetadata.xml")
    return {a.get("type"): a.get("replacement") for a in tree.iter(kind + "Alias")}


def likely_table(folder):
    tree = ET.parse(folder / "common/supplemental/likelySubtags.xml")
    return {a.get("from"): a.get("to").split("_") for a in tree.iter("likelySubtag")}


def words_between(text):
    """The words of a list of the validity data, in which `aaa~c` stands for `aaa`, `aab` and `aac`."""
    for word in text.split():
        first, _, last = word.partition("~")
        for code in range(ord(first[-1]), ord(last or first[-1]) + 1):
            yield first[:-1] + chr(code)


def known_languages(folder):
    """The codes of languages that are in use: the regular ones, and the special ones."""
    tree = ET.parse(folder / "common/validity/language.xml")
    return sorted({w for i in tree.iter("id") if i.get("idStatus") in ("regular", "special", "unknown") for w in words_between(i.text)})


def parts_of(tag):
    """The language, the script and the region of a tag."""
    language, script, region = tag.split("_")[0], "", ""
    for part in tag.split("_")[1:]:
        if part == "x":
            break
        if len(part) == 4 and part.isalpha():
            script = part
        elif re.fullmatch("[A-Z]{2}|[0-9]{3}", part):
            region = part
    return language, script, region


def replaced_language(aliases, old):
    """What replaces a language at last: the replacements may be replaced."""
    language, script, region = parts_of(aliases[old])
    while language in aliases:
        language, further_script, further_region = parts_of(aliases[language])
        script, region = script or further_script, region or further_region
    return language, script, region


def alias_rows(folder):
    """The rows of aliases of languages: the language, the script and the region that replace; and those of extended languages."""
    aliases = alias_table(folder, "language")
    languages, scripts, regions, extended = [("ars", "", "ar")], [], [("ars", "", "SA")], []
    for old in aliases:
        language, script, region = replaced_language(aliases, old)
        parts = old.split("_")
        if len(parts) == 1 and old != "und":
            languages.append((old, "", language))
            scripts += [(old, "", script)] if script else []
            regions += [(old, "", region)] if region else []
        elif len(parts) == 2 and re.fullmatch("[a-z]{5,8}", parts[1]) and len(parts[0]) > 1 and parts[0] != "und":
            languages.append((parts[0], parts[1], language))
        elif len(parts) == 2 and re.fullmatch("[a-z]{3}", parts[1]) and len(parts[0]) == 2:
            extended.append((parts[0], parts[1], language))
    return languages, scripts, regions, extended


def several_regions(folder):
    return {r for to in alias_table(folder, "territory").values() if " " in to for r in to.split()}


def region_rows(folder):
    """The rows of aliases of regions: of several that replace one, the likely one of the language, and else the first."""
    rows = []
    for old, new in alias_table(folder, "territory").items():
        rows.append((old, "", new.split()[0]))
        rows += [(old, region, region) for region in new.split()[1:]]
    return rows


def likely_rows(folder):
    """The rows of likely scripts, and of likely regions that are among several which replace an old one."""
    likely, several = likely_table(folder), several_regions(folder)
    scripts, regions = [], []
    for given, (language, script, region) in likely.items():
        parts = given.split("_")
        if parts[0] == "und":
            continue
        if len(parts) == 1:
            scripts.append((given, "", script))
            regions += [(given, "", region)] if region in several else []
        elif len(parts) == 2 and len(parts[1]) != 4 and script != likely[parts[0]][1]:
            scripts.append((parts[0], parts[1], script))
        elif len(parts) == 2 and len(parts[1]) == 4 and {region, likely[parts[0]][2]} & several:
            regions.append((parts[0], parts[1], region))
    return scripts, regions


def region_languages(folder):
    """The likely language of each region."""
    return [(given[4:], "", to[0]) for given, to in likely_table(folder).items() if re.fullmatch("und_[A-Z]{2}", given)]


def name_rows(folder):
    """The English names of languages, in lower case, of which each is one word."""
    tree = ET.parse(folder / "common/main/en.xml")
    found = {}
    for language in tree.iter("language"):
        code, name = language.get("type"), (language.text or "").lower()
        if code and re.fullmatch("[a-z]{2,3}", code) and re.fullmatch("[a-z]{4,}", name) and not language.get("alt"):
            found.setdefault(name, code)
    return [(name, "", code) for name, code in found.items()]


def row_lines(rows):
    """The lines of a list of rows, in the order of their words. The last one has no space behind it."""
    return filled([" ".join(row) for row in sorted(rows)])


def filled(words):
    lines = [""]
    for number, word in enumerate(words):
        word += " " if number + 1 < len(words) else ""
        if len(lines[-1]) + len(word) > WIDTH:
            lines.append("")
        lines[-1] += word
    return lines


def constant(name, about, lines):
    body = "".join(f"{line}\\\n" for line in lines[:-1]) + lines[-1]
    return f"/// {about}\npub(crate) const {name}: &str = \"\\\n{body}\";\n"


def files(folder):
    languages, scripts, regions, extended = alias_rows(folder)
    likely_scripts, likely_regions = likely_rows(folder)
    script_aliases = [(a, "", b) for a, b in alias_table(folder, "script").items()]
    aliases = [
        ("LANGUAGE_ALIASES", "Old languages, the variant that stands with them or nothing, and the language.", languages),
        ("ALIAS_SCRIPTS", "Old languages that stand for a script too, and the script.", scripts),
        ("ALIAS_REGIONS", "Old languages that stand for a region too, and the region.", regions),
        ("EXTENDED_ALIASES", "Languages, what stands behind them, and the language.", extended),
        ("SCRIPT_ALIASES", "Old scripts, and the script.", script_aliases),
        ("REGION_ALIASES", "Old regions, the likely region of the language or nothing, and the region.", region_rows(folder))]
    likely = [
        ("LIKELY_SCRIPTS", "Languages, a region or nothing, and the script that is likely there.", likely_scripts),
        ("LIKELY_REGIONS", "Languages, a script or nothing, and the likely region, if it is one of several that replace an old one.",
         likely_regions)]
    names = [
        ("REGION_LANGUAGES", "Regions, and the language that is likely there.", region_languages(folder)),
        ("LANGUAGE_NAMES", "The English names of languages, and the language.", name_rows(folder))]
    note = "written by `locale_texts.py` of the tests from CLDR's data.\n"
    return {
        "alias_lists.rt": "//! Lists of codes and of what replaces them (`supplementalMetadata.xml`),\n//! " + note + "\n"
        + "\n".join(constant(n, a, row_lines(r)) for n, a, r in aliases),
        "likely_lists.rt": f"//! Lists of likely subtags (`likelySubtags.xml`), {note}\n" + "\n".join(constant(n, a, row_lines(r)) for n, a, r in likely),
        "name_lists.rt": "//! What people write for a language: a region (`likelySubtags.xml`) or a name in English (`en.xml`),\n//! "
        + note + "\n" + "\n".join(constant(n, a, row_lines(r)) for n, a, r in names),
        "language_list.rt": f"//! The languages of CLDR (`validity/language.xml`), {note}\n"
        + constant("LANGUAGES", "The codes of languages that are in use.", filled(known_languages(folder)))}


def main(words):
    folder = pathlib.Path(words[0] if words else "/usr/share/unicode/cldr")
    differs = 0
    for name, text in files(folder).items():
        if "--write" in words:
            HERE.mkdir(parents=True, exist_ok=True)
            (HERE / name).write_text(text)
        elif not (HERE / name).exists() or (HERE / name).read_text() != text:
            print(f"{name}: differs from the data in {folder}")
            differs = 1
    print(f"compiled lists: {'written' if '--write' in words else 'those of the data' if not differs else 'others'}")
    return differs


if __name__ == "__main__":
    sys.exit(main(sys.argv[1:]))
