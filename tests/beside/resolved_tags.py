"""What language tags resolve to, by the program `resolve_tags` and by this script, which reads the data of CLDR itself and goes by the
steps of UTS #35: aliases, the script, the file, the type. Both have to say the same of each tag.

    python3 tests/beside/resolved_tags.py PROGRAM FOLDER

The tags are each language that has a file or likely subtags, with no script and with each script that it has there, with no region and
with each region, and all old codes that the grammar of tags takes; and some with types.
"""
import pathlib
import re
import subprocess
import sys
import xml.etree.ElementTree as ET

# Types, as tags and as files name them.
LONG_TYPES = {"phonebk": "phonebook", "trad": "traditional", "dict": "dictionary", "gb2312": "gb2312han"}
TYPES = ["phonebk", "trad", "pinyin", "stroke", "search", "searchjl", "standard", "eor", "private-pinyin", "unihan", "emoji", "dict"]
# Tags whose words people write, and that the grid hasn't.
WRITTEN = ["root", "und", "und-TW", "zh-yue", "zh-yue-HK", "zh-cmn-Hant", "zh-min-nan", "no-nyn", "no-bok", "zh-hakka", "no-bokmal",
           "no-nynorsk", "en-US-posix", "en-US-u-va-posix", "en-u-va-posix", "hy-arevmda", "sr-ME", "yue", "yue-CN", "yue-Hans", "ars",
           "zh-Zzzz-TW", "zh-ZZ", "zh-Bopo", "sh-Cyrl", "prs-IR", "sv-SWE", "norwegian", "xx", "dk", "swedish", "de-1996", "zh-840"]


class Data:
    """What CLDR says: aliases, likely subtags, languages, and what is in the files of collations."""

    def __init__(self, folder):
        supplemental = folder / "common/supplemental"
        metadata = ET.parse(supplemental / "supplementalMetadata.xml")
        self.languages, self.scripts, self.regions = (
            {a.get("type"): a.get("replacement") for a in metadata.iter(kind)} for kind in ("languageAlias", "scriptAlias", "territoryAlias"))
        self.extended = sorted((a for a in self.languages if re.fullmatch("[a-z]{2}(_[a-z]{3})+", a)), key=len, reverse=True)
        self.likely = {a.get("from"): a.get("to").split("_") for a in ET.parse(supplemental / "likelySubtags.xml").iter("likelySubtag")}
        self.known = set()
        for one in ET.parse(folder / "common/validity/language.xml").iter("id"):
            if one.get("idStatus") in ("regular", "special", "unknown"):
                for word in one.text.split():
                    first, _, last = word.partition("~")
                    self.known |= {first[:-1] + chr(c) for c in range(ord(first[-1]), ord(last or first[-1]) + 1)}
        self.valid_regions = set()
        for one in ET.parse(folder / "common/validity/region.xml").iter("id"):
            for word in one.text.split():
                first, _, last = word.partition("~")
                self.valid_regions |= {first[:-1] + chr(c) for c in range(ord(first[-1]), ord(last or first[-1]) + 1)}
        self.types, self.defaults = {}, {}
        for path in (folder / "common/collation").glob("*.xml"):
            tree = ET.parse(path)
            self.types[path.stem] = {c.get("type") for c in tree.iter("collation") if not c.get("alt")}
            named = tree.find(".//defaultCollation")
            if named is not None:
                self.defaults[path.stem] = named.text


def split(tag):
    """The language, the script, the region and the variants of a tag whose parts have `_` or `-` between."""
    parts = re.split("[-_]", tag)
    language, script, region, variants = parts[0], "", "", []
    for part in parts[1:]:
        if len(part) == 1:
            break
        if len(part) == 4 and part.isalpha():
            script = part.title()
        elif re.fullmatch("[A-Za-z]{2}|[0-9]{3}", part):
            region = part.upper()
        else:
            variants.append(part.lower())
    return language.lower(), script, region, variants


def with_aliases(data, language, script, region, variants):
    """The subtags with today's codes; a replacement fills only what is left out."""
    for _ in range(9):
        named = [v for v in variants if f"{language}_{v}" in data.languages]
        old = f"{language}_{named[0]}" if named else language
        if old == "ars":
            new = "ar_SA"
        elif old in data.languages and old != "und":
            new = data.languages[old].split("_x_")[0]
        else:
            break
        variants = [v for v in variants if v not in named]
        language, new_script, new_region, _ = split(new)
        script, region = script or new_script, region or new_region
    if region in data.regions:
        choices = data.regions[region].split()
        likely = data.likely.get(f"{language}_{script}") if script else None
        likely = likely or data.likely.get(language)
        region = likely[2] if likely and likely[2] in choices else choices[0]
    script = data.scripts.get(script, script)
    return language, script, region, variants


def likely_script(data, language, region):
    return (data.likely.get(f"{language}_{region}") or data.likely.get(language) or ["", "", ""])[1]


def files_in_turn(data, language, script, region, variant):
    """The names of files in turn, of which those count that are there."""
    if language == "und":
        return ["root"]
    region_tags = ([f"{region}_{variant}"] if variant and region else []) + ([region] if region else [])
    names = [f"{language}_{script}_{tag}" for tag in region_tags] if script else []
    if script in ("", likely_script(data, language, region)):
        names += [f"{language}_{tag}" for tag in region_tags]
    names += [f"{language}_{script}"] if script else []
    names += [language] + (["no"] if language in ("nb", "nn") else []) + ["root"]
    return [name for name in names if name in data.types]


def taken(data, names, wanted):
    """The file, the type, and whether the type is the one that is wanted."""
    usual = next((data.defaults[n] for n in names if n in data.defaults), "standard")
    turn = [wanted] if wanted and not wanted.startswith("private-") else []
    if wanted != "standard":
        turn += ["search"] if wanted and wanted.startswith("search") and len(wanted) > 6 else []
        turn += [usual, "standard"]
    for kind in turn:
        for name in names:
            if kind in data.types[name]:
                return name, kind, wanted in (None, kind)
    return "root", "", wanted in (None, "standard")


def resolved(data, tag, memory={}):
    """The line of a tag."""
    words = tag.lower()
    if words.split("-")[0] == "root":
        words = "und" + words[4:]
    for old in data.extended:
        front = old.replace("_", "-")
        if words == front or words.startswith(front + "-"):
            words = split(data.languages[old].split("_x_")[0])[0] + words[len(front):]
    if not re.fullmatch("([a-z]{2,3}|[a-z]{5,8})(-[a-z]{4})?(-([a-z]{2}|[0-9]{3}))?(-([a-z0-9]{5,8}|[0-9][a-z0-9]{3}))*(-u-.*)?", words):
        return f"{tag}\trefused"
    main, _, keywords = words.partition("-u-")
    language, script, region, variants = split(main)
    script, region = script if script != "Zzzz" else "", region if region != "ZZ" else ""
    wanted = re.search(r"(?:^|-)co-(\w{3,8}(?:-\w{3,8})*)", keywords)
    wanted = LONG_TYPES.get(wanted[1], wanted[1]) if wanted else None
    if "va-posix" in keywords:
        variants = ["posix"]
    language, script, region, variants = with_aliases(data, language, script, region, variants)
    if language == "yue":
        script, language = script or likely_script(data, "yue", region), "zh"
    if not script and likely_script(data, language, region) != likely_script(data, language, ""):
        script = likely_script(data, language, region)
    variant = variants[0].upper() if variants else ""
    key = (language, script, region, variant, wanted)
    if key not in memory:
        memory[key] = taken(data, files_in_turn(data, language, script, region, variant), wanted)
    name, kind, is_found = memory[key]
    exact = "exact" if is_found and language in data.known else ""
    return f"{tag}\t{name}\t{kind}\t{exact}"


def grid(data):
    """All tags."""
    by_language = {language: set() for language in data.types if "_" not in language and language != "root"}
    for given, to in data.likely.items():
        language, script = split(given)[:2]
        if language != "und":
            by_language.setdefault(language, set()).update({script, to[1]} - {""})
    for name in data.types:
        language, script = split(name)[:2]
        if script:
            by_language[language].add(script)
    regions = [""] + sorted(data.valid_regions | {r for r in data.regions if re.fullmatch("[A-Z]{2}|[0-9]{3}", r)})
    for language, scripts in sorted(by_language.items()):
        for script in ["", *sorted(scripts)]:
            front = f"{language}-{script}" if script else language
            for region in regions:
                yield f"{front}-{region}" if region else front
    for old in sorted(data.languages):
        yield old.replace("_", "-")
        if re.fullmatch("[a-z]{2,3}", old):
            for rest in ("Latn", "Cyrl", "Arab", "Hant", "TW", "CN", "RS", "AF", "YU", "SU", "Latn-RS"):
                yield f"{old}-{rest}"
    for language in sorted(by_language):
        for kind in TYPES:
            yield f"{language}-u-co-{kind}"
    yield from WRITTEN


def taken_by_grammar(tag):
    """Whether old codes are of the form that tags have; the others, as `sgn-BE-FR`, are no question."""
    return not re.match("i-|sgn-..-..$|en-GB-oed|zh-min$|zh-cmn-Han.$", tag) or tag.startswith("zh-")


def main(words):
    program, folder = words
    data = Data(pathlib.Path(folder))
    tags = [tag for tag in dict.fromkeys(grid(data)) if taken_by_grammar(tag)]
    ran = subprocess.run([program, f"{folder}/common/collation"], input="\n".join(tags) + "\n", capture_output=True, text=True, check=False)
    said = ran.stdout.splitlines()
    unlike = [(tag, line, wanted) for tag, line, wanted in zip(tags, said, (resolved(data, tag) for tag in tags)) if line != wanted]
    for tag, line, wanted in unlike[:20]:
        print(f"{tag}: {line!r}; wanted: {wanted!r}")
    fails = len(said) != len(tags) or ran.returncode != 0
    if fails:
        print(f"{len(said)} of {len(tags)} lines; {ran.stderr}")
    print(f"resolved tags: {len(tags)}, {len(unlike)} unlike")
    return 1 if unlike or fails else 0


if __name__ == "__main__":
    sys.exit(main(sys.argv[1:]))
