"""The program `collate-cldr` with the rules of languages, over small files in the forms of CLDR's (crates/use_language/data): each way in which a
locale comes to its rules, settings of options, tags and rules, locales of the environment, and files and rules that are refused."""
import os
import shutil

from sweeps import ENVIRONMENT, TOP, Run, ended

FOLDER = os.path.join(TOP, "crates", "use_language", "data", "cldr")
SIGNS = {"<": 1, "=": 0, ">": 1}
# Words beside the folder, two texts, and the sign that is wanted.
SIGNED = [
    # Of Swedish the file names a default type, by which v and w differ; the type standard has the other w.
    (["-l", "sv"], "å z", ">"),
    (["-l", "sv"], "z ä", "<"),
    (["-l", "sv"], "å ä", "<"),
    (["-l", "sv"], "wa vb", ">"),
    (["-l", "sv-u-co-standard"], "wa vb", "<"),
    (["-l", "SV-u-CO-Standard"], "wa vb", "<"),
    (["-l", "sv-SE"], "å z", ">"),
    # A type that isn't there: the default type stands in.
    (["-l", "sv-u-co-phonebk"], "wa vb", ">"),
    # The type search imports from two files.
    (["-l", "sv-u-co-search"], "wa vb", "<"),
    (["-l", "sv-u-co-search"], "a-b ab", "="),
    (["-l", "sv-u-co-searchjl"], "wa vb", "<"),
    (["-l", "de"], "ä af", "<"),
    (["-l", "de"], "ä ad", "<"),
    (["-l", "de-u-co-phonebk"], "ä ad", ">"),
    (["-l", "de-AT-u-co-phonebk"], "ä ad", ">"),
    (["-l", "de-u-co-phonebk"], "ä ae", ">"),
    # Of both written forms of Norwegian the parent is no; a region in another script has the rules of that script.
    (["-l", "nb"], "ø z", ">"),
    (["-l", "nn-NO"], "ø z", ">"),
    (["-l", "zh"], "a b", "<"),
    (["-l", "zh"], "b z", ">"),
    (["-l", "zh"], "a z", "<"),
    (["-l", "zh-Hant"], "a z", ">"),
    (["-l", "zh-TW"], "a z", ">"),
    (["-l", "zh-TW-u-co-pinyin"], "b z", ">"),
    # Ideographs: by blocks and code points, and by radicals and strokes in the types of Chinese, in which those of no line of a radical
    # stand behind the others.
    (["-l", "und"], "七 丁", ">"),
    (["-l", "und"], "㐀 丁", ">"),
    (["-l", "sv"], "㐀 丁", ">"),
    (["-l", "und"], "一 丁", "<"),
    (["-l", "zh-u-co-unihan"], "一 㐀", "<"),
    (["-l", "zh-u-co-unihan"], "㐀 七", "<"),
    (["-l", "zh-u-co-unihan"], "七 丁", "<"),
    (["-l", "zh-u-co-unihan"], "丁 丂", "<"),
    (["-l", "zh-u-co-unihan"], "丂 丅", "<"),
    (["-l", "zh-u-co-unihan"], "丅 㐁", "<"),
    (["-l", "zh-u-co-unihan"], "㐁 丄", "<"),
    (["-l", "zh-u-co-unihan"], "丄 丆", "<"),
    (["-l", "zh-u-co-unihan"], "z c", "<"),
    (["-l", "zh"], "㐁 丄", "<"),
    (["-l", "zh-Hant"], "㐀 丁", "<"),
    # Of conjoining jamo, which have a table of their own, by themselves and in syllables.
    (["-l", "und"], "ᄀ c", ">"),
    (["-l", "ko-u-co-search"], "ᄀ c", "<"),
    (["-l", "ko-u-co-search"], "b ᄀ", "<"),
    (["-l", "ko-u-co-search"], "가 c", "<"),
    (["-l", "ko-u-co-search"], "가 까", "<"),
    (["-l", "ko-u-co-search"], "까 c", "<"),
    (["-l", "ko-u-co-search"], "나 c", ">"),
    (["-l", "ko-u-co-search"], "ᄀᄁ ᇺ", "="),
    (["-l", "ko-u-co-search", "--strength=1"], "가 갸", "="),
    (["-l", "ko-u-co-search"], "가 갸", "<"),
    (["-l", "ko-u-co-search"], "거 갸", ">"),
    # A variant, which the name of a file has in capitals.
    (["-l", "en-US-posix"], "B a", "<"),
    (["-l", "en-US-POSIX"], "b C", ">"),
    (["-l", "en-US"], "B a", ">"),
    # A language without a file has the root's order.
    (["-l", "en"], "å z", "<"),
    (["-l", "und"], "å z", "<"),
    # The secondary level from its end: by rules, and by a tag.
    (["-l", "fr"], "àa aà", ">"),
    (["-l", "fr-CA"], "àa aà", "<"),
    (["-l", "fr-u-kb"], "àa aà", "<"),
    (["-l", "fr-CA-u-kb-false"], "àa aà", ">"),
    (["-l", "und-u-kb"], "àa aà", "<"),
    # Pairs that ICU's comparison orders otherwise than its keys, or whose canonically equivalent texts it parts: accents from the end, a
    # shifted character before marks, and a composed letter.
    (["-l", "th"], "\u0301äB \u0301ää", "<"),
    (["-l", "und", "--alternate=shifted", "--strength=4"], "-\u030e -\u030c", "="),
    (["-l", "th-u-co-horned"], "\u01a1\u0302 o\u031b\u0302", "="),
    (["-l", "th-u-co-horned"], "\u01a1\u0302 \u01a1", ">"),
    # Settings: of options before those of the tag, and those before the rules'.
    (["-l", "da"], "A a", "<"),
    (["-l", "da"], "å z", ">"),
    (["-l", "da-u-kf-false"], "A a", ">"),
    (["-l", "da-u-kf-false", "--case-first=upper"], "A a", "<"),
    (["-l", "da", "--case-first=lower"], "A a", ">"),
    (["-l", "da-u-ks-level1"], "A a", "="),
    (["-l", "da-u-ks-level1", "--strength=3"], "A a", "<"),
    (["-l", "sv-u-kn"], "10 9", ">"),
    # Settings of tags by CLDR's aliases of their types, if a tag can have them.
    (["-l", "sv-u-kn-yes"], "10 9", ">"),
    (["-l", "da-u-ks-primary"], "A a", "="),
    (["-l", "da-u-kf-false-ks-tertiary"], "A a", ">"),
    (["-l", "fr-u-kb-yes"], "àa aà", "<"),
    (["-l", "fr-u-kk-yes"], "àa aà", ">"),
    # Settings that are turned off by options.
    (["-l", "sv-u-kn", "--numeric=off"], "10 9", "<"),
    (["-l", "sv-u-kn", "--numeric=off", "--numeric"], "10 9", ">"),
    (["-l", "sv", "--numeric=on"], "10 9", ">"),
    (["-l", "sv", "-V"], "10 9", ">"),
    (["-l", "sv-u-kc-ks-level1", "--case-level=off"], "A a", "="),
    (["-l", "sv-u-kc-ks-level1"], "A a", ">"),
    # Rules that put scripts in another order, of which the small file of the root has no groups.
    (["-l", "hr"], "c č", "<"),
    (["-l", "hr"], "č d", "<"),
]
# Names of languages as people and systems write them: the tag that a table file has for each, two texts and the sign.
WRITTEN = [
    ("sv_SE", "sv-SE", "å z", ">"),
    ("sv_SE.UTF-8", "sv-SE", "å z", ">"),
    ("swe", "swe", "å z", ">"),
    ("C", "", "å z", "<"),
    ("C.UTF-8", "", "å z", "<"),
    ("POSIX", "", "å z", "<"),
    ("root", "und", "å z", "<"),
    ("root-u-ks-level1", "und-u-ks-level1", "a A", "="),
    ("no-nyn", "nn", "ø z", ">"),
    ("no-bokmal", "no-bokmal", "ø z", ">"),
    ("zh-yue-HK", "yue-hk", "a z", ">"),
    ("yue", "yue", "a z", ">"),
    ("yue-CN", "yue-CN", "b z", ">"),
    ("yue-CN", "yue-CN", "a z", "<"),
    ("cmn", "cmn", "b z", ">"),
    ("zh-US", "zh-US", "a z", ">"),
    ("zh-840", "zh-840", "a z", ">"),
    ("zh-Hans-TW", "zh-Hans-TW", "a z", "<"),
    ("zh-Zzzz-TW", "zh-Zzzz-TW", "a z", ">"),
    ("zh_Hant", "zh-Hant", "a z", ">"),
    ("fr-Latn-CA", "fr-Latn-CA", "àa aà", "<"),
    ("en-US-u-va-posix", "en-US-u-va-posix", "B a", "<"),
    ("eu_ES", "eu-ES", "å z", "<"),
    ("gd_GB.UTF-8", "gd-GB", "å z", "<"),
]
# What is said of a tag whose order isn't exactly what it asks for, and what is done all the same: two texts and the sign.
NO_TYPE = "no collation of the type"
OF_SWEDISH = "; there are reformed search standard"
NOTICES = {
    "sv-u-co-phonebk": f"{NO_TYPE} phonebk{OF_SWEDISH}",
    "sv-u-co-searchjl": f"{NO_TYPE} searchjl{OF_SWEDISH}",
    "zh-u-co-private-pinyin": f"{NO_TYPE} private-pinyin; there are pinyin stroke unihan",
    "de-phonebk": "phonebk is a type; write de-u-co-phonebk",
    "es-trad": "trad is a type; write es-u-co-trad",
    "xx": "no language of CLDR",
    "dk": "no language of CLDR: DK is a region, whose language is da",
    "cz": "no language of CLDR: CZ is a region, whose language is cs",
    "jp": "no language of CLDR: JP is a region, whose language is ja",
    "swedish": "no language of CLDR: swedish is the name of a language, whose code is sv",
}
NOTICED = [("de-phonebk", "ä ad", "<"), ("es-trad", "a b", "<"), ("xx", "å z", "<"), ("dk", "å z", "<"), ("cz", "å z", "<"), ("jp", "å z", "<"),
           ("swedish", "å z", "<"), ("zh-u-co-private-pinyin", "a b", "<")]
# Rules of one's own after those of a language, or over the root: words, rules as a word, two texts and the sign.
OWN_RULES = [
    ([], "&z<å", "å z", ">"),
    ([], "&z<å", "b å", "<"),
    (["-l", "und"], "&z<å", "å z", ">"),
    (["-l", "sv"], "&a<z", "z b", "<"),
    (["-l", "sv"], "&a<z", "z å", "<"),
    (["-l", "sv"], "&z<ä<å", "å ä", ">"),
    (["-l", "sv"], "[caseFirst upper]", "a A", ">"),
    (["-l", "sv-u-kf-false"], "[caseFirst upper]", "a A", "<"),
    (["-l", "da"], "[caseFirst off]", "A a", ">"),
    (["-l", "fr-CA-u-kb-false"], "&a<b", "àa aà", ">"),
    ([], "[import sv]&a<z", "å ä", "<"),
    ([], "[import sv]&a<z", "z b", "<"),
    ([], "[import da-u-co-standard]", "å z", ">"),
    ([], "@", "àa aà", "<"),
    # Those of Chinese stay, with their ideographs by radicals.
    (["-l", "zh-u-co-unihan"], "&z<a", "一 㐀", "<"),
    (["-l", "zh-u-co-unihan"], "&z<a", "a z", ">"),
]
# Files of rules: their bytes, two texts and the sign.
RULE_FILES = [
    (b"&z<\xc3\xa5\n", "å z", ">"),
    (b"\xef\xbb\xbf&z<\xc3\xa5\n", "å z", ">"),
    (b"# one\r\n&z\r\n<\xc3\xa5\r\n", "å z", ">"),
    (b"# one\r&z<\xc3\xa5", "å z", ">"),
    (b"", "å z", "<"),
]
# Rules of one's own that are refused: words, rules, and what is said of them, behind the name.
WRONG_RULES = [
    ([], b"&a<z<", "line 1, column 6: expected a string after the relation's sign"),
    (["-l", "sv"], b"# one\n\n&a<z\n  &b <", "line 4, column 7: expected a string after the relation's sign"),
    (["-l", "sv"], b"< b", "line 1, column 1: "),
    ([], b"&a<\xc3\xa9\r\n&b<\xe9", "line 2: expected UTF-8"),
    ([], b"&a<b\r\n[import xx-u-co-none]", "line 2, column 1: expected a tag of rules"),
    (["-l", "sv"], b"&[before 2]a < b", "line 1, column "),
]
# What is said of a file or of rules, behind the folder.
COLLATION = "/common/collation/"
# A file of a language's rules, and a relation of each private character of a plane.
COLLATIONS = """\
<?xml version="1.0" encoding="UTF-8" ?>
<!DOCTYPE ldml SYSTEM "../../common/dtd/ldml.dtd">
<ldml>
	<identity>
		<version number="$Revision$"/>
		<language type="zu"/>
	</identity>
	<collations>
		<collation type="standard"><cr><![CDATA[
%s
		]]></cr></collation>
	</collations>
</ldml>
"""
PLANE = "&a<*\U000F0000-\U000FFFFD"
REFUSED = [
    ("ta", COLLATION + "ta.xml, collation standard: [import xx-u-co-none]: expected a tag of rules\n"),
    ("ta-u-co-circle", COLLATION + "ta.xml, collation circle: [import ta-u-co-circle]: expected imports nested at most 8 deep, which don't lead back to their own rules\n"),
    ("ta-u-co-wrong", COLLATION + "ta.xml, collation wrong: &c <: expected a string after the relation's sign\n"),
    ("te", COLLATION + "te.xml, collation standard: [import ta-u-co-wrong]: expected a string after the relation's sign\n"),
    ("te-u-co-unsaid", COLLATION + "te.xml, collation unsaid: &[before 2]a < b: expected a relation as strong as [before] says\n"),
    ("xh", COLLATION + "xh.xml: line 2, column 13: the file ends within an element, a tag, a comment or a section\n"),
    ("yo", COLLATION + "yo.xml: line 1: expected an element of a file of collations, in its place\n"),
    ("zu", COLLATION + f"zu.xml, collation standard: {PLANE}: expected at most 250000 relations, with those of imports\n"),
]
# Files that are cut off, or are of another kind, and one with 524,272 relations.
DAMAGED = {"xh": "<ldml>\n\t<collations", "yo": "<ldml><other/></ldml>\n", "zu": COLLATIONS % "\n".join([PLANE] * 8)}
# Lines of radicals in place of those of the root's file, for a type that stands by them, and what is said of the file.
RADICALS = [
    ("[radical 1=⼀一 一]\n[radical end]", "line 5: expected `:` before the ideographs of a radical\n"),
    ("[radical 1=⼀一:一-]\n[radical end]", "line 5: expected an ideograph on both sides of `-`\n"),
    ("[radical 1=⼀一:-一]\n[radical end]", "line 5: expected an ideograph on both sides of `-`\n"),
    ("[radical 1=⼀一:一]\n[radical 2=⼁丅:七-丁]\n[radical end]", "line 6: expected a range that ascends\n"),
    ("[radical 1=⼀一:一\n[radical end]", "line 5: expected `]`\n"),
    ("[radical 1=⼀一:一]", "at the end: expected lines [radical ..] and [radical end]\n"),
]
# Groups that are put in no order.
NO_ORDERS = [
    ("sv-u-kr-xxxx", "locale sv-u-kr-xxxx: kr: expected the code of a group or a script, not `Xxxx`\n"),
    ("und-u-kr-digit-digit", "locale und-u-kr-digit-digit: kr: expected a group only once: `digit` names one again\n"),
]
# Tags with words that CLDR has as aliases and that are too long for a tag, and what is said of them (status 2).
LONG_ALIASES = [
    ("sv-u-ks-secondary", "secondary is written level2 in a tag"),
    ("sv-u-ka-non-ignorable", "ignorable is written noignore in a tag"),
    ("de-u-co-phonebook", "phonebook is written phonebk in a tag"),
    ("sv-u-kn-no", "`no` is no type, since types have three letters at least; write false"),
]
# Variables of the environment, words, two texts and the sign.
ENVIRONMENTS = [
    ({"LANG": "sv_SE.UTF-8"}, [], "å z", ">"),
    ({"LANG": "sv_SE"}, [], "å z", ">"),
    ({"LANG": "sv"}, [], "å z", ">"),
    ({"LANG": "sv_SE.UTF-8@euro"}, [], "å z", ">"),
    ({"LC_COLLATE": "sv_SE.UTF-8", "LANG": "C"}, [], "å z", ">"),
    ({"LC_ALL": "C", "LC_COLLATE": "sv_SE.UTF-8", "LANG": "sv_SE.UTF-8"}, [], "å z", "<"),
    ({"LC_ALL": "C.UTF-8", "LANG": "sv_SE.UTF-8"}, [], "å z", "<"),
    ({"LC_ALL": "POSIX", "LANG": "sv_SE.UTF-8"}, [], "å z", "<"),
    ({"LC_ALL": "", "LC_COLLATE": "", "LANG": "sv_SE.UTF-8"}, [], "å z", ">"),
    ({"LC_ALL": "sv_SE.UTF-8"}, ["-l", "und"], "å z", "<"),
    ({"LC_ALL": "C"}, ["-l", "sv"], "å z", ">"),
    ({"LANG": "zh_TW.UTF-8"}, [], "a z", ">"),
    ({"LANG": "zh@hant"}, [], "a z", "<"),
    ({}, [], "å z", "<"),
]
LISTED = """\
da\tstandard
de\tstandard phonebk
fr-CA\tstandard
hr\tstandard
ko\tstandard search
nb\tstandard
no\tstandard
ta\tstandard circle wrong
te\tstandard unsaid room
zh\tpinyin stroke unihan
zh-Hant\tstroke pinyin unihan
""".splitlines()


def run_in(program, words, variables=None, given=b""):
    ran = ended([program, *words], given, env={**ENVIRONMENT, **(variables or {})})
    return Run(ran.returncode, ran.stdout, ran.stderr, None)


def said_of(tag):
    """What is said of a tag on standard error."""
    return f"collate-cldr: locale {tag}: {NOTICES[tag]}\n".encode() if tag in NOTICES else b""


def wrong_signs(program):
    found = []
    written = [(["-l", name], texts, sign) for name, _, texts, sign in WRITTEN] + [(["-l", tag], texts, sign) for tag, texts, sign in NOTICED]
    named = [({"LC_ALL": name}, [], texts, sign) for name, _, texts, sign in WRITTEN]
    for variables, words, texts, sign in [({}, *it) for it in SIGNED + written] + named + ENVIRONMENTS:
        ran = run_in(program, ["compare", "--cldr", FOLDER, *words, "--", *texts.split(" ")], variables)
        if ran.came_to() != (SIGNS[sign], f"{sign}\n".encode(), said_of(words[1]) if words else b""):
            found.append(f"{variables} {words} {texts}: {ran}; wanted: {sign}")
    for command in ("sort", "compare", "search", "compile"):
        ran = run_in(program, [command, "--version"], {"CLDR_DIR": FOLDER})
        if ran.status or not ran.output.startswith(b"collate-cldr 0.1\nCLDR 41\n"):
            found.append(f"{command} --version: {ran}")
    return found


def wrong_own_rules(program, room):
    """What is wrong with rules of one's own, as a word and in a file, which are there beside those of a language."""
    path, found = f"{room}/own.rules", []
    for words, rules, texts, sign in OWN_RULES:
        with open(path, "w", encoding="utf-8") as it:
            it.write(rules)
        for word in (rules, path):
            ran = run_in(program, ["compare", "--cldr", FOLDER, *words, "--rules", word, "--", *texts.split(" ")])
            if ran.came_to() != (SIGNS[sign], f"{sign}\n".encode(), b""):
                found.append(f"{words} --rules {word} {texts}: {ran}; wanted: {sign}")
    for rules, texts, sign in RULE_FILES:
        with open(path, "wb") as it:
            it.write(rules)
        ran = run_in(program, ["compare", "--cldr", FOLDER, "--rules", path, "--", *texts.split(" ")])
        if ran.came_to() != (SIGNS[sign], f"{sign}\n".encode(), b""):
            found.append(f"rules {rules!r} {texts}: {ran}; wanted: {sign}")
    for words, rules, said in WRONG_RULES:
        with open(path, "wb") as it:
            it.write(rules)
        ran = run_in(program, ["compare", "--cldr", FOLDER, *words, "--rules", path, "a", "b"])
        if ran.status != 3 or ran.output or not ran.faults.decode().startswith(f"collate-cldr: {path}: {said}"):
            found.append(f"{words} rules {rules!r}: {ran}; wanted: {said}")
    with open(path, "w", encoding="utf-8") as it:
        it.write("&z<å")
    tables = f"{room}/own.tables"
    ran = run_in(program, ["compile", "--cldr", FOLDER, "-l", "sv", "--rules", "&a<z", "-o", tables])
    ran = run_in(program, ["compare", "--tables", tables, "z", "b"]) if ran.status == 0 else ran
    if ran.came_to() != (1, b"<\n", b""):
        found.append(f"compile --rules: {ran}")
    for words, status, said in [
        (["--tables", tables, "--rules", path], 2, b"'--rules"),
        (["--cldr", FOLDER, "--rules", f"{room}/none"], 3, b"none: No such file or directory\n"),
        (["--cldr", f"{room}/none", "--root", f"{FOLDER}/common/uca/FractionalUCA.txt", "--rules", "[import sv]"], 3,
         b"root.xml: No such file or directory;"),
        (["--cldr", f"{room}/none", "--root", f"{FOLDER}/common/uca/FractionalUCA.txt", "--rules", "&z<a"], 1, b""),
    ]:
        ran = run_in(program, ["compare", *words, "a", "b"])
        if ran.status != status or said not in ran.faults:
            found.append(f"{words}: {ran}; wanted: {status} {said}")
    return found


def wrong_said(program):
    """What is wrong with what is said of tags: nothing with --quiet, and what to write for aliases that are too long."""
    found = []
    for tag, _, _ in NOTICED:
        ran = run_in(program, ["compare", "--cldr", FOLDER, "-l", tag, "--quiet", "a", "a"])
        if ran.came_to() != (0, b"=\n", b""):
            found.append(f"{tag} --quiet: {ran}")
    for tag, said in LONG_ALIASES:
        ran = run_in(program, ["compare", "--cldr", FOLDER, "-l", tag, "a", "a"])
        if ran.status != 2 or not ran.faults.decode().endswith(f": {said}\n"):
            found.append(f"{tag}: {ran}; wanted: {said}")
    return found


def wrong_radicals(program, folder):
    """Which wrong lines of radicals aren't refused as they should be, where ideographs stand by them; elsewhere they aren't looked at."""
    path, found = f"{folder}/common/uca/FractionalUCA.txt", []
    with open(path, encoding="utf-8") as it:
        whole = it.read()
    first, last = whole.index("[radical 1"), whole.index("[radical end]") + len("[radical end]")
    for lines, said in RADICALS:
        with open(path, "w", encoding="utf-8") as it:
            it.write(whole[:first] + lines + whole[last:])
        ran = run_in(program, ["compare", "--cldr", folder, "-l", "zh-u-co-unihan", "a", "b"])
        if ran.came_to() != (3, b"", f"collate-cldr: {path}: {said}".encode()):
            found.append(f"{lines!r}: {ran}; wanted: {said!r}")
    with open(path, "w", encoding="utf-8") as it:
        it.write(whole)
    return found


def wrong_texts(program, room):
    """Which files aren't read as they are: with a byte order mark and other line ends, and which damaged one isn't named with its line."""
    folder, found = os.path.join(room, "texts"), []
    shutil.copytree(FOLDER, folder)
    for name, ends in ((f"{folder}/common/uca/FractionalUCA.txt", b"\r\n"), (f"{folder}{COLLATION}sv.xml", b"\r"),
                       (f"{folder}{COLLATION}root.xml", b"\r\n")):
        with open(name, "rb") as it:
            text = it.read()
        with open(name, "wb") as it:
            it.write(b"\xef\xbb\xbf" + text.replace(b"\n", ends))
    for tag, texts, sign in (("sv", "å z", ">"), ("sv-u-co-search", "wa vb", "<"), ("und", "å z", "<")):
        ran = run_in(program, ["compare", "--cldr", folder, "-l", tag, "--", *texts.split(" ")])
        if ran.came_to() != (SIGNS[sign], f"{sign}\n".encode(), b""):
            found.append(f"{tag} {texts}: {ran}; wanted: {sign}")
    path = f"{folder}{COLLATION}da.xml"
    with open(path, "rb") as it:
        lines = it.read().split(b"\n")
    with open(path, "wb") as it:
        it.write(b"\r\n".join([lines[0], lines[1] + b"\xff", *lines[2:]]))
    ran = run_in(program, ["compare", "--cldr", folder, "-l", "da", "a", "b"])
    if ran.came_to() != (3, b"", f"collate-cldr: {path}: line 2: expected UTF-8\n".encode()):
        found.append(f"damaged UTF-8: {ran}")
    return found


def wrong_refusals(program, room):
    folder, found = os.path.join(room, "cldr"), []
    shutil.copytree(FOLDER, folder)
    for name, text in DAMAGED.items():
        with open(f"{folder}{COLLATION}{name}.xml", "w", encoding="utf-8") as it:
            it.write(text)
    for tag, said in [(tag, folder + said) for tag, said in REFUSED] + NO_ORDERS:
        ran = run_in(program, ["compare", "--cldr", folder, "-l", tag, "a", "b"])
        if ran.came_to() != (3, b"", f"collate-cldr: {said}".encode()):
            found.append(f"{tag}: {ran}; wanted: {said!r}")
    found += wrong_radicals(program, folder)
    os.remove(f"{folder}{COLLATION}root.xml")
    ran = run_in(program, ["compare", "--cldr", folder, "-l", "sv", "a", "b"])
    if ran.status != 3 or not ran.faults.startswith(f"collate-cldr: {folder}{COLLATION}root.xml: No such file or directory;".encode()):
        found.append(f"no file of the root: {ran}")
    return found


def wrong_lists(program):
    ran = run_in(program, ["--list-locales", "--cldr", FOLDER])
    lines = ran.output.decode().splitlines()
    missing = [it for it in LISTED if it not in lines]
    # They stand as their files do, of which that of `und` is root.xml.
    in_order = sorted(lines, key=lambda it: it.replace("und\t", "root\t"))
    if ran.status or missing or lines != in_order or "sv\treformed search standard" not in lines:
        return [f"--list-locales: {ran}; missing: {missing}"]
    return []


def wrong_sorts(program):
    found = []
    for words, given, wanted in [
        (["-l", "sv"], "z\nö\nå\na\nä\n", "a\nz\nå\nä\nö\n"),
        (["-l", "sv", "-r"], "z\nö\nå\na\nä\n", "ö\nä\nå\nz\na\n"),
        # By the small file of the root a diaeresis comes before a ring.
        (["-l", "und"], "z\nö\nå\na\nä\n", "a\nä\nå\nö\nz\n"),
    ]:
        ran = run_in(program, ["sort", "--cldr", FOLDER, *words], given=given.encode())
        if ran.came_to() != (0, wanted.encode(), b""):
            found.append(f"sort {words}: {ran}")
    return found


# Searches for ab in a-b, which are equal by the types search alone, of Swedish and of the root: variables, words, and whether the line is found.
TYPES_OF_SEARCHES = [
    ({}, ["-l", "sv"], True),
    ({}, ["-l", "sv_SE.UTF-8@euro"], True),
    ({"LANG": "sv_SE.UTF-8"}, [], True),
    ({}, ["-l", "sv-u-kn"], True),
    ({}, ["-l", "sv-u-ks-level2-x-u-a"], True),
    ({}, ["-l", "sv-x-u-co"], True),
    ({}, ["-l", "sv-t-de-u-kn"], True),
    ({}, ["-l", "sv-u-kn-t-de"], True),
    ({}, ["-l", "sv", "-1"], True),
    ({}, ["-l", "sv-u-co-search"], True),
    ({}, ["-l", "sv-u-co-standard"], False),
    ({}, ["-l", "sv-u-co-reformed"], False),
    # A language that has the root's, the root, and no language.
    ({}, ["-l", "da"], True),
    ({}, ["-l", "und"], False),
    ({"LANG": "C"}, [], False),
]


def wrong_types(program, room):
    """Searches by another type than that of the language for searches, if the tag has none; and by a table file."""
    found, tables = [], os.path.join(room, "types.tables")
    for tag, is_found in (("sv", False), ("sv-u-co-search", True)):
        run_in(program, ["compile", "--cldr", FOLDER, "-l", tag, "-o", tables])
        ran = run_in(program, ["search", "--tables", tables, "ab"], {}, b"a-b\n")
        if ran.came_to() != (int(not is_found), b"a-b\n" * is_found, b""):
            found.append(f"search by tables of {tag}: {ran}; wanted: {is_found}")
    for variables, words, is_found in TYPES_OF_SEARCHES:
        ran = run_in(program, ["search", "--cldr", FOLDER, *words, "ab"], variables, b"a-b\n")
        if ran.came_to() != (int(not is_found), b"a-b\n" * is_found, b""):
            found.append(f"search {variables} {words}: {ran}; wanted: {is_found}")
    return found


def check_locales(report, room, program):
    report.say("collate-cldr: languages and their settings", wrong_signs(program),
               len(SIGNED) + 2 * len(WRITTEN) + len(NOTICED) + len(ENVIRONMENTS))
    refusals = len(REFUSED) + len(NO_ORDERS) + len(RADICALS) + 1
    report.say("collate-cldr: rules and files that are refused", wrong_refusals(program, room), refusals)
    report.say("collate-cldr: rules of one's own", wrong_own_rules(program, room),
               2 * len(OWN_RULES) + len(RULE_FILES) + len(WRONG_RULES) + 5)
    report.say("collate-cldr: what is said of tags", wrong_said(program), len(NOTICED) + len(LONG_ALIASES))
    report.say("collate-cldr: files in other forms of text", wrong_texts(program, room), 4)
    report.say("collate-cldr: locales that are listed", wrong_lists(program), 1)
    report.say("collate-cldr: lines by languages", wrong_sorts(program), 3)
    report.say("collate-cldr: types by which is searched", wrong_types(program, room), len(TYPES_OF_SEARCHES) + 2)
