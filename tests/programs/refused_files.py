"""Files of collations and language tags that the program `collate-cldr` refuses, each for one reason: the place and the reason that
it says. The files stand in a copy of the small files in the forms of CLDR's (crates/use_language/data)."""
import os
import shutil

from sweeps import ENVIRONMENT, TOP, Run, ended

FOLDER = os.path.join(TOP, "crates", "use_language", "data", "cldr")
PLACE = os.path.join("common", "collation", "xh.xml")
# Texts that are no document of the subset of XML that is read, with line, column and reason.
DOCUMENTS = [
    ("", 1, 1, "the file is empty"),
    ("<a>\n<b>é</a>", 2, 5, "expected the end of the element that started last"),
    ("<a><b></b>", 1, 11, "the file ends within an element, a tag, a comment or a section"),
    ("<a><!-- b", 1, 8, "the file ends within an element, a tag, a comment or a section"),
    ("<a b='1", 1, 6, "the file ends within an element, a tag, a comment or a section"),
    ("<a>\x07</a>", 1, 4, "expected no control character"),
    ("<a>\r\n\x07</a>", 2, 1, "expected no control character"),
    ("<?xml version='1.1'?><a/>", 1, 1, "expected the declaration of XML 1.0 in UTF-8"),
    ("<?xml version='1.0' encoding='latin1'?><a/>", 1, 1, "expected the declaration of XML 1.0 in UTF-8"),
    ("<a><?php ?></a>", 1, 4, "expected no processing instruction"),
    ("<!DOCTYPE a PUBLIC 'b' 'c'><a/>", 1, 13, "expected a document type with a SYSTEM literal"),
    ("<!DOCTYPE a SYSTEM 'b' [<!ENTITY c 'd'>]><a/>", 1, 24, "expected a document type without an internal subset"),
    ("<!DOCTYPE a []><a/>", 1, 13, "expected a document type without an internal subset"),
    ("x<a/>", 1, 1, "expected an element"),
    ("<a/><b/>", 1, 5, "expected nothing behind the root element"),
    ("<a/>\n x", 2, 2, "expected nothing behind the root element"),
    ("<1/>", 1, 2, "expected a name"),
    ("<a b='1'c='2'/>", 1, 9, "expected white space"),
    ("<a b>c</a>", 1, 5, "expected `=`"),
    ("<a b=1/>", 1, 6, "expected a value in quotes"),
    ("<a b='<'/>", 1, 6, "expected no `<` in a value"),
    ("<a b='1' b='2'/>", 1, 10, "expected each attribute once"),
    ("<a", 1, 3, "the file ends within an element, a tag, a comment or a section"),
    ("<a <b/></a>", 1, 4, "expected `>`"),
    ("<a>&nbsp;</a>", 1, 5, "expected a reference that XML names, or a character's number"),
    ("<a>&#0;</a>", 1, 5, "expected a reference that XML names, or a character's number"),
    ("<a>&#x110000;</a>", 1, 5, "expected a reference that XML names, or a character's number"),
    ("<a><!-- b -- c --></a>", 1, 13, "expected no `--` in a comment"),
    ("<a>]]></a>", 1, 4, "expected no `]]>` in a text"),
    ("<a><!ELEMENT b></a>", 1, 4, "expected a tag, a comment or a CDATA section"),
    ("<ldml>\n<identity/>\n<collations>\n", 4, 1, "the file ends within an element, a tag, a comment or a section"),
    ("<ldml><identity/><collations><collation type='a'>\n<cr><![CDATA[&a<b\n",
     2, 14, "the file ends within an element, a tag, a comment or a section"),
]
# Documents that are no files of collations, with line and reason.
FILES = [
    ("<html/>", 1, "expected an element of a file of collations, in its place"),
    ("<!-- <a> -->\n<ldml>\n<identity/>\n<layout/></ldml>", 4, "expected an element of a file of collations, in its place"),
    ("<ldml>\n<collations/></ldml>", 2, "expected an element of a file of collations, in its place"),
    ("<ldml>\n<identity/>\n<collations>\n<alias source='sr'/></collations></ldml>",
     4, "expected no <alias>: what it points to isn't looked up, but [import ..] in rules is"),
    ("<ldml><identity/><collations>\n<collation type='a'/>\n<defaultCollation/></collations></ldml>",
     3, "expected an element of a file of collations, in its place"),
    ("<ldml><identity/><collations><collation type='a'><cr/><cr/><special/>\n<cr/></collation></collations></ldml>",
     2, "expected an element of a file of collations, in its place"),
    ("<ldml><identity/><collations><special><special/>a</special>\n<a/></collations></ldml>",
     2, "expected an element of a file of collations, in its place"),
    (f"<ldml><identity/>{'<special>' * 65}\n<special/>{'</special>' * 65}</ldml>",
     2, "expected an element of a file of collations, in its place"),
    ("<ldml><identity/><collations><collation type='a'>\n<cr>&amp;a\n<b/></cr></collation></collations></ldml>",
     3, "expected an element of a file of collations, in its place"),
    ("<ldml><identity/>\n<collations\n><![CDATA[\n<a>]]></collations></ldml>", 2, "expected only white space between elements"),
    ("<ldml><identity/><collations>\n<collation type='a'>&amp;a</collation></collations></ldml>",
     2, "expected only white space between elements"),
    ("<ldml><identity/><collations>\n\n<collation alt='a'><cr/></collation></collations></ldml>",
     3, "expected a collation with a type"),
]
# Texts that are no language tags, how many bytes stand before what is refused, and the reason.
TAGS = [
    ("", 0, "expected a language of two, three or five to eight letters"),
    ("d", 0, "expected a language of two, three or five to eight letters"),
    ("dé", 0, "expected a language of two, three or five to eight letters"),
    ("de-", 3, "expected a subtag that may stand here"),
    ("de--DE", 3, "expected a subtag that may stand here"),
    ("sv-SWE", 3, "expected a subtag that may stand here: SWE stands for a region, which is written SE"),
    ("zh-abc", 3, "expected a subtag that may stand here"),
    ("norwegian", 0, "expected a language of two, three or five to eight letters: norwegian is the name of a language, whose code is no"),
    ("de-DE-Latn", 6, "expected a subtag that may stand here"),
    ("de-DE-DE", 6, "expected a subtag that may stand here"),
    ("de-abcdefghi", 3, "expected a subtag that may stand here"),
    ("de-1996-1996", 8, "expected each variant and each extension once"),
    ("de-u-co-u-kn", 8, "expected each variant and each extension once"),
    ("de-u", 4, "expected a subtag behind the letter of an extension"),
    ("de-u-x", 5, "expected a subtag that may stand here"),
    ("de-x", 4, "expected a subtag behind the letter of an extension"),
    ("de-u-c1-abc", 5, "expected a subtag that may stand here"),
]
# Tags with a keyword of a type that it doesn't have, and what is expected.
TYPES = [
    ("de-u-ks-level5", "expected `ks` with level1, level2, level3, level4 or identic"),
    ("de-u-ks", "expected `ks` with level1, level2, level3, level4 or identic"),
    ("de-u-kn-true-false", "expected `kn` with true or false"),
    ("de-u-kf-yes", "expected `kf` with upper, lower or false"),
    ("de-u-kv-level1", "expected `kv` with space, punct, symbol or currency"),
    ("de-u-ka-true", "expected `ka` with noignore or shifted"),
    ("de-u-kb-none", "expected `kb` with true or false"),
    ("de-u-kc-level", "expected `kc` with true or false"),
    ("de-u-kk-foo", "expected `kk` with true or false"),
    ("de-u-vt-0024", "`vt` isn't read; write `kv` with space, punct, symbol or currency"),
    ("de-u-kh", "`kh` isn't read; write `ks` with level4"),
]
# A tag that is read, though a keyword of it stands twice: the first one counts. Digits are then read as numbers.
TWICE = "de-u-kn-ks-level1-kn-maybe"


def compared(program, folder, tag, *texts):
    """What a comparison by a locale comes to."""
    ran = ended([program, "compare", "--cldr", folder, f"--locale={tag}", *texts], env=ENVIRONMENT)
    return Run(ran.returncode, ran.stdout, ran.stderr, None)


def wrong_runs(program, folder, runs, status):
    """The tags that are refused otherwise than they should be, of pairs of a tag and what is said of it."""
    found = []
    for tag, said in runs:
        ran = compared(program, folder, tag, "a", "b")
        if ran.came_to() != (status, b"", f"collate-cldr: {said}\n".encode()):
            found.append(f"{tag!r}: {ran}; wanted: {said!r}")
    return found


def wrong_files(program, folder):
    """The texts of a locale's file that are refused otherwise than they should be."""
    path, found = os.path.join(folder, PLACE), []
    runs = [(text, f"{path}: line {line}, column {column}: {reason}") for text, line, column, reason in DOCUMENTS]
    runs += [(text, f"{path}: line {line}: {reason}") for text, line, reason in FILES]
    for text, said in runs:
        with open(path, "w", encoding="utf-8", newline="") as it:
            it.write(text)
        found += [f"{text!r}: {it}" for it in wrong_runs(program, folder, [("xh", said)], 3)]
    return found


def wrong_tags(program, folder):
    """The tags that are refused otherwise than they should be."""
    runs = [(tag, f"locale {tag}: character {place}: {reason}") for tag, place, reason in TAGS]
    runs += [(tag, f"locale {tag}: {reason}") for tag, reason in TYPES]
    found = wrong_runs(program, folder, runs, 2)
    ran = compared(program, folder, TWICE, "a10", "A9")
    return found + [f"{TWICE}: {ran}"] * (ran.came_to() != (1, b">\n", b""))


def check_refused_files(report, room, program):
    folder = os.path.join(room, "refused")
    shutil.copytree(FOLDER, folder)
    report.say("collate-cldr: files of collations that are refused", wrong_files(program, folder), len(DOCUMENTS) + len(FILES))
    report.say("collate-cldr: language tags that are refused", wrong_tags(program, folder), len(TAGS) + len(TYPES) + 1)
