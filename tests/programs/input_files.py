"""Names, marks and words of the program `collate-cldr` that came from somewhere else: names that aren't UTF-8, that have control
characters or are long, byte order marks, and words that are no options."""
import os

from sweeps import TOP, run, wrong_over

LETTERS = os.path.join(TOP, "crates", "collate_cldr", "data", "letters.txt")
MARK = b"\xef\xbb\xbf"


def over(command, *words):
    return [command, "--root", LETTERS, *words]


def names(folder):
    """Runs by names of all kinds."""
    stray = os.path.join(os.fsencode(folder), b"\xff\xc3.txt")
    with open(stray, "wb") as it:
        it.write(b"b\na\n")
    none = b": No such file or directory\n"
    shown = os.fsencode(folder) + b"/\\xff\\xc3.txt"
    refused = b"collate-cldr: " + shown + b": its name isn't UTF-8; give it as standard input\n"
    yield over("sort", stray), b"", 3, b"", refused
    yield over("search", "b", stray), b"", 3, b"", refused
    yield over("check", stray), b"", 3, b"", refused
    yield over("sort", "-o", stray), b"b\n", 3, b"", b"collate-cldr: " + shown + b": its name isn't UTF-8; write to standard output\n"
    yield over("sort", b"\xff"), b"", 3, b"", b"collate-cldr: \\xff: its name isn't UTF-8; give it as standard input\n"
    yield over("sort", "\U0010ffff"), b"", 3, b"", b"collate-cldr: \\xf4\\x8f\\xbf\\xbf" + none
    yield over("sort", "é"), b"", 3, b"", "collate-cldr: é".encode() + none
    yield over("sort", "\x1b[31m\n\u202e"), b"", 3, b"", b"collate-cldr: \\u{1b}[31m\\n\\u{202e}" + none
    yield over("sort", "/".join(["y" * 99] * 4)), b"", 3, b"", b"collate-cldr: " + ("y" * 99 + "/").encode() * 2 + b"y..." + none
    yield over("compare", b"\xff", "\ufffd"), b"", 0, b"=\n", b""
    yield over("search", b"\xff"), b"\xfe\nb\n", 0, b"\xfe\n", b""


def marks(folder):
    """Runs over files that begin with marks."""
    paths = {}
    for name, text in [("marked", MARK + b"b\na\n"), ("alone", MARK), ("empty", MARK + b"\n"), ("le", b"\xff\xfea\0"), ("be", b"\xfe\xff\0a")]:
        paths[name] = os.path.join(folder, name)
        with open(paths[name], "wb") as it:
            it.write(text)
    said = lambda name: (f"collate-cldr: {paths[name]}: expected UTF-8, found a mark of UTF-16; iconv -f UTF-16 -t UTF-8 "
                         f"'{paths[name]}' makes UTF-8 of it\n").encode()
    yield over("sort"), MARK + b"b\na\n", 0, MARK + b"a\nb\n", b""
    yield over("sort", paths["marked"], paths["marked"]), b"", 0, MARK + b"a\na\nb\nb\n", b""
    yield over("sort", "-", paths["marked"]), b"A\n", 0, b"a\nA\nb\n", b""
    yield over("sort", paths["alone"]), b"", 0, MARK, b""
    yield over("sort", paths["empty"]), b"", 0, MARK + b"\n", b""
    yield over("sort", "--csv", "--column", "1"), MARK + b"b\na\n", 0, MARK + b"a\nb\n", b""
    yield over("check"), MARK + b"a\na\n", 0, b"", b""
    yield over("sort", paths["le"]), b"", 3, b"", said("le")
    yield over("sort", "-", paths["be"]), b"a\n", 3, b"", said("be")
    yield over("search", "b", paths["le"], paths["marked"]), b"", 3, paths["marked"].encode() + b":" + MARK + b"b\n", said("le")


# Words that are no options, and the option that is named.
NO_OPTIONS = [
    (over("search", "-v", "-y"), "-y"),
    (over("search", "--strenght", "1", "resume"), "--strength"),
    (over("sort", "--revers"), "--reverse"),
    (over("compare", "-1", "a"), "-1"),
    (over("key", "-h"), "-h"),
    (over("sort", "-h"), "no collation reads 2K"),
    (over("sort", "-rf"), "--strength 2"),
    (over("check", "--dictionary-order"), "--alternate blanked"),
    (over("sort", "-g"), "-g isn't taken"),
    (over("sort", "-M"), "months"),
    (over("sort", "-R"), "shuf"),
    (["-h"], "-h"),
]


def wrong_options(program):
    found = []
    for words, named in NO_OPTIONS:
        ran = run(program, words, b"b\n")
        if ran.status != 2 or ran.output or named.encode() not in ran.faults:
            found.append(f"{words}: {ran}; wanted: status 2, and {named}")
    rows = [
        (over("search", "--", "-x"), b"-x\n", 0, b"-x\n", b""),
        (over("sort", "--parallel=8", "--batch-size", "2"), b"b\na\n", 0, b"a\nb\n", b""),
        (over("sort", "-V"), b"10\n9\n", 0, b"9\n10\n", b""),
        (over("sort", "-t", "\\t", "-k2"), b"a\tb\nb\ta\n", 0, b"b\ta\na\tb\n", b""),
        (over("sort", "--csv", "--column=2", "--delimiter=\\t"), b"a\tb\nb\ta\n", 0, b"b\ta\na\tb\n", b""),
        (over("search", "-e", "-x"), b"-x\n", 0, b"-x\n", b""),
        (over("key", "--strength=1", "--", "-"), b"", 0, run(program, over("key", "--strength=1", "-")).output, b""),
    ]
    return found + wrong_over(program, rows)


def check_input_files(report, room, program):
    folder = os.path.join(room, "inputs")
    os.mkdir(folder)
    report.say("collate-cldr: names of all kinds", wrong_over(program, names(folder)), 1)
    report.say("collate-cldr: byte order marks", wrong_over(program, marks(folder)), 1)
    report.say("collate-cldr: words that are no options", wrong_options(program), len(NO_OPTIONS))
