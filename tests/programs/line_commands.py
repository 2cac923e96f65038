"""The commands explain, why, search and sort by fields of the program `collate-cldr` over its small file with Mini's letters, and sorts
by fields beside those of GNU `sort`."""
import os
import random
import select
import subprocess

import gnu_words
from sweeps import faults_missed, run


def over(letters, command, strength, *words):
    return [command, "--root", letters, "--strength", strength, *words]


# ---- explain and why

# The strength and further words, the text, and what is printed. By the file the letters a and b have the primary weights 61 10 and
# 61 14, the acute accent the secondary weight 47, and an upper case letter the tertiary weight 9C, which is 1C with the case.
EXPLAINED = [
    (["1"], "ab", "a\tU+0061\t[61 10, 05, 05]\nb\tU+0062\t[61 14, 05, 05]\nprimary\t61 10 14\n"),
    (["3"], "a", "a\tU+0061\t[61 10, 05, 05]\nprimary\t61 10\nsecondary\t01 05 01\ntertiary\t01 05 01\n"),
    (["1"], "A", "A\tU+0041\t[61 10, 05, 1C upper]\nprimary\t61 10\n"),
    (["1"], "á", "á\tU+00E1\t[61 10, 05, 05][, 47, 05]\nprimary\t61 10\n"),
    (["1"], "ba\u0301", "b\tU+0062\t[61 14, 05, 05]\na\u0301\tU+0061 U+0301\t[61 10, 05, 05][, 47, 05]\nprimary\t61 14 10\n"),
    (["1"], "", "primary\t\n"),
]
# The strength and further words, two texts, the sign, the level that decides, and the characters of each that do.
REASONS = [
    (["3"], "ab", "b", "<", "primary level", "a", "b"),
    (["3"], "áb", "ab", ">", "secondary level", "á", "a"),
    (["3"], "bab", "baáb", ">", "primary level", "b", "á"),
    (["3"], "cab", "cáb", "<", "secondary level", "a", "á"),
    (["3"], "a", "a\u0301", "<", "secondary level", "a", "a\u0301"),
    (["3"], "\u0301", "", ">", "secondary level", "\u0301", ""),
    (["3"], "áa", "ab", "<", "primary level", "a", "b"),
    (["3"], "ab", "abc", "<", "primary level", "", "c"),
    (["3"], "a", "A", "<", "tertiary level", "a", "A"),
    (["3"], "ábA", "ába", ">", "tertiary level", "A", "a"),
    (["3"], "a", "a", "=", "no level differs"),
    (["1"], "a", "á", "=", "no level differs"),
    (["1", "--case-level"], "A", "a", ">", "case level", "A", "a"),
    (["1", "--case-level"], "bá", "bA", "<", "case level", "á", "A"),
    (["3", "--case-level"], "á", "A", ">", "secondary level", "á", "A"),
    (["3", "--case-level"], "a", "A", "<", "case level", "a", "A"),
    (["4", "--alternate=shifted"], "a-b", "ab", "<", "quaternary level", "-", "b"),
    (["i", "--alternate=blanked"], "a-b", "ab", "<", "identical level", "-", "b"),
    (["i"], "á", "a\u0301", "=", "no level differs"),
    (["3", "--numeric"], "a10", "a9", ">", "primary level", "10", "9"),
]


def wrong_explanations(program, letters):
    found = []
    for (strength, *words), text, printed in EXPLAINED:
        ran = run(program, over(letters, "explain", strength, *words, "--", text))
        if ran.came_to() != (0, printed.encode(), b""):
            found.append(f"explain {strength} {words} {text!r}: {ran}; wanted: {printed!r}")
    for (strength, *words), one, other, *printed in REASONS:
        ran = run(program, over(letters, "why", strength, *words, "--", one, other))
        if ran.came_to() != (int(printed[0] != "="), ("\t".join(printed) + "\n").encode(), b""):
            found.append(f"why {strength} {words} {one!r} {other!r}: {ran}; wanted: {printed}")
    return found


# ---- search

ON, OFF = "\x1b[01;31m\x1b[K", "\x1b[m\x1b[K"
NAME, NUMBER, MARK = "\x1b[35m\x1b[K", "\x1b[32m\x1b[K", "\x1b[36m\x1b[K"
GROUPS = "c\na\nb\na\nc\nb\nb\nb\na\nc\n"
LINES = "b\ná\nbA\na b\nab\n"
# The strength and further words, the pattern, the input, and the status and the output that are wanted.
SEARCHES = [
    (["1"], "a", LINES, 0, "á\nbA\na b\nab\n"),
    (["2"], "a", LINES, 0, "bA\na b\nab\n"),
    (["3"], "a", LINES, 0, "a b\nab\n"),
    (["3"], "á", "xa\u0301\n", 0, "xa\u0301\n"),
    (["3"], "c", LINES, 1, ""),
    (["1", "-v"], "a", LINES, 0, "b\n"),
    (["1", "-v"], "b", "b\nB\n", 1, ""),
    (["1", "-c"], "a", LINES, 0, "4\n"),
    (["1", "-cv"], "a", LINES, 0, "1\n"),
    (["3", "-c"], "c", LINES, 1, "0\n"),
    (["1", "-n"], "a", LINES, 0, "2:á\n3:bA\n4:a b\n5:ab\n"),
    (["1", "-o"], "a", "bA-á\nb\na\n", 0, "A\ná\na\n"),
    (["1", "-on"], "a", "bA-á\nb\na\n", 0, "1:A\n1:á\n3:a\n"),
    # As GNU grep: such a line counts though nothing of it is printed.
    (["1", "-ov"], "a", "b\n", 0, ""),
    (["1", "-o"], "", "b\n", 0, ""),
    (["1", "-w"], "a", LINES, 0, "á\na b\n"),
    (["3", "-w"], "ab", "ab\nabc\nc ab\n", 0, "ab\nc ab\n"),
    (["1", "--colour=always"], "a", "bA-áb\nb\n", 0, f"b{ON}A{OFF}-{ON}á{OFF}b\n"),
    (["1", "--colour=always", "-o"], "a", "bA\n", 0, f"{ON}A{OFF}\n"),
    (["1", "--colour=never"], "a", "bA\n", 0, "bA\n"),
    (["1", "--colour=auto"], "a", "bA\n", 0, "bA\n"),
    (["1", "--files-with-matches"], "a", "bA\n", 0, "(standard input)\n"),
    (["1", "--files-with-matches"], "c", "bA\n", 1, ""),
    (["1", "-z"], "a", "b\nA\0b\0", 0, "b\nA\0"),
    (["1"], "a", "b\na", 0, "a\n"),
    (["1"], "a", "", 1, ""),
    (["3", "--numeric"], "7", "a07b\n17\n", 0, "a07b\n"),
    (["3", "-q"], "a", LINES, 0, ""),
    (["3", "-q"], "c", LINES, 1, ""),
    (["1", "--color=always"], "a", "bA\n", 0, f"b{ON}A{OFF}\n"),
    (["1", "-x"], "ab", "ab\nAB\nabc\ná\u0301b\n", 0, "ab\nAB\ná\u0301b\n"),
    (["3", "-x"], "ab", "ab\nAB\nabab\n\n", 0, "ab\n"),
    (["3", "-vx"], "ab", "ab\n\nabab\n", 0, "\nabab\n"),
    (["3", "-xo"], "ab", "ab\nabab\n", 0, "ab\n"),
    (["3", "-x"], "", "a\n\n", 0, "\n"),
    (["1", "-m1"], "a", LINES, 0, "á\n"),
    (["1", "-nm", "2"], "a", LINES, 0, "2:á\n3:bA\n"),
    (["1", "-vm1"], "a", "a\nb\na\nb\n", 0, "b\n"),
    (["1", "-cm2"], "a", LINES, 0, "2\n"),
    (["1", "-om1"], "a", "aA\na\n", 0, "a\nA\n"),
    (["1", "-m0"], "a", LINES, 1, ""),
    (["1", "--max-count=9"], "a", LINES, 0, "á\nbA\na b\nab\n"),
    (["3", "-A1"], "a", GROUPS, 0, "a\nb\na\nc\n--\na\nc\n"),
    (["3", "-B1"], "a", GROUPS, 0, "c\na\nb\na\n--\nb\na\n"),
    (["3", "-nC1"], "a", GROUPS, 0, "1-c\n2:a\n3-b\n4:a\n5-c\n--\n8-b\n9:a\n10-c\n"),
    (["3", "-C", "1", "-A", "0"], "a", GROUPS, 0, "c\na\nb\na\n--\nb\na\n"),
    (["3", "-A0"], "a", GROUPS, 0, "a\n--\na\n--\na\n"),
    (["3", "-m1", "-A3"], "a", GROUPS, 0, "a\nb\na\nc\n"),
    (["3", "-C9999999999"], "a", "b\na\nc\n", 0, "b\na\nc\n"),
    (["3", "-oC1"], "a", GROUPS, 0, "a\na\n--\na\n"),
    (["3", "-cC1"], "a", GROUPS, 0, "3\n"),
    (["3", "-C1"], "e", GROUPS, 1, ""),
    (["3", "-vB1"], "b", "b\nb\na\nb\n", 0, "b\na\n"),
    (["3", "-zA1"], "a", "a\0b\0c\0", 0, "a\0b\0"),
    (["3", "-nHA1", "--colour=always"], "a", "a\nb\n", 0,
     f"{NAME}(standard input){OFF}{MARK}:{OFF}{NUMBER}1{OFF}{MARK}:{OFF}{ON}a{OFF}\n"
     f"{NAME}(standard input){OFF}{MARK}-{OFF}{NUMBER}2{OFF}{MARK}-{OFF}b\n"),
    (["3", "-A0", "--colour=always"], "a", "a\nb\na\n", 0, f"{ON}a{OFF}\n{MARK}--{OFF}\n{ON}a{OFF}\n"),
    (["3", "-F", "--line-buffered"], "a", "b\na\n", 0, "a\n"),
    # How many bytes are before each line, or before each match: as GNU grep.
    (["3", "-b"], "a", "b\náa\nca\n", 0, "2:áa\n6:ca\n"),
    (["3", "-nb"], "a", "b\na\n", 0, "2:2:a\n"),
    (["3", "-ob"], "a", "ba a\na\n", 0, "1:a\n3:a\n5:a\n"),
    (["3", "-bA1"], "a", "b\na\nc\n", 0, "2:a\n4-c\n"),
    (["3", "-zb"], "a", "b\0a\0", 0, "2:a\0"),
    (["3", "-vb"], "a", "b\na\nc\n", 0, "0:b\n4:c\n"),
    (["3", "-bH", "--colour=always"], "a", "b\na\n", 0,
     f"{NAME}(standard input){OFF}{MARK}:{OFF}{NUMBER}2{OFF}{MARK}:{OFF}{ON}a{OFF}\n"),
]
# Further words, the input, and the status and the output that are wanted: at the strength 3, where no other is said.
PATTERNS = [
    (["-e", "a"], LINES, 0, "a b\nab\n"),
    (["-e", "á", "-e", "ab"], LINES, 0, "á\nab\n"),
    (["-e", "-a", "-e", "c"], "-a\nb\n", 0, "-a\n"),
    (["-v", "-e", "a", "-e", "b"], "á\nab\nA\n", 0, "á\nA\n"),
    # Of matches that overlap the one that begins first, or the longest: as GNU grep.
    (["-o", "-e", "a", "-e", "ab"], "ab b a\n", 0, "ab\na\n"),
    (["-o", "-e", "ab", "-e", "bc"], "abc bc\n", 0, "ab\nbc\n"),
    (["-o", "-e", "bc", "-e", "ab"], "abc bc\n", 0, "ab\nbc\n"),
    (["-o", "-e", "", "-e", "b"], "ab\n", 0, "b\n"),
    (["--color=always", "-e", "b", "-e", "a"], "ab c\n", 0, f"{ON}a{OFF}{ON}b{OFF} c\n"),
    (["-i", "-e", "a"], LINES, 0, "bA\na b\nab\n"),
    (["-i", "a"], LINES, 0, "bA\na b\nab\n"),
    (["-1", "a"], LINES, 0, "á\nbA\na b\nab\n"),
    (["-c", "-e", "a", "-e", "A"], LINES, 0, "3\n"),
]


def wrong_searches(program, letters, room):
    found = []
    for (strength, *words), pattern, given, status, printed in SEARCHES:
        ran = run(program, over(letters, "search", strength, *words, "--", pattern), given.encode())
        at_once = run(program, over(letters, "search", strength, *words, "--line-buffered", "--", pattern), given.encode())
        if {ran.came_to(), at_once.came_to()} != {(status, printed.encode(), b"")}:
            found.append(f"search {strength} {words} {pattern!r}: {ran}; at once: {at_once}; wanted: {status}, {printed!r}")
    damaged = run(program, over(letters, "search", "3", "a"), b"\xffa\n")
    if damaged.came_to() != (0, b"\xffa\n", b""):
        found.append(f"search in a damaged line: {damaged}")
    one, two = os.path.join(room, "found-one"), os.path.join(room, "found-two")
    for path, text in ((one, "a\nb\n"), (two, "b\n")):
        with open(path, "w", encoding="utf-8") as it:
            it.write(text)
    files = [
        ([], "b", f"{one}:b\n{two}:b\n"),
        (["-n"], "b", f"{one}:2:b\n{two}:1:b\n"),
        (["-c"], "a", f"{one}:1\n{two}:0\n"),
        (["--files-with-matches"], "a", f"{one}\n"),
    ]
    for words, pattern, printed in files:
        ran = run(program, over(letters, "search", "3", *words, "--", pattern, one, two))
        if ran.came_to() != (0, printed.encode(), b""):
            found.append(f"search {words} {pattern!r} in two files: {ran}; wanted: {printed!r}")
    for words, given, status, printed in PATTERNS:
        ran = run(program, ["search", "--root", letters, *words], given.encode())
        if ran.came_to() != (status, printed.encode(), b""):
            found.append(f"search {words}: {ran}; wanted: {status}, {printed!r}")
    return found + wrong_missing(program, letters, one, two)


def wrong_missing(program, letters, one, two):
    """Searches of files of which one is missing: it is named, and the others are searched; GNU grep ends with its status for that too,
    but where it is quiet and a line was found."""
    found, said = [], b"collate-cldr: absent: No such file or directory\n"
    rows = [
        (["b", one, "absent", two], 3, f"{one}:b\n{two}:b\n".encode(), said),
        (["c", "absent", two], 3, b"", said),
        (["-q", "b", "absent", two], 0, b"", said),
        (["-q", "b", one, "absent"], 0, b"", b""),
        (["-q", "c", one, "absent"], 3, b"", said),
        (["-s", "b", one, "absent"], 3, f"{one}:b\n".encode(), b""),
        (["-H", "a", one], 0, f"{one}:a\n".encode(), b""),
        (["-h", "b", one, two], 0, b"b\nb\n", b""),
        (["-L", "a", one, two], 0, f"{two}\n".encode(), b""),
        (["-L", "c", two], 1, f"{two}\n".encode(), b""),
        (["-e", "a", one], 0, b"a\n", b""),
        (["-e", "a", "-e", "b", one, two], 0, f"{one}:a\n{one}:b\n{two}:b\n".encode(), b""),
        (["b", "/", two], 3, f"{two}:b\n".encode(), b"collate-cldr: /: Is a directory\n"),
        (["-f", two, one], 0, b"b\n", b""),
        (["-f", one, "-h", one, two], 0, b"a\nb\nb\n", b""),
        (["-f", two, "-e", "a", one], 0, b"a\nb\n", b""),
        (["-f", "/dev/null", one], 1, b"", b""),
        (["-f", "absent", one], 3, b"", said),
        (["-m1", "b", one, two], 0, f"{one}:b\n{two}:b\n".encode(), b""),
        (["-m", "x", "b", one], 2, b"", b"collate-cldr: --max-count takes a number from 0 on\n"),
        (["-A", "-1", "b", one], 2, b"", None),
        (["-C", "", "b", one], 2, b"", b"collate-cldr: --context takes a number from 0 on\n"),
        (["-i", "b", one], 2, b"", b"collate-cldr: -i, -1 and --strength each say how many levels count; take one of them\n"),
        (["-1", "b", one], 2, b"", b"collate-cldr: -i, -1 and --strength each say how many levels count; take one of them\n"),
        (["--include", "*", "b", one], 2, b"", b"collate-cldr: --include is for -r\n"),
        (["-E", "b", one], 2, b"", b"collate-cldr: -E isn't taken: a pattern is a text, and no regular expression; several stand behind -e each\n"),
        (["-bn", "b", one], 0, b"2:2:b\n", b""),
        (["--line-buffered", "b", one, "absent", two], 3, f"{one}:b\n{two}:b\n".encode(), said),
        (["--line-buffered", "-nC1", "b", one, two], 0, f"{one}-1-a\n{one}:2:b\n--\n{two}:1:b\n".encode(), b""),
        (["--line-buffered", "b", "/"], 3, b"", b"collate-cldr: /: Is a directory\n"),
        (["-R", "b", one], 2, b"", b"collate-cldr: -R isn't taken: -r reads folders and follows no links\n"),
        (["-nC1", "b", one, two], 0, f"{one}-1-a\n{one}:2:b\n--\n{two}:1:b\n".encode(), b""),
        (["-hA1", "a", two, one], 0, b"a\nb\n", b""),
    ]
    for words, *wanted in rows:
        ran = run(program, over(letters, "search", "3", *words))
        if ran.came_to()[:2] != tuple(wanted)[:2] or wanted[2] not in (None, ran.faults):
            found.append(f"search {words}: {ran}; wanted: {wanted}")
    return found


# Options, and what is printed by and by: lines that come, and what they print as soon as they are there.
AT_ONCE = [
    ([], [("b\n", ""), ("a\n", "a\n"), ("c\nca\n", "ca\n")]),
    (["-n"], [("b\na\n", "2:a\n"), ("a\n", "3:a\n")]),
    (["-B1"], [("b\nc\n", ""), ("a\n", "c\na\n"), ("b\nb\nb\n", ""), ("a\n", "--\nb\na\n")]),
    (["-A1"], [("a\n", "a\n"), ("b\n", "b\n"), ("c\n", ""), ("a\n", "--\na\n")]),
]


def printed_by_and_by(command, steps, standard_output, reader):
    """What a run prints in some steps: after each, all that comes within a time, or as much as is wanted."""
    with subprocess.Popen(command, stdin=subprocess.PIPE, stdout=standard_output) as ran:
        found = []
        for given, wanted in steps:
            ran.stdin.write(given.encode())
            ran.stdin.flush()
            text = b""
            while len(text) < len(wanted) and select.select([reader or ran.stdout], [], [], 20)[0]:
                text += os.read(reader or ran.stdout.fileno(), 1000)
            found.append(text.replace(b"\r\n", b"\n").decode())
        ran.stdin.close()
        if not reader:
            ran.stdout.read()
    return found


def wrong_at_once(program, letters):
    """Lines that aren't printed as soon as they are found: by --line-buffered into a pipe, and on a terminal."""
    found = []
    for words, steps in AT_ONCE:
        wanted = [it for _, it in steps]
        by_word = printed_by_and_by([program, *over(letters, "search", "3", *words, "--line-buffered", "a")], steps, subprocess.PIPE, None)
        reader, writer = os.openpty()
        try:
            on_terminal = [program, *over(letters, "search", "3", *words, "--colour=never", "a")]
            shown = printed_by_and_by(on_terminal, steps, writer, reader)
        finally:
            os.close(reader)
            os.close(writer)
        if (by_word, shown) != (wanted, wanted):
            found.append(f"search {words} at once: {by_word}; on a terminal: {shown}; wanted: {wanted}")
    return found


# Files below a folder, by their paths, in the order in which they are searched; all but the last two are text with a match.
TREE = {"a.txt": "a\n", "sub.txt": "a\n", "sub/deep/three.md": "b\na\n", "sub/two.txt": "x\na\n", "bin.dat": "a\0\n", "sub/none": "b\n"}


def wrong_folders(program, letters, room):
    """Searches of folders: in the order of the bytes of paths, without binary files, links and what is no file."""
    top, found = os.path.join(room, "tree"), []
    for name, text in TREE.items():
        os.makedirs(os.path.dirname(os.path.join(top, name)), exist_ok=True)
        with open(os.path.join(top, name), "w", encoding="utf-8") as it:
            it.write(text)
    os.symlink("a.txt", os.path.join(top, "link.txt"))
    os.symlink("..", os.path.join(top, "sub", "up"))
    os.mkfifo(os.path.join(top, "sub", "pipe"))
    os.symlink("tree", os.path.join(room, "linked"))
    shown = lambda folder, names: "".join(f"{folder}/{it}:a\n" for it in names).encode()
    all_four, no_folder = ["a.txt", "sub.txt", "sub/deep/three.md", "sub/two.txt"], os.path.join(room, "no-folder")
    rows = [
        (["-r", "a", top], 0, shown(top, all_four)),
        (["-r", "a", f"{top}/"], 0, shown(top, all_four)),
        (["-r", "a", os.path.join(room, "linked")], 0, shown(os.path.join(room, "linked"), all_four)),
        (["-ra", "a", top], 0, shown(top, ["a.txt"]) + f"{top}/bin.dat:a\0\n".encode() + shown(top, all_four[1:])),
        (["-r", "--include", "*.txt", "a", top], 0, shown(top, ["a.txt", "sub.txt", "sub/two.txt"])),
        (["-r", "--include=?.txt", "--include", "t*.md", "a", top], 0, shown(top, ["a.txt", "sub/deep/three.md"])),
        (["-r", "--include", "txt", "a", top], 1, b""),
        (["-rh", "--include", "*.md", "-B1", "a", top], 0, b"b\na\n"),
        (["-rc", "a", f"{top}/sub"], 0, f"{top}/sub/deep/three.md:1\n{top}/sub/none:0\n{top}/sub/two.txt:1\n".encode()),
        (["-rq", "a", top], 0, b""),
        (["-r", "a", f"{top}/a.txt"], 0, b"a\n"),
        (["-r", "a", no_folder], 3, b""),
    ]
    for words, *wanted in rows:
        ran = run(program, over(letters, "search", "3", *words))
        said = f"collate-cldr: {no_folder}: No such file or directory\n".encode() if no_folder in words else b""
        if ran.came_to() != (*wanted, said):
            found.append(f"search {words}: {ran}; wanted: {wanted}")
    here = subprocess.run([program, *over(letters, "search", "3", "-r", "a")], cwd=top, capture_output=True, check=False)
    if (here.returncode, here.stdout) != (0, "".join(f"{it}:a\n" for it in all_four).encode()):
        found.append(f"search -r in the folder of the run: {here}")
    return found


# ---- headers of lines, and lists of files

HEADERS = [
    (["--header"], "c\nb\na\n", "c\na\nb\n"),
    (["--header", "-r", "-k1"], "a\na\nb\n", "a\nb\na\n"),
    (["--header"], "", ""),
    (["--header"], "c", "c\n"),
    (["--header", "-z"], "c\0b\0a", "c\0a\0b\0"),
    (["-t", "\\t", "-k2,2"], "a\tb\nb\ta\n", "b\ta\na\tb\n"),
    (["--parallel=4", "--batch-size", "9"], "b\na\n", "a\nb\n"),
    # By value, over the whole line and keys without letters of their own.
    (["-n"], "10\n9\n-1.5\nx\n-2\n", "-2\n-1.5\nx\n9\n10\n"),
    (["-n", "-r"], " 9\n10\n", "10\n 9\n"),
    (["-n", "-u"], "01\n1.0\n2\n", "01\n2\n"),
    (["-n", "-k2,2"], "a 10\na 9\n", "a 9\na 10\n"),
    (["-n", "-k2b,2"], "a 9\na 10\n", "a 10\na 9\n"),
    (["-n", "--header"], "n\n10\n9\n", "n\n9\n10\n"),
    (["-b"], "  b\na\n b\n", "a\n  b\n b\n"),
    (["-bs"], " b\n  b\na\n", "a\n b\n  b\n"),
    (["-b", "-k2,2"], "a  b\nb a\n", "b a\na  b\n"),
    # Keys underlined.
    (["--debug"], "b\naá\n", "aá\n__\nb\n_\n"),
    (["--debug", "-k2,2"], "a b\nb a\n", "b a\n __\n___\na b\n __\n___\n"),
    (["--debug", "-k2,2", "-s"], "b a\n", "b a\n __\n"),
    (["--debug", "-n"], " 12x\nb\n", "b\n^ no match for key\n_\n 12x\n __\n____\n"),
    (["--debug", "-t", "\\t", "-k2"], "a\tb\n", "a>b\n  _\n___\n"),
    (["--debug", "--header"], "b\na\n", "b\na\n_\n"),
]


def wrong_lists(program, letters, room):
    """Sorts of lines with a header, and of files that a list names."""
    found = []
    for words, given, printed in HEADERS:
        ran = run(program, over(letters, "sort", "3", *words), given.encode())
        if ran.came_to() != (0, printed.encode(), b""):
            found.append(f"sort {words}: {ran}; wanted: {printed!r}")
    ran = run(program, over(letters, "check", "3", "--header"), b"c\nb\na\n")
    if ran.came_to() != (1, b"", b"collate-cldr: line 3 is out of order: a\n"):
        found.append(f"check --header: {ran}")
    one, two, names = (os.path.join(room, it) for it in ("list-one", "list-two", "list"))
    lists = [
        (f"{one}\0{two}\0", [], (0, b"a\nb\nc\n", b"")),
        (f"{two}\0-", [], (0, b"a\nd\n", b"")),
        ("", [], (3, b"", f"collate-cldr: {names}: it names no file\n".encode())),
        (f"{one}\0\0{two}", [], (3, b"", f"collate-cldr: {names}: a name in it is empty\n".encode())),
        ("absent\0", [], (3, b"", b"collate-cldr: absent: No such file or directory\n")),
        (one, [two], (2, b"", b"collate-cldr: --files0-from is for lines, and takes no other file\n")),
        (one, ["--csv", "--column=1"], (2, b"", b"collate-cldr: --files0-from is for lines, and takes no other file\n")),
        (f"{two}\0{one}\0", ["-c"], (1, b"", f"collate-cldr: {one}: line 2 is out of order: b\n".encode())),
        (f"{two}\0", ["--debug", "-c"], (2, b"", b"collate-cldr: --debug takes no --check and no --output\n")),
        (f"{two}\0", ["--debug", "-o", one], (2, b"", b"collate-cldr: --debug takes no --check and no --output\n")),
    ]
    for path, text in ((one, "c\nb"), (two, "a\n")):
        with open(path, "w", encoding="utf-8") as it:
            it.write(text)
    for text, words, wanted in lists:
        with open(names, "w", encoding="utf-8") as it:
            it.write(text)
        ran = run(program, over(letters, "sort", "3", f"--files0-from={names}", *words), b"d\n")
        if ran.came_to() != wanted:
            found.append(f"sort of the list {text!r} {words}: {ran}; wanted: {wanted}")
    for words, given, status, said in [
        ([two, one], b"", 1, f"{one}: line 2 is out of order: b\n"),
        ([one, two], b"", 1, f"{one}: line 2 is out of order: b\n"),
        ([two, "-", two], b"b\nc\n", 1, f"{two}: line 1 is out of order: a\n"),
        ([two, "-"], b"c\nb\n", 1, "standard input: line 2 is out of order: b\n"),
        ([two, "-"], b"b\nc\n", 0, ""),
        (["--header", one, two], b"", 1, f"{two}: line 1 is out of order: a\n"),
    ]:
        ran = run(program, over(letters, "check", "3", *words), given)
        if ran.came_to() != (status, b"", f"collate-cldr: {said}".encode() * bool(said)):
            found.append(f"check {words}: {ran}; wanted: {status}, {said}")
    return found


# ---- sorts by fields

# Further words, the input, and what is printed.
FIELDS = [
    (["-t.", "-k2"], "b.a\na.b\n", "b.a\na.b\n"),
    (["-t.", "-k2,2", "-s"], "b.a.2\na.a.1\n", "b.a.2\na.a.1\n"),
    (["-t.", "-k2,2"], "b.a.2\na.a.1\n", "a.a.1\nb.a.2\n"),
    (["-t.", "-k1,1r", "-k2,2"], "a.b\nb.b\nb.a\n", "b.a\nb.b\na.b\n"),
    (["-t.", "-k2n"], "a.10\na.9\na.-1\na.x\n", "a.-1\na.x\na.9\na.10\n"),
    (["-t.", "-k2,2nr"], "a.10\na.9\n", "a.10\na.9\n"),
    (["-k2"], "b  a\na b\n", "b  a\na b\n"),
    (["-k2b,2"], "a  b\nb a\n", "b a\na  b\n"),
    (["-k1.2,1.2"], "áb\nba\n", "ba\náb\n"),
    (["-t.", "-u", "-k1,1"], "b.a\na.b\nb.c\n", "a.b\nb.a\n"),
    (["-r", "-t.", "-k2,2"], "b.a\na.b\n", "a.b\nb.a\n"),
    (["-z", "-k1,1"], "b\0a\0", "a\0b\0"),
]
# Words that are wrong, and the one that is named.
WRONG_FIELDS = [
    (["-k0"], "'0'"),
    (["-k1.0"], "'1.0'"),
    (["-k1x"], "'1x'"),
    (["-k1,"], "'1,'"),
    (["-k1."], "'1.'"),
    (["-k1.b"], "'1.b'"),
    (["-k1b2"], "'1b2'"),
    (["-t", ""], "''"),
    (["-t..", "-k1"], "'..'"),
    (["-c", "-k1x"], "'1x'"),
    (["--check=loudly"], "loudly"),
]
# Further words of a check, the input, and the status and what is said.
CHECKED = [
    (["-t.", "-k2"], "b.a\na.b\n", 0, ""),
    (["-t.", "-k2"], "a.b\nb.a\n", 1, "collate-cldr: line 2 is out of order: b.a\n"),
    (["-t.", "-k2r"], "a.b\nb.a\n", 0, ""),
    (["-t.", "-k2,2"], "b.a\na.a\n", 1, "collate-cldr: line 2 is out of order: a.a\n"),
    (["-s", "-t.", "-k2,2"], "b.a\na.a\n", 0, ""),
    (["-u", "-t.", "-k2,2"], "a.a\nb.a\n", 1, "collate-cldr: line 2 is out of order: b.a\n"),
    (["-t.", "-k2n"], "a.9\na.10\na.8\n", 1, "collate-cldr: line 3 is out of order: a.8\n"),
    (["-r", "-t.", "-k2,2"], "a.b\nb.a\n", 0, ""),
    (["-k1"], "", 0, ""),
]


def wrong_fields(program, letters):
    found = []
    for words, given, printed in FIELDS:
        ran = run(program, over(letters, "sort", "3", *words), given.encode())
        if ran.came_to() != (0, printed.encode(), b""):
            found.append(f"sort {words}: {ran}; wanted: {printed!r}")
    for words, named in WRONG_FIELDS:
        ran = run(program, over(letters, "sort", "3", *words), b"a\n")
        if ran.status != 2 or ran.output or named.encode() not in ran.faults:
            found.append(f"sort {words}: {ran}; wanted: status 2, and {named} named")
    quietly = [["-C"], ["--check-quietly"], ["--check=quiet"], ["--check=silent"]]
    for words, given, status, said in CHECKED:
        commands = [(["check"], said), (["check", "-q"], ""), (["sort", "-c"], said), (["sort", "--check"], said),
                    (["sort", "--check=diagnose-first"], said), *((["sort", *it], "") for it in quietly)]
        for command, wanted in commands:
            ran = run(program, [*command, "--root", letters, *words], given.encode())
            if ran.came_to() != (status, b"", wanted.encode()):
                found.append(f"{command} {words}: {ran}; wanted: {status}, {wanted!r}")
    return found


def place(chance, letters):
    """A place of a key, with a character or without."""
    return f"{chance.randint(1, 4)}" + (f".{chance.randint(1, 4)}" if chance.random() < 0.4 else "") + letters


def key(chance):
    letters = ["".join(it for it in "bnr" if chance.random() < 0.25) for _ in range(2)]
    first = place(chance, letters[0])
    return first + ("," + place(chance, letters[1]) if chance.random() < 0.7 else "")


def line(chance):
    return "".join(chance.choice("  --..0011223789abc") for _ in range(chance.randint(0, 14)))


def sorted_by_gnu(words, given):
    return subprocess.run(["sort", *words], input=given, stdout=subprocess.PIPE, env={**os.environ, "LC_ALL": "C"}, check=True).stdout


def unlike_gnu(program, letters, times=120):
    """Sorts of random lines that differ from those by bytes. The characters of these lines have primary weights in the order of
    their bytes, so the two orders are one."""
    chance, found = random.Random(46), []
    for _ in range(times):
        words = [f"-k{key(chance)}" for _ in range(chance.randint(1, 3))]
        words += [chance.choice(["-t.", "-t-", "-t "])] * (chance.random() < 0.7) + [it for it in ("-r", "-s", "-u") if chance.random() < 0.25]
        given = "".join(f"{line(chance)}\n" for _ in range(40)).encode()
        ran = run(program, over(letters, "sort", "1", *words), given)
        if ran.came_to() != (0, sorted_by_gnu(words, given), b""):
            found.append(f"sort {words} of {given!r}: {ran}")
        found += unlike_check(program, letters, words, chance.choice([given, ran.output]))
    return found


def unlike_check(program, letters, words, given):
    """A check whose status, and the line that it names, aren't those of GNU sort."""
    gnu = subprocess.run(["sort", "-c", *words], input=given, stderr=subprocess.PIPE, env={**os.environ, "LC_ALL": "C"}, check=False)
    ran = run(program, over(letters, "sort", "1", "-c", *words), given)
    named = gnu.stderr.removeprefix(b"sort: -:").replace(b": disorder:", b" is out of order:")
    wanted = (gnu.returncode, b"", b"collate-cldr: line " * bool(named) + named)
    return [] if ran.came_to() == wanted else [f"check {words} of {given!r}: {ran}; wanted: {wanted}"]


# ---- the run of all, and programs with a fault

FAULTY = [
    ("no accent read", 'case $1 in why) printf "=\\tno level differs\\n"; exit 0;; esac; exec "$COLLATE" "$@"',
     lambda program, letters, room: wrong_explanations(program, letters)),
    ("a match lost", '"$COLLATE" "$@" | sed "\\$d"', wrong_searches),
    ("lines by their bytes alone", '"$COLLATE" "$@" | LC_ALL=C sort', lambda program, letters, room: unlike_gnu(program, letters, 10)),
]


def check_lines(report, room, program, letters):
    report.say("collate-cldr: explanations and reasons", wrong_explanations(program, letters), len(EXPLAINED) + len(REASONS))
    report.say("collate-cldr: searches", wrong_searches(program, letters, room), 2 * len(SEARCHES) + len(PATTERNS) + 26)
    report.say("collate-cldr: lines printed as soon as they are found", wrong_at_once(program, letters), 2 * len(AT_ONCE))
    report.say("collate-cldr: searches of folders", wrong_folders(program, letters, room), 13)
    report.say("collate-cldr: headers of lines, and lists of files", wrong_lists(program, letters, room), len(HEADERS) + 17)
    beside, _ = gnu_words.unlike(program, ["--root", letters, "--strength", "1"], gnu_words.SMALL, room, 100)
    report.say("collate-cldr: random words of sort and search as those of GNU sort and grep", beside, 200)
    report.say("collate-cldr: sorts by fields", wrong_fields(program, letters),
               len(FIELDS) + len(WRONG_FIELDS) + 9 * len(CHECKED))
    report.say("collate-cldr: sorts and checks by fields as those of GNU sort", unlike_gnu(program, letters), 240)
    report.say("collate-cldr: programs with a fault in lines are found", faults_missed(room, "lines", program, letters, FAULTY), len(FAULTY))
