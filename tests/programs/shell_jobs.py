"""What the manual page of `collate-cldr` does in a shell: keys of parts that are sorted apart and merged, a check in a script, a pipe
that is closed, and odd input to each command over lines."""
import os
import random

from cldr_locales import FOLDER
from sweeps import ENVIRONMENT, Run, ended, run, wrapped

# Letters, accents, case, characters that are ignored, digits, damaged UTF-8, and bytes below those of hexadecimal digits.
PIECES = [b"a", b"A", b"\xc3\xa1", b"\xc3\xa5", b"z", b"\xc3\xb6", b"b", b" ", b"-", b"1", b"9", b"\t", b"\xff", b"\x01", b"\0"]
# How parts are sorted apart, and merged: as on the page.
MERGED = """
for part in one two three; do "$@" "$part" | LC_ALL=C sort > "$part.keys" || exit 9; done
LC_ALL=C sort -m one.keys two.keys three.keys | cut -f 2-
"""
NUMBERED = ["--numeric"]
ORDERS = [["-l", "sv"], ["-l", "de-u-co-phonebk"], ["-l", "da", "--strength=1"], ["-l", "fr-CA", "--strength=2", *NUMBERED],
          ["-l", "und", "--strength=4", "--alternate=shifted"], ["-l", "und", "--strength=i"]]


def shell(folder, text, *words, given=b"", variables=None):
    ran = ended(["sh", "-c", text, "sh", *words], given, env={**ENVIRONMENT, **(variables or {})}, cwd=folder)
    return Run(ran.returncode, ran.stdout, ran.stderr, None)


def line(chance):
    return b"".join(chance.choice(PIECES) for _ in range(chance.randint(0, 6))) + b"\n"


def wrong_merges(program, folder):
    """Parts whose keys are sorted apart and merged, and that aren't the whole."""
    chance, found = random.Random(46), []
    for words in ORDERS:
        parts = {it: b"".join(line(chance) for _ in range(chance.randint(20, 60))) for it in ("one", "two", "three")}
        for name, text in parts.items():
            with open(os.path.join(folder, name), "wb") as it:
                it.write(text)
        whole = run(program, ["sort", "--cldr", FOLDER, *words], b"".join(parts.values()))
        merged = shell(folder, MERGED, program, "keys", "--cldr", FOLDER, *words)
        if whole.status or not whole.output or merged.came_to() != whole.came_to():
            found.append(f"keys {words} of {parts}: {merged}; wanted: {whole}")
    return found


# A script, its input and what it prints.
SCRIPTS = [
    ('if "$@" check -q; then echo in order; else echo not in order; fi', b"a\nb\n", b"in order\n", b""),
    ('if "$@" check -q; then echo in order; else echo not in order; fi', b"b\na\n", b"not in order\n", b""),
    ('"$@" check || echo "status $?"', b"b\na\n", b"status 1\n", b"collate-cldr: line 2 is out of order: a\n"),
    # A pipe that nobody reads any more is a write that failed, of which nothing is said.
    ('{ "$@" sort; echo "status $?" >&2; } | head -n 1', b"b\n" * 100_000, b"b\n", b"status 3\n"),
    ('{ "$@" keys; echo "status $?" >&2; } | true', b"b\n" * 100_000, b"", b"status 3\n"),
    ('{ "$@" search b; echo "status $?" >&2; } | true', b"b\n" * 100_000, b"", b"status 3\n"),
    ('"$@" sort >/dev/full || echo "status $?"', b"b\n", b"status 3\n", b"collate-cldr: write failed\n"),
]


def wrong_scripts(program, folder):
    found = []
    for text, given, printed, said in SCRIPTS:
        # The command stands before the options that a run of any command takes.
        to_words = 'run() { c=$1; shift; "$PROGRAM" "$c" --cldr "$CLDR" "$@"; }; set -- run; '
        ran = shell(folder, to_words + text, given=given, variables={"PROGRAM": program, "CLDR": FOLDER})
        if ran.came_to() != (0, printed, said):
            found.append(f"{text}: {ran}; wanted: {printed}, {said}")
    return found


# ---- odd input

MARK = b"\xef\xbb\xbf"
# Commands over lines that print each as it came.
LINE_COMMANDS = [["sort", "-s"], ["search", "--strength=1", ""], ["keys"]]
ODD = [b"", b"\n", b"\n\n", b"a", b"a\n", b"a\r\n", b"a\rb\n", b"a\0b\n", b"\0\n", b"\xff\n", b"\xed\xa0\x80\n", b"\xf4\x90\x80\x80\n",
       b"\xc3\n\xc3\n", b"\xef\xbb\xbfa\n", b"\xef\xbf\xbf\n", "\U0010ffff\n".encode(), b"a" * 100_000 + b"\n", b"\xcc\x81" * 50_000]


def without_keys(output):
    """Lines that stand behind their keys, without these."""
    return b"".join(it.partition(b"\t")[2] + b"\n" for it in output.split(b"\n")[:-1])


def wrong_lines(program, folder):
    """Inputs that aren't printed as they came, with a line feed at the end where they have none: by standard input, and from a file."""
    path, found = os.path.join(folder, "odd"), []
    for given in ODD:
        with open(path, "wb") as it:
            it.write(given)
        wanted = given + b"\n" * bool(given and not given.endswith(b"\n"))
        for command, *words in LINE_COMMANDS:
            for ran in (run(program, [command, "--cldr", FOLDER, *words, *files], given) for files in ([], [path])):
                # A byte order mark belongs to no line, so it has no key.
                printed = MARK * given.startswith(MARK) + without_keys(ran.output) if command == "keys" else ran.output
                status = int(command == "search" and not given)
                if (ran.status, printed, ran.faults) != (status, wanted, b""):
                    found.append(f"{command} {words} of {given[:20]!r}: {ran}")
    return found


FAULTY = [
    ("keys that end early", '"$COLLATE" "$@" | sed "s/^..../00/"', wrong_merges),
    ("a status that is lost", '"$COLLATE" "$@"; exit 0', wrong_scripts),
    ("lines cut at a zero byte", '"$COLLATE" "$@" | tr -d "\\000"', wrong_lines),
]


def faults_missed(room, program, folder):
    found = []
    for at, (what, text, wrong) in enumerate(FAULTY):
        found += [f"not found: {what}"] * (not wrong(wrapped(room, f"shell{at}", program, text), folder))
    return found


def check_shell(report, room, program):
    folder = os.path.join(room, "shell")
    os.mkdir(folder)
    report.say("collate-cldr: keys of parts that are merged", wrong_merges(program, folder), len(ORDERS))
    report.say("collate-cldr: scripts", wrong_scripts(program, folder), len(SCRIPTS))
    report.say("collate-cldr: odd lines", wrong_lines(program, folder), 2 * len(ODD) * len(LINE_COMMANDS))
    report.say("collate-cldr: programs with a fault in a shell are found", faults_missed(room, program, folder), len(FAULTY))
