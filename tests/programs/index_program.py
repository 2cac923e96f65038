#!/usr/bin/env python3
"""Runs the program `collate-index` over files: what it lists, finds, heads, removes, refuses and makes anew; and what an index
holds where a run is stopped at one of its writes.

usage: tests/programs/index_program.py [PROGRAM]    the program that was built, or another one; it needs `cc`, a C compiler

Each request by which a run changes its files (a write, a change of length, a sync) is stopped in turn: it fails, alone or with all
after it, as a bad or as a full disk does, or the run is killed before it, in the middle of it, or behind it; in the gate each request
in one of these ways, and by itself this program tries all of them. Then the index is
listed by a run that nothing stops, and has to be what it was before or what the run makes of it; where the run said that it was
done, what it makes of it. The last line is `N passed, M failed`.
"""
import os
import shutil
import subprocess
import sys
import tempfile

TESTS = os.path.dirname(os.path.realpath(__file__))
CRATE = os.path.join(os.path.dirname(os.path.dirname(TESTS)), "crates", "collate_index")
LETTERS = os.path.join(CRATE, "data", "letters.txt")
CLDR = os.path.join(os.path.dirname(os.path.dirname(TESTS)), "crates", "use_language", "data", "cldr")
HOWS = [("fail", 0), ("fail", 1), ("full", 0), ("full", 1), ("kill", 0), ("torn", 0), ("after", 0)]

# Names as lines, with what is kept with each behind a tab: they are put in as they stand here.
NAMES = "Mu\t1\nab\t2\nmá\t3\nMU\t4\nmu\t5\naB\nz\t6\n"
LISTED = "ab\t2\naB\nmá\t3\nmu\t5\nMu\t1\nMU\t4\nz\t6\n"
# By the primary level alone names stand as they came in.
LISTED_BY_LETTERS = "ab\t2\naB\nmá\t3\nMu\t1\nMU\t4\nmu\t5\nz\t6\n"
MORE = "mv\t7\nA\t8\n"
LISTED_WITH_MORE = "A\t8\nab\t2\naB\nmá\t3\nmu\t5\nMu\t1\nMU\t4\nmv\t7\nz\t6\n"
WITHOUT_MU = "ab\t2\naB\nmá\t3\nMu\t1\nMU\t4\nz\t6\n"
BETWEEN = "aB\nmá\t3\nmu\t5\n"
# Labels of a locale and of its parent, in the form of CLDR's files; those of another form are refused. Of these locales no rules are
# there, so their order is the root's.
LABELS = {"xx": "[M {A\\u0301b}]", "xx_YY": None, "zz": "[A-Z]"}
NO_RULES = ('<ldml><identity><language type="root"/></identity>'
            '<collations><collation type="standard"><cr><![CDATA[]]></cr></collation></collations></ldml>\n')
HEADED_BY_LOCALE = "A\u0301b\tab\t2\nA\u0301b\taB\nM\tmá\t3\nM\tmu\t5\nM\tMu\t1\nM\tMU\t4\nM\tz\t6\n"
HEADED = "A\tab\t2\nA\taB\nM\tmá\t3\nM\tmu\t5\nM\tMu\t1\nM\tMU\t4\nM\tz\t6\n"
HEADED_FROM_B = "\u2026\tab\t2\n\u2026\taB\nB\tmá\t3\nB\tmu\t5\nB\tMu\t1\nB\tMU\t4\nZ\tz\t6\n"


class Index:
    """An index in a folder, and the program over it."""

    def __init__(self, program, folder, shim=None):
        self.program, self.folder, self.shim = program, folder, shim
        self.file = os.path.join(folder, "names.db")

    def run(self, command, *words, given="", **stop):
        """Status, output and errors of a run; `stop` says which request of it is stopped."""
        env = {"PATH": os.environ["PATH"], **{f"STOP_{name.upper()}": str(it) for name, it in stop.items()}}
        if self.shim:
            env["LD_PRELOAD"] = self.shim
        done = subprocess.run([self.program, command, "--root", LETTERS, self.file, *words], input=given.encode(), env=env,
                              capture_output=True, timeout=300, check=False)
        return done.returncode, done.stdout.decode(), done.stderr.decode()

    def count(self, command, *words, given=""):
        """How many requests a run makes that nothing stops."""
        read, write = os.pipe()
        env = {"PATH": os.environ["PATH"], "LD_PRELOAD": self.shim, "STOP_COUNT": str(write)}
        subprocess.run([self.program, command, "--root", LETTERS, self.file, *words], input=given.encode(), env=env,
                       capture_output=True, pass_fds=[write], timeout=300, check=True)
        os.close(write)
        with os.fdopen(read) as told:
            return int(told.read())


def copied(index, folder):
    """A copy of an index in another folder."""
    shutil.rmtree(folder, ignore_errors=True)
    shutil.copytree(index.folder, folder)
    return Index(index.program, folder, index.shim)


def filled(program, folder, shim=None):
    os.makedirs(folder)
    index = Index(program, folder, shim)
    index.run("add", given=NAMES)
    return index


def write_labels(folder):
    """Files of locales with labels and of a root without rules, and returns the folder of the data."""
    os.makedirs(os.path.join(folder, "common", "main"))
    os.makedirs(os.path.join(folder, "common", "collation"))
    with open(os.path.join(folder, "common", "collation", "root.xml"), "w", encoding="utf-8") as it:
        it.write(NO_RULES)
    for locale, labels in LABELS.items():
        said = f'<exemplarCharacters type="index">{labels}</exemplarCharacters>' if labels else ""
        with open(os.path.join(folder, "common", "main", f"{locale}.xml"), "w", encoding="utf-8") as it:
            it.write(f'<ldml><characters><exemplarCharacters>[a]</exemplarCharacters>{said}</characters></ldml>\n')
    return folder


# ---- what a run does


def unknown(tag):
    """What is said of a tag whose language CLDR doesn't list."""
    return f"collate-index: locale {tag}: no language of CLDR\n"


def wrong_answers(program, room):
    """Runs in turn over one index, with what each has to say."""
    index = Index(program, room)
    differs = ("its keys were made with keys=1 unicode=18.0.0 strength=tertiary alternate=non-ignorable max-variable=punctuation "
               "case-first=off case-level=off numeric=off, and not with keys=1 unicode=18.0.0 strength=primary "
               "alternate=non-ignorable max-variable=punctuation case-first=off case-level=off numeric=off")
    said = f"collate-index: {index.file}: "
    data = write_labels(os.path.join(room, "data"))
    labels = ("headings", "--cldr", data, "-l")
    wanted = [
        (("list",), "", 3, "", f"{said}No such file or directory; the command add makes an index\n"),
        (("add",), NAMES, 0, "", ""),
        (("list",), "", 0, LISTED, ""),
        (("find", "mu"), "", 0, "mu\t5\nMu\t1\nMU\t4\n", ""),
        (("find", "M"), "", 0, "má\t3\nmu\t5\nMu\t1\nMU\t4\n", ""),
        (("find", "q"), "", 0, "", ""),
        (("find", ""), "", 0, LISTED, ""),
        (("headings", "--labels", "A,M"), "", 0, HEADED, ""),
        (("headings", "--labels", "Z,B"), "", 0, HEADED_FROM_B, ""),
        ((*labels, "xx"), "", 0, HEADED_BY_LOCALE, unknown("xx")),
        ((*labels, "xx", "--quiet"), "", 0, HEADED_BY_LOCALE, ""),
        ((*labels, "xx_YY"), "", 0, HEADED_BY_LOCALE, unknown("xx-YY")),
        ((*labels, "yy"), "", 3, "",
         f"{unknown('yy')}collate-index: yy: no labels; the folder of CLDR's data has none for this locale\n"),
        ((*labels, "zz"), "", 3, "", f"{unknown('zz')}collate-index: {data}/common/main/zz.xml: expected characters for an index "
         "in brackets, as [A B {CH}]\n"),
        (("between", "aB", "Mu"), "", 0, BETWEEN, ""),
        (("between", "z", "a"), "", 0, "", ""),
        (("remove", "mU"), "", 1, "", ""),
        (("list", "--strength", "1"), "", 3, "", said + differs + "\n"),
        (("add", "--strength", "1"), "b\n", 3, "", said + differs + "\n"),
        (("list",), "", 0, LISTED, ""),
        (("rebuild", "--strength", "1"), "", 0, "", ""),
        (("list", "--strength", "1"), "", 0, LISTED_BY_LETTERS, ""),
        (("rebuild",), "", 0, "", ""),
        (("rebuild",), "", 0, "", ""),
        (("list",), "", 0, LISTED, ""),
        (("remove", "mu"), "", 0, "", ""),
        (("list",), "", 0, WITHOUT_MU, ""),
        (("add", "mu", "--payload", "5"), "", 0, "", ""),
        (("add", ""), "lost\n", 0, "", ""),
        (("remove", ""), "", 0, "", ""),
        (("find", "mu"), "", 0, "mu\t5\nMu\t1\nMU\t4\n", ""),
        (("add",), "", 0, "", ""),
        (("list",), "", 0, LISTED, ""),
    ]
    faults = []
    for (command, *words), given, *told in wanted:
        got = index.run(command, *words, given=given)
        if got != tuple(told):
            faults += [f"{command} {' '.join(words)}: {got} in place of {tuple(told)}"]
    return faults, len(wanted)


def wrong_refusals(program, room):
    """Files that hold no index, and words that are wrong."""
    index = Index(program, room)
    with open(index.file, "wb") as other:
        other.write(b"no database" * 1000)
    faults = [] if index.run("list")[0] == 3 else ["a file that is no database is opened"]
    with open(index.file, "rb") as other:
        faults += [] if other.read() == b"no database" * 1000 else ["a file that is no database is written to"]
    for words in [[], ["sort"], ["list"], ["find", index.file], ["headings", index.file], ["list", index.file, "x"], ["-h"],
                  ["find", index.file, "-x"], ["add", index.file, "-h"], ["between", index.file, "-a", "-b"],
                  ["list", "--strength", "5", index.file]]:
        status = subprocess.run([program, *words], stdin=subprocess.DEVNULL, capture_output=True, check=False).returncode
        faults += [] if status == 2 else [f"{words}: status {status}"]
    return faults, 13


# Commands in turn over one index in the order of a locale, by the rules of small files: words beside the folder, lines, and what each
# has to print with which status. Of German the file has no rules, so its order is the root's.
OF_LOCALES = [
    (("add", "-l", "sv"), "z\nå\nä\na\nwa\nvb\n", 0, ""),
    (("list", "-l", "sv"), "", 0, "a\nvb\nwa\nz\nå\nä\n"),
    (("list", "-l", "sv-SE"), "", 0, "a\nvb\nwa\nz\nå\nä\n"),
    (("find", "-l", "sv", "å"), "", 0, "å\n"),
    (("between", "-l", "sv", "w", "ä"), "", 0, "wa\nz\nå\n"),
    (("headings", "-l", "sv", "--labels", "A,Z,Å,Ä"), "", 0, "A\ta\nA\tvb\nA\twa\nZ\tz\nÅ\tå\nÄ\tä\n"),
    (("list",), "", 3, ""),
    (("list", "-l", "sv-u-co-standard"), "", 3, ""),
    (("add", "-l", "de", "b"), "", 3, ""),
    (("rebuild", "-l", "sv-u-co-standard"), "", 0, ""),
    (("list", "-l", "sv-u-co-standard"), "", 0, "a\nwa\nvb\nz\nå\nä\n"),
    (("rebuild",), "", 0, ""),
    (("list",), "", 0, "a\nä\nå\nvb\nwa\nz\n"),
    (("list", "-l", "de"), "", 0, "a\nä\nå\nvb\nwa\nz\n"),
    (("find", "-l", "und", "a"), "", 0, "a\nä\nå\n"),
    (("list", "-l", "und-u-ks-level1"), "", 3, ""),
    (("rebuild", "-l", "und-u-ks-level1"), "", 0, ""),
    (("list", "-l", "und-u-ks-level1"), "", 0, "å\nä\na\nvb\nwa\nz\n"),
    (("list", "--strength", "1"), "", 0, "å\nä\na\nvb\nwa\nz\n"),
]
# Words that name no locale, rules that are refused, and a root that isn't there; what is said of them.
REFUSED_LOCALES = [
    (("list", "-l", "x"), "collate-index: locale x: "),
    (("list", "-l", "sv-u-ks-level9"), "collate-index: locale sv-u-ks-level9: "),
    (("list", "-l", "te-u-co-unsaid"), f"collate-index: {CLDR}/common/collation/te.xml, collation unsaid: &[before 2]a < b: "),
    (("list", "--root", os.path.join(CLDR, "none.txt")), f"collate-index: {CLDR}/none.txt: No such file or directory; "),
]
# What is said of a locale whose order isn't just what is asked for, and with which words nothing is.
NOTICED = [
    ("xx", unknown("xx")),
    ("sv-u-co-phonebk", "collate-index: locale sv-u-co-phonebk: no collation of the type phonebk; there are reformed search standard\n"),
]


def wrong_notices(program, room):
    """What isn't said of a locale, or is said with --quiet."""
    faults, file = [], os.path.join(room, "noticed.db")
    for tag, said in NOTICED:
        for words, wanted in ((["-l", tag], said), (["-l", tag, "--quiet"], "")):
            done = subprocess.run([program, "rebuild" if os.path.exists(file) else "add", "--cldr", CLDR, file, *words],
                                  input=b"", capture_output=True, check=False)
            if done.returncode or done.stderr.decode() != wanted:
                faults += [f"{words}: status {done.returncode}, {done.stderr.decode()!r}"]
    return faults, 2 * len(NOTICED)


def wrong_locales(program, room):
    """An index in the order of a locale, which another locale's is refused for, and which is made anew for it."""
    faults, file = [], os.path.join(room, "names.db")
    for (command, *words), given, *told in OF_LOCALES:
        done = subprocess.run([program, command, "--cldr", CLDR, file, *words], input=given.encode(), capture_output=True, check=False)
        got = [done.returncode, done.stdout.decode()]
        if got != told or (told[0] == 3) != (b"its keys were made " in done.stderr):
            faults += [f"{command} {' '.join(words)}: {got}, {done.stderr.decode()!r} in place of {told}"]
    for (command, *words), said in REFUSED_LOCALES:
        done = subprocess.run([program, command, "--cldr", CLDR, file, *words], stdin=subprocess.DEVNULL, capture_output=True, check=False)
        if done.returncode != 3 or not done.stderr.decode().startswith(said):
            faults += [f"{command} {' '.join(words)}: status {done.returncode}, {done.stderr.decode()!r}"]
    return faults, len(OF_LOCALES) + len(REFUSED_LOCALES)


# ---- what is left where a run is stopped


def stopped_at(index, folder, run, wanted, stop):
    """What is wrong where a run over a copy of an index is stopped at one of its requests."""
    (command, *words), given = run
    before, after = wanted
    copy = copied(index, folder)
    status, _, errors = copy.run(command, *words, given=given, **stop)
    lister = Index(copy.program, copy.folder)
    left = lister.run("list")
    if left[0] != 0:
        left = lister.run("list", "--strength", "1")
    if left[0] != 0:
        return f"{stop}: no index is left: {left}"
    if left[1] not in (before, after):
        return f"{stop}: it holds {left[1]!r}"
    if status == 0 and left[1] != after:
        return f"{stop}: it said that it was done, and what it did is lost"
    if status not in (0, 3, -9):
        return f"{stop}: status {status}, {errors!r}"
    if left[1] == before and before != after:
        again = lister.run(command, *words, given=given)
        if again[0] != 0:
            return f"{stop}: the run can't be made again: {again}"
    return None


def stops_of(index, folder, run, wanted, in_all_ways):
    """What is wrong where each request of a run is stopped in turn, in one way or in all, and how many runs that were."""
    (command, *words), given = run
    count = copied(index, folder).count(command, *words, given=given)
    faults, runs = [], 0
    for number in range(1, count + 1):
        for how, also_after in HOWS if in_all_ways else [HOWS[number % len(HOWS)]]:
            runs += 1
            fault = stopped_at(index, folder, run, wanted, {"at": number, "how": how, "also_after": also_after})
            faults += [fault] if fault else []
    return faults + ([] if count else ["no request is counted"]), runs


def check_collate_index(report, room, program, shim, in_all_ways=False):
    """Says what is wrong to a report with the call `say`. Each request is stopped in one way, or in all."""
    room = made(room, "index")
    report.say("collate-index: answers", *wrong_answers(program, made(room, "answers")))
    report.say("collate-index: refusals", *wrong_refusals(program, made(room, "refusals")))
    report.say("collate-index: orders of locales", *wrong_locales(program, made(room, "locales")))
    report.say("collate-index: what is said of locales", *wrong_notices(program, made(room, "notices")))
    index = filled(program, os.path.join(room, "filled"), shim)
    for what, run, wanted in [
        ("added", (("add",), MORE), (LISTED, LISTED_WITH_MORE)),
        ("removed", (("remove", "mu"), ""), (LISTED, WITHOUT_MU)),
        ("made anew", (("rebuild", "--strength", "1"), ""), (LISTED, LISTED_BY_LETTERS)),
    ]:
        report.say(f"collate-index: stopped at each write, {what}",
                   *stops_of(index, os.path.join(room, "stopped"), run, wanted, in_all_ways))
    report.say("collate-index: names that are lost where it is stopped are found", *losses_missed(index, room))


def losses_missed(index, room):
    """What is wrong where a stopped run leaves neither of two lists, and that isn't found."""
    first = {"at": 1, "how": "kill", "also_after": 0}
    wanted = LISTED_WITH_MORE, LISTED_WITH_MORE
    return ["not found"] * (not stopped_at(index, os.path.join(room, "lost"), (("add",), MORE), wanted, first)), 1


def made(room, name):
    folder = os.path.join(room, name)
    os.makedirs(folder)
    return folder


class Printer:
    """Prints what is wrong, and counts."""

    def __init__(self):
        self.passed = self.failed = 0

    def say(self, what, faults, count):
        print(f"{what}: {count} runs, {len(faults)} wrong", *faults[:10], sep="\n  ", flush=True)
        self.passed += not faults
        self.failed += bool(faults)


def main(words):
    program = os.path.abspath(words[0]) if words else os.path.join(CRATE, "out", "collate_index")
    if not os.access(program, os.X_OK):
        print(f"tests/programs/index_program.py: no program {program}")
        return 2
    report = Printer()
    with tempfile.TemporaryDirectory() as room:
        shim = os.path.join(room, "stop.so")
        subprocess.run(["cc", "-O1", "-shared", "-fPIC", "-o", shim, os.path.join(TESTS, "stop.c")], check=True)
        check_collate_index(report, room, program, shim, in_all_ways=True)
    print(f"{report.passed} passed, {report.failed} failed")
    return 1 if report.failed else 0


if __name__ == "__main__":
    sys.exit(main(sys.argv[1:]))
