#!/usr/bin/env python3
"""Runs the tests that only Rattle can write. They are in tests/rattle, under an ending of their own, since the toolchain takes a
file that ends in .rt nowhere outside of crates/NAME/src. A copy of the sources, with the tests as one crate more, is compiled without
a proof, and each test is run once.

usage: tests/gate/rattle_tests.py          prints a line for each test, and at the end `N passed, M failed`; it needs no earlier build
       tests/gate/rattle_tests.py --fmt    brings the files of tests/rattle into the layout of `rt fmt`

tests/rattle/crates has the libraries that the tests name, one a line. A test that isn't run counts as failed.
"""
import os
import re
import shutil
import subprocess
import sys
import tempfile

import crates

NAME = "rattle_tests"
FOLDER = os.path.join(crates.TOP, "tests", "rattle")
SOURCES, LIBRARIES = os.path.join(FOLDER, "src"), os.path.join(FOLDER, "crates")
ENDING = ".rattle"
# How long the compiler and all tests may take, which isn't optimized, in seconds.
SECONDS = 3600
DECLARED = re.compile(r"^ *#\[test\]\n(?: *(?:#\[|//).*\n)* *(?:pub )?fn (\w+)", re.M)
VERDICT = re.compile(r"^test (\S+) \.\.\. (\w+)")
# How many lines are shown of what a test says that fails, or of a compiler that refuses the sources.
SHOWN = 40


# ---- the tests and the copy that runs them


def sources():
    """The files of the tests, by their paths from the crate's folder, without their ending."""
    for at, folders, names in os.walk(SOURCES):
        folders.sort()
        for name in sorted(it for it in names if it.endswith(ENDING)):
            yield os.path.relpath(os.path.join(at, name), SOURCES)[: -len(ENDING)]


def libraries():
    """The libraries that the tests name."""
    return crates.read(LIBRARIES).split()


def source(path):
    return os.path.join(SOURCES, path + ENDING)


def text():
    """All sources of the tests."""
    return "\n".join(crates.read(source(it)) for it in sources())


def declared():
    """Each test, by its path from the crate on, in the order of the files."""
    for path in sources():
        modules = [] if path == "lib" else path.split(os.sep)
        yield from ("::".join([*modules, it]) for it in DECLARED.findall(crates.read(source(path))))


def copied(room, folder=crates.TOP):
    """Copies the crates of a repository with the tests among them, and returns the folder of the crate of tests."""
    for name in sorted(os.listdir(os.path.join(folder, "crates"))):
        for part in crates.PARTS:
            found = os.path.join(folder, "crates", name, part)
            if os.path.isdir(found):
                shutil.copytree(found, os.path.join(room, "crates", name, part))
    shutil.copy(os.path.join(folder, "HANDLES"), room)
    with open(os.path.join(room, "crates.txt"), "w", encoding="utf-8") as it:
        it.write(f"{crates.read(os.path.join(folder, 'crates.txt'))}\n{NAME}: {' '.join(libraries())}\n")
    crate = os.path.join(room, "crates", NAME)
    for path in sources():
        target = os.path.join(crate, "src", f"{path}.rt")
        os.makedirs(os.path.dirname(target), exist_ok=True)
        shutil.copy(source(path), target)
    return crate


def tried(crate):
    """Compiles and runs the tests; the status, and the lines that are said."""
    words = ["rt", "try", "--test", "--seconds", str(SECONDS)]
    how = {"stdin": subprocess.DEVNULL, "stdout": subprocess.PIPE, "stderr": subprocess.STDOUT, "errors": "replace"}
    done = subprocess.run(words, cwd=crate, text=True, check=False, **how)
    return done.returncode, done.stdout.splitlines()


# ---- what came of them


def verdicts(lines):
    """The word that each test ended with, and the lines below it, by its path."""
    found, name = {}, None
    for line in lines:
        verdict = VERDICT.match(line)
        if verdict:
            name = verdict[1]
            found[name] = verdict[2], []
        elif name and line.startswith(" "):
            found[name][1].append(line.strip())
        else:
            name = None
    return found


def faults(tests, status, lines):
    """For each test that is declared or was run, what is wrong with it; for the run of all, if it ended otherwise than they say."""
    found = verdicts(lines)
    wrong = {it: ["it was not run"] for it in tests if it not in found}
    wrong |= {name: said or [word] for name, (word, said) in found.items() if word != "ok"}
    wrong |= {name: ["no file declares it"] for name in found if name not in tests}
    if not found:
        return {"the tests are compiled": lines[-SHOWN:] or [f"status {status}"]}
    return wrong or ({"the run of the tests": [f"it ended with status {status}", *lines[-2:]]} if status else {})


def check_rattle_tests(report):
    """Runs all tests, and says of each how it went."""
    tests = [*declared()]
    with tempfile.TemporaryDirectory(prefix="rattle-tests-") as room:
        wrong = faults(tests, *tried(copied(room)))
    for name in tests if "the tests are compiled" not in wrong else []:
        report.say(f"tests/rattle: {name}", wrong.pop(name, []), 1)
    for name, said in wrong.items():
        report.say(f"tests/rattle: {name}", said, 1)
    unnamed = [f"tests/rattle/crates lists {it}, which no test names" for it in libraries() if not re.search(rf"\b{it}\b", text())]
    report.say("tests/rattle: the libraries that are listed are named", unnamed, len(libraries()))
    report.say("tests/rattle: a test that fails or isn't run is found", faults_missed(), len(PLANTED))


# What a run may say, with what has to be found wrong with the tests `one` and `more::two`.
PLANTED = [
    (101, ["test one ... ok", "test more::two ... FAILED", "    left: 1"], {"more::two": ["left: 1"]}),
    (0, ["test one ... ok"], {"more::two": ["it was not run"]}),
    (0, ["test one ... ok", "test more::two ... ok", "test other ... ok"], {"other": ["no file declares it"]}),
    (1, ["src/lib.rt:1:1: error"], {"the tests are compiled": ["src/lib.rt:1:1: error"]}),
    (1, ["test one ... ok", "test more::two ... ok"], {"the run of the tests": ["it ended with status 1", "test one ... ok",
                                                                             "test more::two ... ok"]}),
    (0, ["test one ... ok", "    test more::two ... ok"], {"more::two": ["it was not run"]}),
    (0, ["test one ... ok", "test more::two ... ok"], {}),
]


def faults_missed():
    """What is found of the planted runs otherwise than it should be."""
    found = [(said, faults(["one", "more::two"], *said)) for *said, _ in PLANTED]
    return [f"{said}: {it}" for (said, it), (*_, wanted) in zip(found, PLANTED) if it != wanted]


def lay_out():
    """Brings the files into the toolchain's layout, by a copy."""
    with tempfile.TemporaryDirectory(prefix="rattle-tests-") as room:
        crate = copied(room)
        status = subprocess.run(["rt", "fmt"], cwd=crate, check=False).returncode
        for path in sources():
            shutil.copy(os.path.join(crate, "src", f"{path}.rt"), source(path))
    return status


class Report:
    """Says of each test how it went, and counts them."""

    def __init__(self):
        self.passed, self.failed = 0, 0

    def say(self, what, wrong, _):
        self.passed, self.failed = self.passed + (not wrong), self.failed + bool(wrong)
        print(f"{'ok    ' if not wrong else 'FAILED'} {what}", flush=True)
        for it in wrong[:SHOWN]:
            print(f"       {it}", flush=True)

    def end(self):
        print(f"{self.passed} passed, {self.failed} failed")
        return 1 if self.failed else 0


def main(words):
    if words not in ([], ["--fmt"]):
        print(__doc__, file=sys.stderr)
        return 2
    if words:
        return lay_out()
    report = Report()
    check_rattle_tests(report)
    return report.end()


if __name__ == "__main__":
    sys.exit(main(sys.argv[1:]))
