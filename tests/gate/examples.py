"""The examples of the pages, which have to print what the pages say. In a block of code a line that begins with `$ ` is a command,
and the lines below it are what it prints, errors too. A line that begins with a program's name is a command as well, whose status
has to be 0 or 1; what its comment says it `prints` comes first. The commands of a page are run in turn, in a folder with the files of
tests/gate/examples/PAGE. Those of NOT_RUN aren't run, nor are those over CLDR's data where these aren't installed, or of another version."""
import os
import re
import shutil
import subprocess
import tempfile

import crates
from sweeps import TOP, built

PAGES = ["README.md", "docs/COLLATE_CLDR.md", "docs/STORED_INDEX.md", "docs/USING.md", "crates/collate/README.md"]
PROGRAMS = {"collate": "collate", "collate-cldr": "collate_cldr", "collate-index": "collate_index"}
OURS = re.compile(r"(?:bin/)?collate(?:-cldr|-index)? ")
OVER_CLDR = re.compile(r"collate-(?:cldr|index) |merged")
# Commands that aren't run, by how they begin, each with the reason.
NOT_RUN = {
    "psql": "PostgreSQL",
    "mkdir -p names": "another repository, which tests/gate/vendored.py has",
    "~/collation/bin/vendor": "another repository, which tests/gate/vendored.py has",
    "cd crates/names": "a compiler's run of minutes; the gate runs the same program, crates/use_language",
}
# What a form of a command has, and no command.
FORMS = re.compile(r"\[|\.\.\.|\b(?:FILE|TEXT|OUT|NAME)\b")
CLDR = os.environ.get("CLDR_DIR") or "/usr/share/unicode/cldr"


def commands(page):
    """The commands of a page: line, text, and what is to be printed or None."""
    found, lines = [], open(os.path.join(TOP, page), encoding="utf-8").read().split("\n")
    at = 0
    while at < len(lines):
        text, at = lines[at], at + 1
        if text.startswith("    $ "):
            line, command, wanted = at, text[6:], []
            end = re.search(r"<<'(\w+)'", command)
            while end and at < len(lines) and lines[at - 1].strip() != end[1]:
                command, at = f"{command}\n{lines[at][4:]}", at + 1
            while at < len(lines) and lines[at].startswith("    ") and not lines[at].startswith("    $ "):
                wanted, at = [*wanted, lines[at][4:]], at + 1
            found.append((line, command, "".join(f"{it}\n" for it in wanted)))
        elif text.startswith("    ") and OURS.match(text[4:]) and not FORMS.search(text.partition("#")[0]):
            found.append((at, text[4:], None))
    return found


def reason_against(command, has_data):
    """Why a command isn't run, or None."""
    why = next((why for begins, why in NOT_RUN.items() if command.startswith(begins)), None)
    return why or (None if has_data or not OVER_CLDR.search(command) else "the data of CLDR 41")


def run_page(page, bin_folder, has_data):
    """What is wrong with the examples of a page, how many were run, and the reasons of those that weren't."""
    found, count, left = [], 0, []
    with tempfile.TemporaryDirectory(prefix="examples-") as room:
        folder = os.path.join(room, "work")
        files = os.path.join(TOP, "tests", "gate", "examples", os.path.splitext(os.path.basename(page))[0])
        shutil.copytree(files, folder) if os.path.isdir(files) else os.mkdir(folder)
        os.symlink(os.path.join(TOP, "bin"), os.path.join(folder, "bin"))
        env = {**{it: os.environ[it] for it in ("HOME", "LD_LIBRARY_PATH") if it in os.environ}, "CLDR_DIR": CLDR}
        env["PATH"] = f"{bin_folder}:{os.environ['PATH']}"
        for line, command, wanted in commands(page):
            why = reason_against(command, has_data)
            if why:
                left.append(why)
                continue
            how = {"stdin": subprocess.DEVNULL, "stdout": subprocess.PIPE, "stderr": subprocess.STDOUT, "text": True, "check": False}
            ran = subprocess.run(["bash", "-c", command], cwd=folder, env=env, timeout=300, **how)
            count += 1
            first = re.search(r"# prints (\S+)", command)
            is_right = ran.stdout == wanted if wanted is not None else ran.returncode in (0, 1)
            if not is_right or wanted is None and first and not ran.stdout.startswith(first[1]):
                found.append(f"{page}:{line}: {command}: status {ran.returncode}, {ran.stdout!r}; wanted: {wanted!r}"[:800])
    return found, count, left


# A row of the table of what languages find: the language, what is searched for, in what, and whether it is found by default and by -1.
FOUND = re.compile(r"(?m)^\| `([\w-]+)` \| (\S+) \| (\S+) \| (yes|no) \| (yes|no) \|$")


def wrong_finds(page, bin_folder):
    """Rows of that table that aren't as run, and how many there are."""
    rows, found = FOUND.findall(crates.read(os.path.join(TOP, page))), []
    for language, pattern, text, *wanted in rows:
        ran = [subprocess.run([f"{bin_folder}/collate-cldr", "search", "-q", "-l", language, *words, "--", pattern], env={"CLDR_DIR": CLDR},
                              input=f"{text}\n", text=True, capture_output=True, check=False) for words in ([], ["-1"])]
        if [("yes", "no", it.stderr)[min(it.returncode, 2)] for it in ran] != wanted:
            found.append(f"search -l {language} {pattern} in {text}: {ran}; wanted: {wanted}")
    return found if len({it[0] for it in rows}) >= 10 else [f"too few languages in the table of {page}: {rows}"], 2 * len(rows)


def has_data(bin_folder):
    """Whether the data of CLDR 41 are installed, by which the pages' examples were run."""
    if not os.path.isfile(os.path.join(CLDR, "common", "uca", "FractionalUCA.txt")):
        return False
    ran = subprocess.run([f"{bin_folder}/collate-cldr", "--version"], env={"CLDR_DIR": CLDR}, capture_output=True, text=True, check=False)
    return "CLDR 41\n" in ran.stdout


def check_examples(report):
    with tempfile.TemporaryDirectory(prefix="examples-bin-") as room:
        for name, crate in PROGRAMS.items():
            os.symlink(built(crate), os.path.join(room, name))
        found, count, left, data = [], 0, {}, has_data(room)
        for page in PAGES:
            wrong, ran, why = run_page(page, room, data)
            found, count = found + wrong, count + ran
            for it in why:
                left[it] = left.get(it, 0) + 1
        if data:
            report.say("what languages find, in the manual's table", *wrong_finds("docs/COLLATE_CLDR.md", room))
        said = "".join(f"; {number} not run: {why}" for why, number in left.items())
        report.say(f"examples of the pages{said}", found, count)
