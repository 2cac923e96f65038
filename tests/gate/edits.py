"""The edits that put wrong bodies into crates, and the record of what each came to when it was last tried (tests/gate/wrong.txt).

An edit is a file crates/NAME/must-fail/*.edit, which the gate tries, or crates/NAME/wrong/*.edit, which `bin/wrong` tries. A row
of the record has the crate, the edit, a sum and what the edit came to. The sum is over the edit, the files that it edits, and the
clauses and definitions of its crate, without comments, layout, imports and the modules that names are reached by. So an edit
that is moved or renamed with all of that keeps its sum and its row. An edit is stale if no row with its sum says `refused`."""
import fcntl
import functools
import hashlib
import os
import re
import sys

import crates  # noqa: E402

RECORD = os.path.join(crates.TOP, "tests", "gate", "wrong.txt")
FOLDERS = ("must-fail", "wrong")
REFUSED, UNTRIED = "refused", "untried"
# What `rt must-fail` and `rt ci` say of an edit, and the word that the record has for it: it is refused only since a proof names
# what is gone, only by a limit of the prover, as it must be, or not at all; it can't be applied or read; nothing is known of it.
WORDS = [("refused, as it must be (only because", "by-names"), ("refused, as it must be (only by a limit", "by-a-limit"),
         ("refused, as it must be", REFUSED), ("NOT REFUSED", "proved"), ("BAD EDIT", "bad"), ("NOT TRIED", UNTRIED)]
SAID = re.compile(r"^(?:rt: )?must-fail ([^/\s]+)/(\S+): (.*)")
CLAUSE = re.compile(r"\s*(?:requires|ensures|invariant|ghost(?! use))\b")
STRING = r'"(?:\\.|[^"\\])*"'
COMMENTS = {".rt": re.compile(rf"({STRING}|'(?:\\.|[^'\\])')|//[^\n]*"), ".antt": re.compile(rf"({STRING})|--[^\n]*")}
IMPORTS = {".rt": re.compile(r"(?m)^\s*(?:pub(?:\([^)]*\))? )?(?:(?:ghost )?use [^;]*|mod \w+);"),
           ".antt": re.compile(r"(?m)^\s*(?:pub )?(?:use|mod)\b[^{\n]*(?:\{[^}]*\})?")}
# The modules before a name; types that end so as well tell one name from another.
PATH = re.compile(r"\bRattle\.(?:\w+\.)+|(?:\b(?!(?:[iu](?:\d+|size)|f\d+|char|str|bool)\b)[a-z_]\w*::)+(?=\w)")
HEAD = "# Edits that the prover must refuse: crate, edit, a sum of what its result rests on, and what it came to (bin/wrong)."


class Edit:
    """An edit of a crate: its file, its name, and its pairs of an old and a new text, each with the file that it edits."""

    def __init__(self, crate, path):
        self.crate, self.path, self.name = crate, path, os.path.basename(path)[: -len(".edit")]
        self.pairs, self.faults = [], []
        file, old = None, None
        for line in crates.read(path).split("\n"):
            if line.startswith("file: "):
                file = line[len("file: ") :].strip()
            elif line.startswith("old: "):
                old = line[len("old: ") :]
            elif line.startswith("new:") and file and old:
                self.pairs.append((file, old, line[len("new:") :].removeprefix(" ")))
                old = None
            elif line.startswith("new:"):
                self.faults.append("a 'new:' line has no 'file:' or no 'old:' line above")

    def __str__(self):
        return f"{self.crate.name}/{self.name}"

    def is_in_gate(self):
        return os.path.basename(os.path.dirname(self.path)) == FOLDERS[0]

    def texts(self):
        """The files that it edits, with their texts; one that isn't there is left out."""
        paths = {file: os.path.join(self.crate.folder, file) for file, _, _ in self.pairs}
        return {file: crates.read(path) for file, path in paths.items() if os.path.isfile(path)}

    def why_not(self):
        """Why it can't be applied, in lines; each text that it replaces stands once in its file, as the pairs above left that."""
        texts, faults = self.texts(), [*self.faults]
        for file, old, new in self.pairs:
            found = texts.get(file, "").count(old)
            if found != 1:
                faults.append(f"its text is in {file} {found} times: {old.strip()}" if file in texts else f"no file {file}")
            texts[file] = texts.get(file, "").replace(old, new)
        return faults or ([] if self.pairs else ["it has no pair of an 'old:' and a 'new:' line"])

    @functools.cached_property
    def sum(self):
        """The sum of what its result rests on."""
        parts = [bare(text, os.path.splitext(file)[1]) for file, *both in self.pairs for text in both]
        parts += [bare(text, os.path.splitext(file)[1]) for file, text in sorted(self.texts().items())]
        return hashlib.sha256("\0".join([*parts, *promises(self.crate.folder)]).encode()).hexdigest()[:16]


def bare(text, ending):
    """A text of a source without comments, imports, the modules before names, and layout."""
    if ending not in COMMENTS:
        return text
    text = COMMENTS[ending].sub(lambda it: it[1] or "", text)
    text = PATH.sub("", IMPORTS[ending].sub("", text))
    return re.sub(r",(?=[)\]}])", "", re.sub(r"\s+", "", text))


@functools.lru_cache(maxsize=None)
def promises(folder):
    """The clauses, ghost items and definitions of the crate in this folder, in an order that doesn't depend on their files."""
    crate, found = crates.Crate(os.path.basename(folder), [], []), []
    for path in crate.files("src", ".rt"):
        lines = crates.read(path).split("\n")
        for at in (it for it, line in enumerate(lines) if CLAUSE.match(line)):
            found.append(bare("\n".join(lines[at : crates.clause_end(lines, at) + 1]), ".rt"))
    found += [bare(crates.read(path), ".antt") for path in crate.files("specs", ".antt")]
    return tuple(sorted(it for it in found if it))


def of_crate(crate, folders=FOLDERS):
    return [Edit(crate, path) for folder in folders for path in crate.files(folder, ".edit")]


def every(listed):
    """All edits, crates from low to high."""
    return [it for name in crates.above(listed, [*listed]) for it in of_crate(listed[name])]


def read():
    """The rows of the record: the sum and the result of each edit, by its crate and its name."""
    lines = crates.read(RECORD).splitlines() if os.path.isfile(RECORD) else []
    rows = (line.split() for line in lines if line and not line.startswith("#"))
    return {f"{crate}/{edit}": (total, came_to) for crate, edit, total, came_to in rows}


def keep(results):
    """Puts what some edits came to into the record: by their names, the sum of each when it was tried and the word for it. A try
    that says nothing leaves a row with its sum as it is, and rows of edits that are gone are left out. Several runs of bin/wrong
    may do so side by side."""
    turn = os.open(os.path.dirname(RECORD), os.O_RDONLY)
    try:
        fcntl.flock(turn, fcntl.LOCK_EX)
        write(results)
    finally:
        os.close(turn)


def write(results):
    rows = read()
    known = {total: (total, word) for total, word in rows.values()}
    lines = [HEAD]
    for it in sorted(every(crates.listed()), key=str):
        row = rows.get(str(it)) or known.get(it.sum)
        tried = results.get(str(it))
        if tried and not (row and tried[1] == UNTRIED and tried[0] == row[0]):
            row = tried
        lines += [f"{it.crate.name} {it.name} {row[0]} {row[1]}"] if row else []
    with open(f"{RECORD}.new", "w", encoding="utf-8") as file:
        file.write("\n".join(lines) + "\n")
    os.replace(f"{RECORD}.new", RECORD)


def came_to(lines):
    """What edits came to by these lines of `rt must-fail` or `rt ci`, by crate and edit."""
    told = [it for it in map(SAID.match, lines) if it]
    return {f"{it[1]}/{it[2].removesuffix('.edit')}": next((word for said, word in WORDS if it[3].startswith(said)), UNTRIED)
            for it in told}


def why_stale(it, rows, refused):
    """Why an edit is to be tried, or None; `refused` has the sums of the rows that say so."""
    if it.sum in refused:
        return None
    total, word = rows.get(str(it), (None, None))
    if total is None:
        return "it has no row"
    return f"it came to `{word}`" if total == it.sum else "its sum changed"


def stale(edits):
    """The edits that are to be tried, each with the reason."""
    rows = read()
    refused = {total for total, word in rows.values() if word == REFUSED}
    found = [(it, why_stale(it, rows, refused)) for it in edits]
    return [(it, why) for it, why in found if why]


def misplaced(edits):
    """The edits that can't be applied, each with the reasons."""
    found = [(it, it.why_not()) for it in edits]
    return [(it, why) for it, why in found if why]
