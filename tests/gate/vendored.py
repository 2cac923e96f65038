"""What `bin/vendor` puts into another repository: the crates that are named and all below them, as they are here, with their lines of
crates.txt; a second time nothing changes; and what it refuses is left as it was."""
import os
import shutil
import subprocess
import sys
import tempfile

import crates  # noqa: E402

PROGRAM = [sys.executable, os.path.join(crates.TOP, "bin", "vendor")]
NAME = "icu_table_mini"
OWN = "app: icu_table_mini # mine\n"


def vendored(folder, *names):
    return subprocess.run([*PROGRAM, folder, *names], stdin=subprocess.DEVNULL, capture_output=True, text=True, check=False)


def files(folder):
    """The texts of the files below a folder, by their names; of what builds leave none."""
    found = {}
    for at, folders, names in os.walk(folder):
        folders[:] = [it for it in folders if it != "out"]
        found |= {os.path.relpath(os.path.join(at, it), folder): crates.read(os.path.join(at, it)) for it in names}
    return found


def wrong_copies(folder):
    """What isn't copied as it is here, or changes at a second run."""
    listed = crates.listed()
    names = [*crates.below(listed, NAME), NAME]
    ran = vendored(folder, NAME)
    found = [] if ran.returncode == 0 and "minutes of processor" in ran.stdout else [f"{ran}"]
    if sorted(os.listdir(os.path.join(folder, "crates"))) != sorted(names):
        found.append(f"other crates: {os.listdir(os.path.join(folder, 'crates'))}")
    for name in names:
        here, there = files(listed[name].folder), files(os.path.join(folder, "crates", name))
        wanted = {it: text for it, text in here.items() if it.split("/")[0] in (*crates.PARTS, "README.md", "CALLING.md")}
        if there != {**wanted, "LICENSE": crates.read(os.path.join(crates.TOP, "LICENSE"))}:
            found.append(f"{name}: other files: {sorted(there.keys() ^ wanted.keys())}")
    text = crates.read(os.path.join(folder, "crates.txt"))
    lines = [it.partition(" #")[0].rstrip() for it in text.splitlines()]
    missing = [it for it in names if f"{it}: {' '.join([*listed[it].deps, *listed[it].of_kit])}".rstrip() not in lines]
    found += [f"crates.txt has no line of {it}" for it in missing] + ["its own line is gone"] * (not text.startswith(OWN))
    before = files(folder)
    for again in (vendored(folder, NAME), vendored(folder), vendored(folder, "icu_options")):
        found += [f"a second run: {again}"] * (again.returncode != 0 or {*files(folder)} != {*before})
    # Named once more, it stays by the name of the first run.
    found += [f"{NAME} is gone"] * (f"named: {NAME} icu_options" not in crates.read(os.path.join(folder, "crates.txt")))
    return found


def wrong_refusals(folder, room):
    """What isn't refused by name, or is changed then."""
    changed = os.path.join(folder, "crates", "icu_options", "README.md")
    own = os.path.join(room, "own")
    os.makedirs(os.path.join(own, ".git"))
    os.makedirs(os.path.join(own, "crates", "icu_options"))
    bare = os.path.join(room, "bare")
    os.mkdir(bare)
    with open(changed, "a", encoding="utf-8") as it:
        it.write("changed\n")
    rows = [(folder, NAME, "changed since"), (own, NAME, "didn't copy"), (bare, NAME, "git init"), (crates.TOP, NAME, "own repository"),
            (os.path.join(room, "none"), NAME, "no such folder"), (folder, "none", "no crate of this library")]
    found = []
    for place, name, said in rows:
        before = files(place) if place.startswith(room) else None
        ran = vendored(place, name)
        if ran.returncode != 2 or said not in ran.stderr or before is not None and files(place) != before:
            found.append(f"{place} {name}: {ran}; wanted: {said}")
    return found


def check_vendor(report):
    with tempfile.TemporaryDirectory(prefix="vendored-") as room:
        folder = os.path.join(room, "other")
        os.makedirs(os.path.join(folder, ".git"))
        with open(os.path.join(folder, "crates.txt"), "w", encoding="utf-8") as it:
            it.write(OWN)
        report.say("crates that bin/vendor copies into another repository", wrong_copies(folder), 5)
        report.say("copies that bin/vendor refuses to make", wrong_refusals(folder, room), 6)
        shutil.rmtree(folder)
