"""Table files of all languages whose collations stand in a folder of CLDR's data: of each the default order, and that for searches if it
has one of its own. A language without one is searched by that of the root."""
import concurrent.futures
import os
import subprocess

import crates
from errors import Refused

# The folder of table files below a prefix, and how their names end: TAG.table.
TABLES, SUFFIX = "share/collate", ".table"
FOR_SEARCH = "-u-co-search"


def run(program, words):
    """A run of a program in which the environment chooses no language."""
    return subprocess.run([program, *words], stdin=subprocess.DEVNULL, capture_output=True, env={**os.environ, "LC_ALL": "C"}, check=False)


def said(program, words):
    """What a program prints for some words, or else what it says is wrong."""
    ran = run(program, words)
    if ran.returncode:
        raise Refused(ran.stderr.decode(errors="replace").strip() or f"{program} {' '.join(words)}: status {ran.returncode}")
    return ran.stdout.decode()


def locales(program, data):
    """The types of the locales that there are collations of, by their tags; `data` are the words that name the folder of CLDR's data."""
    lines = said(program, [*data, "--list-locales"]).splitlines()
    if not lines:
        raise Refused("CLDR's data have no collations; name another folder by --cldr")
    return {tag: types.split() for tag, _, types in (line.partition("\t") for line in lines)}


def compile_all(program, data, listed, folder):
    """Writes the table files of these locales, and returns what is said of those that can't be made."""
    names = [*listed, *(tag + FOR_SEARCH for tag, types in listed.items() if "search" in types)]

    def compiled(name):
        ran = run(program, ["compile", "--quiet", *data, "-l", name, "-o", os.path.join(folder, name + SUFFIX)])
        return f"{name}: {ran.stderr.decode(errors='replace').strip()}" if ran.returncode else None

    with concurrent.futures.ThreadPoolExecutor(crates.processors()) as pool:
        refused = [it for it in pool.map(compiled, names) if it]
    if len(refused) == len(names):
        raise Refused(f"no table file could be made: {refused[0]}")
    return refused
