"""All files that are installed or put into an archive, made in a folder as they stand below a prefix."""
import os
import shutil
import subprocess

import completions
import crates
import help_texts
import man_pages
import notices
import table_sets
from errors import Refused

# The programs: their names, their crates, and their pages.
PROGRAMS = {"collate-cldr": ("collate_cldr", "COLLATE_CLDR.md"), "collate-index": ("collate_index", "STORED_INDEX.md")}
BINARIES, MANUAL, DOCUMENTS = "bin", "share/man/man1", "share/doc/collate"
COMPLETIONS = {
    "share/bash-completion/completions/{}": completions.bash,
    "share/zsh/site-functions/_{}": completions.zsh,
    "share/fish/vendor_completions.d/{}.fish": completions.fish,
}
SUMS = f"{DOCUMENTS}/SHA256SUMS"


def proved(name):
    """The built program; the command of bin/ proves and builds it, if that was not done since its sources last changed."""
    ran = subprocess.run([os.path.join(crates.TOP, "bin", name), "--help"], stdin=subprocess.DEVNULL, stdout=subprocess.DEVNULL, check=False)
    if ran.returncode:
        raise Refused(f"bin/{name} --help: status {ran.returncode}; it has to prove and build the program, and says above what is wrong")
    crate = PROGRAMS[name][0]
    return os.path.join(crates.TOP, "crates", crate, "out", crate)


def write_manual(name, path, tags, folder):
    """Writes the man page and the completions of a program."""
    program = help_texts.program_of(name, lambda words: table_sets.said(path, words))
    choices = help_texts.choices_of(program, lambda words: table_sets.run(path, words).stderr.decode(errors="replace"))
    page = crates.read(os.path.join(crates.TOP, "docs", PROGRAMS[name][1]))
    others = [it for it in PROGRAMS if it != name]
    notices.write(os.path.join(folder, MANUAL, f"{name}.1"), man_pages.man_page(program, page, crates.version()[0], others))
    for place, made in COMPLETIONS.items():
        notices.write(os.path.join(folder, place.format(name)), made(program, choices, tags))


def stage(folder, cldr, is_for_others):
    """Makes all files in a folder, by the data of CLDR in another one or in the usual one, and returns what is said of languages
    that are left out. What is for others has the licence of the data."""
    data = ["--cldr", cldr] if cldr else []
    where = cldr or os.environ.get("CLDR_DIR") or notices.USUAL_CLDR
    paths = {it: proved(it) for it in PROGRAMS}
    first = paths["collate-cldr"]
    locales = table_sets.locales(first, data)
    documents, tables = os.path.join(folder, DOCUMENTS), os.path.join(folder, table_sets.TABLES)
    os.makedirs(os.path.join(folder, BINARIES))
    os.makedirs(tables)
    notices.copy_licence_of_data(where, tables, is_for_others)
    for name, path in paths.items():
        shutil.copy(path, os.path.join(folder, BINARIES, name))
        write_manual(name, path, [*locales], folder)
    notices.copy_licences([it for it, _ in PROGRAMS.values()], documents)
    notices.write(os.path.join(documents, "VERSIONS"), notices.versions(table_sets.said(first, [*data, "--version"]), paths.values()))
    refused = table_sets.compile_all(first, data, locales, tables)
    notices.write_sums(folder, SUMS)
    return refused


def mode_of(path):
    """The mode of a file, by its path below the prefix."""
    return 0o755 if path.startswith(f"{BINARIES}/") else 0o644
