"""Builds the bench: the library, in a copy of the crates, and the program over it."""
import os
import shlex
import shutil
import subprocess
import sys

HERE = os.path.dirname(os.path.realpath(__file__))
TOP = os.path.dirname(HERE)
NAME = "collation_bench"
LIBRARIES = ("icu_table_provider icu_table_check icu_element_reading icu_text_decomposition icu_element_cursor "
             "icu_collator icu_index icu_search icu_table_files icu_table_mini icu_cldr_root")
PARTS = ("src", "specs", "proofs")
COMPILER = os.environ.get("CXX", "g++")
# Where Debian's package unicode-cldr-core installs CLDR.
CLDR = "/usr/share/unicode/cldr"


def say(text):
    print(f"bench: {text}", file=sys.stderr, flush=True)


def want_commands():
    """Ends the program where a command is missing that building needs."""
    for command in ("rt", COMPILER, "pkg-config"):
        if not shutil.which(command):
            sys.exit(f"bench: the command '{command}' is not on the PATH")


def run(words, folder=None, **more):
    """Runs a command, whose output goes to standard error, and ends the program where it fails."""
    say(shlex.join(words))
    status = subprocess.run(words, cwd=folder, stdout=sys.stderr, env={**os.environ, **more}, check=False).returncode
    if status != 0:
        sys.exit(f"bench: {words[0]} ended with status {status}")


def output(words):
    return subprocess.run(words, capture_output=True, text=True, check=True).stdout.strip()


def peer_version():
    return output(["pkg-config", "--modversion", "icu-i18n"])


def made_anew(source, target):
    shutil.rmtree(target, ignore_errors=True)
    if os.path.isdir(source):
        shutil.copytree(source, target)


def stamped(library):
    """When the built library was made, or 0 where there is none."""
    stamp = os.path.join(library, "stamp")
    return os.path.getmtime(stamp) if os.path.exists(stamp) else 0


def copy_crate(source, target):
    """Copies a crate's sources, and its library where one was built since the copy's own: `rt` proves what has none that fits."""
    for part in PARTS:
        made_anew(os.path.join(source, part), os.path.join(target, part))
    built, kept = (os.path.join(it, "out", "rlib") for it in (source, target))
    if stamped(built) > stamped(kept):
        made_anew(built, kept)


def copy_repository(copy):
    """Copies all crates, with the bench's own beside them."""
    with open(os.path.join(TOP, "crates.txt"), encoding="utf-8") as it:
        listed = it.read()
    for line in listed.splitlines():
        name = line.partition("#")[0].partition(":")[0].strip().partition(" ")[0]
        if name:
            copy_crate(os.path.join(TOP, "crates", name), os.path.join(copy, "crates", name))
    with open(os.path.join(copy, "crates.txt"), "w", encoding="utf-8") as it:
        it.write(f"{listed}\n{NAME} staticlib: {LIBRARIES}\n")
    copy_library(os.path.join(copy, "crates", NAME))


def copy_library(crate):
    """Copies the bench's own crate. Here its files end in .txt: the gate takes each .rt file for one of a crate that it proves."""
    copy_crate(os.path.join(HERE, "library"), crate)
    for part in PARTS:
        for at, _, names in os.walk(os.path.join(crate, part)):
            for name in names:
                file = os.path.join(at, name)
                os.rename(file, file.removesuffix(".txt"))
    # A crate that calls C has a folder for C; what it calls is in the program.
    os.makedirs(os.path.join(crate, "c"), exist_ok=True)


def build(program, folder, jobs, shift):
    """Builds the library and the program over it, with so many bytes of nothing before the library's code."""
    copy = os.path.join(folder, "repository")
    copy_repository(copy)
    crate = os.path.join(copy, "crates", NAME)
    run(["rt", "lib", *(["--jobs", jobs] if jobs else [])], crate, RT_ALLOW_C=NAME)
    before = os.path.join(folder, "shift.s")
    with open(before, "w", encoding="utf-8") as it:
        it.write(f".text\n.p2align 6\n.skip {shift}, 0x90\n.section .note.GNU-stack,\"\",@progbits\n")
    kit = os.path.dirname(os.path.dirname(os.path.realpath(shutil.which("rt"))))
    words = [COMPILER, "-std=c++20", "-O2", "-Wall", "-o", program, os.path.join(HERE, "main.cpp"), before]
    words += [os.path.join(crate, "out", f"lib{NAME}.a")]
    words += [os.path.join(kit, "c", it) for it in ("liblibc_c.a", "libos_c.a")]
    words += shlex.split(output(["pkg-config", "--cflags", "--libs", "icu-i18n", "icu-uc"]))
    run(words)


def proved_program():
    """The program `collate-cldr`, proved and built where that wasn't done since its sources last changed."""
    run([os.path.join(TOP, "bin", "collate-cldr"), "--help"])
    return os.path.join(TOP, "crates", "collate_cldr", "out", "collate_cldr")


def tables_of(program, language, cldr, folder):
    """The table file of a language, compiled."""
    tables = os.path.join(folder, f"{language}.tables")
    run([program, "compile", "--cldr", cldr, "-l", language, "-o", tables])
    return tables
