#!/usr/bin/env python3
"""What `bin/install` puts below a prefix, takes away and packs, over the small files of collations: files and modes, the man pages
and completions beside `--help`, checksums, two archives of the same bytes, and what is refused.

usage: tests/programs/installed.py    the programs have to be built; the last line is `N passed, M failed`
"""
import hashlib
import os
import re
import shutil
import stat
import subprocess
import sys
import tarfile
import tempfile

from cldr_locales import FOLDER
from cldr_program import options_of_help
from sweeps import ENVIRONMENT, TOP, built, run

PROGRAMS = {"collate-cldr": "collate_cldr", "collate-index": "collate_index"}
PREFIX, SUMS, LIST = "/opt/names", "share/doc/collate/SHA256SUMS", "share/doc/collate/INSTALLED"
# Languages whose rules are refused.
REFUSED = ["ko", "ta", "te"]
BASH, ZSH, FISH = "share/bash-completion/completions/{}", "share/zsh/site-functions/_{}", "share/fish/vendor_completions.d/{}.fish"
WHEN = 1_000_000_000


def read(*path):
    with open(os.path.join(*path), encoding="utf-8") as it:
        return it.read()


class Place:
    """A folder in the place of / that `bin/install` installs below, and the data of CLDR by which it does."""

    def __init__(self, room, cldr):
        self.room, self.cldr, self.top = room, cldr, os.path.join(room, "root")
        self.root = self.top + PREFIX

    def run(self, *words, umask=0o077, cldr=None):
        """Status, output and faults of a run, which the umask may not change."""
        data = [] if "--uninstall" in words else ["--cldr", cldr or self.cldr]
        env = {**ENVIRONMENT, "PATH": os.environ["PATH"], "DESTDIR": self.top, "SOURCE_DATE_EPOCH": str(WHEN)}
        ran = subprocess.run([os.path.join(TOP, "bin", "install"), "--prefix", PREFIX, *data, *words], cwd=self.room, env=env, umask=umask,
                             stdin=subprocess.DEVNULL, capture_output=True, timeout=600, check=False)
        return ran.returncode, ran.stdout.decode(), ran.stderr.decode()

    def files(self):
        return sorted(os.path.relpath(os.path.join(at, it), self.root) for at, _, names in os.walk(self.root) for it in names)


def small_data(room):
    """The small files of collations without those that are refused, and with a licence."""
    folder = os.path.join(room, "cldr")
    shutil.copytree(FOLDER, folder, ignore=shutil.ignore_patterns(*(f"{it}.xml" for it in REFUSED)))
    with open(os.path.join(folder, "LICENSE"), "w", encoding="utf-8") as it:
        it.write("The licence of the data.\n")
    return folder


# ---- what is there


def wrong_files(place):
    """Files that aren't installed, or with another mode or text."""
    files, found = place.files(), []
    tags = re.findall(r"(?m)^(\S+)\t(.*)$", run(built("collate_cldr"), ["--list-locales", "--cldr", place.cldr]).output.decode())
    wanted = {f"share/collate/{tag}.table" for tag, _ in tags} | {SUMS, LIST, "share/collate/LICENSE"}
    wanted |= {f"share/collate/{tag}-u-co-search.table" for tag, types in tags if "search" in types.split()}
    wanted |= {form.format(it) for it in PROGRAMS for form in ("bin/{}", "share/man/man1/{}.1", BASH, ZSH, FISH)}
    wanted |= {f"share/doc/collate/{it}" for it in ("LICENSE", "VERSIONS", "toolchain/clap/LICENSE-MIT", "toolchain/strsim/LICENSE")}
    found += [f"not installed: {it}" for it in sorted(wanted - {*files})] + ["too few tables"] * (len(tags) < 10)
    found += [f"not wanted: {it}" for it in files if it not in wanted and not it.startswith("share/doc/collate/toolchain/")]
    for it in files:
        mode = stat.S_IMODE(os.stat(os.path.join(place.root, it)).st_mode)
        found += [f"{it} has the mode {mode:o}"] * (mode != (0o755 if it.startswith("bin/") else 0o644))
    folders = [at for at, _, _ in os.walk(place.root) if stat.S_IMODE(os.stat(at).st_mode) != 0o755]
    versions = read(place.root, "share/doc/collate/VERSIONS")
    said = ["collate-cldr 0.1", "CLDR 41", "root collation: Unicode 0", "Toolchain: rattle-kit-", "Needs: Linux on x86-64"]
    return found + [f"the mode of {it}" for it in folders] + [f"no version: {it}" for it in said if it not in versions]


def wrong_texts(place, room):
    """Programs and table files that aren't those that were built or are compiled anew, and wrong checksums."""
    found, made = [], os.path.join(room, "made.table")
    for name, crate in PROGRAMS.items():
        found += [f"another {name}"] * (digest(built(crate)) != digest(os.path.join(place.root, "bin", name)))
    for tag in ("sv", "sv-u-co-search", "und", "fr-CA"):
        run(built("collate_cldr"), ["compile", "--quiet", "--cldr", place.cldr, "-l", tag, "-o", made])
        found += [f"another table of {tag}"] * (digest(made) != digest(os.path.join(place.root, "share", "collate", f"{tag}.table")))
    sums = dict(reversed(line.split("  ")) for line in read(place.root, SUMS).splitlines())
    found += [f"no checksum of {it}" for it in place.files() if it not in sums and it not in (SUMS, LIST)]
    return found + [f"another checksum of {it}" for it, said in sums.items() if said != digest(os.path.join(place.root, it))]


def digest(path):
    with open(path, "rb") as it:
        return hashlib.sha256(it.read()).hexdigest()


# ---- man pages and completions


def options_of(program):
    """The options of `--help`, and their other names, by the command."""
    said = options_of_help(program)
    for command in {it for it, _ in said} - {"none"}:
        others = re.findall(r"\[alias(?:es)?: ([^]]*)\]", run(program, [command, "--help"]).output.decode())
        said |= {(command, it) for names in others for it in names.split(", ")}
    return said


def options_of_man(page, commands):
    """The options that a man page lists below its headings, by the commands that these name."""
    found, named = set(), set()
    for line in page.replace("\\-", "-").splitlines():
        heading = re.match(r'\.SS "Options (of|without) (.*)"', line)
        if heading:
            words = {*re.findall(r"\w+", heading[2])} & commands
            named = {"none"} if heading[1] == "without" else commands - words if "all commands" in heading[2] else words
        elif line.startswith("."):
            named = named if line == ".TP" else set()
        elif line.startswith("\\fB-"):
            found |= {(name, it) for name in named for it in re.findall(r"\\fB(--?[\w-]+)", line)}
    return found


def wrong_man(page, wanted):
    """Options that the man page of a program has and `--help` hasn't, or the other way round."""
    listed = options_of_man(page, {it for it, _ in wanted} - {"none"})
    listed = {it for it in listed if it[1] != "--help"}
    return [f"the man page has {it}" for it in sorted(listed - wanted)] + [f"the man page hasn't {it}" for it in sorted(wanted - listed)]


def wrong_layout(page):
    """What `groff` finds wrong in a man page, if it is there."""
    if not shutil.which("groff"):
        return []
    ran = subprocess.run(["groff", "-man", "-Tutf8", "-Kutf8", "-ww", "-z"], input=page.encode(), capture_output=True, check=False)
    return [f"groff: {ran.stderr.decode()[:400]}"] * bool(ran.returncode or ran.stderr)


# What bash completes: words, and what has to be offered, as far as it is known.
COMPLETED = [
    ("collate-cldr", ["so"], ["sort"]),
    ("collate-cldr", ["sort", "--strength", "t"], ["tertiary"]),
    ("collate-cldr", ["sort", "--strength", "=", "q"], ["quaternary"]),
    ("collate-cldr", ["sort", "--numeric", "="], ["on", "off"]),
    ("collate-cldr", ["search", "--colour", "a"], ["auto", "always"]),
    ("collate-cldr", ["check", "-l", "zh"], ["zh", "zh-Hant"]),
    ("collate-cldr", ["sort", "--rules", "x"], []),
    ("collate-index", ["headings", "names.db", "--la"], ["--labels"]),
    ("collate-index", ["list", "names.db", "--alternate", "sh"], ["shifted"]),
]
COMPLETE = """source "$1"; shift; function=$1; shift
COMP_WORDS=("$@"); COMP_CWORD=$(($# - 1)); "$function"; printf '%s\\n' "${COMPREPLY[@]}"
"""


def completed(place, program, words):
    """What bash offers for the last of the words behind the program's name."""
    given = [os.path.join(place.root, BASH.format(program)), f"_{program.replace('-', '_')}", program, *words]
    ran = subprocess.run(["bash", "-c", COMPLETE, "bash", *given], cwd=place.room, env=ENVIRONMENT, capture_output=True, text=True, check=False)
    return ran.stdout.split() if not ran.stderr else [ran.stderr]


def wrong_bash(place, program, wanted):
    found = []
    for command in sorted({it for it, _ in wanted}):
        said = {*completed(place, program, ["-"] if command == "none" else [command, "-"])} - {"--help"}
        options = {it for name, it in wanted if name == command}
        found += [f"bash completes {program} {command} by {sorted(said ^ options)}, or not"] * (said != options)
    rows = [(words, offered) for name, words, offered in COMPLETED if name == program]
    return found + [f"bash completes {words} by {it}" for words, offered in rows if (it := completed(place, program, words)) != offered]


def options_of_zsh(text, program):
    """The options of zsh's completion, by the command."""
    function, found = f"_{program.replace('-', '_')}", set()
    for name, body in re.findall(rf"(?ms)^{function}(-\w+|)\(\) \{{\n(.*?)^\}}", text):
        found |= {(name[1:] or "none", it) for it in re.findall(r"'\*(--?[\w-]+?)(?:=-|=|\+|)\[", body)}
    return found


def options_of_fish(text):
    """The options of fish's completion, by the command."""
    found = set()
    for line in text.splitlines():
        command = re.search(r"-n '__fish_seen_subcommand_from (\w+)'", line)
        names = re.findall(r" -(s|l) (\S+)", re.sub(r"'[^']*'", "", line))
        found |= {(command[1] if command else "none", f"{'-' if kind == 's' else '--'}{it}") for kind, it in names}
    return found


def wrong_others(place, program, wanted):
    """Options of zsh's and fish's completions that aren't those of `--help`, and shells that can't read them."""
    paths = {it: os.path.join(place.root, form.format(program)) for it, form in {"bash": BASH, "zsh": ZSH, "fish": FISH}.items()}
    listed = {"zsh": options_of_zsh(read(paths["zsh"]), program), "fish": options_of_fish(read(paths["fish"]))}
    found = [f"{shell}'s completions differ by {it}" for shell, its in listed.items() for it in sorted((its ^ wanted) - {(it, "--help") for it, _ in its})]
    for shell, path in paths.items():
        if shutil.which(shell):
            ran = subprocess.run([shell, "-n", path], capture_output=True, text=True, check=False)
            found += [f"{shell} -n: {ran.stderr[:400]}"] * bool(ran.returncode or ran.stderr)
    return found


def wrong_manuals(place):
    found, count = [], 0
    for name, crate in PROGRAMS.items():
        wanted, page = options_of(built(crate)), read(place.root, "share", "man", "man1", f"{name}.1")
        count += len(wanted)
        found += wrong_man(page, wanted) + wrong_layout(page) + wrong_bash(place, name, wanted) + wrong_others(place, name, wanted)
        for old, new in [("\\fB\\-\\-strength", "\\fB\\-\\-strenght"), ("\\fB\\-l", "\\fB\\-k"), ("Options of all commands", "Options without a command")]:
            found += [f"not found in a man page: {new} for {old}"] * (not wrong_man(page.replace(old, new, 1), wanted))
    return found, count


# ---- runs one after another, archives, and what is refused


def wrong_again(place):
    """What a second run does wrong, by data with languages that are refused and without a licence: the languages are named and left
    out, and what the first run put there and the second doesn't is taken away."""
    before = {*place.files()}
    old, listed = os.path.join(place.root, "share", "collate", "old.table"), os.path.join(place.root, LIST)
    with open(old, "w", encoding="utf-8") as it:
        it.write("old\n")
    with open(listed, "a", encoding="utf-8") as it:
        it.write("share/collate/old.table\n")
    status, _, faults = place.run(umask=0o002, cldr=FOLDER)
    found = [f"a second run: status {status}, {faults}"] * (status != 1)
    found += [f"{it} isn't named: {faults}" for it in REFUSED if f"no table file of {it}: collate-cldr: " not in faults]
    # A type for searches may be taken of a language whose default type is refused.
    files = {*place.files()} - {f"share/collate/{it}-u-co-search.table" for it in REFUSED}
    return found + [f"other files: {before ^ files}"] * (files != before - {"share/collate/LICENSE"})


def wrong_uninstall(place):
    """What is left after all is taken away but a file of somebody else."""
    own = os.path.join(place.root, "share", "collate", "own.table")
    with open(own, "w", encoding="utf-8") as it:
        it.write("own\n")
    found = [f"taken away: {ran}" for ran in [place.run("--uninstall")] if ran != (0, "", "")]
    left = [os.path.relpath(os.path.join(at, it), place.root) for at, folders, names in os.walk(place.root) for it in folders + names]
    found += [f"left: {left}"] * (sorted(left) != ["share", "share/collate", "share/collate/own.table"])
    status, _, faults = place.run("--uninstall")
    return found + [f"taken away twice: {faults}"] * (status != 2 or "nothing is installed there" not in faults)


def wrong_archives(place, files):
    """Two archives with other bytes, or with other files than are installed."""
    paths, found = [os.path.join(place.room, it) for it in ("one.tar.xz", "two.tar.xz")], []
    for path, umask in zip(paths, (0o077, 0o002)):
        status, output, faults = place.run("--archive", path, umask=umask)
        found += [f"an archive: {faults}"] * (status != 0 or output != f"{digest(path)}  {path}\n")
    found += ["archives with other bytes"] * (digest(paths[0]) != digest(paths[1]))
    with tarfile.open(paths[0]) as packed:
        members = packed.getmembers()
    names = [it.name.partition("/")[2] for it in members if it.isfile()]
    found += [f"other files in an archive: {sorted({*names} ^ {*files} - {LIST})}"] * (sorted(names) != sorted({*files} - {LIST}))
    fixed = {(it.mtime, it.uid, it.gid, it.uname, it.gname) for it in members} == {(WHEN, 0, 0, "", "")}
    modes = {it.name for it in members if it.mode != (0o755 if it.isdir() or "/bin/" in it.name else 0o644)}
    return found + ["other times or owners"] * (not fixed) + [f"modes of {modes}"] * bool(modes)


def wrong_refusals(place):
    """What isn't refused by name, or changes something then."""
    found, other = [], os.path.join(place.root, "bin", "collate-cldr")
    os.makedirs(os.path.dirname(other))
    with open(other, "w", encoding="utf-8") as it:
        it.write("other\n")
    before = place.files()
    path = os.path.join(place.room, "three.tar.xz")
    for status, said, words, how in [
        (2, f"{other}: it is there, and bin/install didn't put it there", [], {}),
        (2, "no file LICENSE", ["--archive", path], {"cldr": FOLDER}),
        (2, "--prefix names: programs are installed in a folder that is named from / on", ["--prefix", "names"], {}),
        (2, "no/common/collation", [], {"cldr": "no"}),
        (2, "unrecognized arguments: --perfix", ["--perfix", "/usr"], {}),
        (2, "/no: no folder in which files can be made", ["--archive", "/no/a.tar.xz"], {}),
    ]:
        ran = place.run(*words, **how)
        found += [f"{words} {how}: {ran}; wanted: {said}"] * (ran[0] != status or said not in ran[2] or place.files() != before or os.path.exists(path))
    return found


def check_installed(report, room):
    room = os.path.join(room, "installed")
    os.mkdir(room)
    place = Place(room, small_data(room))
    ran = place.run()
    report.say("bin/install", [f"{ran}"] * bool(ran[0]), 1)
    files = place.files()
    report.say("bin/install: files and modes", wrong_files(place), len(files))
    report.say("bin/install: texts and checksums", wrong_texts(place, room), len(files))
    report.say("bin/install: options of man pages and completions", *wrong_manuals(place))
    report.say("bin/install: archives", wrong_archives(place, files), 2)
    report.say("bin/install: a second time", wrong_again(place), 1)
    report.say("bin/install: what is taken away", wrong_uninstall(place), 2)
    report.say("bin/install: what is refused", wrong_refusals(place), 6)
    shutil.rmtree(room)


def main():
    from programs import Report

    report = Report()
    with tempfile.TemporaryDirectory(prefix="installed-") as room:
        report.also("what is installed", check_installed, room)
    return report.end()


if __name__ == "__main__":
    sys.exit(main())
