"""The crates of the repository, as crates.txt lists them."""
import os
import re
import shutil
import subprocess

TOP = os.path.dirname(os.path.dirname(os.path.dirname(os.path.realpath(__file__))))
PARTS = ("src", "specs", "proofs")
FUNCTION = re.compile(r"^\s*(?:pub(?:\([a-z]+\))? )?(?:const )?(?:unsafe )?fn ", re.M)


class Crate:
    """A crate: its name, its folder, the crates of the repository right below it, the kit's libraries that it names, and whether it
    is a static library."""

    def __init__(self, name, named, listed, is_static=False):
        self.name, self.folder, self.is_static = name, os.path.join(TOP, "crates", name), is_static
        self.deps = [it for it in named if it in listed]
        self.of_kit = [it for it in named if it not in listed]
        self.is_program = os.path.isfile(os.path.join(self.folder, "src", "main.rt"))

    def files(self, part, ending):
        for at, folders, names in sorted(os.walk(os.path.join(self.folder, part))):
            yield from (os.path.join(at, it) for it in sorted(names) if it.endswith(ending))

    def text(self, part, ending):
        return "".join(read(it) for it in self.files(part, ending))

    def lines(self, part):
        return self.text(part, ".rt" if part == "src" else ".antt").count("\n")

    def functions(self):
        return 0 if self.is_tests_alone() else len(FUNCTION.findall(self.text("src", ".rt")))

    def has_tests(self):
        return "#[test]" in self.text("src", ".rt")

    def is_tests_alone(self):
        """Whether each module that the crate's root names is one of tests."""
        root = "" if self.is_program else read(os.path.join(self.folder, "src", "lib.rt"))
        modules, tests = (len(re.findall(it, root, re.M)) for it in (r"^(?:pub )?mod \w+;", r"^#\[cfg\(test\)\]\nmod \w+;"))
        return 0 < modules == tests and not FUNCTION.search(root)

    def edits(self, folder="must-fail"):
        return len([*self.files(folder, ".edit")])


def clause_end(lines, at):
    """The index of the line that ends the clause or the ghost item that begins at this one: with its braces, or by a semicolon."""
    opened, depth = False, 0
    for end in range(at, len(lines)):
        code = re.sub(r'"[^"]*"', "", lines[end])
        opened, depth = opened or "{" in code, depth + code.count("{") - code.count("}")
        if depth <= 0 and (opened or code.rstrip().endswith(";")):
            return end
    return len(lines) - 1


def read(path):
    with open(path, encoding="utf-8", errors="replace") as it:
        return it.read()


def listed():
    """Each crate of crates.txt by its name, in the order of the file."""
    found = {}
    for line in read(os.path.join(TOP, "crates.txt")).splitlines():
        name, colon, named = line.partition("#")[0].partition(":")
        if colon:
            found[name.split()[0]] = name.split()[1:], named.split()
    return {name: Crate(name, named, found, "staticlib" in kind) for name, (kind, named) in found.items()}


def below(crates, name):
    """The names of the crates below a crate, each after those that it stands on."""
    found = {}

    def visit(it):
        for dep in crates[it].deps:
            if dep not in found:
                visit(dep)
                found[dep] = None

    visit(name)
    return [*found]


def above(crates, names):
    """The names of these crates and of all that stand on one of them, lowest first."""
    order = []
    for name in crates:
        order += [it for it in [*below(crates, name), name] if it not in order]
    return [it for it in order if it in names or set(names) & set(below(crates, it))]


def processors():
    """How many processors there are to use: those that the process may run on, or fewer by the quota of its control group."""
    found = len(os.sched_getaffinity(0))
    for path, period_path in (("cpu.max", None), ("cpu/cpu.cfs_quota_us", "cpu/cpu.cfs_period_us")):
        try:
            words = read(f"/sys/fs/cgroup/{path}").split()
            words += read(f"/sys/fs/cgroup/{period_path}").split() if period_path else []
        except OSError:
            continue
        if len(words) > 1 and words[0].isdigit() and words[1].isdigit() and int(words[1]):
            found = min(found, max(int(words[0]) // int(words[1]), 1))
    return found


def version():
    """The version of this library and the commit that stands here, as far as they are known."""
    found = re.search(r"(?m)^## (\S+?),? ", read(os.path.join(TOP, "CHANGELOG.md")))
    how = {"cwd": TOP, "stdout": subprocess.PIPE, "stderr": subprocess.DEVNULL, "text": True, "check": False}
    commit = subprocess.run(["git", "rev-parse", "--short=12", "HEAD"], **how).stdout.strip()
    return [it for it in (found and found[1], commit) if it]


def kit():
    """The folder of the toolchain that the command `rt` belongs to, or None where there is none."""
    rt = shutil.which("rt")
    return rt and os.path.dirname(os.path.dirname(os.path.realpath(rt)))


def words_of(command, crate, listed, top=TOP):
    """The words by which rattle checks or builds a crate over the libraries that are built below `top`, as `rt` gives them, with
    nothing kept."""
    at = kit()
    words = ["--crate-name", crate.name, "src/main.rt" if crate.is_program else "src/lib.rt"]
    for it in ["std", *crate.of_kit]:
        words += ["--extern", f"{it}={at}/rlibs/{it}.rlib"]
    words += ["-L", f"dependency={at}/rlibs"]
    for it in crate.deps:
        words += ["--extern", f"{it}={top}/crates/{it}/out/rlib/{it}.rlib"]
    for it in below(listed, crate.name):
        words += ["-L", f"dependency={top}/crates/{it}/out/rlib"]
    words += ["--antt-project", f"{at}/rattle/logic/antt-project.json", "--logic-built", f"{at}/logic_built"]
    words += ["--links", f"{crate.name}="]
    words += ["--test"] if crate.is_tests_alone() else ["--crate-type", "staticlib"] if crate.is_static else []
    return [os.path.join(at, "bin", "rattle"), command, *words]


def archive_words(crate, listed, top):
    """The words by which rattle proves a static library once more, over the libraries below `top`, and makes its archive of what it
    proved: `rt ci` makes none."""
    tools = ["--toolchain", os.path.join(kit(), "toolchain"), "--backend", "llvm", "--jobs", "1"]
    return [*words_of("build", crate, listed, top), *tools, "-o", f"out/lib{crate.name}.a"]
