"""What a run of the gate costs: the processor time of each crate by the kind of work, as /proc shows it while `rt ci` runs.

`rt ci` starts a process for each check, compiler and run. A process says in its words which crate it is for, and by its folder
whether it tries an edit, which is done on a copy. A process is looked at once a second, and what it took since then until it
ended is told from what its parent has waited for. A look that fails is left out: the figures are then too small, and nothing else
comes of it."""
import os
import re
import resource
import subprocess
import sys
import threading
import time

import crates  # noqa: E402

# What the gate took from nothing at the commit 05fed7b8, in minutes of processor and of wall on four processors, and what the
# yardstick, `rt selftest`, took alone on another machine of that kind, in seconds of both. By the yardstick machines are compared.
BASE = {"processor": 436, "wall": 155, "processors": 4}
BASE_YARDSTICK = (105.0, 40.5)
# What it may take of that: now, and for the life of the project.
NOW, LATER = 0.60, 0.70
KINDS = ["proof", "tests", "edits", "compilers", "runs"]
# What no crate is charged with: `rt` and the gate's own programs, tests/programs/programs.py, the comparisons of documents.
OTHER = "others"
PROGRAMS = "tests/programs/programs.py"
TICKS = os.sysconf("SC_CLK_TCK")
# Whether /proc lists the processes that one has started; some systems don't.
LISTS_CHILDREN = os.path.exists(f"/proc/self/task/{os.getpid()}/children")
LAST = os.path.join(crates.TOP, "out", "costs.txt")
# The costs of runs on a quiet machine, which tests/gate/costs --keep writes, with a row for each crate that crates.txt lists, and the
# dearest functions (tests/gate/costs --functions --keep).
KEPT = os.path.join(crates.TOP, "tests", "gate", "costs.txt")
FUNCTIONS = os.path.join(crates.TOP, "tests", "gate", "functions.txt")
# A crate that takes this much longer than it did, in seconds and as a share, has risen.
RISEN, BY = 15, 1.3


def words_of(pid):
    with open(f"/proc/{pid}/cmdline", "rb") as it:
        return it.read().decode(errors="replace").split("\0")


def times_of(pid):
    """When a process was started, and the processor time of it and of what it has waited for, in ticks."""
    with open(f"/proc/{pid}/stat", encoding="utf-8", errors="replace") as it:
        said = it.read()
    fields = said[said.rindex(")") + 2 :].split()
    own, waited = (int(fields[at]) + int(fields[at + 1]) for at in (11, 13))
    return fields[19], own, waited


def children_of(pid):
    if not LISTS_CHILDREN:
        return [it for it in os.listdir("/proc") if it.isdigit() and parent_of(it) == str(pid)]
    found = []
    for thread in os.listdir(f"/proc/{pid}/task"):
        try:
            with open(f"/proc/{pid}/task/{thread}/children", encoding="ascii") as it:
                found += it.read().split()
        except OSError:
            pass
    return found


def parent_of(pid):
    try:
        with open(f"/proc/{pid}/stat", encoding="utf-8", errors="replace") as it:
            said = it.read()
        return said[said.rindex(")") + 2 :].split()[1]
    except OSError:
        return None


def whole_time(pid):
    """The processor time of a process and of all below it, in ticks; none where it has ended."""
    try:
        _, own, waited = times_of(pid)
        return own + waited + sum(whole_time(it) for it in children_of(pid))
    except OSError:
        return 0


def work_of(words, folder):
    """The crate and the kind of work of a process of `rt ci`, or None where it is too early to say."""
    run = [it for it in words if "/rt-run-" in it]
    if run:
        return re.sub(r"(_tests)?(\.by-rattle)?$", "", os.path.basename(run[0])), "runs"
    tools = [at for at, it in enumerate(words) if os.path.basename(it) in ("rattle", "rattle-link", "clang", "llvm-nm")]
    if not tools:
        return None
    words = words[tools[0] :]
    at_home = re.search(r"/crates/(\w+)(/|$)", folder) or re.search(r"/crates/(\w+)/", " ".join(words))
    name = words[words.index("--crate-name") + 1] if "--crate-name" in words else at_home[1] if at_home else OTHER
    if os.path.basename(words[0]) != "rattle" or "--crate-checked" in words:
        return name, "compilers"
    is_edit = os.path.basename(folder).startswith("rt-edit-")
    return name, "edits" if is_edit else "tests" if "--test" in words else "proof"


class Seen:
    """A process that `rt ci` started, as it was last seen."""

    def __init__(self):
        self.work, self.ticks = None, 0

    def look(self, pid):
        if self.work is None:
            try:
                self.work = work_of(words_of(pid), os.readlink(f"/proc/{pid}/cwd"))
            except OSError:
                pass
        self.ticks = max(self.ticks, whole_time(pid))


class Sampler(threading.Thread):
    """Looks at the processes below another one, once a second until it is told to end, and sums what they took."""

    def __init__(self, pid, file=LAST, each=1.0):
        super().__init__(daemon=True)
        self.pid, self.file, self.each = pid, file, each
        self.ended, self.costs, self.seen, self.waited = threading.Event(), Costs(), {}, 0

    def run(self):
        wrote = 0
        while not self.ended.wait(self.each):
            try:
                self.look()
                if time.monotonic() - wrote > 60:
                    wrote = time.monotonic()
                    self.sums().write(self.file)
            except (OSError, ValueError, IndexError, RuntimeError):
                pass

    def look(self):
        waited, now = times_of(self.pid)[2], {}
        for pid in children_of(self.pid):
            try:
                key = pid, times_of(pid)[0]
            except OSError:
                continue
            now[key] = self.seen.get(key) or Seen()
            now[key].look(pid)
        gone = [it for key, it in self.seen.items() if key not in now]
        # What a process took after it was last seen; several that ended at one time share it.
        left = max(waited - self.waited - sum(it.ticks for it in gone), 0)
        for it in gone:
            self.costs.add(it.work, (it.ticks + left / len(gone)) / TICKS)
        self.seen, self.waited = now, waited

    def sums(self):
        """What was taken so far, by processes that still run as well."""
        found = self.costs.copy()
        for it in self.seen.values():
            found.add(it.work, it.ticks / TICKS)
        return found

    def end(self):
        self.ended.set()
        self.join(10)
        return self.sums()


class Costs:
    """Seconds of processor time by crate and kind of work, and of the whole run, with the time that passed; what the yardstick
    took, in seconds of processor and of wall; and the crates that the run proved, and took from no earlier run."""

    def __init__(self):
        self.by, self.whole, self.passed, self.processors = {}, 0.0, 0.0, crates.processors()
        self.yardstick, self.proved = None, []

    def copy(self):
        made = Costs()
        made.by = {name: dict(kinds) for name, kinds in self.by.items()}
        made.whole, made.passed, made.processors = self.whole, self.passed, self.processors
        made.yardstick, made.proved = self.yardstick, [*self.proved]
        return made

    def add(self, work, seconds):
        name, kind = work or (OTHER, "runs")
        kinds = self.by.setdefault(name, {})
        kinds[kind] = kinds.get(kind, 0.0) + seconds

    def of(self, name, kind=None):
        kinds = self.by.get(name, {})
        return kinds.get(kind, 0.0) if kind else sum(kinds.values())

    def of_kind(self, kind):
        return sum(it.get(kind, 0.0) for it in self.by.values())

    def is_from_nothing(self):
        """Whether the run proved each crate that crates.txt lists."""
        return self.whole > 0 and crates.listed().keys() <= {*self.proved}

    def write(self, file):
        lines = ["# Seconds of processor time that a run of the gate took, by crate and kind of work."]
        lines.append(" ".join(["crate", *KINDS]))
        for name in sorted(self.by):
            lines.append(" ".join([name, *(f"{self.of(name, kind):.1f}" for kind in KINDS)]))
        lines.append(f"whole {self.whole:.1f} passed {self.passed:.1f} processors {self.processors}")
        lines += [f"yardstick {self.yardstick[0]:.1f} passed {self.yardstick[1]:.1f}"] if self.yardstick else []
        lines += [f"proved {' '.join(self.proved)}"] if self.proved else []
        with open(f"{file}.new", "w", encoding="utf-8") as it:
            it.write("\n".join(lines) + "\n")
        os.replace(f"{file}.new", file)


def read(file):
    """The costs that a file holds, or None where there is no such file."""
    found = Costs()
    try:
        lines = crates.read(file).splitlines()
    except OSError:
        return None
    for words in (line.split() for line in lines if not line.startswith(("#", "crate "))):
        if words[0] == "whole":
            found.whole, found.passed, found.processors = float(words[1]), float(words[3]), int(words[5])
        elif words[0] == "yardstick":
            found.yardstick = float(words[1]), float(words[3])
        elif words[0] == "proved":
            found.proved = words[1:]
        else:
            found.by[words[0]] = {kind: float(it) for kind, it in zip(KINDS, words[1:])}
    return found


def merged(kept, taken):
    """The kept costs after another run of the gate. A crate that the run proved gets its new row; any other keeps the old one, in
    seconds of the machine that the old rows are of. Rows of crates that crates.txt doesn't list are left out."""
    made, is_new = taken.copy(), taken.is_from_nothing()
    if not is_new and kept:
        made.whole, made.passed, made.processors = kept.whole, kept.passed, kept.processors
        made.yardstick = kept.yardstick or taken.yardstick
    speed = kept.yardstick[0] / taken.yardstick[0] if not is_new and kept and kept.yardstick and taken.yardstick else 1.0
    made.by, made.proved = {}, []
    for name in [*crates.listed(), PROGRAMS, OTHER]:
        if name in taken.by and (is_new or name in taken.proved or name == PROGRAMS):
            made.by[name] = {kind: seconds * speed for kind, seconds in taken.by[name].items()}
        elif kept and name in kept.by:
            made.by[name] = kept.by[name]
    return made


def lacking():
    """The crates that crates.txt lists and that have no row in tests/costs.txt."""
    kept = read(KEPT)
    return [it for it in crates.listed() if not kept or kept.of(it) <= 0]


def of_children():
    """The processor time of all processes that this one has waited for, in seconds."""
    used = resource.getrusage(resource.RUSAGE_CHILDREN)
    return used.ru_utime + used.ru_stime


def of_yardstick():
    """What the yardstick takes, in seconds of processor and of wall, or None where it doesn't pass. It proves, builds and runs an
    example of the toolchain, so it knows nothing of this repository."""
    environment = {name: it for name, it in os.environ.items() if name != "RT_JOBS"}
    how = {"stdin": subprocess.DEVNULL, "stdout": subprocess.DEVNULL, "stderr": subprocess.DEVNULL, "env": environment}
    before, began = of_children(), time.monotonic()
    passes = not subprocess.run(["rt", "selftest"], **how).returncode
    return (of_children() - before, time.monotonic() - began) if passes else None


def dearest(costs, most=8):
    """A line for each of the dearest crates of a run."""
    names = sorted((it for it in costs.by if it != OTHER and costs.of(it) >= 0.5), key=costs.of, reverse=True)
    for name in names[:most]:
        parts = ", ".join(f"{kind} {costs.of(name, kind):.0f}" for kind in KINDS if costs.of(name, kind) >= 0.5)
        yield f"{name:16} {costs.of(name):5.0f} s ({parts})"


def risen(costs):
    """The crates that cost much more than they did, with what was to be expected, in one line."""
    kept = read(KEPT)
    by = ratio(costs, kept) if kept else 1.0
    found = [(costs.of(it), by * kept.of(it), it) for it in costs.by if kept and it != OTHER and kept.of(it) > 0]
    found = [it for it in sorted(found, reverse=True) if it[0] > max(BY * it[1], it[1] + RISEN)]
    names = ", ".join(f"{name} {now:.0f} s where {was:.0f} were to be expected" for now, was, name in found)
    rows = f"; with no row there: {', '.join(lacking())}" if lacking() else ""
    return f"risen beside tests/gate/costs.txt: {names or 'none'}{rows}"


def ratio(costs, kept):
    """How much longer this machine takes than that of the kept costs: by the yardstick or, where one has none, by the crates that
    both have, the one in the middle."""
    if costs.yardstick and kept.yardstick:
        return costs.yardstick[0] / kept.yardstick[0]
    each = sorted(costs.of(it) / kept.of(it) for it in costs.by if kept.of(it) > 1 and costs.of(it) > 1 and it != OTHER)
    return each[len(each) // 2] if each else 1.0


def dearest_functions(most=10):
    """The dearest functions that tests/gate/functions.txt has: seconds, crate and function, a line each."""
    try:
        lines = [it.split() for it in crates.read(FUNCTIONS).splitlines() if it and not it.startswith("#")]
    except OSError:
        return []
    return [f"{it[1]:16} {float(it[0]):5.1f} s {it[2]}" for it in sorted(lines, key=lambda it: -float(it[0]))[:most]]


def total(costs):
    """What a whole run took, in one line."""
    kinds = ", ".join(f"{kind} {costs.of_kind(kind) / 60:.1f}" for kind in KINDS)
    passed = f"{costs.passed / 60:.0f} minutes on {costs.processors} processors"
    return f"cost: {costs.whole / 60:.0f} minutes of processor time ({kinds}) in {passed}"


def beside_yardstick(costs):
    """What a whole run took beside the yardstick, and beside what it may take, in one line."""
    if not costs.yardstick:
        return "yardstick: `rt selftest` was not timed, so what the run cost is compared with nothing"
    seconds, wall = costs.yardstick
    each, base = costs.whole / 60 / seconds, BASE["processor"] / BASE_YARDSTICK[0]
    said = f"yardstick: `rt selftest` took {seconds:.0f} s of processor time in {wall:.0f} s"
    said += f"; the run took {each:.2f} minutes for each second of it"
    if not costs.is_from_nothing():
        return f"{said}; not every crate was proved in it, so that is not compared with the budget"
    said += f", {each / base:.2f} of what the commit 05fed7b8 took ({base:.2f})"
    if costs.processors == BASE["processors"]:
        passed = costs.passed / 60 / wall * BASE_YARDSTICK[1] / BASE["wall"]
        said += f", and {passed:.2f} of its wall on {costs.processors} processors"
    over = ": IT TAKES MORE" if each / base > LATER else ""
    return f"{said}; it may take {NOW:.2f} now, and {LATER:.2f} with all that comes later{over}"
