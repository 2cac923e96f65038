"""Proves crates of the repository, and those below them, by `rt ci` on a copy whose crates.txt has these alone.

With kit 13f what passes is kept on this machine: a run after one that was broken off goes on from there, and so do the gate and runs
for other crates. Edits that must be refused are tried where they are asked for; the sums of what is kept don't read them."""
import contextlib
import os
import queue
import re
import shutil
import subprocess
import sys
import tempfile
import threading
import time

import crates  # noqa: E402
import expected  # noqa: E402

# Memory in bytes that a crate's proof takes, and that `rt` guesses it to take.
EACH, GUESSED = 1_800_000_000, 5_000_000_000
# So often a line says how much is left, and so soon after the last crate that is kept, in seconds.
BEAT, FIRST = 30, 3
# A line that says why a crate isn't proved.
FAULT = re.compile(
    r"\S+:\d+:\d+: error|error|fn .*: (not proved|no proof|could not tell)|rattle: |logic=not-proved|rt: .*(refused|killed|run rt fmt)"
)
KEPT = re.compile(r"rt: (\w+) is kept: ")
VERDICT = re.compile(r"rt: (\w+)(: its tests are)? (proved|NOT PROVED)\b(.*)")
COUNTS = re.compile(r"(\d+) passed, (\d+) failed")
# What of a program that the copy's run leaves is put beside the sources: as LLVM and as Rattle's own compiler built it.
BUILDS = ("", ".by-rattle")


def free_memory():
    lines = dict(line.split(":", 1) for line in crates.read("/proc/meminfo").splitlines())
    return 1024 * int(lines["MemAvailable"].split()[0])


def jobs():
    """How many crates are proved side by side: one on each processor, if memory holds them, or as RT_JOBS says."""
    said = os.environ.get("RT_JOBS", "")
    if said.isdigit() and int(said):
        return int(said)
    return max(1, min(crates.processors(), free_memory() // EACH))


def lanes_said(lanes):
    """What is set for `rt` to prove so many crates side by side. Where memory is plenty by its own guess, which is some times what a
    crate takes, nothing is set: then it gives several processes to a crate that no other waits beside, at the end of a chain."""
    return {} if free_memory() >= lanes * GUESSED else {"RT_JOBS": str(lanes)}


def copy_repository(folder, listed, names, with_edits):
    """Copies these crates and their lines of crates.txt; the edits of those that are named last alone."""
    os.mkdir(os.path.join(folder, ".git"))
    shutil.copy(os.path.join(crates.TOP, "HANDLES"), folder)
    with open(os.path.join(folder, "crates.txt"), "w", encoding="utf-8") as it:
        for line in crates.read(os.path.join(crates.TOP, "crates.txt")).splitlines():
            words = line.partition("#")[0].partition(":")[0].split()
            if words and words[0] in names:
                it.write(f"{line}\n")
    for name in names:
        home, left_out = listed[name].folder, {"out", "wrong"} | ({"must-fail"} if name not in with_edits else set())
        to = os.path.join(folder, "crates", name)
        shutil.copytree(home, to, symlinks=True, ignore=lambda at, _, home=home, it=left_out: it if at == home else ())


@contextlib.contextmanager
def started(words, folder, lanes):
    """Starts a command in a session of its own, gives what it says, and ends it however this process ends."""
    how = {"cwd": folder, "stdin": subprocess.DEVNULL, "stdout": subprocess.PIPE, "stderr": subprocess.STDOUT, "errors": "replace"}
    with subprocess.Popen(words, start_new_session=True, text=True, env={**lanes_said(lanes), **os.environ}, **how) as ran:
        try:
            yield ran
        finally:
            # All that `rt` has started ends with it.
            ran.kill()


def feed(stream, lines):
    for line in stream:
        lines.put(line.rstrip("\n"))
    lines.put(None)


class Run:
    """A run that proves these crates and those below them. `say` is called with each line that says how far it is."""

    def __init__(self, names, log, say, edits=()):
        self.listed, self.log, self.say, self.edits = crates.listed(), log, say, edits
        self.names = [*dict.fromkeys(it for name in names for it in [*crates.below(self.listed, name), name])]
        self.functions = {it: self.listed[it].functions() for it in self.names}
        self.lanes = jobs()
        self.clock = expected.Clock(expected.Work(self.listed), self.names, self.lanes)
        self.faults, self.block, self.last, self.counts = {}, None, [], None
        self.said, self.is_news = time.monotonic(), True

    def announcement(self):
        how_long = expected.about(self.clock.seconds_left(time.monotonic()))
        what = f"{sum(self.functions.values())} functions in {len(self.names)} crates"
        lanes = f"{self.lanes} crates at a time" if self.lanes > 1 else "a crate at a time"
        return f"{what}: {how_long} if nothing was proved here before and nothing else works, {lanes}"

    def tell(self, what):
        """Says what has ended, or is under way, and how much is left."""
        self.said, self.is_news = time.monotonic(), False
        done = sum(it for name, it in self.functions.items() if name not in self.clock.left and name not in self.faults)
        left = f"{expected.about(self.clock.seconds_left(self.said))} left" if self.clock.left else "less than a minute left: programs are linked and run once"
        self.say(f"{what}: {done} of {sum(self.functions.values())} functions, {left if self.clock.left or not self.faults else 'ended'}")

    def look(self, folder):
        """Notes which crates have begun: `rt ci` then makes the folder of what it builds."""
        now = time.monotonic()
        for name in self.clock.left:
            if os.path.isdir(os.path.join(folder, "crates", name, "out")):
                self.clock.start(name, now)

    def under_way(self):
        names = sorted(it for it in self.clock.left if it in self.clock.began)
        return f"under way: {', '.join(names) or 'edits, tests and programs'}"

    def wait(self):
        if self.is_news and time.monotonic() - self.said >= FIRST:
            self.tell("kept from earlier runs" if self.clock.left != self.names else "begun")
        elif time.monotonic() - self.said >= BEAT:
            self.tell(self.under_way())

    def take(self, line):
        self.log.write(f"{line}\n")
        kept, verdict = KEPT.match(line), VERDICT.match(line)
        if kept:
            self.clock.end(kept[1], time.monotonic(), True)
            self.is_news = True
        elif COUNTS.match(line):
            self.counts = [int(it) for it in COUNTS.match(line).groups()]
        elif line.startswith("== "):
            self.block = []
        elif verdict and verdict[1] in self.functions:
            self.end(verdict[1], bool(verdict[2]), verdict[3] == "proved", verdict[4])
        elif self.block is not None:
            self.block.append(line)
        else:
            self.last.append(line)

    def end(self, name, is_of_tests, is_proved, why):
        faults = [it for it in self.block or [] if FAULT.match(it)]
        self.block = None
        if not is_proved:
            self.faults.setdefault(name, []).extend(faults or [why.strip(": ") or "see the log"])
        if not is_of_tests and name in self.clock.left:
            self.clock.end(name, time.monotonic(), False)
            self.tell(f"{name} is {'proved' if is_proved else 'NOT PROVED'}")

    def prove(self):
        """Proves all, puts the programs of these crates beside their sources, and returns by the name of a crate why it isn't proved,
        or its program or an edit of it is not as it should be, in lines."""
        begun = time.time()
        # Of a run that was killed `rt` removes the folder of this name.
        with tempfile.TemporaryDirectory(prefix=f"rt-copy-{os.getpid()}-") as room:
            folder = os.path.join(room, "repository")
            os.mkdir(folder)
            copy_repository(folder, self.listed, {*self.names}, self.edits)
            status = self.follow(folder)
            self.judge_last()
            if self.counts is None or status and not self.faults:
                self.faults["rt ci"] = self.last[-8:] or [f"it ended with status {status}"]
            for name in self.names:
                if name in self.faults or not self.counts:
                    continue
                if self.listed[name].is_program:
                    self.place([name + it for it in BUILDS], name, folder, begun)
                elif self.listed[name].is_static and self.archive(name, folder):
                    self.place([f"lib{name}.a"], name, folder, begun)
        return self.faults

    def archive(self, name, folder):
        """Builds the archive of a static library over the libraries that the copy's run left; whether it could."""
        self.say(f"the archive of {name} is built, over the libraries that are proved")
        words = crates.archive_words(self.listed[name], self.listed, folder)
        how = {"cwd": os.path.join(folder, "crates", name), "stdin": subprocess.DEVNULL, "errors": "replace"}
        ran = subprocess.run(words, stdout=subprocess.PIPE, stderr=subprocess.STDOUT, text=True, check=False, **how)
        self.log.write(ran.stdout)
        if ran.returncode:
            self.faults[name] = [it for it in ran.stdout.splitlines() if FAULT.match(it)] or ran.stdout.splitlines()[-8:]
        return not ran.returncode

    def follow(self, folder):
        lines = queue.Queue()
        with started(["rt", "ci"], folder, self.lanes) as ran:
            threading.Thread(target=feed, args=(ran.stdout, lines), daemon=True).start()
            while True:
                self.look(folder)
                try:
                    line = lines.get(timeout=1)
                except queue.Empty:
                    self.wait()
                    continue
                if line is None:
                    return ran.wait()
                self.take(line)

    def judge_last(self):
        """Takes what is said at the end: which programs, tests and edits failed, and which edits can't be tried."""
        named = [it for line in self.last if line.startswith("rt: FAILED: ") for it in re.findall(r"(\w+)(?:/| \()", line)]
        named += [it[1] for it in (re.match(r"rt: must-fail (\w+)/\S+ BAD EDIT", line) for line in self.last) if it]
        for name in named:
            lines = [it[4:] for it in self.last if re.match(rf"rt: (must-fail )?{name}\b", it)]
            wrong = [it for it in lines if "as it must be" not in it and ": trying its" not in it]
            self.faults.setdefault(name, wrong or ["see the log"])

    def place(self, files, name, folder, begun):
        """Puts what was built beside the crate's sources, as old as the copy that it was proved from: a source that has changed since
        is newer."""
        for file in files:
            source, to = (os.path.join(it, "crates", name, "out", file) for it in (folder, crates.TOP))
            if os.path.isfile(source):
                os.makedirs(os.path.dirname(to), exist_ok=True)
                shutil.copy(source, f"{to}.new")
                os.utime(f"{to}.new", (begun, begun))
                os.replace(f"{to}.new", to)
