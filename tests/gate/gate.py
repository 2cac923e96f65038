#!/usr/bin/env python3
"""The gate, as bin/test runs it: what compares documents and comments with the sources, `rt ci`, and then tests/programs.py. Says
on standard output where it is, a line a step, and prints what a failed step says; all that `rt ci` says goes to the file
out/test.log, and what each crate cost to out/costs.txt. Before `rt ci` the yardstick is run alone, `rt selftest`, so that figures
of unlike machines can be compared. At the end come the dearest crates and functions, what rose, how many proofs were kept from
earlier runs, and what the whole took beside the yardstick; no time fails anything. The last line is `N passed, M failed`, which
counts all of the steps."""
import os
import queue
import re
import subprocess
import sys
import threading
import time

import costs  # noqa: E402
import crates  # noqa: E402
import edits  # noqa: E402

TOP = crates.TOP
LOG = os.path.join(TOP, "out", "test.log")
# Each crate is proved by one process, and as many at a time as there are processors, whatever memory they may take. One process a
# crate took about 0.8 of the processor time of several, in one run each of six low crates. Whoever lacks the memory sets RT_JOBS
# lower.
PROVE = ["rt", "ci"]
JOBS = {"RT_JOBS": str(crates.processors())}
# The programs that compare documents and comments with the sources, count what makes sources hard to read, and list where a body
# makes an error.
SOURCES = ["documents", "citations", "comments", "undocumented", "house", "made-errors"]
COMPARISONS = ["bin/definitions", *(f"tests/sources/{it}" for it in SOURCES)]
# So often at least a line says what is under way, in seconds.
BEAT = 120
COUNTS = re.compile(r"^(\d+) passed, (\d+) failed\b")
# What `rt ci` says at its end of the proofs that it did, and of those that it took from earlier runs.
DONE = re.compile(r"^ok; .*done in this run: (\d+) of the (\d+) proofs")


class Progress:
    """What of `rt ci` is done, by the lines that it prints. A crate's lines come together, once it is proved or not."""

    def __init__(self, crates):
        self.began, self.crates = time.monotonic(), crates
        self.unproved, self.trying = list(crates), set()
        self.block, self.counts = None, None
        # The crates that this run proved, those that it kept from earlier ones, and what it says of that itself.
        self.proved, self.kept, self.done = [], [], None

    def say(self, text):
        minutes, seconds = divmod(int(time.monotonic() - self.began), 60)
        print(f"[{minutes:3}:{seconds:02}] {text}", flush=True)

    def beat(self):
        left = [f"not proved yet: {', '.join(self.unproved)}"] if self.unproved else []
        left += [f"edits of {', '.join(sorted(self.trying))}"] if self.trying else []
        self.say(f"under way; {'; '.join(left) or 'tests and programs'}")

    def end_block(self, text):
        name, _, verdict = text.partition(" ")
        if "NOT PROVED" in verdict:
            print("\n".join(self.block), flush=True)
        name = name.rstrip(":")
        if name in self.unproved and "tests" not in verdict:
            self.unproved.remove(name)
            self.proved += [name] if "NOT PROVED" not in verdict else []
        done = len(self.crates) - len(self.unproved)
        self.say(f"{text} ({done} of {len(self.crates)} crates)")
        self.block = None

    def take(self, line):
        if COUNTS.match(line):
            self.counts = [int(it) for it in COUNTS.match(line).groups()]
            return
        if line.startswith("== "):
            self.block = [line]
            return
        ended = re.match(r"^rt: (\S+ (?:proved|NOT PROVED).*|\S+: its tests are (?:proved|NOT PROVED).*)$", line)
        if self.block is not None and not ended:
            self.block.append(line)
        elif self.block is not None:
            self.end_block(ended[1])
        elif line.startswith("rt: "):
            self.take_verdict(line[4:])
        elif line.strip():
            print(line, flush=True)

    def take_verdict(self, text):
        kept = re.match(r"^(\S+) is kept: ", text)
        if kept and kept[1] in self.unproved:
            self.unproved.remove(kept[1])
            self.kept.append(kept[1])
        self.done = DONE.match(text) or self.done
        trying = re.match(r"^(\S+): trying its must-fail edits", text)
        if trying:
            self.trying.add(trying[1])
        tried = edits.SAID.match(text)
        if tried:
            self.trying.discard(tried[1])
            if [*edits.came_to([text]).values()] == [edits.REFUSED]:
                return
        self.say(text)


    def of_kept(self):
        """How many proofs were kept from earlier runs, in one line."""
        if self.done:
            done, every = map(int, self.done.groups())
            return f"kept: {every - done} of {every} proofs, of crates and of their tests, are of earlier runs on this machine"
        if self.kept:
            return f"kept: {len(self.kept)} of {len(self.crates)} crates are proved by earlier runs on this machine"
        return f"kept: none; {len(self.proved)} of {len(self.crates)} crates were proved in this run"


def feed(stream, lines):
    for line in stream:
        lines.put(line)
    lines.put(None)


def prove():
    """Runs `rt ci`, and returns what passed and what failed, what its processes cost, and how many proofs were kept."""
    progress = Progress([*crates.listed()])
    print(f"rt ci: each crate and its tests are proved; all that it says: {os.path.relpath(LOG)}", flush=True)
    how = {"stdin": subprocess.DEVNULL, "stdout": subprocess.PIPE, "stderr": subprocess.STDOUT, "errors": "replace"}
    how["env"] = {**JOBS, **os.environ}
    with open(LOG, "w", encoding="utf-8", buffering=1) as log, subprocess.Popen(PROVE, cwd=TOP, text=True, **how) as ran:
        sampler, lines = costs.Sampler(ran.pid), queue.Queue()
        sampler.start()
        threading.Thread(target=feed, args=(ran.stdout, lines), daemon=True).start()
        while True:
            try:
                line = lines.get(timeout=BEAT)
            except queue.Empty:
                progress.beat()
                continue
            if line is None:
                break
            log.write(line)
            progress.take(line.rstrip("\n"))
        taken = sampler.end()
    taken.proved = progress.proved
    if progress.counts is None:
        progress.say(f"rt ci ended with status {ran.returncode} and no count")
        return [0, 1], taken, progress.of_kept()
    passed, failed = progress.counts
    return [passed, max(failed, int(ran.returncode != 0))], taken, progress.of_kept()


def run_programs():
    """Runs tests/programs/programs.py, and returns what passed and what failed."""
    print("the built programs, with refused memory, reads and writes:", flush=True)
    counts = [0, 1]
    how = {"stdin": subprocess.DEVNULL, "stdout": subprocess.PIPE, "errors": "replace"}
    with subprocess.Popen([sys.executable, os.path.join(TOP, "tests", "programs", "programs.py")], text=True, **how) as ran:
        for line in ran.stdout:
            if COUNTS.match(line):
                counts = [int(it) for it in COUNTS.match(line).groups()]
            else:
                print(line, end="", flush=True)
    return [counts[0], max(counts[1], int(ran.returncode != 0))]


def compare(what):
    """Runs one of COMPARISONS; returns what passed and what failed."""
    program = [sys.executable, os.path.join(TOP, what)]
    ran = subprocess.run(program, stdin=subprocess.DEVNULL, stdout=subprocess.PIPE, stderr=subprocess.STDOUT, text=True)
    if ran.returncode:
        print(f"FAILED {what}\n{ran.stdout}", end="", flush=True)
        return [0, 1]
    print(f"ok     {what} ({ran.stdout.splitlines()[-1]})", flush=True)
    return [1, 0]


def measure():
    """Runs the yardstick; returns what it took, or None."""
    took = costs.of_yardstick()
    said = f"took {took[0]:.0f} s of processor time in {took[1]:.0f} s" if took else "doesn't pass"
    print(f"yardstick: `rt selftest` alone {said}", flush=True)
    return took


def say_costs(taken, kept, before, began):
    """Says what the run took, by crates and in all; that it can't be told fails nothing. `before` has the processor time before
    the run began, and before tests/programs.py."""
    try:
        taken.add((costs.PROGRAMS, "runs"), costs.of_children() - before[1])
        taken.whole, taken.passed = costs.of_children() - before[0], time.monotonic() - began
        taken.write(costs.LAST)
        lines = ["the dearest crates, in seconds of processor time:", *costs.dearest(taken)]
        functions = costs.dearest_functions()
        lines += ["the dearest functions, as `tests/gate/costs --functions --keep` found them last:", *functions] if functions else []
        lines += [costs.risen(taken), kept, costs.total(taken), costs.beside_yardstick(taken)]
        print("\n".join(lines), flush=True)
    except (OSError, ValueError, ArithmeticError, LookupError) as error:
        print(f"what the run cost can't be told: {error}", flush=True)


def main():
    yardstick = measure()
    before, began = costs.of_children(), time.monotonic()
    steps = [compare(it) for it in COMPARISONS]
    proved, taken, kept = prove()
    taken.yardstick, before_programs = yardstick, costs.of_children()
    steps += [proved, run_programs()]
    say_costs(taken, kept, (before, before_programs), began)
    passed, failed = (sum(step[n] for step in steps) for n in (0, 1))
    print(f"{passed} passed, {failed} failed")
    return 1 if failed else 0


if __name__ == "__main__":
    sys.exit(main())
