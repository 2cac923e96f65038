#!/usr/bin/env python3
"""What a change of some crates needs, as `bin/test NAME ..` runs it: the comparisons of documents and comments with the sources;
`rt ci` over these crates, all that stand on them and all below (`proving.py`), with their programs built and run, their tests, and
the edits of these crates that must be refused; and rows and refused memory, by the programs that were built. It is less than the
gate: other crates aren't proved, and hostile input isn't tried. What was proved on this machine before isn't proved again, and what
is proved here counts at the gate. The last line is `N passed, M failed`."""
import os
import re
import subprocess
import sys
import tempfile
import time

sys.path[:0] = [it.path for it in os.scandir(os.path.dirname(os.path.dirname(os.path.realpath(__file__)))) if it.is_dir()]
import crates  # noqa: E402
import edits  # noqa: E402
import gate  # noqa: E402
import programs  # noqa: E402
import proving  # noqa: E402
import rattle_tests  # noqa: E402

LOG = os.path.join(crates.TOP, "out", "change.log")
DRIVER = "test_driver"
BEGAN = time.monotonic()


class Steps(programs.Report):
    """Says of each step how it went and when, and counts them."""

    def tell(self, text):
        minutes, seconds = divmod(int(time.monotonic() - BEGAN), 60)
        print(f"[{minutes:3}:{seconds:02}] {text}", flush=True)

    def say(self, what, faults, runs=1):
        self.passed, self.failed = self.passed + (not faults), self.failed + bool(faults)
        self.tell(f"{'ok    ' if not faults else 'FAILED'} {what}{f' ({runs} runs)' if runs > 1 else ''}")
        for it in faults[:40]:
            print(f"       {it}", flush=True)


def ran(words, folder, given=b""):
    """Runs a command of the toolchain, and returns its status and what it said, which also goes to the log."""
    how = {"cwd": folder, "input": given, "stdout": subprocess.PIPE, "stderr": subprocess.STDOUT}
    it = subprocess.run(words, **how)
    said = it.stdout.decode(errors="replace")
    with open(LOG, "a", encoding="utf-8") as log:
        log.write(f"== {os.path.basename(folder)}: {' '.join(words)}\n{said}")
    return it.returncode, said


def prove(steps, listed, names):
    """Proves these crates and those above them, with their tests, runs their programs, and tries the edits of these crates."""
    affected = crates.above(listed, names)
    with open(LOG, "a", encoding="utf-8", buffering=1) as log:
        run = proving.Run(affected, log, steps.tell, names)
        steps.tell(run.announcement())
        failed = run.prove()
    for name in affected:
        count = listed[name].edits() if name in names else 0
        more = [it for it, is_there in [("its tests", listed[name].has_tests()), ("its program", listed[name].is_program)] if is_there]
        more += [f"its {count} edits"] * bool(count)
        steps.say(f"{name} is proved{', with ' if more else ''}{', '.join(more)}", failed.get(name, []))
    for name in failed:
        if name not in affected:
            steps.say(f"{name} is proved", failed[name])
    return [*failed]


def check_layout(steps, listed, names):
    """Looks whether the files of these crates are as `rt fmt` lays them out."""
    for name in names:
        files = [it for part in crates.PARTS for it in listed[name].files(part, (".rt", ".antt"))]
        status, said = ran([os.path.join(crates.kit(), "bin", "rattle"), "fmt", "--check", *files], crates.TOP)
        steps.say(f"{name} is laid out by rt fmt", said.splitlines() if status else [])


def run_programs(steps, affected, unproved):
    """Runs the rows and refused memory by the driver, where it stands on one of the crates, what is looked at of `collate`,
    `collate-cldr` and `sort_names`, where they do, and the tests in Rattle, if they name one of the crates. Hostile input is left to
    the gate, which takes minutes for it."""
    built = [it for it in affected if it not in unproved]
    with tempfile.TemporaryDirectory(prefix="collate-tests-") as room:
        shim = programs.compiled(room, "refuse", "-shared", "-fPIC")
        if DRIVER in built:
            steps.also("rows", programs.check_rows, [programs.built(DRIVER)])
            steps.also("refused memory", programs.check_refusals, shim, programs.built(DRIVER))
        if "collate" in built:
            steps.also("collate", programs.check_collate, room, shim)
        if "collate_cldr" in built:
            steps.also("collate-cldr", programs.check_collate_cldr, room, shim)
        if "sort_names" in built:
            steps.also("sort_names", programs.check_sort_names, shim)
        if set(built) & set(rattle_tests.libraries()):
            steps.also("tests in Rattle", rattle_tests.check_rattle_tests)


def main(names):
    listed = crates.listed()
    unknown = [it for it in names if it not in listed]
    if unknown:
        print(f"bin/test: crates.txt lists no crate {', '.join(unknown)}; bin/test alone is the whole gate", file=sys.stderr)
        print("0 passed, 1 failed")
        return 2
    with open(LOG, "w", encoding="utf-8"):
        pass
    steps, names = Steps(), [it for it in crates.above(listed, names) if it in names]
    print(f"crates: {' '.join(crates.above(listed, names))}; all that is said: {os.path.relpath(LOG)}", flush=True)
    for what in gate.COMPARISONS:
        passed, failed = gate.compare(what)
        steps.passed, steps.failed = steps.passed + passed, steps.failed + failed
    check_layout(steps, listed, names)
    unproved = prove(steps, listed, names)
    stale = edits.stale([it for name in names for it in edits.of_crate(listed[name], ("wrong",))])
    if stale:
        steps.tell(f"{len(stale)} edits beside the gate are stale: bin/wrong --stale {' '.join(names)} lists them")
    steps.also("the programs", run_programs, crates.above(listed, names), unproved)
    return steps.end()


if __name__ == "__main__":
    sys.exit(main(sys.argv[1:]))
