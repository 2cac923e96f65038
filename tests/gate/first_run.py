#!/usr/bin/env python3
"""The first run of a program of bin/, without the toolchain: what --unproved refuses and what it hands to `rt try`, which stands here
for itself as a script that prints its words; what is said while `rt ci` proves, by lines as it prints them; and how near the time
that is said to be left comes to what is left, where crates take other times than those that are kept."""
import io
import os
import random
import subprocess
import sys
import tempfile
import time

import crates  # noqa: E402
import expected  # noqa: E402
import proving  # noqa: E402

NO_LANGUAGE = {"LC_ALL": "C"}
SWEDISH = {"LC_ALL": "", "LC_COLLATE": "", "LANG": "sv_SE.UTF-8"}
MUCH = b"a" * (1 << 20) + b"\n"
# A program, words, variables and input that are refused, and what is named.
REFUSED = [
    ("collate-index", ["add", "names.db"], NO_LANGUAGE, b"a\n", "an index"),
    ("collate-cldr", ["compile", "-l", "sv", "-o", "sv.tables"], NO_LANGUAGE, b"", "compile"),
    ("collate-cldr", ["sort", "--output=sorted", "names"], NO_LANGUAGE, b"", "--output"),
    ("collate-cldr", ["sort", "-ro", "sorted", "names"], NO_LANGUAGE, b"", "--output"),
    ("collate-cldr", ["sort", "names"], SWEDISH, b"", "LANG=sv_SE.UTF-8"),
    ("collate-cldr", ["compare", "a", "b"], {"LC_ALL": "", "LC_COLLATE": "da@euro", "LANG": "C"}, b"", "LC_COLLATE=da@euro"),
    ("collate-cldr", ["sort", "../names"], NO_LANGUAGE, b"", "../names"),
    ("collate-cldr", ["sort", "stdin"], NO_LANGUAGE, b"", "stdin"),
    ("collate-cldr", ["sort", "-r"], NO_LANGUAGE, MUCH, f"{len(MUCH)} bytes of input"),
    ("collate-cldr", ["keys", "names", "much"], NO_LANGUAGE, b"", f"{len(MUCH) + 4} bytes of input"),
    ("collate", ["sort", "3"], NO_LANGUAGE, MUCH, f"{len(MUCH)} bytes of input"),
]
# A program, words, variables and input, and the words and the input that `rt try` gets; {} is the folder of the run.
TRIED = [
    ("collate", ["compare", "3", "ab", "aB"], SWEDISH, b"left\n", ["--", "compare", "3", "ab", "aB"], b""),
    ("collate", ["sort", "3"], NO_LANGUAGE, b"b\na\n", ["--", "sort", "3"], b"b\na\n"),
    ("collate-cldr", ["sort", "-l", "sv"], SWEDISH, b"b\n", ["--", "sort", "-l", "sv"], b"b\n"),
    ("collate-cldr", ["check", "-c"], NO_LANGUAGE, MUCH, ["--", "check", "-c"], MUCH),
    ("collate-cldr", ["sort", "-u", "names", "sub/names"], NO_LANGUAGE, b"left\n",
     ["--data", "names={}/names", "--data", "sub/names={}/sub/names", "--", "sort", "-u", "names", "sub/names"], b""),
    ("collate-cldr", ["search", "names"], NO_LANGUAGE, b"a\n", ["--data", "names={}/names", "--", "search", "names"], b"a\n"),
    ("collate-cldr", ["sort", "-", "names"], {**NO_LANGUAGE, "CLDR_DIR": "sub"}, b"a\n",
     ["--data", "names={}/names", "--", "sort", "--cldr", "{}/sub", "-", "names"], b"a\n"),
    ("collate-cldr", ["key", "--cldr=sub", "a"], NO_LANGUAGE, b"", ["--", "key", "--cldr={}/sub", "a"], b""),
    ("collate-cldr", ["--version"], SWEDISH, b"", ["--", "--version"], b""),
]
RT = """#!/bin/sh
if [ "$1 $2 $3" != "try --seconds 900" ]; then exit 9; fi
shift 3
printf '%s\\n' "$@" === && cat
"""
# What `rt ci` says of three crates, one of which is kept and one not proved, and what is to be said of that.
SAID = """rt: icu_options is kept: an earlier run on this machine proved the same files over the same libraries
== icu_order_levels
logic=proved functions=9
rt: icu_order_levels proved
== icu_table_entries
src/lib.rt:3:1: error: not proved
logic=not-proved
rt: icu_table_entries NOT PROVED
rt: FAILED: icu_table_entries
2 passed, 1 failed
"""
THREE = ["icu_options", "icu_order_levels", "icu_table_entries"]
# How far the times of crates are from those that are kept, and how much the time that is left may be, of what is left.
SPREAD, LEAST, MOST = 0.15, 2 / 3, 4 / 3


def run(program, words, variables, given, room):
    env = {**os.environ, "PATH": f"{room}/bin:{os.environ['PATH']}", "CLDR_DIR": "", **variables}
    whole = [os.path.join(crates.TOP, "bin", program), "--unproved", *words]
    return subprocess.run(whole, input=given, capture_output=True, cwd=f"{room}/work", env=env, timeout=60)


def prepare(room):
    for it in ("bin", "work/sub"):
        os.makedirs(os.path.join(room, it))
    for name, text in {"bin/rt": RT.encode(), "names": b"b\na\n", "work/much": MUCH}.items():
        with open(os.path.join(room, name), "wb") as it:
            it.write(text)
    for it in ("names", "stdin", "sub/names"):
        with open(os.path.join(room, "work", it), "wb") as out:
            out.write(b"b\na\n")
    os.chmod(os.path.join(room, "bin", "rt"), 0o755)


def wrongly_tried(room):
    found = []
    for program, words, variables, given, what in REFUSED:
        ran = run(program, words, variables, given, room)
        wanted = f"bin/{program}: {what} can't be had with --unproved: ".encode()
        if ran.returncode != 2 or ran.stdout or not ran.stderr.startswith(wanted):
            found.append(f"{program} {words} is not refused: {ran}"[:600])
    return found


def wrong_tries(room):
    found = []
    for program, words, variables, given, handed, read in TRIED:
        ran = run(program, words, variables, given, room)
        wanted = "\n".join([*handed, "===", ""]).replace("{}", f"{room}/work").encode() + read
        if ran.returncode or ran.stdout != wanted:
            found.append(f"{program} {words}: {ran.stdout[:400]} {ran.stderr[:400]}, and not {wanted[:400]}")
    return found


def wrong_lines():
    """What a run says of SAID."""
    said = []
    it = proving.Run(THREE, io.StringIO(), said.append)
    for name in THREE[1:]:
        it.clock.start(name, time.monotonic())
    for line in SAID.splitlines():
        it.take(line)
    whole = sum(it.functions.values())
    counts = f"{sum(it.functions[name] for name in THREE[:2])} of {whole} functions, "
    wanted = [f"icu_order_levels is proved: {counts}less than a minute left", f"icu_table_entries is NOT PROVED: {counts}ended"]
    faults = {"icu_table_entries": ["src/lib.rt:3:1: error: not proved", "logic=not-proved"]}
    found = [f"{said}, and not {wanted}"] * (said != wanted) + [f"{it.faults}, and not {faults}"] * (it.faults != faults)
    return found + [f"{it.counts} are the counts"] * (it.counts != [2, 1])


class Unlearning(expected.Clock):
    """A clock that takes this machine for that of the kept costs."""

    def pace(self):
        return 1.0


def estimates(chance, work, names, lanes, made=expected.Clock):
    """The time that is said to be left as a share of what is left, from the fifth crate on, where this machine is slower than that of
    the kept costs by a factor that isn't known, and each crate by one of its own."""
    slower = chance.uniform(0.5, 4)
    took = {it: work.of(it) * slower * chance.lognormvariate(0, SPREAD) for it in names}
    clock, chains, waiting, running, now, said = made(work, names, lanes), work.chains(names), {*names}, {}, 0.0, []
    while waiting or running:
        ready = [it for it in waiting if not (waiting | {*running}) & {*work.listed[it].deps}]
        for name in sorted(ready, key=lambda it: (-chains[it], it))[: lanes - len(running)]:
            running[name] = now + took[name]
            waiting.remove(name)
            clock.start(name, now)
        said.append((now, clock.seconds_left(now)))
        ended = min(running, key=running.get)
        now = running.pop(ended)
        clock.end(ended, now, False)
    return [left / (now - at) for at, left in said[5:] if now - at > 60]


def wrong_estimates(made=expected.Clock, most=None):
    """Programs whose time is said wrongly more often than once in twenty."""
    listed, found = crates.listed(), []
    work, chance = expected.Work(listed), random.Random(5)
    for name in [it for it in listed if listed[it].is_program][:most]:
        names = [*crates.below(listed, name), name]
        shares = [it for lanes in (2, 4) for it in estimates(chance, work, names, lanes, made)]
        wrong = [it for it in shares if not LEAST <= it <= MOST]
        if 20 * len(wrong) > len(shares):
            found.append(f"{name}: {len(wrong)} of {len(shares)} times that are said to be left are wrong, as {wrong[:3]}")
    return found


def check_first_run(report):
    with tempfile.TemporaryDirectory(prefix="first-run-") as room:
        room = os.path.realpath(room)
        prepare(room)
        report.say("what can't be done without a proof is refused by name", wrongly_tried(room), len(REFUSED))
        report.say("what is run without a proof gets its words, files and input", wrong_tries(room), len(TRIED))
    report.say("what is said while a program is proved", wrong_lines(), 1)
    programs = [it for it in crates.listed().values() if it.is_program]
    report.say("the time that is said to be left", wrong_estimates(), 2 * len(programs))
    unlearned = ["it isn't"] * (not wrong_estimates(Unlearning, 1))
    report.say("a clock that learns nothing of the machine is found", unlearned, 2)
