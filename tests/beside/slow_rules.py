#!/usr/bin/env python3
"""Times rules that are made to be slow, by the program `collate-cldr`: those that have to be refused, long ones, and ones that grow.

usage: tests/beside/slow_rules.py [PROGRAM [FOLDER]]    prints the processor time of each list of rules beyond that of a short one, and ends
                                                 with status 1 if one takes too long or comes to something else

It is no part of the gate. PROGRAM is collate-cldr, FOLDER has CLDR's data.
"""
import math
import os
import resource
import sys
import tempfile

sys.path[:0] = [it.path for it in os.scandir(os.path.dirname(os.path.dirname(os.path.realpath(__file__)))) if it.is_dir()]
from cldr_locales import COLLATIONS, PLANE
from sweeps import ENVIRONMENT, TOP, Run, ended

PROGRAM = os.path.join(TOP, "crates", "collate_cldr", "out", "collate_cldr")
FOLDER = "/usr/share/unicode/cldr"
# How often each list is timed, of which the least time counts; how long it may take, in seconds, and by how many times as much for
# four times as many marks; and how long a run may take before it is cut off.
RUNS, SECONDS, GROWTH, CUT_OFF = 3, 2, 4.6, 600
MANY = ": expected at most 250000 relations, with those of imports\n"
MOST = 250_000
# Rules that are refused.
REFUSED = {
    "a private plane, eight times": f"&a{PLANE[2:] * 8}",
    "a private plane at a reset each, eight times": f"{PLANE}\n" * 8,
    "all relations but one, and two": f"&a{'<b' * (MOST - 1)}<c<d",
    "strokes of Chinese, sixteen times": "[import zh-u-co-stroke]\n" * 16,
}
# Rules that are taken, as long as they may be.
TAKEN = {
    "one relation at one place": "&a<b\n" * MOST,
    "one relation before one place": "&[before 1]b<a\n" * MOST,
    "characters at one place": "".join(f"&a<{chr(0xF0000 + at % 65_000)}\n" for at in range(MOST)),
    "characters before one place": "".join(f"&[before 1]b<{chr(0xF0000 + at % 65_000)}\n" for at in range(MOST)),
    "characters in turn": f"&a{''.join(f'<{chr(0xF0000 + at % 65_000)}' for at in range(MOST))}",
    "ranges": f"{PLANE}\n" * 3,
    "no difference": f"&a{'=b' * MOST}",
}
# Rules with so many marks.
GROWING = {
    "acute accents": lambda count: "&a<x" + "\u0301" * count,
    "cedillas": lambda count: "&a<x" + "\u0327" * count,
    "cedillas and accents": lambda count: "&a<x" + "\u0327\u0301" * (count // 2),
    "a reset": lambda count: "&\u0301\u0301<<x\u0301\n&a<y" + "\u0301" * count,
    "a contraction of accents": lambda count: "&b<<\u0301\u0300\n&a<x" + "\u0301" * count,
    "marks that begin contractions": lambda count: "&a<x" + "\u0f71" * count,
    "an extension": lambda count: "&a<x/y" + "\u0301" * count,
    "an anchor": lambda count: "&a" + "\u0301" * count + "<x",
}
COUNT = 10_000


class Timed:
    """A list of rules as a language's, and the least processor time of a comparison by them."""

    def __init__(self, program, folder, rules):
        path = os.path.join(folder, "common", "collation", "xx.xml")
        with open(path, "w", encoding="utf-8") as it:
            it.write(COLLATIONS % rules)
        self.seconds = math.inf
        for _ in range(RUNS):
            began = resource.getrusage(resource.RUSAGE_CHILDREN)
            ran = ended([program, "compare", "--cldr", folder, "-l", "xx", "a", "b"], b"", CUT_OFF, env=ENVIRONMENT)
            over = resource.getrusage(resource.RUSAGE_CHILDREN)
            self.ran = Run(ran.returncode, ran.stdout, ran.stderr, None)
            self.seconds = min(self.seconds, over.ru_utime + over.ru_stime - began.ru_utime - began.ru_stime)
            if self.seconds > 5 * SECONDS:
                break

    def took(self, start):
        """The seconds beyond those of a short list."""
        return max(self.seconds - start.seconds, 0.001)


def report(kind, name, seconds, faults):
    print(f"{kind}: {name}: {seconds:.2f} s{''.join(f'; {it}' for it in faults)}", flush=True)
    return faults


def wrong_refusal(took, ran):
    found = [f"takes more than {SECONDS} s"] * (took > SECONDS)
    return found + [f"not refused so: {ran}"] * (ran.status != 3 or not ran.faults.endswith(MANY.encode()))


def wrong_taken(took, ran):
    return [f"takes more than {SECONDS} s"] * (took > SECONDS) + [f"not taken: {ran}"] * (ran.status not in (0, 1))


def wrong_growth(program, folder, start, rules):
    """How long a list with four times as many marks takes, and what is wrong with its growth."""
    once, more = (Timed(program, folder, rules(count)) for count in (COUNT, 4 * COUNT))
    times = more.took(start) / once.took(start)
    found = [f"takes {times:.1f} times as long for four times as many"] * (times > GROWTH and more.took(start) > 0.1)
    found += [f"takes more than {SECONDS} s"] * (more.took(start) > SECONDS)
    return more.took(start), found + [f"not ended: {more.ran}"] * (more.ran.status not in (0, 1, 3))


def faults_of(program, folder):
    found, start = [], Timed(program, folder, "&a<b")
    for kind, lists, wrong in [("refused", REFUSED, wrong_refusal), ("taken", TAKEN, wrong_taken)]:
        for name, rules in lists.items():
            timed = Timed(program, folder, rules)
            found += report(kind, name, timed.took(start), wrong(timed.took(start), timed.ran))
    for name, rules in GROWING.items():
        found += report("growing", name, *wrong_growth(program, folder, start, rules))
    return found


def linked(data, room):
    """A folder with the files of CLDR's data that are read, and room for one more."""
    os.makedirs(os.path.join(room, "common", "collation"))
    os.symlink(os.path.join(data, "common", "uca"), os.path.join(room, "common", "uca"))
    for part in os.listdir(os.path.join(data, "common")):
        if part not in ("collation", "uca"):
            os.symlink(os.path.join(data, "common", part), os.path.join(room, "common", part))
    for name in os.listdir(os.path.join(data, "common", "collation")):
        os.symlink(os.path.join(data, "common", "collation", name), os.path.join(room, "common", "collation", name))
    return room


def main():
    program, data = [*sys.argv[1:], *[PROGRAM, FOLDER][len(sys.argv) - 1 :]]
    with tempfile.TemporaryDirectory(prefix="slow-rules-") as room:
        return 1 if faults_of(os.path.realpath(program), linked(data, room)) else 0


if __name__ == "__main__":
    sys.exit(main())
