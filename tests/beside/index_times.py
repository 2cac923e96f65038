#!/usr/bin/env python3
"""Times the program `collate-index` over an index of many names, in processor time: to build it, to find names in it, to print it.

usage: tests/beside/index_times.py [COUNT [PROGRAM]]    100,000 names if no count is given

The names are made of syllables, some with accents, always the same ones. It needs CLDR's root, which Debian's package
unicode-cldr-core installs. Each run reads and checks the root, which is timed by itself, over an index without names. It is no part
of the gate.
"""
import os
import resource
import subprocess
import sys
import tempfile

CRATE = os.path.join(os.path.dirname(os.path.dirname(os.path.dirname(os.path.realpath(__file__)))), "crates", "collate_index")
SYLLABLES = ["ma", "mü", "lo", "ré", "ni", "sa", "zo", "ë", "ka", "ber", "son", "dor", "fel", "gri", "hu", "wen", "ty", "qua", "ÿl",
             "ping", "ost", "ed", "ur", "ix"]


def names(count):
    """So many names, of a generator of numbers."""
    state = 1
    for number in range(count):
        words = []
        for length in (2, 3):
            word = ""
            for _ in range(length):
                state = (state * 6364136223846793005 + 1442695040888963407) % 2**64
                word += SYLLABLES[(state >> 40) % len(SYLLABLES)]
            words += [word.capitalize()]
        yield f"{words[0]} {words[1]}\t{number}\n"


def processor_time():
    """The processor time of all runs so far, in seconds."""
    used = resource.getrusage(resource.RUSAGE_CHILDREN)
    return used.ru_utime + used.ru_stime


def timed(program, *words, given=""):
    """The processor time of a run, and what it printed."""
    start = processor_time()
    done = subprocess.run([program, *words], input=given.encode(), capture_output=True, check=False)
    if done.returncode != 0:
        sys.exit(f"{words}: status {done.returncode}, {done.stderr.decode()}")
    return processor_time() - start, done.stdout.decode()


def main(words):
    count = int(words[0]) if words else 100_000
    program = os.path.abspath(words[1]) if len(words) > 1 else os.path.join(CRATE, "out", "collate_index")
    with tempfile.TemporaryDirectory() as room:
        file, empty = os.path.join(room, "names.db"), os.path.join(room, "empty.db")
        first = timed(program, "add", empty)[0]
        root = min(timed(program, "list", empty)[0] for _ in range(3))
        print(f"a new file: {first:.2f} s; root, with an index without names: {root:.2f} s", flush=True)
        text = "".join(names(count))
        for what, run, given in [
            ("built", ("add", file), text),
            ("one more", ("add", file, "Zoë Müller"), ""),
            ("none found", ("find", file, "xxxx"), ""),
            ("found", ("find", file, "müma lo"), ""),
            ("under a letter", ("find", file, "q"), ""),
            ("listed", ("list", file), ""),
            ("headed", ("headings", file, "--labels", ",".join("ABCDEFGHIJKLMNOPQRSTUVWXYZ")), ""),
            ("made anew", ("rebuild", file, "--strength", "1"), ""),
        ]:
            took, printed = timed(program, *run, given=given)
            print(f"{what}: {took - root:.2f} s beside the root's, {printed.count(chr(10)):,} lines", flush=True)
        size = os.path.getsize(file)
        print(f"{count:,} names, {len(text.encode()):,} bytes; the file has {size:,} bytes")


if __name__ == "__main__":
    main(sys.argv[1:])
