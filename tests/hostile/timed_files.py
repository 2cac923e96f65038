#!/usr/bin/env python3
"""Files of CLDR's form that are made to be dear, each in several sizes. A file is read or refused in a time that grows no faster than
the file, and that is at most some times that of a file of plain mappings as large.

usage: tests/hostile/timed_files.py [PROGRAM [MEGABYTES ..]]    prints how long the driver takes for each file: by itself those of 1, 2, 4 and
                                                        10 megabytes
"""
import os
import sys
import tempfile

sys.path[:0] = [it.path for it in os.scandir(os.path.dirname(os.path.dirname(os.path.realpath(__file__)))) if it.is_dir()]
from cldr_questions import FIRST_LINES, LAST_LINE
from driver import Driver
from timing import RUNS, Slowed, Times, lasting_faults

TOP = os.path.dirname(os.path.dirname(os.path.dirname(os.path.realpath(__file__))))
PROGRAM = os.path.join(TOP, "crates", "test_driver", "out", "test_driver")
# How many bytes the files of the gate have: a size, twice as many and four times as many. How much faster than the file its time may
# grow, how many times as long as a plain file it may take, and what is allowed for other work of the machine, in seconds.
SIZE, FASTER, DEARER, ALLOWED = 200_000, 2, 4, 0.02
MEGABYTES = (1, 2, 4, 10)
# Files of which the mappings of shorter prefixes are copied to longer ones, which takes a fixed number of steps at most: so many times
# as long as the greatest plain file.
JOINED, JOINING = "prefixes of contractions alone, and contractions", 15
# A character of which most mappings are, and the first of those that stand around it.
OF, OTHERS = 0x63, 0x30000


def weight(number):
    """An element with another primary weight for each of 64,516 numbers."""
    return f"[61 {2 + number // 254 % 254:02X} {2 + number % 254:02X}, 05, 05]"


def lines_in(size, *makers):
    """Lines of so many bytes in all, by makers that take turns, each with the number of its line."""
    found, length, number = [], 0, 0
    while length < size:
        for make in makers:
            found.append(make(number))
            length += len(found[-1]) + 1
        number += 1
    return found


def plain(number):
    return f"{OTHERS + number:X}; {weight(number)}"


def prefixed(number):
    return f"{OTHERS + number:X} | {OF:04X}; {weight(number)}"


def contracted(number):
    return f"{OF:04X} {OTHERS + number:X}; {weight(number)}"


def prefixed_contraction(number):
    return f"{OTHERS + number:X} | {OF:04X} 0064; {weight(number)}"


def begun_alike(number):
    return f"{OF:04X}{' 0064' * 400} {OTHERS + number:X}; {weight(number)}"


def of_ideographs(size):
    """Many ranges, each of one ideograph, and elements that name the last of them."""
    ranges = " ".join(f"{0x3400 + 2 * at:04X}" for at in range(9_000))
    last = f"[U+{0x3400 + 2 * 8_999:04X}]"
    return [f"[Unified_Ideograph {ranges}]", *lines_in(size - len(ranges), lambda it: f"{OTHERS + it:X}; {31 * last}")]


def with_own(lines):
    """Lines behind that of the character itself."""
    return [f"{OF:04X}; {weight(0)}", *lines]


# The lines of a file by its size, by what it has.
KINDS = {
    "plain mappings": lambda size: lines_in(size, plain),
    "prefixes": lambda size: with_own(lines_in(size, prefixed)),
    "contractions": lambda size: with_own(lines_in(size, contracted)),
    "prefixes and contractions": lambda size: with_own(lines_in(size, prefixed, contracted)),
    JOINED: lambda size: with_own(lines_in(size, prefixed_contraction, contracted)),
    "contractions that begin alike": lambda size: with_own(lines_in(size, begun_alike)),
    "ideographs that elements name": of_ideographs,
    "bytes that are fixed": lambda size: lines_in(size, lambda _: "[fixed first implicit byte E0]"),
    "a line of one prefix": lambda size: [f"{size // 5 * '0061 '}| {OF:04X}; {weight(0)}"],
    "a line of one contraction": lambda size: [f"{OF:04X}{size // 5 * ' 0061'}; {weight(0)}"],
    "a line of many elements": lambda size: [f"{OF:04X}; {size // 21 * weight(0)}"],
    "a line of ranges of ideographs": lambda size: [f"[Unified_Ideograph{size // 5 * ' 4E00'}]"],
    "a line of blanks": lambda size: [size * " " + f"{OF:04X}; {weight(0)}"],
    "a line of a comment": lambda size: [f"# {size * 'a'}"],
}
# The line of ideographs that all other files begin with.
IDEOGRAPHS = "[Unified_Ideograph 4E00..4E0F 3400..3401 20000..2000F FA11]\n"


def content(kind, size):
    """A file of this kind with some more bytes than these."""
    lines = KINDS[kind](size)
    first = FIRST_LINES.replace(IDEOGRAPHS, "") if lines[0].startswith("[Unified") else FIRST_LINES
    return first + "".join(f"{it}\n" for it in lines) + LAST_LINE


class File:
    """A file in a folder, and how long the driver takes to read or refuse it."""

    def __init__(self, driver, room, kind, size):
        self.kind, path = kind, os.path.join(room, f"{len(os.listdir(room))}.txt")
        with open(path, "w", encoding="utf-8") as it:
            it.write(content(kind, size))
        self.size = os.path.getsize(path)
        self.times = Times(driver, [f"file {path}"])

    def measure(self):
        self.times.measure()

    @property
    def seconds(self):
        return self.times.least[0]

    def __str__(self):
        return f"{self.kind}, {self.size / 1e6:.1f} MB: {self.seconds:.3f} s, {self.times.answers[0][0]}"


def dear_files(files, plain_ones):
    """What is wrong with the times of files of one kind, which ascend in size, beside plain files of the same sizes."""
    least, greatest = files[0], files[-1]
    allowed = FASTER * least.seconds * greatest.size / least.size + ALLOWED
    found = [f"grows too fast: {least}; {greatest}"] * (greatest.seconds > allowed)
    more = ALLOWED + (JOINING * plain_ones[-1].seconds if least.kind == JOINED else 0)
    dear = [(it, other) for it, other in zip(files, plain_ones) if it.seconds > DEARER * other.seconds + more]
    return found + [f"{it}; {other}" for it, other in dear]


def lasting(files, plain_ones):
    return lasting_faults(lambda: dear_files(files, plain_ones), [*files, *plain_ones])


def check_files(report, program):
    """Files of all kinds in three sizes."""
    driver, sizes = Driver(program), (SIZE, 2 * SIZE, 4 * SIZE)
    with tempfile.TemporaryDirectory(prefix="files-") as room:
        files = {kind: [File(driver, room, kind, size) for size in sizes] for kind in KINDS}
        plain_ones = files["plain mappings"]
        faults = [it for some in files.values() for it in lasting(some, plain_ones)]
        report.say("a file of CLDR: reading takes no more than in proportion to the file", faults, 3 * RUNS * len(files))
        slowed = Slowed(driver, ["file"], 16 * FASTER)
        late = [File(driver, room, "plain mappings", SIZE), File(slowed, room, "plain mappings", 4 * SIZE)]
        missed = [] if dear_files(late, plain_ones) else ["not found: a file whose time grows faster than it"]
        report.say("a file of CLDR: a time that grows faster than the file is found", missed, RUNS * len(late))


def main():
    program, *sizes = [*sys.argv[1:], *[PROGRAM][len(sys.argv) - 1 :]]
    with tempfile.TemporaryDirectory(prefix="files-") as room:
        for kind in KINDS:
            for size in [float(it) for it in sizes] or MEGABYTES:
                print(File(Driver(program, 600), room, kind, int(size * 1e6)), flush=True)
                for name in os.listdir(room):
                    os.remove(os.path.join(room, name))


if __name__ == "__main__":
    main()
