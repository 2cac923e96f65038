#!/usr/bin/env python3
"""The sort keys of the texts of CLDR's two test files, by the root of CLDR: how many, how many bytes they have in all, how many of
them are greater than the next one, and a checksum. Each comparison of a text with the next one has to be the order of their keys. A
record, tests/beside/cldr_keys.txt, is of the root whose checksum its first line has; a key that changes is seen so, even if the order
stays. bin/test-cldr runs it; it isn't part of the gate.

usage: tests/beside/cldr_keys.py FOLDER [PROGRAM]            compares with the record; status 1 where something differs, a text that should
                                                      be in order isn't, or nothing is recorded of this root
       tests/beside/cldr_keys.py --record FOLDER [PROGRAM]   prints a record; status 1 where a text that should be in order isn't
PROGRAM is the driver, as `bin/prove-program test_driver` builds it.
"""
import hashlib
import os
import sys

sys.path[:0] = [it.path for it in os.scandir(os.path.dirname(os.path.dirname(os.path.realpath(__file__)))) if it.is_dir()]
from driver import Driver, DriverFault, numbers, text

TOP = os.path.dirname(os.path.dirname(os.path.dirname(os.path.realpath(__file__))))
PROGRAM = os.path.join(TOP, "crates", "test_driver", "out", "test_driver")
RECORD = os.path.join(TOP, "tests", "beside", "cldr_keys.txt")
ROOT = "FractionalUCA.txt"
PLAIN, SHIFTED = "CollationTest_CLDR_NON_IGNORABLE_SHORT.txt", "CollationTest_CLDR_SHIFTED_SHORT.txt"
# What keys are written by: a name, the test file, the six settings of a collator, and whether the file's lines then stand in order.
SETTINGS = [
    ("tertiary", PLAIN, "2 0 FF FF FF 0", True),
    ("tertiary, numeric", PLAIN, "2 0 FF FF FF 1", False),
    ("identical", PLAIN, "4 0 FF FF FF 0", False),
    ("quaternary, shifted", SHIFTED, "3 1 FF FF FF 0", True),
    ("quaternary, shifted, numeric", SHIFTED, "3 1 FF FF FF 1", False),
    ("quaternary, shifted, max-variable space", SHIFTED, "3 1 0 FF FF 0", False),
    ("quaternary, shifted, max-variable punctuation", SHIFTED, "3 1 1 FF FF 0", True),
    ("quaternary, shifted, max-variable symbol", SHIFTED, "3 1 2 FF FF 0", False),
    ("quaternary, shifted, max-variable currency", SHIFTED, "3 1 3 FF FF 0", False),
]
# How long a run of the driver may take, in seconds.
SECONDS = 600


def content(path):
    with open(path, "rb") as it:
        return it.read()


def texts(path):
    """The texts that the lines of a test file spell by the numbers of their characters, but for such as no text has."""
    for line in content(path).decode().split("\n"):
        spelt = [int(it, 16) for it in line.partition("#")[0].split()]
        if spelt and not any(0xD800 <= it < 0xE000 for it in spelt):
            yield spelt


def asked(driver, folder, settings, questions):
    """The answers to questions that are asked of a collator."""
    answers = driver.ask([f"file {os.path.abspath(os.path.join(folder, ROOT))}", f"make {settings}", *questions])
    if answers[:2] != ["ok", "ok"]:
        raise DriverFault(f"{ROOT}: {answers[:2]}")
    return answers[2:]


def keys_of(driver, folder, name, settings):
    """The keys of the texts of a test file, in turn, and how many texts compare with the next one otherwise than their keys do."""
    spelt = [text("c", it) for it in texts(os.path.join(folder, name))]
    keys = [bytes(numbers(it)) for it in asked(driver, folder, settings, [f"key {it}" for it in spelt])]
    orders = asked(driver, folder, settings, [f"compare {one} , {other}" for one, other in zip(spelt, spelt[1:])])
    wanted = ["Less" if one < other else "Greater" if one > other else "Equal" for one, other in zip(keys, keys[1:])]
    return keys, sum(it != other for it, other in zip(orders, wanted))


def said_of(keys):
    """What is recorded of keys: how many, their bytes, the texts that are greater than the next one, and a checksum."""
    checksum = hashlib.sha256()
    for key in keys:
        checksum.update(len(key).to_bytes(4, "big") + key)
    out_of_order = sum(left > right for left, right in zip(keys, keys[1:]))
    return f"{len(keys)} keys, {sum(map(len, keys))} bytes, {out_of_order} out of order, {checksum.hexdigest()[:32]}"


def lines_of(driver, folder):
    """The lines of a record, and whether texts should be in order and aren't, or compare otherwise than their keys do."""
    yield f"{ROOT}: {hashlib.sha256(content(os.path.join(folder, ROOT))).hexdigest()[:32]}", False
    for name, file, settings, is_ordered in SETTINGS:
        keys, unlike = keys_of(driver, folder, file, settings)
        said = said_of(keys)
        yield f"{name}: {said}", unlike > 0 or is_ordered and ", 0 out of order, " not in said


def main(words):
    is_recording = words[:1] == ["--record"]
    folder, *programs = words[1:] if is_recording else words
    driver = Driver(programs[0] if programs else PROGRAM, SECONDS)
    recorded = content(RECORD).decode().splitlines() if os.path.exists(RECORD) and not is_recording else []
    found, wrong = [], 0
    for line, is_disordered in lines_of(driver, folder):
        found.append(line)
        wrong += is_disordered or not is_recording and line not in recorded
        print(line, flush=True)
    if not is_recording:
        print(f"no record of this {ROOT}" if found[0] not in recorded else f"{wrong} lines differ from the record")
    return 1 if wrong else 0


if __name__ == "__main__":
    sys.exit(main(sys.argv[1:]))
