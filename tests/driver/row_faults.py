"""Planted faults: wrong answers of a driver, each of which a file of rows has to find, and drivers that don't answer each
question."""
import os
import re
import shlex
import tempfile

from driver import SECONDS, Driver, DriverFault, numbers, written

TURNED = {"Less": "Greater", "Greater": "Less"}


def read_ahead(answer):
    return f"{int(answer, 16) + 3:X}"


def listed_twice(answer):
    count, _, names = answer.partition(" : ")
    first, comma, _ = names.partition(" , ")
    return f"{count} : {first} , {names}" if comma else answer


def safe(answer):
    return answer if " safe" in answer else answer.replace(" 00000000", " safe 00000000")


def without_last_jamo(answer):
    return written([*numbers(answer)[:0xF0], *16 * [0xCF]])


def of_next_digit(answer):
    entry = int(answer, 16)
    return f"{entry + 0x100:X}" if entry & 0xFF == 0xCA else answer


def says_more(answer):
    return f"{answer} 0001" if answer.startswith("map |") else answer


def without_chains(answer):
    return "ok" if answer.endswith("Chain") else answer


# What is wrong, the file of rows that has to find it, of which questions, and what becomes of their answers.
PLANTED = [
    ("another order by the call for Latin-1 and UTF-16", "order.txt", "compare 1 .*, 16", lambda it: TURNED.get(it, it)),
    ("another key of a text in UTF-16", "order.txt", "key 16", lambda it: f"{it} 1"),
    ("a key with a byte lost", "keys.txt", "key 16", lambda it: it.rpartition(" ")[0]),
    ("a key that is empty", "keys.txt", "key", lambda it: ""),
    ("a refusal with another kind", "refusals.txt", "together", lambda it: it.replace("Overlap", "Compression")),
    ("a condition that isn't checked", "refusals.txt", "alone", without_chains),
    ("an element more", "elements.txt", "readings", lambda it: f"{it} 00000000.0000.0000".strip()),
    ("hints that are trusted", "matches.txt", "readings", lambda it: it.replace("61150000", "61100000.0500.0500 61140000")),
    ("characters that are read ahead", "taken.txt", "taken", read_ahead),
    ("a syllable that waits for the next character", "taken.txt", "taken 0 1 c AC01 62", lambda it: "2"),
    ("a text of composed letters that is read whole", "taken.txt", "taken 0 2 c E9\\*2710$", lambda it: "2710"),
    ("an entry of another character", "values.txt", "tailoring.entry", lambda it: "C0"),
    ("a list with a number less", "values.txt", "show", lambda it: it.rpartition(" ")[0]),
    ("metadata that is left out", "settings.txt", "merge", lambda it: it.replace(" backward", "")),
    ("settings of the metadata that are left out", "resolved.txt", "resolved", lambda it: it.replace("2 1*2", "2 0 1")),
    ("a table that isn't kept", "kept.txt", "kept", lambda it: "reordering"),
    ("two replacement characters for one", "encodings.txt", "characters 16", lambda it: it.replace("FFFD", "FFFD*2", 1)),
    ("a letter that is always safe", "letters.txt", "letter", safe),
    ("a slice that is too short and said to do", "sinks.txt", "slice", lambda it: it.replace("too small", "ok")),
    ("a list that loses what it held", "sinks.txt", "list deque", lambda it: it.replace("7F", "", 1).strip()),
    ("a sink that takes more than it has room for", "sinks.txt", "limited", lambda it: it.replace("Full : 61", "Full : 61 10")),
    ("a sink of one byte that is said to take all", "sinks.txt", "limited .* 1 1 ", lambda it: it.replace("Full", "ok")),
    ("a name that is listed twice", "names.txt", "names", listed_twice),
    ("a request that isn't made", "requests.txt", "request", lambda it: it.replace("Metadata+type Metadata", "Metadata+type")),
    ("a request that is made twice", "requests.txt", "request - -", lambda it: it.replace("Jamo", "Jamo Jamo")),
    ("diacritics without their type", "requests.txt", "request", lambda it: it.replace("Diacritics+type", "Diacritics")),
    ("a cut line that says more", "cldr/lines.txt", "line", says_more),
    ("a context that loses a mapping", "cldr/entries.txt", "show mappings", lambda it: " ".join(it.split()[3:])),
    ("a lead byte that compresses", "cldr/tables.txt", "compressible", lambda it: "true"),
    ("implicit weights that don't compress", "cldr/tables.txt", "compressible FE", lambda it: "false"),
    ("jamo that are left out from U+11F0 on", "cldr/tables.txt", "show jamo", without_last_jamo),
    ("digits a value too great", "cldr/entries.txt", "entry", of_next_digit),
    ("a table that is there", "cldr/tables.txt", "absent", lambda it: it.partition(", ")[0] + ", ok"),
    ("a line that isn't counted", "cldr/refused.txt", "root", lambda it: it.replace("line 90", "line 89")),
]
# Scripts around the true driver that don't answer each question, or not in the time that they have, in seconds.
CARELESS = [
    ("an answer too few", '"$DRIVER" | sed 1d', SECONDS),
    ("an answer too many", '"$DRIVER"; echo', SECONDS),
    ("a status that isn't 0", '"$DRIVER"; exit 1', SECONDS),
    ("a message on standard error", '"$DRIVER"; echo no memory >&2', SECONDS),
    ("an end that doesn't come", f'"$DRIVER"; sleep {SECONDS}; exit 0', 2),
]


def spoilt(pattern, spoil, questions, answers):
    """Answers as a driver with a fault would give them."""
    pairs = zip(questions, answers)
    return [spoil(answer) if re.match(pattern, question) and answer != "?" else answer for question, answer in pairs]


def careless_missed(path):
    """The scripts around a driver that are not found, and what is wrong with one that has no fault."""
    with tempfile.TemporaryDirectory(prefix="rows-") as room:
        wrapper = os.path.join(room, "driver")
        found = [f"not found: {what}" for what, script, seconds in CARELESS if answers_by(wrapper, path, script, seconds)]
        return found + ["found wrong: a script without a fault"] * (not answers_by(wrapper, path, '"$DRIVER"', SECONDS))


def answers_by(wrapper, path, script, seconds):
    """Whether a script around a driver answers."""
    with open(wrapper, "w", encoding="utf-8") as it:
        it.write(f"#!/bin/sh\nDRIVER={shlex.quote(path)}\n{script}\n")
    os.chmod(wrapper, 0o700)
    try:
        return Driver(wrapper, seconds).ask(["base Mini", "show numeric"]) == ["ok", "F"]
    except DriverFault:
        return False
