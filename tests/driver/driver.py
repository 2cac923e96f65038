"""Asks the program `test_driver` questions, and writes and reads what stands in them.

A question is a line and so is its answer; crates/test_driver/README.md has all of them. Numbers are hexadecimal with blanks
between them, and `61*3` is 61 three times.
"""
import itertools
import re

from sweeps import ENVIRONMENT, ended

# How long a run may take, for each so many questions that it is asked.
SECONDS, QUESTIONS = 60, 100_000
# What answers a question that can't be read.
UNREAD = "?"


class DriverFault(Exception):
    """A run of the driver that has no answer for each question."""


class Driver:
    """A built driver, by its path. Each call of `ask` is a run of its own, so no state is left over from an earlier one."""

    def __init__(self, path, seconds=SECONDS):
        self.path, self.seconds = path, seconds

    def ask(self, questions):
        """The answers to questions, one for each."""
        questions = list(questions)
        given = "".join(f"{it}\n" for it in questions).encode()
        answers = self.output(given, self.seconds * (1 + len(questions) // QUESTIONS)).split("\n")
        if answers.pop() or len(answers) != len(questions):
            raise DriverFault(f"{self.path}: {len(answers)} answers to {len(questions)} questions")
        return answers

    def output(self, given, seconds):
        """What a run writes that is given these bytes."""
        ran = ended([self.path], given, seconds, env=ENVIRONMENT)
        if ran.returncode != 0 or ran.stderr:
            raise DriverFault(f"{self.path}: status {ran.returncode}, faults {ran.stderr[:200]!r}")
        return ran.stdout.decode("utf-8", "backslashreplace")


# ---- numbers


def numbers(text):
    """The numbers of a list, as `61*3 10`."""
    found = []
    for word in text.split():
        digits, _, count = word.partition("*")
        found += [int(digits, 16)] * int(count or "1", 16)
    return found


def written(some):
    """Numbers as an answer has them: a run of two or more equal ones is written with its length."""
    runs = ((number, len(list(equal))) for number, equal in itertools.groupby(some))
    return " ".join(f"{number:X}" if count == 1 else f"{number:X}*{count:X}" for number, count in runs)


# ---- texts


def units_of(encoding, characters):
    """The units of a Python text in an encoding: `c` characters, `8` UTF-8, `16` UTF-16, `1` Latin-1."""
    if encoding == "c":
        return [ord(it) for it in characters]
    if encoding == "16":
        encoded = characters.encode("utf-16-le", "surrogatepass")
        return [low | high << 8 for low, high in zip(encoded[::2], encoded[1::2])]
    return list(characters.encode({"8": "utf-8", "1": "latin-1"}[encoding]))


def text(encoding, units):
    """A text of a question: the name of an encoding, and units or a Python text that is written in them."""
    if isinstance(units, str):
        units = units_of(encoding, units)
    return f"{encoding} {written(units)}".rstrip()


def characters(notation):
    """The Python text of a row's notation: `{301}` is U+0301, and `{61*3}` U+0061 three times (the count is decimal)."""

    def repeated(found):
        codes, _, count = found[1].partition("*")
        return "".join(chr(int(it, 16)) for it in codes.split()) * int(count or "1")

    return re.sub(r"\{([^}]*)\}", repeated, notation)
