"""The processor time of runs of the driver (driver.py).

Other work slows a machine down for a while, so the least of several times counts, and what seems to take too long is measured again,
after longer and longer rests, before it is called wrong.
"""
import math
import resource
import time

# How often lists of questions are asked in a row, how often they are measured at most, and the longest rest between, in seconds.
RUNS, ATTEMPTS, LONGEST_REST = 3, 10, 15


class Times:
    """The least processor time of all runs of some lists of questions, and the answers of each run. No other program that this one
    started may end meanwhile."""

    def __init__(self, driver, *asked):
        self.driver, self.asked = driver, asked
        self.least, self.answers = [math.inf] * len(asked), []
        self.measure()

    def measure(self):
        """Asks each list three times more. The lists take turns, so that other work slows all of them down alike."""
        for _ in range(RUNS):
            for place, questions in enumerate(self.asked):
                began = resource.getrusage(resource.RUSAGE_CHILDREN)
                self.answers.append(self.driver.ask(questions))
                ended = resource.getrusage(resource.RUSAGE_CHILDREN)
                took = ended.ru_utime + ended.ru_stime - began.ru_utime - began.ru_stime
                self.least[place] = min(self.least[place], took)


def lasting_faults(found, measured, attempts=ATTEMPTS):
    """What `found` finds wrong with the times of all that was measured, however often it is measured again."""
    for attempt in range(attempts):
        faults = found()
        if not faults:
            break
        if attempt < attempts - 1:
            time.sleep(min(2**attempt, LONGEST_REST))
            for it in measured:
                it.measure()
    return faults


class Slowed:
    """A driver that runs so many times more where some words stand in a question: a fault that the checks of time must find."""

    def __init__(self, driver, words, times):
        self.path, self.driver, self.words, self.times = driver.path, driver, words, times

    def ask(self, questions):
        is_slow = any(words in it for words in self.words for it in questions)
        for _ in range(self.times * is_slow):
            self.driver.ask(questions)
        return self.driver.ask(questions)
