"""How long proofs of crates take: each crate by the costs that are kept, the chains of crates that wait for each other, and how fast
this machine is, by the crates that it has proved so far."""
import os
import sys

import costs  # noqa: E402
import crates  # noqa: E402

# So many seconds of the kept costs count as proved in the time that they have, before a crate has ended.
TRUST = 20


class Work:
    """The seconds that each crate takes with one process: by the costs that are kept or, without those, by its lines."""

    def __init__(self, listed):
        self.listed, self.kept, self.known = listed, costs.read(costs.KEPT), {}

    def of(self, name):
        if name not in self.known:
            self.known[name] = self.worked_out(name)
        return self.known[name]

    def worked_out(self, name):
        known = sum(self.kept.of(name, it) for it in ("proof", "compilers")) if self.kept else 0
        if known:
            return known
        code, specs, proofs = (self.listed[name].lines(it) for it in crates.PARTS)
        return 8 + 0.045 * code + 0.005 * (specs + proofs) + 30 * self.listed[name].is_program

    def chains(self, left):
        """The longest chain of crates that wait for each other, from each of these up."""
        above, found = {it: [] for it in left}, {}
        for name in left:
            for it in above.keys() & self.listed[name].deps:
                above[it].append(name)

        def chain(name):
            if name not in found:
                found[name] = self.of(name) + max(map(chain, above[name]), default=0)
            return found[name]

        return {it: chain(it) for it in left}

    def expected(self, left, processors, running=()):
        """The seconds of the kept costs' machine until these crates are proved, one on each processor, the one with the longest
        chain above it first. `running` has the crates that are under way, and what is left of each."""
        chains, ends, waiting, now = self.chains(left), dict(running), {*left} - {*dict(running)}, 0.0
        while waiting or ends:
            open_ones = waiting | {*ends}
            ready = [it for it in waiting if not open_ones & {*self.listed[it].deps}]
            for name in sorted(ready, key=lambda it: (-chains[it], it))[: max(processors - len(ends), 0)]:
                ends[name] = now + self.of(name)
                waiting.remove(name)
            now = min(ends.values())
            ends = {name: it for name, it in ends.items() if it > now}
        return now


class Clock:
    """Says how long is left, by the crates that have ended and what they took here."""

    def __init__(self, work, names, processors):
        self.work, self.left, self.processors = work, [*names], processors
        self.began, self.took, self.kept = {}, TRUST, TRUST

    def start(self, name, now):
        self.began.setdefault(name, now)

    def end(self, name, now, is_kept):
        """Takes a crate that has ended; one that an earlier run proved says nothing of the machine."""
        if name not in self.left:
            return
        self.left.remove(name)
        if not is_kept and name in self.began:
            self.took, self.kept = self.took + now - self.began[name], self.kept + self.work.of(name)

    def pace(self):
        """The seconds here for one of the kept costs."""
        return self.took / self.kept

    def seconds_left(self, now):
        pace, running = self.pace(), {}
        for name in self.left:
            if name in self.began:
                spent, whole = (now - self.began[name]) / pace, self.work.of(name)
                running[name] = max(whole - spent, 0.15 * max(whole, spent))
        return pace * self.work.expected(self.left, self.processors, running)


def about(seconds):
    """A time in words."""
    return f"about {seconds / 60:.0f} minutes" if seconds > 90 else "about a minute" if seconds > 30 else "less than a minute"
