"""Runs of programs, each of whose requests of the system may be refused: by the library refuse.c, which is preloaded."""
import concurrent.futures
import os
import shlex
import signal
import stat
import subprocess
import tempfile

TOP = os.path.dirname(os.path.dirname(os.path.dirname(os.path.realpath(__file__))))
TESTS = os.path.join(TOP, "tests")
# How long a run may take.
SECONDS = 60
ENVIRONMENT = {"PATH": "/usr/bin:/bin", "LANG": "C.UTF-8"}
COUNTED = ("allocation", "read", "write", "file", "refused")
REQUESTS = ["allocation", "read", "write"]


def built(name):
    return os.path.join(TOP, "crates", name, "out", name)


def wrapped(room, name, program, text):
    """A shell script around a program, which it knows as $COLLATE."""
    path = os.path.join(room, name)
    with open(path, "w", encoding="utf-8") as it:
        it.write(f"#!/bin/sh\nCOLLATE={shlex.quote(program)}\n{text}\n")
    os.chmod(path, stat.S_IRWXU)
    return path


def faults_missed(room, name, program, letters, faulty):
    """Those programs with a fault that a test passes. Of each stand what is wrong with it, a script, and the test."""
    found = []
    for at, (what, text, wrong) in enumerate(faulty):
        found += [f"not found: {what}"] * (not wrong(wrapped(room, f"{name}{at}", program, text), letters, room))
    return found


class Run:
    """What one run of a program came to. A run that had not ended in time has no status."""

    def __init__(self, status, output, faults, counts):
        self.status, self.output, self.faults, self.counts = status, output, faults, counts

    def came_to(self):
        return self.status, self.output, self.faults

    def __str__(self):
        brief = lambda text: repr(text if len(text) < 200 else text[:100] + b" .. " + text[-60:])
        return f"status {self.status}, output {brief(self.output)}, faults {brief(self.faults)}"


class Refused:
    """Which requests of a run are refused: the one at a place among those of its kind, perhaps with all after it."""

    def __init__(self, request, at, how="fail", also_after=False):
        self.request, self.at, self.how, self.also_after = request, at, how, also_after

    def is_error(self):
        """Whether the request returns an error which no program that asks once more may pass over."""
        return self.how in ("fail", "again")

    def settings(self):
        return {
            "REFUSE": self.request,
            "REFUSE_AT": str(self.at),
            "REFUSE_HOW": self.how,
            "REFUSE_ALSO_AFTER": str(int(self.also_after)),
        }

    def __str__(self):
        how = {"fail": "refused", "signal": "interrupted by a signal", "short": "of one byte",
               "again": "to be made again", "full": "as on a full disk"}[self.how]
        return f"{self.request} {self.at}{' and each after it' if self.also_after else ''} {how}"


def ended(command, given=None, seconds=None, **how):
    """The run of a command, which is killed where it takes too long, with all that it has started."""
    seconds = seconds or SECONDS
    how.update({"stdout": subprocess.PIPE, "stderr": subprocess.PIPE, "start_new_session": True})
    how.update({} if given is None else {"stdin": subprocess.PIPE})
    with subprocess.Popen(command, **how) as it:
        try:
            output, faults = it.communicate(given, timeout=seconds)
        except BaseException as fault:
            os.killpg(it.pid, signal.SIGKILL)
            if not isinstance(fault, subprocess.TimeoutExpired):
                raise
            return subprocess.CompletedProcess(command, None, b"", f"it had not ended after {seconds} seconds\n".encode())
    return subprocess.CompletedProcess(command, it.returncode, output, faults)


def run(program, words, given=b"", refused=None, shim=None):
    """Runs a program, and counts its requests where a library to preload is named. It is then given a file, since through a
    pipe the number of reads would depend on how fast the pipe is filled."""
    env = dict(ENVIRONMENT)
    if not shim:
        ran = ended([program, *words], given, env=env)
        return Run(ran.returncode, ran.stdout, ran.stderr, None)
    reader, writer = os.pipe()
    try:
        env.update({"LD_PRELOAD": shim, "REFUSE_COUNTS": str(writer)}, **(refused.settings() if refused else {}))
        ran = run_on_a_file([program, *words], given, env, writer)
    finally:
        os.close(writer)
        with os.fdopen(reader, "rb") as it:
            counts = [int(word) for word in it.read().split()]
    return Run(ran.returncode, ran.stdout, ran.stderr, dict(zip(COUNTED, counts)))


def run_on_a_file(command, given, env, kept_open):
    with tempfile.TemporaryFile() as it:
        it.write(given)
        it.seek(0)
        return ended(command, stdin=it, env=env, pass_fds=(kept_open,))


def run_on_streams(program, words, redirections):
    """Runs a program with streams that the shell closes or sends elsewhere, as `>&-` or `>/dev/full`."""
    ran = ended(["sh", "-c", f'exec "$@" {redirections}', "sh", program, *words], stdin=subprocess.DEVNULL, env=ENVIRONMENT)
    return Run(ran.returncode, ran.stdout, ran.stderr, None)


# ---- each request of a run refused in turn


def wrong_over(program, rows):
    """The runs over an input that came to something else than is wanted, as lines."""
    found = []
    for words, given, *wanted in rows:
        ran = run(program, words, given)
        if ran.came_to() != tuple(wanted):
            found.append(f"{words} of {given[:40]}: {ran}; wanted: {Run(*wanted, None)}")
    return found


def is_beginning(text, whole):
    return whole[: len(text)] == text


class Outcome:
    """One run of a sweep: what was refused, what the run came to, and what is wrong with it, if anything is."""

    def __init__(self, refused, ran, fault):
        self.refused, self.ran, self.fault = refused, ran, fault


def tried(shim, program, words, given, plain, refused, is_right):
    """The outcome of one run with a refusal, beside the run without one."""
    ran = run(program, words, given, refused, shim)
    if ran.status is None:
        return Outcome(refused, ran, f"{refused}: {ran}")
    if ran.status < 0 or not ran.counts:
        return Outcome(refused, ran, f"{refused}: it crashed: {ran}")
    if not ran.counts["refused"]:
        return Outcome(refused, ran, f"{refused}: the request was not made")
    return Outcome(refused, ran, None if is_right(plain, refused, ran) else f"{refused}: {ran}")


def every(_at, _count, _also_after):
    return True


def sweep(shim, program, words, given, requests, is_right, is_chosen=every):
    """Refuses each of these requests of a run in turn: alone, with all after it, and where it is no allocation by a signal,
    by a single byte and by the error of a stream that isn't ready as well. Of
    allocations those are refused that `is_chosen` chooses by their places, how many there are, and whether all after it are."""
    plain = run(program, words, given, shim=shim)
    if not plain.counts or not plain.counts[requests[0]]:
        return [Outcome(None, plain, f"no {requests[0]} was counted: {plain}")]
    kinds = [(request, "fail", after) for request in requests for after in (False, True)]
    kinds += [(request, how, False) for request in requests if request != "allocation" for how in ("signal", "short", "again")]
    all_refused = [Refused(it, at, how, after) for it, how, after in kinds for at in range(1, plain.counts[it] + 1)
                   if it != "allocation" or is_chosen(at, plain.counts[it], after)]
    with concurrent.futures.ThreadPoolExecutor(os.cpu_count() or 1) as pool:
        return [*pool.map(lambda it: tried(shim, program, words, given, plain, it, is_right), all_refused)]


def says_refusals(name, *read_failures, failed=1, answers=(0,)):
    """Says of a program of this name whether it did right: its answer as without a refusal where the request was made again, or
    the line of the fault, with the status for it; where a read failed, one of some lines. A run that answers ends with one of some
    statuses."""

    def is_right(plain, refused, ran):
        if not refused.is_error():
            return ran.came_to() == plain.came_to()
        if refused.request == "allocation":
            asked_again = not refused.also_after and ran.counts["allocation"] > plain.counts["allocation"]
            is_said = ran.came_to() == (failed, b"", f"{name}: no memory\n".encode())
            return is_said or asked_again and ran.came_to() == plain.came_to()
        if refused.request == "read":
            return ran.came_to() in [(failed, b"", it) for it in read_failures]
        if plain.status not in answers:
            return ran.status == plain.status and not ran.output and is_beginning(ran.faults, plain.faults)
        said = b"" if refused.also_after else f"{name}: write failed\n".encode()
        return ran.status == failed and ran.output != plain.output and is_beginning(ran.output, plain.output) and ran.faults == said

    return is_right


def losses_missed(outcomes, plain, is_right):
    """The failed requests after which a run is let through that says nothing and has lost lines of its output, as if its input had
    ended there, or as if a call had been left out."""
    if not plain.counts:
        return [f"no request was counted: {plain}"]
    counts = {it: count + 1 for it, count in plain.counts.items()}
    lines = plain.output.splitlines(keepends=True)
    lost = [Run(0, b"".join(some), b"", counts) for some in (lines[:-1], lines[1:], [])]
    failed = [it.refused for it in outcomes if it.refused and it.refused.is_error()]
    found = [f"not found: {it}, and {ran}" for it in failed for ran in lost if is_right(plain, it, ran)]
    return found + ["too few"] * (len(failed) < 3)


def faults_of(outcomes):
    return [it.fault for it in outcomes if it.fault]
