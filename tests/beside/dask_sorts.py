#!/usr/bin/env python3
"""Sorts lines over workers of Dask on this machine, and over other engines, beside `collate-cldr sort`.

  tests/beside/dask_sorts.py PROGRAM TABLE [--lines N] [--long N] [--rounds N] [--words FILE]

PROGRAM is `collate-cldr`, or what runs it, TABLE a table file. COLLATE_LIBRARY names the library for C. It needs distributed
(python3-distributed of Debian); lmdb (python3-lmdb) is tried if it is there. A scheduler and workers run on the loopback, below a
folder of their own, and are ended at the end. It prints, each with what was wrong:

- the times of 1, 2 and 4 workers over N lines, the best of some rounds that take turns, and the ratio of each doubling
- a run in which a worker is killed while others write
- a worker whose tables are others
- the time of the long file, once
- `sort` of coreutils, and LMDB, over keys

The status is 1 if anything was wrong; a time is never wrong."""
import argparse
import filecmp
import itertools
import os
import random
import shutil
import signal
import subprocess
import sys
import tempfile
import threading
import time

TOP = os.path.dirname(os.path.dirname(os.path.dirname(os.path.realpath(__file__))))
FOLDERS = [os.path.join(TOP, "bindings", it) for it in ("python", "dask")]
sys.path[:0] = FOLDERS
WORDS = "/usr/share/hunspell/sv_SE.dic"
SHORT = 100_000
FAULTS = []


def say(what, wrong=""):
    print(f"{what}{': WRONG: ' if wrong else ''}{wrong}", flush=True)
    if wrong:
        FAULTS.append(what)


def write_lines(path, words, count):
    """Lines of two words or one, as names are; some stand twice, and some are no UTF-8."""
    draw = random.Random(85)
    with open(path, "wb") as it:
        for _ in range(count):
            line = b" ".join(draw.choices(words, k=draw.randrange(1, 3)))
            it.write(line + (b"\n" if draw.randrange(1000) else b"\xc3\n"))


def words_of(path):
    with open(path, encoding="utf-8", errors="replace") as it:
        return sorted({line.split("/")[0].strip().encode() for line in it if not line.startswith("#")} - {b""})


def timed(call, *given, **named):
    began = time.monotonic()
    return call(*given, **named), time.monotonic() - began


class Cluster:
    """A scheduler and workers of one thread each, as processes."""

    def __init__(self, room, count):
        self.room = tempfile.mkdtemp(dir=room)
        self.file = os.path.join(self.room, "scheduler.json")
        self.log = open(os.path.join(self.room, "log"), "w", encoding="utf-8")
        common = ["--scheduler-file", self.file, "--no-dashboard"]
        self.scheduler = self.start("dask_scheduler", "--host", "127.0.0.1", "--port", "0", *common)
        while not os.path.exists(self.file):
            time.sleep(0.1)
        words = ["--host", "127.0.0.1", "--nthreads", "1", "--no-nanny", "--memory-limit", "0", "--local-directory", self.room]
        self.workers = [self.start("dask_worker", *words, *common) for _ in range(count)]

    def start(self, name, *words):
        path = os.pathsep.join([*FOLDERS, os.environ.get("PYTHONPATH", "")])
        how = {"stdout": self.log, "stderr": self.log, "stdin": subprocess.DEVNULL, "cwd": self.room}
        return subprocess.Popen([sys.executable, "-m", f"distributed.cli.{name}", *words], env={**os.environ, "PYTHONPATH": path}, **how)

    def __enter__(self):
        from distributed import Client

        try:
            self.client = Client(scheduler_file=self.file, timeout=120)
            self.client.wait_for_workers(len(self.workers))
        except BaseException:
            self.end()
            raise
        return self

    def __exit__(self, *_):
        self.client.close()
        self.end()

    def end(self):
        for it in [*self.workers, self.scheduler]:
            it.terminate()
        for it in [*self.workers, self.scheduler]:
            it.wait()
        self.log.close()


def differs(made, wanted, room):
    """What is wrong with files that were made, which are together to be like another one."""
    from collate_dask import joined

    path = os.path.join(room, "joined")
    with open(path, "wb") as it:
        it.writelines(joined(made))
    return "" if filecmp.cmp(path, wanted, shallow=False) else "other lines than those of the program"


def sorted_by_program(program, table, path):
    """The file that the program makes of lines, and how long it takes."""
    to = f"{path}.sorted"
    with open(to, "wb") as it:
        _, took = timed(subprocess.run, [*program, "sort", "--tables", table, path], stdout=it, check=True)
    return to, took


def sorts(cluster, path, table, room, size):
    """Sorts by a cluster: what it made, and how long it took."""
    from collate_dask import sort_files

    to = os.path.join(room, "sorted")
    shutil.rmtree(to, ignore_errors=True)
    return timed(sort_files, cluster.client, [path], to, table, size=size)


def try_workers(room, path, table, wanted, rounds):
    size = os.path.getsize(path) // 16 + 1
    best = {}
    for _ in range(rounds):
        for count in (1, 2, 4):
            with Cluster(room, count) as cluster:
                sorts(cluster, beginning_of(room, path), table, room, 0)
                made, took = sorts(cluster, path, table, room, size)
                wrong = differs(made, wanted, room)
                if wrong:
                    say(f"{count} workers", wrong)
                best[count] = min(took, best.get(count, took))
    for count, took in best.items():
        ratio = f", {took / best[count // 2]:.2f} of {count // 2}" if count > 1 else ""
        say(f"{count} workers: {took:.2f} s{ratio}")


def beginning_of(room, path):
    """A short file, by which workers import the module and open the table file."""
    made = os.path.join(room, "beginning")
    if not os.path.exists(made):
        with open(path, "rb") as it, open(made, "wb") as to:
            to.writelines(itertools.islice(it, 20_000))
    return made


def try_killed(room, path, table, wanted):
    """Kills a worker once runs are written."""
    with Cluster(room, 4) as cluster:
        to, killed = os.path.join(room, "sorted"), []

        def kill():
            while not killed:
                time.sleep(0.01)
                if os.path.isdir(to) and any(it.startswith("run-") for it in os.listdir(to)):
                    os.kill(cluster.workers[0].pid, signal.SIGKILL)
                    killed.append(time.monotonic())

        shutil.rmtree(to, ignore_errors=True)
        waits = threading.Thread(target=kill, daemon=True)
        waits.start()
        made, took = sorts(cluster, path, table, room, os.path.getsize(path) // 16 + 1)
        killed.append(0)
        ended = cluster.workers[0].poll() == -signal.SIGKILL
        say(f"4 workers, one killed: {took:.2f} s", differs(made, wanted, room) or ("" if ended else "no worker was killed"))


def try_others(room, path, table):
    """Another table file under the name that workers were given."""
    from collate_dask import Order, OtherTables, Piece, sample

    with Cluster(room, 1) as cluster:
        order = Order.of(table)._replace(fingerprint=bytes(32))
        try:
            cluster.client.submit(sample, order, Piece(path, 0, 1000)).result()
            say("other tables", "they weren't refused")
        except OtherTables as error:
            say(f"other tables: {error}".replace(os.path.dirname(table) + "/", ""))


def try_long(room, words, count, program, table):
    path = os.path.join(room, "long")
    write_lines(path, words, count)
    wanted, by_program = sorted_by_program(program, table, path)
    with Cluster(room, 4) as cluster:
        made, took = sorts(cluster, path, table, room, 0)
        say(f"{count} lines: {took:.1f} s by 4 workers, {by_program:.1f} s by the program", differs(made, wanted, room))


def try_engines(room, path, program, table):
    """`sort` of coreutils and LMDB over keys, beside the program."""
    from collate import Collator

    with open(path, "rb") as it:
        lines = sorted({*itertools.islice(it, SHORT)})
    short = os.path.join(room, "short")
    with open(short, "wb") as it:
        it.writelines(lines)
    wanted, _ = sorted_by_program(program, table, short)
    with open(wanted, "rb") as it:
        wanted = it.read()
    keys = subprocess.run([*program, "keys", "--tables", table, short], stdout=subprocess.PIPE, check=True)
    ordered, took = timed(subprocess.run, "LC_ALL=C sort | cut -f 2-", shell=True, input=keys.stdout, stdout=subprocess.PIPE, check=True)
    say(f"sort of coreutils: {len(lines)} lines in {took:.2f} s", "" if ordered.stdout == wanted else "another order")
    try:
        import lmdb
    except ImportError:
        say("LMDB isn't there")
        return
    lines, collator = [it[:-1] for it in lines], Collator.open(table)

    def by_lmdb():
        with lmdb.open(os.path.join(room, "lmdb"), map_size=1 << 30, max_dbs=1) as env, env.begin(env.open_db(b"names", dupsort=True), write=True) as names:
            names.cursor().putmulti(zip(collator.keys(lines), lines))
            ordered = [line for _, line in names.cursor()]
            cursor = names.cursor()
            return ordered, cursor.set_range(collator.bounds("mü")[0]) and cursor.value()

    (ordered, first), took = timed(by_lmdb)
    low = collator.bounds("mü")[0]
    beginning = next((it for it in ordered if collator.key(it) >= low), None)
    wrong = "" if b"".join(it + b"\n" for it in ordered) == wanted and first == beginning else "another order"
    say(f"LMDB: {len(lines)} lines in {took:.2f} s", wrong)


def main():
    words = argparse.ArgumentParser(usage=__doc__)
    words.add_argument("program", nargs="+")
    words.add_argument("table")
    words.add_argument("--lines", type=int, default=1_000_000)
    words.add_argument("--long", type=int, default=10_000_000)
    words.add_argument("--rounds", type=int, default=3)
    words.add_argument("--words", default=WORDS)
    given = words.parse_args()
    table, drawn = os.path.abspath(given.table), words_of(given.words)
    with tempfile.TemporaryDirectory(prefix="dask-sorts-") as room:
        path = os.path.join(room, "lines")
        write_lines(path, drawn, given.lines)
        wanted, took = sorted_by_program(given.program, table, path)
        say(f"{given.lines} lines, {os.path.getsize(path)} bytes: {took:.2f} s by the program")
        try_engines(room, path, given.program, table)
        try_others(room, path, table)
        try_killed(room, path, table, wanted)
        if given.rounds:
            try_workers(room, path, table, wanted, given.rounds)
        if given.long:
            try_long(room, drawn, given.long, given.program, table)
    return 1 if FAULTS else 0


if __name__ == "__main__":
    sys.exit(main())
