"""Sorts the lines of files by a collation, over workers: `sort_files(client, files, to, table)`.

Sort keys are bytes, so workers need nothing of each other but keys:

1. `sample` takes keys of some lines of each piece of the input, from which `borders` are chosen.
2. `split` makes the keys of a piece, sorts its lines by key and then bytes, and writes them as one run, cut at the borders.
3. `merge` reads the part between two borders out of each run, and writes these lines, sorted.

What was written is the lines as `collate-cldr sort` prints them, in files that follow one another. Each step depends on files alone
and writes a file that gets its name when it is whole. So it may be repeated, by another worker, and comes to the same.

All workers see the same files, have the module `collate`, and open the same table file: if its fingerprint is another one, they
refuse it. The steps need no Dask; `sort_files` needs a `distributed.Client`, and workers with one thread each serve best."""

from __future__ import annotations

import bisect
import functools
import itertools
import os
import pickle
from typing import Any, Callable, Iterable, Iterator, List, NamedTuple, Sequence, Tuple

from collate import Collator

# A piece of the input that one step holds in memory, in bytes; lines take some twenty times as much there.
PIECE = 16 << 20
# One line of so many is in the sample.
SAMPLED = 199
MARK = b"\xef\xbb\xbf"


class OtherTables(Exception):
    """A worker's table file isn't the one that the sort began with."""


class Order(NamedTuple):
    """A collation as workers open it: a table file, settings as a tag, and the fingerprint of both."""

    table: str
    settings: str
    fingerprint: bytes

    @classmethod
    def of(cls, table: str, settings: str = "") -> Order:
        with Collator.open(table, settings) as collator:
            return cls(os.path.abspath(table), settings, collator.fingerprint)


class Piece(NamedTuple):
    """The lines of a file that begin from one place on, before another."""

    path: str
    begin: int
    end: int


@functools.lru_cache(maxsize=None)
def opened(order: Order) -> Collator:
    """The collator of an order, which each worker opens once."""
    collator = Collator.open(order.table, order.settings)
    if collator.fingerprint != order.fingerprint:
        raise OtherTables(f"{order.table} has the fingerprint {collator.fingerprint.hex()}, not {order.fingerprint.hex()}")
    return collator


def has_mark(path: str) -> bool:
    """Whether a file begins with a byte order mark, which belongs to no line."""
    with open(path, "rb") as it:
        return it.read(len(MARK)) == MARK


def pieces(paths: Iterable[str], size: int) -> List[Piece]:
    """The pieces of files, each of some `size` bytes."""
    made = []
    for path in paths:
        places = [*range(0, os.path.getsize(path), size), os.path.getsize(path)]
        made += [Piece(os.path.abspath(path), *it) for it in zip(places, places[1:])]
    return made


def lines_of(piece: Piece) -> List[bytes]:
    """The lines of a piece, without their ends. The last line of a file may have none."""
    with open(piece.path, "rb") as it:
        begin = piece.begin
        if begin:
            # A line that began before goes on to its end.
            it.seek(begin - 1)
            begin += len(it.readline()) - 1
        data = it.read(max(0, piece.end - begin))
        if data and not data.endswith(b"\n"):
            data += it.readline()
    if not begin and data.startswith(MARK):
        data = data[len(MARK) :]
    lines = data.split(b"\n")
    return lines if lines[-1] else lines[:-1]


def sample(order: Order, piece: Piece) -> List[bytes]:
    """The keys of some lines of a piece."""
    return opened(order).keys(lines_of(piece)[::SAMPLED])


def borders(samples: Iterable[Sequence[bytes]], parts: int) -> List[bytes]:
    """The keys at which lines are cut into so many parts, which have as many of the sample each."""
    keys = sorted(itertools.chain.from_iterable(samples))
    return [keys[len(keys) * it // parts] for it in range(1, parts)] if keys else []


def written(path: str, data: Iterable[bytes]) -> None:
    """Writes a file, which gets its name when it is whole."""
    own = f"{path}.{os.getpid()}"
    with open(own, "wb") as it:
        it.writelines(data)
    os.replace(own, path)


def split(order: Order, piece: Piece, cuts: Sequence[bytes], run: str) -> Tuple[str, List[int]]:
    """Writes the lines of a piece with their keys, sorted by key and then bytes, to the file `run`. Returns its name, and
    where each of its parts begins and the last one ends. Lines with one key are in one part."""
    lines = lines_of(piece)
    keyed = sorted(zip(opened(order).keys(lines), lines))
    places = [0, *(bisect.bisect_left(keyed, (it,)) for it in cuts), len(keyed)]
    parts = [pickle.dumps(keyed[begin:end], 5) for begin, end in zip(places, places[1:])]
    written(run, parts)
    return run, [0, *itertools.accumulate(map(len, parts))]


def part_of(run: Tuple[str, Sequence[int]], number: int) -> List[Tuple[bytes, bytes]]:
    """The keys and lines of one part of a run."""
    path, places = run
    with open(path, "rb") as it:
        it.seek(places[number])
        return pickle.loads(it.read(places[number + 1] - places[number]))  # type: ignore[no-any-return]


def merge(runs: Sequence[Tuple[str, Sequence[int]]], number: int, to: str) -> str:
    """Writes the lines of one part of all runs to the file `to`, sorted, and returns its name."""
    # Each part is sorted, so that this merges them.
    keyed = sorted(itertools.chain.from_iterable(part_of(it, number) for it in runs))
    written(to, (line + b"\n" for _, line in keyed))
    return to


def sort_steps(each: Callable[..., List[Any]], paths: Sequence[str], to: str, order: Order, size: int) -> List[str]:
    """Sorts the lines of files into files `to/part-00000` and so on, as many as there are pieces of `size` bytes, and returns
    their names. `each` calls a function for the items of lists, as `map` does, wherever it likes, and returns the list of what
    came of it."""
    to = os.path.abspath(to)
    os.makedirs(to, exist_ok=True)
    given = pieces(paths, size)
    cuts = borders(each(sample, [order] * len(given), given), len(given))
    names = [os.path.join(to, f"run-{it:05}") for it in range(len(given))]
    runs = each(split, [order] * len(given), given, [cuts] * len(given), names)
    numbers = range(len(cuts) + 1)
    made = each(merge, [runs] * len(numbers), numbers, [os.path.join(to, f"part-{it:05}") for it in numbers])
    for name in names:
        os.remove(name)
    return made


def sort_here(paths: Sequence[str], to: str, table: str, settings: str = "", size: int = PIECE) -> List[str]:
    """Sorts the lines of files as `sort_steps` does, in this process."""
    return sort_steps(lambda call, *lists: list(map(call, *lists)), paths, to, Order.of(table, settings), size)


def sort_files(client: Any, paths: Sequence[str], to: str, table: str, settings: str = "", size: int = 0) -> List[str]:
    """Sorts the lines of files as `sort_steps` does, on the workers of a Dask client. What a worker had when it ended is done
    again by another one. Without a size there are some pieces for each thread."""
    whole, threads = sum(map(os.path.getsize, paths)), sum(client.nthreads().values())
    size = size or max(1 << 16, min(PIECE, whole // (4 * max(1, threads))))

    def each(call: Callable[..., Any], *lists: Iterable[Any]) -> List[Any]:
        return client.gather(client.map(call, *map(list, lists), pure=False, retries=2))  # type: ignore[no-any-return]

    return sort_steps(each, paths, to, Order.of(table, settings), size)


def joined(made: Iterable[str], first: str = "") -> Iterator[bytes]:
    """The sorted lines, as `collate-cldr sort` prints them: a byte order mark of the first file that was sorted comes first."""
    if first and has_mark(first):
        yield MARK
    for path in made:
        with open(path, "rb") as it:
            yield from iter(functools.partial(it.read, 1 << 20), b"")
