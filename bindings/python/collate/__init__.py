"""Collation (UTS #10) by table files, over libcollate: `sorted(names, key=Collator("sv").key)`.

`Collator("sv")` opens `FOLDER/sv.table`, FOLDER being COLLATE_TABLES of the environment, or else the folder `tables` of a wheel,
or else that of the installation; `Collator.open(path)` opens a file. `collate-cldr compile -l sv -o sv.table` writes one. The
library is the one that COLLATE_LIBRARY of the environment names, or else libcollate.so.1 beside this file, above it or of the system.

Settings are those of CLDR, by keyword (`strength=1`, `numeric=True`, ..) or as a language tag (`"und-u-kn"`):

>>> swedish = Collator("sv")
>>> swedish.sorted(["zebra", "ångström", "ärla", "öl", "apa"])
['apa', 'zebra', 'ångström', 'ärla', 'öl']
>>> sorted(["öl", "zebra"], key=swedish.key)
['zebra', 'öl']
>>> swedish.compare("a", "B"), swedish.compare("b", "a"), swedish.compare("a", "a")
(-1, 1, 0)
>>> Collator("sv", strength=1).compare("a", "A")
0
>>> Collator("sv", numeric=True).sorted(["item 10", "item 9"])
['item 9', 'item 10']
>>> low, high = swedish.bounds("zeb")
>>> low <= swedish.key("Zebra") < high
True
>>> swedish.keys(["a", "b"]) == [swedish.key("a"), swedish.key("b")]
True
>>> swedish.share(strength=1).compare("a", "A"), swedish.compare("a", "A")
(0, -1)
>>> Collator("sv", strength=1).find("a", "an Ape")
[(0, 1), (3, 4)]
>>> Collator("sv", strength=9)
Traceback (most recent call last):
collate.BadSettings: strength is one of 1, 2, 3, 4, 'identical', not 9

A text is a `str`, in which each surrogate counts as U+FFFD, or its UTF-8 as `bytes`, in which damaged parts count as U+FFFD. A
collator may be used by several threads: a lock orders its calls. `share` gives a thread one of its own, over the same tables."""

from __future__ import annotations

import array
import ctypes
import functools
import itertools
import os
import re
import threading
from typing import TYPE_CHECKING, Any, Callable, Dict, Iterable, Iterator, List, NoReturn, Optional, Sequence, Tuple, TypeVar, Union

if TYPE_CHECKING:
    from typing import Literal, TypedDict

    from typing_extensions import Unpack

    class Settings(TypedDict, total=False):
        """What `Collator` takes by keyword."""

        strength: Literal[1, 2, 3, 4, "identical", None]
        alternate: Literal["non-ignorable", "shifted", None]
        max_variable: Literal["space", "punct", "symbol", "currency", None]
        case_level: Optional[bool]
        case_first: Literal["upper", "lower", "off", None]
        numeric: Optional[bool]


__all__ = ["Collator", "CollateError", "BadTables", "BadSettings", "ClosedCollator"]

Text = Union[str, bytes]
S = TypeVar("S", str, bytes)
T = TypeVar("T")

VERSION = 1
DONE, NO_MEMORY, BAD_TABLES, BAD_SETTINGS, TOO_SMALL, IS_CLOSED, NO_BOUND = range(7)
NO_ORDER = 2
FOLDER = "/usr/share/collate"
HERE = os.path.dirname(os.path.abspath(__file__))
# So many texts go through one call of the library.
BATCH = 4096


class CollateError(Exception):
    """What a call of the library refuses."""


class BadTables(CollateError, ValueError):
    """A file is no table file, or it is damaged, or its tables are refused."""


class BadSettings(CollateError, ValueError):
    """Settings are no language tag, or have a keyword with a type that it doesn't have."""


class ClosedCollator(CollateError):
    """A collator was closed."""


class _Handle(ctypes.Structure):
    _fields_ = [("is_open", ctypes.c_bool), ("at", ctypes.c_void_p)]


def _library() -> ctypes.CDLL:
    """The library, whose calls release the interpreter's lock."""
    folders = HERE, os.path.dirname(HERE), os.path.dirname(os.path.dirname(HERE))
    beside = [os.path.join(it, "libcollate.so.1") for it in folders]
    found = [it for it in beside if os.path.exists(it)]
    lib = ctypes.CDLL(os.environ.get("COLLATE_LIBRARY") or (found or ["libcollate.so.1"])[0])
    handle, text, size, status = ctypes.POINTER(_Handle), ctypes.c_char_p, ctypes.c_size_t, ctypes.c_int32
    room, needed = ctypes.c_void_p, ctypes.POINTER(ctypes.c_size_t)
    signatures = {
        "collate_open": (status, [handle, text, size, text, size]),
        "collate_close": (None, [handle]),
        "collate_share": (status, [handle, handle]),
        "collate_keys_utf8": (status, [handle, text, size, room, size, room, size, room, size, needed]),
        "collate_lower_bound_utf8": (status, [handle, text, size, room, size, needed]),
        "collate_upper_bound_utf8": (status, [handle, text, size, room, size, needed]),
        "collate_find_all_utf8": (status, [handle, text, size, text, size, room, size, needed]),
        "collate_fingerprint": (status, [handle, room, size]),
        "collate_message": (status, [status, room, size, needed]),
        "collate_version": (status, []),
    }
    for name, (result, parameters) in signatures.items():
        call = getattr(lib, name)
        call.restype, call.argtypes = result, parameters
    if lib.collate_version() != VERSION:
        raise ImportError(f"libcollate has version {lib.collate_version()} of its calls, and this module needs {VERSION}")
    return lib


_LIB = _library()
# Calls that are short keep the interpreter's lock, and are given arguments that are made already: to release the lock, or to make
# arguments by `argtypes`, takes longer than they do. They return an `int32_t`, as ctypes takes it where nothing is said.
_QUICK = ctypes.PyDLL(_LIB._name)
_COMPARE, _KEY = _QUICK.collate_compare_utf8, _QUICK.collate_key_utf8
# The type has `from_param`, which makes an argument.
_as_size: Callable[[int], Any] = ctypes.c_size_t.from_param
_SIZES = [_as_size(it) for it in range(256)]


def _size_of(data: bytes) -> Any:
    """The argument that says how long a text is."""
    size = len(data)
    return _SIZES[size] if size < 256 else _as_size(size)


def _bytes_of(text: Text) -> bytes:
    """A text in UTF-8, with U+FFFD for each surrogate."""
    if isinstance(text, bytes):
        return text
    if not isinstance(text, str):
        raise TypeError(f"a text is a str or bytes, not {type(text).__name__}")
    try:
        return text.encode()
    except UnicodeEncodeError:
        return re.sub("[\ud800-\udfff]", "\ufffd", text).encode()


def _joined(texts: Sequence[Text]) -> Tuple[bytes, Iterable[int]]:
    """Texts in UTF-8, one after the other, and how long each is."""
    try:
        # What makes the bytes of all texts by one call is fastest, if no text has the character that parts them.
        parted = "\0".join(texts).encode()  # type: ignore[arg-type]
        parts = parted.split(b"\0")
        if len(parts) == len(texts):
            return parted.replace(b"\0", b""), map(len, parts)
    except (TypeError, UnicodeEncodeError):
        pass
    parts = [*map(_bytes_of, texts)]
    return b"".join(parts), map(len, parts)


def _characters_before(data: bytes, places: Sequence[int]) -> List[int]:
    """How many characters stand before places in UTF-8, which rise."""
    counts = (len(data[begin:end].decode()) for begin, end in zip([0, *places], places))
    return [*itertools.accumulate(counts)]


def _cut(joined: S, ends: List[int]) -> List[S]:
    """The parts of what is joined, by where each ends."""
    return [joined[begin:end] for begin, end in zip([0, *ends], ends)]


def _raise(status: int, what: str = "") -> NoReturn:
    if status == NO_MEMORY:
        raise MemoryError
    said, length = ctypes.create_string_buffer(128), ctypes.c_size_t()
    _LIB.collate_message(status, said, len(said), ctypes.byref(length))
    kinds = {BAD_TABLES: BadTables, BAD_SETTINGS: BadSettings, IS_CLOSED: ClosedCollator}
    raise kinds.get(status, CollateError)(f"{what}{': ' if what else ''}{said.raw[: length.value].decode()}")


_WORDS: Dict[str, Tuple[str, Dict[Any, str]]] = {
    "strength": ("ks", {1: "level1", 2: "level2", 3: "level3", 4: "level4", "identical": "identic"}),
    "alternate": ("ka", {"non-ignorable": "noignore", "shifted": "shifted"}),
    "max_variable": ("kv", {it: it for it in ("space", "punct", "symbol", "currency")}),
    "case_level": ("kc", {True: "true", False: "false"}),
    "case_first": ("kf", {"upper": "upper", "lower": "lower", "off": "false"}),
    "numeric": ("kn", {True: "true", False: "false"}),
}


def _tag(settings: str, named: Any) -> str:
    """A tag with these settings."""
    said = []
    for name, value in named.items():
        if name not in _WORDS:
            raise TypeError(f"there is no setting {name!r}; there are {', '.join(_WORDS)}")
        if value is None:
            continue
        key, words = _WORDS[name]
        if value not in words:
            raise BadSettings(f"{name} is one of {', '.join(map(repr, words))}, not {value!r}")
        said += [key, words[value]]
    if not said:
        return settings
    if settings:
        raise BadSettings("settings are said by a tag or by keywords, not by both")
    return "-".join(["und-u", *said])


def _folder() -> str:
    """Where table files are looked for by their names."""
    own = os.path.join(HERE, "tables")
    return os.environ.get("COLLATE_TABLES") or (own if os.path.isdir(own) else FOLDER)


class Collator:
    """The order of texts by a table file and settings."""

    _handle: _Handle

    def __init__(self, name: str, settings: str = "", **named: Unpack[Settings]) -> None:
        if not name or not all(it.isascii() and (it.isalnum() or it in "-_") for it in name):
            raise ValueError(f"no name of a collation: {name!r}; Collator.open takes the path of a file")
        path = os.path.join(_folder(), f"{name}.table")
        tag = _tag(settings, named)
        with open(path, "rb") as it:
            self._begin(path, it.read(), tag)

    @classmethod
    def open(cls, path: Union[str, "os.PathLike[str]"], settings: str = "", **named: Unpack[Settings]) -> Collator:
        """A collator by the table file of this path."""
        made, tag = cls.__new__(cls), _tag(settings, named)
        with open(path, "rb") as it:
            made._begin(os.fspath(path), it.read(), tag)
        return made

    def _room(self, path: str, data: bytes) -> None:
        """A closed collator, with room for keys."""
        self._path, self._data = path, data
        self._lock = threading.Lock()
        self._handle = _Handle()
        self._at = ctypes.byref(self._handle)
        self._needed = ctypes.c_size_t()
        self._needed_at = ctypes.byref(self._needed)
        self._widen(1024)

    def _widen(self, size: int) -> None:
        """Makes room for keys of so many bytes."""
        self._size = size
        self._out: Any = ctypes.create_string_buffer(size)
        self._out_at, self._size_given = ctypes.byref(self._out), _as_size(size)

    def _begin(self, path: str, data: bytes, tag: str) -> None:
        self._room(path, data)
        word = _bytes_of(tag)
        status = _LIB.collate_open(self._at, data, len(data), word, len(word))
        if status:
            _raise(status, path if status == BAD_TABLES else tag)

    def key(self, text: Text) -> bytes:
        """The sort key of a text. Keys order as their texts."""
        try:
            data = text.encode()  # type: ignore[union-attr]
        except (AttributeError, UnicodeEncodeError):
            data = _bytes_of(text)
        size = _size_of(data)
        with self._lock:
            status = _KEY(self._at, data, size, self._out_at, self._size_given, self._needed_at)
            if status == TOO_SMALL:
                self._widen(self._needed.value)
                status = _KEY(self._at, data, size, self._out_at, self._size_given, self._needed_at)
            if not status:
                return self._out[: self._needed.value]  # type: ignore[no-any-return]
        _raise(status)

    def keys(self, texts: Iterable[Text]) -> List[bytes]:
        """The sort keys of texts, by calls of many texts each, during which other threads run."""
        made: List[bytes] = []
        for joined, ends in self._batches(texts):
            made += _cut(joined, ends)
        return made

    def _batches(self, texts: Iterable[Text]) -> Iterator[Tuple[bytes, List[int]]]:
        """The sort keys of texts, some thousand at a time: one after the other, and where each ends."""
        left, key_ends = iter(texts), array.array("Q", bytes(8 * BATCH))
        out: Any = ctypes.create_string_buffer(1)
        while batch := [*itertools.islice(left, BATCH)]:
            joined, lengths = _joined(batch)
            ends, count = array.array("Q", [*itertools.accumulate(lengths)]), len(batch)
            given, to = (joined, len(joined), ends.buffer_info()[0], count), (key_ends.buffer_info()[0], count)
            room, status = 4 * len(joined) + 16 * count, TOO_SMALL
            while status == TOO_SMALL:
                if len(out) < room:
                    out = ctypes.create_string_buffer(room)
                with self._lock:
                    status = _LIB.collate_keys_utf8(self._at, *given, out, len(out), *to, self._needed_at)
                room = 2 * len(out)
            if status:
                _raise(status)
            places = key_ends[:count].tolist()
            yield out[: places[-1]], places

    def compare(self, left: Text, right: Text) -> int:
        """The order of two texts: -1, 0 or 1."""
        one, other = _bytes_of(left), _bytes_of(right)
        with self._lock:
            order: int = _COMPARE(self._at, one, _size_of(one), other, _size_of(other))
        if order == NO_ORDER:
            _raise(IS_CLOSED)
        return order

    def _bound(self, call: Callable[..., int], data: bytes) -> Optional[bytes]:
        with self._lock:
            while (status := call(self._at, data, len(data), self._out, self._size, self._needed_at)) == TOO_SMALL:
                self._widen(self._needed.value)
            if not status:
                return self._out[: self._needed.value]  # type: ignore[no-any-return]
        if status != NO_BOUND:
            _raise(status)
        return None

    def bounds(self, text: Text) -> Tuple[bytes, Optional[bytes]]:
        """The keys between which all texts stand that begin as this one, apart from accents and case: not below the
        first, and below the second, if there is one."""
        data = _bytes_of(text)
        low = self._bound(_LIB.collate_lower_bound_utf8, data)
        return low, self._bound(_LIB.collate_upper_bound_utf8, data)  # type: ignore[return-value]

    def find(self, pattern: Text, text: Text) -> List[Tuple[int, int]]:
        """Where parts of a text are equal to a pattern by this order, as UTS #10 finds them: `text[begin:end]` of each, the
        first ones that don't overlap. Other threads run meanwhile."""
        word, data, count = _bytes_of(pattern), _bytes_of(text), 16
        with self._lock:
            while True:
                found = (ctypes.c_size_t * (2 * count))()
                status = _LIB.collate_find_all_utf8(self._at, word, len(word), data, len(data), found, count, self._needed_at)
                if status != TOO_SMALL:
                    break
                count = self._needed.value
            count = self._needed.value
        if status:
            _raise(status)
        places = found[: 2 * count]
        if len(data) != len(text):
            places = _characters_before(data, places)
        return [*zip(places[::2], places[1::2])]

    def sorted(self, items: Iterable[T], *, key: Optional[Callable[[T], Text]] = None, reverse: bool = False) -> List[T]:
        """Texts in order, or items by the texts that `key` returns of them; equal ones as they came."""
        listed = list(items)
        texts: Iterable[Any] = map(key, listed) if key else listed
        # Each byte as a character: `sort` compares such strings faster than bytes, and alike.
        keys: List[str] = []
        for joined, ends in self._batches(texts):
            keys += _cut(joined.decode("latin-1"), ends)
        # `sort` asks for the key of each item from the first to the last: `next(keys, item)` gives it.
        key_of: Any = functools.partial(next, iter(keys))
        listed.sort(key=key_of, reverse=reverse)
        return listed

    @property
    def cmp_key(self) -> Callable[[Text], Any]:
        """A key for `sorted` that compares texts, without sort keys."""
        return functools.cmp_to_key(self.compare)

    @property
    def fingerprint(self) -> bytes:
        """What keys depend on, as 32 bytes: keep them beside keys, and make the keys anew if they differ."""
        out = ctypes.create_string_buffer(32)
        with self._lock:
            status = _LIB.collate_fingerprint(self._at, out, len(out))
        if status:
            _raise(status)
        return out.raw

    def share(self, settings: str = "", **named: Unpack[Settings]) -> Collator:
        """A second collator by the same tables, as for another thread. If no settings are given, it has those of this
        one, and nothing is copied. Else it has these alone, and is opened anew by the bytes that this one was opened by."""
        made, tag = Collator.__new__(Collator), _tag(settings, named)
        if tag:
            if not self._handle.is_open:
                _raise(IS_CLOSED)
            made._begin(self._path, self._data, tag)
            return made
        made._room(self._path, self._data)
        with self._lock:
            status = _LIB.collate_share(self._at, made._at)
        if status:
            _raise(status)
        return made

    def close(self) -> None:
        """Closes the collator, which may be closed already."""
        with self._lock:
            _LIB.collate_close(self._at)

    def __enter__(self) -> Collator:
        return self

    def __exit__(self, *_: object) -> None:
        self.close()

    def __del__(self) -> None:
        if hasattr(self, "_out_at"):
            self.close()
