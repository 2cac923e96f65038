"""The library for C, and what SQLite, PostgreSQL and Python make of it: each over a small table file, beside the program
`collate-cldr`.

What is linked is the archive that bin/c-library makes, over the crates that `rt ci` proved. If SQLite or what its extension is
compiled with is missing, this says so. PostgreSQL's extension is compiled against what postgres_stubs.h has of the server."""
import concurrent.futures
import ctypes
import importlib
import os
import random
import re
import shutil
import subprocess
import sys
import zipfile

from cldr_locales import FOLDER
from random_texts import DAMAGED_UTF8
from sweeps import TOP, run

BINDINGS, BUILT = os.path.join(TOP, "bindings"), os.path.join(TOP, "out", "c-library")
# Letters, marks and digits of the small root, and such as it doesn't have.
LETTERS = ["a", "b", "c", "d", "z", "A", "B", "á", "ä", "ö", "å", "ß", "0", "1", "9", " ", "-", ".", "\u0301", "\u0308", "\u4E00", "\uAC01"]
TEXTS, CALLS = 2000, 10_000
SANITIZED = ["-g", "-O1", "-fsanitize=address,undefined", "-fno-sanitize-recover=all"]
STRICT = ["-std=c11", "-Wall", "-Wextra", "-Werror"]


def ended(words, given="", **env):
    """The status of a command, and what it said on both streams."""
    ran = subprocess.run(words, input=given, capture_output=True, text=True, errors="replace", env={**os.environ, **env}, check=False)
    return ran.returncode, ran.stdout, ran.stderr


def texts():
    """Texts without line ends, as bytes: some are damaged."""
    draw = random.Random(84)
    for _ in range(TEXTS):
        made = [draw.choice(LETTERS).encode() for _ in range(draw.randrange(12))]
        if not draw.randrange(10):
            damaged = bytes.fromhex(draw.choice(DAMAGED_UTF8)[0])
            made.insert(draw.randrange(len(made) + 1), damaged)
        yield b"".join(made)


def keys_of_program(program, table, given, *options):
    """The keys of texts, each as the program prints it before its line."""
    ran = run(program, ["keys", "--tables", table, *options], b"".join(it + b"\n" for it in given))
    lines = ran.output.split(b"\n")[:-1]
    return [bytes.fromhex(it.split(b"\t")[0].decode()) for it in lines]


def module():
    """The module of Python, over the built library."""
    os.environ["COLLATE_LIBRARY"] = os.path.join(BUILT, "libcollate.so.1")
    sys.path[:0] = [os.path.join(BINDINGS, it) for it in ("python", "dask")]
    return importlib.import_module("collate")


# ---- Python


def key_by(made, collator, text):
    """The key of bytes, as C is given them."""
    out, needed = ctypes.create_string_buffer(1 << 12), ctypes.c_size_t()
    status = made._LIB.collate_key_utf8(collator._at, text, len(text), out, len(out), ctypes.byref(needed))
    return out.raw[: needed.value] if status == 0 else None


def wrong_keys(made, program, table):
    """Keys and signs that aren't those of the program."""
    found, given = [], [*texts()]
    for options, settings in (([], ""), (["--strength=1"], "und-u-ks-level1"), (["--numeric"], "und-u-kn"), (["--strength=i"], "und-u-ks-identic")):
        collator = made.Collator.open(table, settings)
        wanted = keys_of_program(program, table, given, *options)
        if len(wanted) != len(given):
            return [f"the program has {len(wanted)} keys of {len(given)} texts"]
        found += [f"{settings} {text!r}: another key" for text, key in zip(given, wanted) if key_by(made, collator, text) != key]
        decoded = [it.decode("utf-8", "surrogateescape") for it in given]
        whole = [(text, key) for text, key in zip(decoded, wanted) if text.isprintable()]
        if collator.keys(text for text, _ in whole) != [key for _, key in whole] or collator.keys([]) != []:
            found.append(f"{settings}: other keys by one call")
        for (one, key), (other, second) in zip(zip(given, wanted), zip(given[1:], wanted[1:])):
            order = made._LIB.collate_compare_utf8(collator._at, one, len(one), other, len(other))
            if order != (key > second) - (key < second):
                found.append(f"{settings} {one!r} and {other!r}: {order}")
        collator.close()
    return found


def raised(kind, call, *given):
    try:
        call(*given)
    except kind:
        return []
    except Exception as error:
        return [f"{kind.__name__} is wanted, not {error!r}"]
    return [f"{kind.__name__} is wanted"]


def wrong_errors(made, table, room):
    found = []
    bad = os.path.join(room, "bad.table")
    with open(table, "rb") as it:
        whole = it.read()
    for data in (b"", b"a\n", whole[:-1], whole + b"\n", whole[:99] + b"\xff" + whole[100:]):
        with open(bad, "wb") as it:
            it.write(data)
        found += raised(made.BadTables, made.Collator.open, bad)
    for tag in ("-", "und-u-ks-level9", "x", "und-u-ks-level1-"):
        found += raised(made.BadSettings, made.Collator.open, table, tag)
    found += raised(FileNotFoundError, made.Collator.open, os.path.join(room, "absent"))
    found += raised(ValueError, made.Collator, "../sv")
    collator = made.Collator.open(table)
    other = collator.share()
    collator.close()
    for call in (collator.key, collator.bounds):
        found += raised(made.ClosedCollator, call, "a")
    for call in (collator.compare, collator.find):
        found += raised(made.ClosedCollator, call, "a", "b")
    found += raised(made.ClosedCollator, collator.share)
    if other.compare("a", "b") != -1 or other.key("\ud800") != other.key("\ufffd") or len(other.key("a" * 5000)) < 5000:
        found.append("a shared collator")
    return found


def wrong_surrogates(made, table):
    """Texts of two kinds, and surrogates, which count as U+FFFD each."""
    found, collator = [], made.Collator.open(table)
    for text, other in (("\ud800", "\ufffd"), ("a\ud83d\ude00b", "a\ufffd\ufffdb"), ("a\0ä", "a\0ä".encode()), ("\ufffd", b"\xc3"), ("", b"")):
        keys = {collator.key(text), collator.key(other), *collator.keys([text, other])}
        found += [f"{text!a} and {other!a}: other keys"] * (len(keys) != 1 or collator.compare(text, other) != 0)
    return found


def wrong_finds(made, table):
    """Matches, by characters and by bytes."""
    rows = [("ab", "xAbäab", 1, [(1, 3), (4, 6)]), ("ä", "aäÄ\u4e00ä", 2, [(1, 2), (2, 3), (4, 5)]), ("b", "\ud83d\ude00b", 3, [(2, 3)]), ("b", "", 3, [])]
    rows += [("b", "áb" * 50, 3, [(it, it + 1) for it in range(1, 100, 2)])]
    rows += [("ä".encode(), "aäÄä".encode(), 2, [(1, 3), (3, 5), (5, 7)])]
    return [
        f"{pattern!a} in {text!a}: {said}"
        for pattern, text, strength, wanted in rows
        if (said := made.Collator.open(table, strength=strength).find(pattern, text)) != wanted
    ]


def wrong_sorts(made, table):
    """Lists of several batches, the longest key first, sorted by keys and by comparisons, and by several threads."""
    collator, draw = made.Collator.open(table), random.Random(85)
    words = ["b" * 50_000, *("".join(draw.choices(LETTERS, k=draw.randrange(9))) for _ in range(3 * made.BATCH))]
    wanted = sorted(words, key=collator.key)
    found = ["sorted by keys"] * (collator.sorted(words) != wanted)
    found += ["sorted backwards"] * (collator.sorted(words, reverse=True) != sorted(words, key=collator.key, reverse=True))
    found += ["sorted by comparisons"] * (sorted(words[1:500], key=collator.cmp_key) != sorted(words[1:500], key=collator.key))
    items = [*enumerate(words)]
    found += ["items by their texts"] * (collator.sorted(items, key=lambda it: it[1]) != sorted(items, key=lambda it: collator.key(it[1])))
    with concurrent.futures.ThreadPoolExecutor(4) as pool:
        keys, first = collator.keys(words), collator.share(strength=1)
        ran = pool.map(lambda it: it.keys(words) == keys, [collator, collator, collator.share(), collator.share()])
        found += ["keys by threads"] * (not all(ran))
    found += ["shared with settings"] * (first.compare("a", "A") != 0 or collator.compare("a", "A") == 0)
    return found


def wrong_wheel(room, table):
    """Two wheels are alike, and what is in one runs the module's examples, by its own library and tables."""
    tables, made = os.path.join(room, "tables"), []
    os.makedirs(tables)
    shutil.copy(table, os.path.join(tables, "sv.table"))
    for to in ("one", "two"):
        words = [os.path.join(BINDINGS, "python", "wheel.py"), os.path.join(BUILT, "libcollate.so.1"), tables, room]
        status, said, error = ended([sys.executable, *words])
        if status:
            return [said + error]
        made.append(shutil.move(said.strip(), os.path.join(room, f"{to}.whl")))
    with open(made[0], "rb") as one, open(made[1], "rb") as two:
        found = ["two wheels differ"] * (one.read() != two.read())
    whole = os.path.join(room, "site")
    with zipfile.ZipFile(made[0]) as it:
        it.extractall(whole)
    script = "import collate, doctest, sys; print(collate.__file__); sys.exit(doctest.testmod(collate)[0])"
    status, said, error = ended([sys.executable, "-c", script], PYTHONPATH=whole, COLLATE_LIBRARY="", COLLATE_TABLES="")
    return found + [said + error] * (status != 0 or not said.startswith(whole))


def wrong_shuffle(room, program, table):
    """Lines that are sorted by runs and merges of files are those that the program sorts."""
    shuffle, found = importlib.import_module("collate_dask"), []
    given = [*texts()]
    for mark, last in ((b"", b"\n"), (shuffle.MARK, b"")):
        path, to = os.path.join(room, "shuffled"), os.path.join(room, "parts")
        with open(path, "wb") as it:
            it.write(mark + b"\n".join(given) + last)
        wanted = run(program, ["sort", "--tables", table, path], b"").output
        for size in (700, 5000, 1 << 20):
            made = b"".join(shuffle.joined(shuffle.sort_here([path], to, table, size=size), path))
            found += [f"pieces of {size} bytes: other lines"] * (made != wanted or not made)
    other = shuffle.Order.of(table)._replace(fingerprint=bytes(32))
    return found + raised(shuffle.OtherTables, shuffle.sample, other, shuffle.Piece(path, 0, 1))


# ---- C


def compiled(path, source, *words):
    status, said, error = ended(["cc", *words[:-1], "-I", BUILT, "-o", path, os.path.join(TOP, source), os.path.join(BUILT, words[-1])])
    return [] if status == 0 else [f"{source}: {said}{error}"]


def wrong_demo(room, table, program):
    path = os.path.join(room, "demo")
    found = compiled(path, "bindings/c/demo.c", *STRICT, "libcollate.a")
    status, said, error = ended([path, table, "a", "b"]) if not found else (0, "", "")
    keys = [" ".join(f"{it:02X}" for it in key) for key in keys_of_program(program, table, [b"a", b"b"])]
    wanted = f"a < b\na: {keys[0]}\nb: {keys[1]}\n"
    return found or [f"demo: {status} {said}{error}"] * ((status, said) != (0, wanted))


def wrong_calls(room, table):
    path = os.path.join(room, "c_calls")
    found = compiled(path, "tests/programs/c_calls.c", *STRICT, *SANITIZED, "-pthread", "libcollate.a")
    if not found:
        status, said, error = ended([path, table, str(CALLS), "84"])
        found += [said[-2000:] + error[-2000:]] * ((status, said) != (0, f"{CALLS} calls\n"))
    return found


def wrong_exports():
    """What the shared library shows but for its calls."""
    status, said, _ = ended(["nm", "-D", "--defined-only", os.path.join(BUILT, "libcollate.so.1")])
    names = [line.split()[-1] for line in said.splitlines()]
    others = [it for it in names if not it.startswith("collate_") and it != "COLLATE_1"]
    return [f"it shows {others}"] * bool(others) + ["nm failed"] * (status != 0 or not names)


# ---- SQLite


SCRIPT = """.load {extension}
CREATE TABLE names (name TEXT);
INSERT INTO names VALUES ('zebra'), ('ab'), (NULL), (''), ('Ab'), ('b'), ('ba'), (CAST(X'61FF' AS TEXT));
SELECT group_concat(hex(name), ' ') FROM (SELECT name FROM names WHERE name IS NOT NULL ORDER BY name COLLATE sv);
SELECT hex(collate_key('ab', 'sv'));
CREATE INDEX by_key ON names (collate_key(name, 'sv'));
SELECT group_concat(hex(name), ' ') FROM (SELECT name FROM names WHERE name IS NOT NULL ORDER BY collate_key(name, 'sv'));
SELECT count(*) FROM names WHERE collate_key(name, 'sv') >= collate_low('b', 'sv') AND collate_key(name, 'sv') < collate_high('b', 'sv');
SELECT collate_load('first', '{table}', 'und-u-ks-level1');
SELECT 'a' = 'A' COLLATE first, collate_high('', 'sv') IS NULL;
SELECT collate_find('z' || char(229) || 'z' || char(193) || 'b', 'aB', 'first'), collate_find('zab', 'aB', 'sv'), collate_find('ab', 'ab', 'sv');
SELECT collate_expect('sv', collate_fingerprint('sv'));
PRAGMA trusted_schema = off;
SELECT count(*) FROM names INDEXED BY by_key WHERE collate_key(name, 'sv') > X'';
"""
# What is refused, and what is said of it.
REFUSED = [
    ("SELECT collate_key('a', 'absent')", "absent.table can't be read"),
    ("SELECT collate_key('a', '../sv')", "no collation ../sv is loaded"),
    ("SELECT 'a' < 'b' COLLATE absent", "no such collation sequence: absent"),
    ("SELECT collate_load('sv', '{table}'), collate_load('sv', '{table}', 'und-u-kn')", "is loaded already"),
    ("SELECT collate_load('x', '{table}', 'und-u-ks-level9')", "language tag"),
    ("SELECT collate_load('x', '{bad}')", "no table file"),
    ("SELECT collate_expect('sv', '00')", "has the fingerprint"),
]


def wrong_sqlite(room, table, program):
    names = {"extension": os.path.join(BUILT, "collate_sqlite"), "table": table, "bad": os.path.join(room, "bad.table")}
    database = os.path.join(room, "names.db")
    status, said, error = ended(["sqlite3", database], SCRIPT.format(**names), COLLATE_TABLES=room)
    given = [b"zebra", b"ab", b"", b"Ab", b"b", b"ba", b"a\xff"]
    key_of = dict(zip(given, keys_of_program(program, table, given)))
    order = " ".join(it.hex().upper() for it in sorted(given, key=key_of.get))
    wanted = f"{order}\n{key_of[b'ab'].hex().upper()}\n{order}\n2\nfirst\n1|1\n4|0|1\n1\n7\n"
    found = [f"sqlite3: {status} {said}{error}; wanted: {wanted}"] * ((status, said, error) != (0, wanted, ""))
    # A file that is opened again: its collation and its index are found by their names.
    again = f".load {names['extension']}\nSELECT name FROM names ORDER BY name COLLATE sv LIMIT 1 OFFSET 2;\nPRAGMA integrity_check;\n"
    status, said, error = ended(["sqlite3", database], again, COLLATE_TABLES=room)
    found += [f"opened again: {status} {said}{error}"] * (status != 0 or not said.endswith("ok\n"))
    for query, fault in REFUSED:
        status, said, error = ended(["sqlite3", ":memory:"], f".load {names['extension']}\n{query.format(**names)};\n", COLLATE_TABLES=room)
        found += [f"{query}: {said}{error}; wanted: {fault}"] * (fault not in error)
    return found


# ---- PostgreSQL


SHIM = os.path.join(BINDINGS, "postgresql", "collate_postgresql.c")
OTHER = "0" * 64
# What is refused of PostgreSQL, by questions one after the other, and what is said of it.
REFUSED_CALLS = [
    ("key x61 sv", "\"sv\" isn't registered in this database | Run SELECT collate_use('sv') once"),
    (f"register sv {OTHER}\nkey x61 sv", f"Registered in collate_names is {OTHER}, and "),
    ("low x61 sv", "collate_accept('sv')"),
    ("compare x61 x62 ../sv", "no name of a collation"),
    ("fingerprint absent", "absent.table"),
    ("fingerprint bad", "bad.table: "),
    ("replica\nhigh x61 sv", "This server is a replica"),
    ("encoding 8\nfingerprint sv", "needs a database in UTF8"),
]


def stubs(room):
    """A folder of the headers that the extension names: all but the first are empty."""
    folder = os.path.join(room, "stubs")
    with open(SHIM, encoding="utf-8") as it:
        names = re.findall(r'(?m)^#include "([\w/]+\.h)"', it.read())
    for name in names:
        path = os.path.join(folder, name)
        os.makedirs(os.path.dirname(path), exist_ok=True)
        with open(path, "w", encoding="utf-8") as it:
            it.write(f'#include "{TOP}/tests/programs/postgres_stubs.h"\n' if name == "postgres.h" else "")
    return folder


def postgres_answers(path, room, questions):
    status, said, error = ended([path], "".join(f"{it}\n" for it in questions), COLLATE_TABLES=room, ASAN_OPTIONS="detect_leaks=0")
    return said.splitlines() if (status, error) == (0, "") else [f"status {status}: {error[-2000:]}"]


def wrong_postgres(room, table, program):
    path = os.path.join(room, "postgres_calls")
    options = ["-std=gnu11", "-D_GNU_SOURCE", *STRICT[1:], *SANITIZED, "-I", stubs(room), f'-DSOURCE="{SHIM}"']
    found = compiled(path, "tests/programs/postgres_calls.c", *options, "libcollate.a")
    if found:
        return found
    digits = postgres_answers(path, room, ["fingerprint sv"])[0]
    given = [it for it in texts() if it]
    keys = keys_of_program(program, table, given)
    said = postgres_answers(path, room, [f"register sv {digits}", *(f"key x{it.hex()} sv" for it in given)])
    found += [f"{text!r}: {one}" for text, key, one in zip(given, keys, said[1:]) if one != key.hex()]
    asked = [f"register sv {digits}", "compare x61 x41 sv", "compare x x sv", "key x sv", "high x sv", "low x61 sv", "key x41 sv", "high x61 sv"]
    said = postgres_answers(path, room, asked)
    if said[1:3] + said[4:5] != ["-1", "0", "NULL"] or not said[5] <= said[6] < said[7]:
        found.append(f"bounds: {said}")
    # Other tables are registered, and the right ones again.
    said = postgres_answers(path, room, [f"register sv {it}\nkey x61 sv" for it in (digits, OTHER, digits)])
    if len(said) != 6 or said[1] != said[5] or not said[3].startswith("ERROR"):
        found.append(f"registered anew: {said}")
    for at, (_, fault) in enumerate(REFUSED_CALLS, 1):
        said = postgres_answers(path, room, [it for it, _ in REFUSED_CALLS[:at]])
        found += [f"{said[-1]}; wanted: {fault}"] * (fault not in said[-1])
    return found


def check_c_library(report, room, program):
    status, said, error = ended([os.path.join(TOP, "bin", "c-library")])
    report.say("the library for C is built", [f"{said}{error}"[-2000:]] * (status != 0), 1)
    if status:
        return
    table = os.path.join(room, "sv.table")
    ran = run(program, ["compile", "--cldr", FOLDER, "-l", "sv", "-o", table])
    report.say("a small table file is written", [str(ran)] * (ran.status != 0), 1)
    if ran.status:
        return
    report.say("the shared library shows its calls alone", wrong_exports(), 1)
    report.say("the demo prints the program's keys", wrong_demo(room, table, program), 1)
    report.say("random calls under the sanitizers", wrong_calls(room, table), CALLS)
    made = module()
    report.say("Python's keys and signs are the program's", wrong_keys(made, program, table), TEXTS)
    report.say("Python's errors", wrong_errors(made, table, room), 1)
    report.say("Python's texts with surrogates, and bytes", wrong_surrogates(made, table), 1)
    report.say("Python's matches", wrong_finds(made, table), 1)
    report.say("Python's sorts, and threads", wrong_sorts(made, table), 1)
    report.say("Python's examples, in a wheel", wrong_wheel(room, table), 1)
    report.say("PostgreSQL's extension without a server", wrong_postgres(room, table, program), TEXTS)
    report.say("lines sorted by runs and merges", wrong_shuffle(room, program, table), TEXTS)
    if shutil.which("sqlite3") and os.path.isfile(os.path.join(BUILT, "collate_sqlite.so")):
        report.say("SQLite's collations, keys and indexes", wrong_sqlite(room, table, program), len(REFUSED) + 2)
    else:
        print("there is no sqlite3 or no sqlite3ext.h: the extension of SQLite isn't tried")
