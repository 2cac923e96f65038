"""The command compile of the program `collate-cldr`, over its small file with Mini's letters and the small files of languages: what a
table file answers beside the text files that it was made of, and files that are refused."""
import concurrent.futures
import os
import shutil

from cldr_locales import FOLDER, SIGNED, SIGNS, WRITTEN, said_of
from sweeps import REQUESTS, Refused, faults_of, run, says_refusals, sweep, wrapped

BEGINNING = bytes.fromhex("89434F4C4C0D0A1A")
# The frame before the body: the beginning, the version, the length and the checksum.
FRAME, VERSION, LENGTH = 56, slice(8, 16), slice(16, 24)
NO_TABLES = "expected a file of tables, which begins with 89 43 4F 4C 4C 0D 0A 1A"
# Commands over lines and texts, and their input: each prints by a table file what it prints by the file that it was made of.
ASKED = [
    (["sort"], "b\ná\nA\na\nb\n10\n9\n"),
    (["sort", "--numeric"], "b\n10\n9\n"),
    (["sort", "--case-first=upper", "-u"], "a\nA\na\n"),
    (["sort", "-k2,2nr"], "a 9\na 10\n"),
    (["sort", "--csv", "--column=2"], "1,b\n2,á\n3,a\n"),
    (["check"], "b\na\n"),
    (["keys", "--strength=i"], "á\nb\n"),
    (["key", "--alternate=shifted", "--strength=4", "a-b"], ""),
    (["explain", "áb"], ""),
    (["why", "á", "A"], ""),
    (["search", "--strength=1", "a"], "b\ná\n"),
    (["compare", "--case-level", "--strength=1", "a", "A"], ""),
]


def made(program, path, *words, said=b""):
    """Writes a table file, and returns what is wrong with the run, if anything is."""
    ran = run(program, ["compile", *words, "-o", path])
    return [] if ran.came_to() == (0, b"", said) else [f"compile {words}: {ran}"]


def origin(path):
    """The tag and the versions that a file names: its first parts, each behind its length."""
    texts = []
    with open(path, "rb") as it:
        rest = it.read()[FRAME:]
    for _ in range(3):
        length = int.from_bytes(rest[:8], "big")
        texts, rest = [*texts, rest[8 : 8 + length].decode()], rest[8 + length :]
    return texts


def wrong_answers(program, letters, room):
    """What a file of the root answers otherwise than the root."""
    path, found = os.path.join(room, "root.tables"), []
    found += made(program, path, "--root", letters)
    found += [f"another origin: {origin(path)}"] * (origin(path) != ["", "", "0"])
    for (command, *words), given in ASKED:
        by_text = run(program, [command, "--root", letters, *words], given.encode())
        by_file = run(program, [command, "--tables", path, *words], given.encode())
        if by_text.status not in (0, 1) or by_file.came_to() != by_text.came_to():
            found.append(f"{command} {words}: {by_file}; by the text file: {by_text}")
    return found


def wrong_languages(program, room):
    """What files of languages answer otherwise than is wanted of their rules, tags and settings."""
    found, paths, tags = [], {}, {name: tag for name, tag, _, _ in WRITTEN}
    for (option, name, *options), texts, sign in SIGNED + [(["-l", name], texts, sign) for name, _, texts, sign in WRITTEN]:
        tag = tags.get(name, name)
        if name not in paths:
            paths[name] = os.path.join(room, f"{name}.tables")
            found += made(program, paths[name], "--cldr", FOLDER, option, name, said=said_of(name))
            found += [f"another origin: {origin(paths[name])}"] * (origin(paths[name]) != [tag, "41", "0"])
        ran = run(program, ["compare", "--tables", paths[name], *options, "--", *texts.split(" ")])
        if ran.came_to() != (SIGNS[sign], f"{sign}\n".encode(), b""):
            found.append(f"{name} {options} {texts}: {ran}; wanted: {sign}")
    return found


def with_bytes(whole, place, new):
    return whole[: place.start] + new + whole[place.stop :]


def damaged_files(whole):
    """Files that are refused, each with what is said of it."""
    end = len(whole)
    yield b"", "empty, expected a file of tables"
    for other in (b"a\n", b"[UCA version = 14.0.0]\n", whole[1:], b"\xef\xbb\xbf" + whole, whole.replace(b"\r\n", b"\n", 1)):
        yield other, NO_TABLES
    for version in (0, 2, 1 << 40):
        yield with_bytes(whole, VERSION, version.to_bytes(8, "big")), f"expected a file of tables of version 1, found version {version}"
    for at in (1, 7, 8, 15, 16, 40, FRAME, FRAME + 1, end // 2, end - 1):
        yield whole[:at], f"cut off at byte {at}"
    yield with_bytes(whole, LENGTH, (end - FRAME + 1).to_bytes(8, "big")), f"cut off at byte {end}"
    yield with_bytes(whole, LENGTH, b"\xff" * 8), f"cut off at byte {end}"
    yield whole + b"\n", f"bytes are left over from byte {end} on"
    yield whole * 2, f"bytes are left over from byte {end} on"
    for at in [*range(24, FRAME, 7), *range(FRAME, end, max(1, end // 50)), end - 1]:
        yield whole[:at] + bytes([whole[at] ^ 1]) + whole[at + 1 :], "damaged: the checksum differs"


def wrong_refusals(program, letters, room):
    path, other, found = os.path.join(room, "whole.tables"), os.path.join(room, "other.tables"), []
    found += made(program, path, "--root", letters)
    with open(path, "rb") as it:
        whole = it.read()
    for text, said in damaged_files(whole):
        with open(other, "wb") as it:
            it.write(text)
        ran = run(program, ["sort", "--tables", other], b"b\na\n")
        if ran.came_to() != (3, b"", f"collate-cldr: {other}: {said}\n".encode()):
            found.append(f"{len(text)} bytes of {len(whole)}: {ran}; wanted: {said}")
    for absent, reason in ((os.path.join(room, "absent"), "No such file or directory"), (room, "Is a directory")):
        ran = run(program, ["sort", "--tables", absent], b"b\na\n")
        if ran.came_to() != (3, b"", f"collate-cldr: {absent}: {reason}\n".encode()):
            found.append(f"{absent}: {ran}")
    return found + wrong_words(program, letters, path) + wrong_outputs(program, letters, room, whole)


def wrong_words(program, letters, path):
    """Words that don't go together, with the one that is named."""
    found = []
    for words, named in [
        (["sort", "--tables", path, "--root", letters], "--tables"),
        (["sort", "--tables", path, "--cldr", FOLDER], "--tables"),
        (["sort", "--tables", path, "-l", "sv"], "--tables"),
        (["compile", "--root", letters], "--output"),
        (["compile", "--root", letters, "-o", path, "--strength=1"], "--strength"),
        (["compile", "--tables", path, "-o", path], "--tables"),
        (["compile", "--root", letters, "-o", path, "x"], "x"),
        (["compile", "--cldr", FOLDER, "-l", "xx", "-o", path], "no language of CLDR"),
    ]:
        ran = run(program, words)
        if ran.status != 2 or ran.output or named.encode() not in ran.faults:
            found.append(f"{words}: {ran}; wanted: status 2, and {named} named")
    return found


def wrong_outputs(program, letters, room, whole):
    """A file that is written whole or not at all, and the same for the same words."""
    path, found = os.path.join(room, "again.tables"), []
    found += made(program, path, "--root", letters)
    for words, said in [
        (["--root", "absent", "-o", path], b"collate-cldr: absent: No such file or directory"),
        (["--cldr", FOLDER, "-l", "ta", "-o", path], f"collate-cldr: {FOLDER}/common/collation/ta.xml".encode()),
        (["--root", letters, "-o", "/none/out"], b"collate-cldr: /none/out: No such file or directory"),
        (["--root", letters, "-o", room], f"collate-cldr: {room}: Is a directory".encode()),
    ]:
        ran = run(program, ["compile", *words])
        if ran.status != 3 or ran.output or not ran.faults.startswith(said):
            found.append(f"compile {words}: {ran}; wanted: {said}")
    with open(path, "rb") as it:
        again = it.read()
    left = [it for it in [*os.listdir(room), *os.listdir(os.path.dirname(room))] if "unfinished" in it]
    return found + ["another file of the same tables"] * (again != whole) + [f"left behind: {left}"] * bool(left)


def wrong_versions(program, room):
    """Folders whose file with CLDR's version doesn't say it, isn't read, or isn't there."""
    folder, found = os.path.join(room, "unversioned"), []
    shutil.copytree(FOLDER, folder)
    file, out = f"{folder}/common/dtd/ldml.dtd", f"{folder}/out"
    for text, status, said in [(b"41", 0, b""), (b"\xff", 3, f"collate-cldr: {file}: line 1: expected UTF-8\n".encode()), (None, 0, b"")]:
        os.remove(file)
        if text is not None:
            with open(file, "wb") as it:
                it.write(text)
        ran = run(program, ["compile", "--cldr", folder, "-l", "sv", "-o", out])
        if ran.came_to() != (status, b"", said) or status == 0 and origin(out) != ["sv", "", "0"]:
            found.append(f"compile by a folder whose ldml.dtd has {text!r}: {ran}")
    return found


# ---- each request refused

# What the system says of a write that it refuses.
REASONS = {"fail": "Input/output error", "again": "Resource temporarily unavailable"}
# How many of the last allocations are refused with all after them.
LAST_ONES = 60


def refusals_of(counts):
    """The refusals of a run with so many requests of each kind: each alone and with all after it, of the allocations the last ones, and
    each read and write by a signal, of one byte, and to be made again."""
    for request in REQUESTS:
        for at in range(1, counts[request] + 1):
            if request != "allocation" or at > counts[request] - LAST_ONES:
                yield Refused(request, at)
                yield Refused(request, at, also_after=True)
            if request != "allocation":
                yield from (Refused(request, at, how) for how in ("signal", "short", "again"))


def wrong_compile(program, shim, letters, room, at, refused):
    """What is wrong where a request of `compile` is refused: it says what failed, and leaves no file and nothing beside it, or the
    request was made again, and the file is whole."""
    folder = os.path.join(room, f"refused-{at}")
    os.mkdir(folder)
    path = os.path.join(folder, "out")
    ran = run(program, ["compile", "--root", letters, "-o", path], b"", refused, shim)
    left = os.listdir(folder)
    shutil.rmtree(folder)
    said = {"allocation": b"collate-cldr: no memory\n", "read": f"collate-cldr: {letters}: read failed\n".encode(),
            "write": b"" if refused.also_after else f"collate-cldr: {path}: {REASONS[refused.how]}\n".encode() if refused.is_error() else b""}[refused.request]
    is_said = ran.came_to() == (3, b"", said) and not left
    is_made = ran.came_to() == (0, b"", b"") and left == ["out"] and (not refused.is_error() or refused.request == "allocation")
    return [] if is_said and refused.is_error() or is_made else [f"{refused}: {ran}, {left}"]


def refused_compiles(program, shim, letters, room):
    """How many requests of `compile` are refused, and what is wrong where they are."""
    plain = run(program, ["compile", "--root", letters, "-o", os.path.join(room, "plain")], shim=shim)
    all_refused = [*refusals_of(plain.counts or {})] if plain.counts else []
    with concurrent.futures.ThreadPoolExecutor(os.cpu_count() or 1) as pool:
        found = [*pool.map(lambda it: wrong_compile(program, shim, letters, room, *it), enumerate(all_refused))]
    return len(all_refused), [it for some in found for it in some] + ["too few"] * (len(all_refused) < LAST_ONES)


def check_refused(report, program, letters, shim, room):
    path = os.path.join(room, "refused.tables")
    report.say("collate-cldr: a table file to refuse requests by", made(program, path, "--root", letters), 1)
    count, found = refused_compiles(program, shim, letters, room)
    report.say("collate-cldr: each request refused, compile", found, count)
    read = [f"collate-cldr: {path}: {it}\n".encode() for it in REASONS.values()]
    is_right = says_refusals("collate-cldr", *read, failed=3, answers=(0, 1))
    words = ["compare", "--tables", path, "ab", "aB"]
    outcomes = sweep(shim, program, words, b"", REQUESTS, is_right, lambda at, count, _: at > count - LAST_ONES)
    report.say("collate-cldr: each request refused, compare --tables", faults_of(outcomes), len(outcomes))


# ---- the run of all, and programs with a fault

FAULTY = [
    ("the language of a file left out", 'case $1 in compile) shift; while [ "$1" != -o ]; do [ "$1" = -l ] && shift || a="$a $1"; shift; done; '
     'exec "$COLLATE" compile $a "$@";; esac; exec "$COLLATE" "$@"', lambda program, letters, room: wrong_languages(program, room)),
    ("a damaged file that is read", '"$COLLATE" "$@" 2>/dev/null || cat', wrong_refusals),
    ("options passed over", '[ "$2" = --tables ] && exec "$COLLATE" "$1" "$2" "$3" a A; exec "$COLLATE" "$@"', wrong_answers),
]


def faults_missed(room, program, letters):
    found = []
    for at, (what, text, wrong) in enumerate(FAULTY):
        found += [f"not found: {what}"] * (not wrong(wrapped(room, f"tables{at}", program, text), letters, room))
    return found


def check_tables(report, room, program, letters, shim):
    room = os.path.join(room, "tables")
    os.mkdir(room)
    report.say("collate-cldr: answers by a table file", wrong_answers(program, letters, room), len(ASKED))
    report.say("collate-cldr: table files of languages", wrong_languages(program, room), len(SIGNED))
    report.say("collate-cldr: versions in table files", wrong_versions(program, room), 3)
    report.say("collate-cldr: table files that are refused", wrong_refusals(program, letters, room), 100)
    report.say("collate-cldr: programs with a fault in table files are found", faults_missed(room, program, letters), len(FAULTY))
    check_refused(report, program, letters, shim, room)
    shutil.rmtree(room)
