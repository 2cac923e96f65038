"""The program `collate-cldr` over a small file with Mini's letters: its commands and options, its file with a line cut at each
place, pairs that are out of order, and each request refused."""
import concurrent.futures
import os
import re

from cldr_locales import FOLDER, check_locales
from csv_commands import check_csv
from input_files import check_input_files
from line_commands import check_lines
from output_files import check_output_files
from refused_files import check_refused_files
from shell_jobs import check_shell
from sorted_lists import check_lists
from sweeps import REQUESTS, TOP, Run, built, faults_of, losses_missed, run, run_on_streams, says_refusals, sweep, wrapped
from table_commands import check_tables

LETTERS = os.path.join(TOP, "crates", "collate_cldr", "data", "letters.txt")
NAMES = "b\ná\nA\na\nb\n10\n9\n".encode()
NO_DATA = b": No such file or directory; Debian's package unicode-cldr-core has it, and --root or --cldr say where it is\n"


def over(command, strength, *words):
    """A command over the small file, at a strength."""
    return [command, "--root", LETTERS, "--strength", strength, *words]


def versions(cldr, file):
    return f"collate-cldr 0.1\nCLDR {cldr}\nroot collation: Unicode 0, {file}\n".encode()


SORT, KEYS, CHECK = over("sort", "3"), over("keys", "3"), over("check", "3")
# The words of a run, its input, and the status, output and faults that are wanted.
RUNS = [
    (over("compare", "3", "ab", "aB"), b"", 1, b"<\n", b""),
    (over("compare", "tertiary", "aB", "ab"), b"", 1, b">\n", b""),
    (over("compare", "1", "as", "às"), b"", 0, b"=\n", b""),
    (["compare", "--root", LETTERS, "ab", "aB"], b"", 1, b"<\n", b""),
    (["compare", "--root", LETTERS, "--", "-a", "-b"], b"", 1, b"<\n", b""),
    (over("key", "3", "ab"), b"", 0, b"61 10 14 01 06 01 01 06 01\n", b""),
    (over("key", "i", "a"), b"", 0, b"61 10 01 05 01 01 05 01 01 01 01 92\n", b""),
    (over("key", "identical", "a"), b"", 0, b"61 10 01 05 01 01 05 01 01 01 01 92\n", b""),
    (over("compare", "3", "--alternate=shifted", "a-b", "ab"), b"", 0, b"=\n", b""),
    (over("compare", "4", "--alternate=blanked", "a-b", "ab"), b"", 0, b"=\n", b""),
    (over("compare", "3", "--alternate=shifted", "--max-variable=space", "a-b", "ab"), b"", 1, b"<\n", b""),
    (over("compare", "1", "--case-level", "a", "A"), b"", 1, b"<\n", b""),
    (SORT, NAMES, 0, "10\n9\na\nA\ná\nb\nb\n".encode(), b""),
    (over("sort", "3", "--numeric"), NAMES, 0, "9\n10\na\nA\ná\nb\nb\n".encode(), b""),
    (over("sort", "3", "--case-first=upper"), NAMES, 0, "10\n9\nA\na\ná\nb\nb\n".encode(), b""),
    (over("sort", "3", "-r"), NAMES, 0, "b\nb\ná\nA\na\n9\n10\n".encode(), b""),
    (over("sort", "3", "-u"), NAMES, 0, "10\n9\na\nA\ná\nb\n".encode(), b""),
    (over("sort", "1", "-u"), NAMES, 0, "10\n9\ná\nb\n".encode(), b""),
    (over("sort", "1", "-ru"), NAMES, 0, "b\ná\n9\n10\n".encode(), b""),
    # Lines that are equal stand by their bytes, unless they are to stand as they came.
    (over("sort", "1"), b"\xc3\xa1\na\nA", 0, b"A\na\n\xc3\xa1\n", b""),
    (over("sort", "1", "-r"), b"\xc3\xa1\na\nA", 0, b"\xc3\xa1\na\nA\n", b""),
    (over("sort", "1", "-s"), b"\xc3\xa1\na\nA", 0, b"\xc3\xa1\na\nA\n", b""),
    (over("sort", "1", "-rs"), b"b\n\xc3\xa1\na\nA", 0, b"b\n\xc3\xa1\na\nA\n", b""),
    (SORT, b"", 0, b"", b""),
    (SORT, b"\n", 0, b"\n", b""),
    (SORT, b"b\n\na\n\n", 0, b"\n\na\nb\n", b""),
    (SORT, b"b\na", 0, b"a\nb\n", b""),
    (SORT, b"b\r\na\r\n", 0, b"a\r\nb\r\n", b""),
    (SORT, b"b\ra\n", 0, b"b\ra\n", b""),
    (SORT, b"b\0\na\0c\n", 0, b"a\0c\nb\0\n", b""),
    (over("sort", "3", "-z"), b"b\0a\n\0c", 0, b"a\n\0b\0c\0", b""),
    (SORT, b"b\n\xff\na\xc3\n", 0, b"a\xc3\nb\n\xff\n", b""),
    (over("sort", "3", "-m"), b"b\na\n", 0, b"a\nb\n", b""),
    (over("sort", "3", "-c"), b"a\nb\n", 0, b"", b""),
    (over("sort", "3", "-c"), b"a\nb\nA\n", 1, b"", b"collate-cldr: line 3 is out of order: A\n"),
    (over("sort", "3", "-C"), b"b\na\n", 1, b"", b""),
    (CHECK, NAMES, 1, b"", "collate-cldr: line 2 is out of order: á\n".encode()),
    (CHECK, b"", 0, b"", b""),
    (over("check", "3", "-q"), NAMES, 1, b"", b""),
    (over("check", "3", "-r"), b"b\na\n", 0, b"", b""),
    (over("check", "3", "-u"), b"a\na\n", 1, b"", b"collate-cldr: line 2 is out of order: a\n"),
    (over("check", "1"), b"a\nA\n", 1, b"", b"collate-cldr: line 2 is out of order: A\n"),
    (over("check", "1", "-s"), b"a\nA\n", 0, b"", b""),
    (KEYS, b"b\na\n", 0, b"6114010501010501\tb\n6110010501010501\ta\n", b""),
    (over("keys", "1", "-z"), b"b\0", 0, b"6114\tb\0", b""),
    (["sort", "--root", "none"], NAMES, 3, b"", b"collate-cldr: none" + NO_DATA),
    (["sort", "--cldr", "none"], NAMES, 3, b"", b"collate-cldr: none/common/uca/FractionalUCA.txt" + NO_DATA),
    (over("sort", "3", "absent"), NAMES, 3, b"", b"collate-cldr: absent: No such file or directory\n"),
    (over("sort", "3", "/"), NAMES, 3, b"", b"collate-cldr: /: Is a directory\n"),
    (over("sort", "3", "-o", "/none/out"), NAMES, 3, b"", b"collate-cldr: /none/out: No such file or directory\n"),
    (["compare", "--cldr", FOLDER, "-l", "und-u-ks-level1", "as", "às"], b"", 0, b"=\n", b""),
    (["compare", "--cldr", FOLDER, "-l", "und-u-ks-level1", "--strength=2", "as", "às"], b"", 1, b"<\n", b""),
    (["compare", "--cldr", FOLDER, "-l", "und-u-kn", "10", "9"], b"", 1, b">\n", b""),
    (["--version", "--root", LETTERS], b"", 0, versions("of an unknown version", LETTERS), b""),
    (["--version", "--cldr", FOLDER], b"", 0, versions("41", f"{FOLDER}/common/uca/FractionalUCA.txt"), b""),
    ([], b"", 2, b"", b"collate-cldr: no command; --help says which there are\n"),
]
# Wrong words, and the one that is said to be wrong.
WRONG_WORDS = [
    (["order", "a", "b"], "order"),
    (over("compare", "3", "a"), "<B>"),
    (over("compare", "3", "a", "b", "c"), "c"),
    (over("sort", "5"), "5"),
    (["sort", "--colour"], "--colour"),
    (["sort", "--case-first=first"], "first"),
    (["key", "--root", LETTERS], "<TEXT>"),
    (["sort", "--root"], "--root"),
    (["--other"], "--other"),
]
# Words that ask for help, and some of what it says.
HELP = [(["--help"], "Status: 0, 1"), (["sort", "--help"], "Usage: collate-cldr sort [OPTIONS] [FILE]..."), (["help", "check"], "--quiet")]


# The words, where the streams go, and what is wanted.
STREAM_RUNS = [
    (["--help"], ">&-", 3, b"", b"collate-cldr: write failed\n"),
    (["--help"], ">/dev/full", 3, b"", b"collate-cldr: write failed\n"),
    (over("compare", "3", "a", "b"), ">/dev/full", 3, b"", b"collate-cldr: write failed\n"),
    (SORT, "</", 3, b"", b"collate-cldr: standard input: Is a directory\n"),
    (SORT, "<&-", 3, b"", b"collate-cldr: standard input: Bad file descriptor\n"),
    (SORT, "0>/dev/null", 3, b"", b"collate-cldr: standard input: Bad file descriptor\n"),
    (CHECK, "</", 3, b"", b"collate-cldr: standard input: Is a directory\n"),
    (["sort", "--root", "/"], "", 3, b"", b"collate-cldr: /: read failed\n"),
]


def wrong_runs(program):
    found = []
    for words, given, *wanted in RUNS:
        ran = run(program, words, given)
        if ran.came_to() != tuple(wanted):
            found.append(f"{words}: {ran}; wanted: {Run(*wanted, None)}")
    for words, redirections, *wanted in STREAM_RUNS:
        ran = run_on_streams(program, words, redirections)
        if ran.came_to() != tuple(wanted):
            found.append(f"{words} {redirections}: {ran}; wanted: {Run(*wanted, None)}")
    for words, named in WRONG_WORDS:
        ran = run(program, words)
        if ran.status != 2 or ran.output or named.encode() not in ran.faults:
            found.append(f"{words}: {ran}; wanted: status 2, and {named} named")
    for words, said in HELP:
        ran = run(program, words)
        if ran.status or ran.faults or said.encode() not in ran.output:
            found.append(f"{words}: {ran}; wanted: help with {said}")
    return found


COMMANDS_SAID = re.compile(r"(?m)^Commands:\n((?: .*\n)+)")


def helps(program):
    """What the program prints as help, by its commands; `none` is the program without one."""
    names = re.findall(r"(?m)^  (\w+)", COMMANDS_SAID.search(run(program, ["--help"]).output.decode())[1])
    words = {"none": ["--help"], **{name: [name, "--help"] for name in names if name != "help"}}
    return {name: run(program, it).output.decode() for name, it in words.items()}


def options_of_help(program):
    """The options that the program and each of its commands say they take, by the command."""
    lines = {name: re.findall(r"(?m)^ {2,6}((?:-\w, )?--[\w-]+)", said) for name, said in helps(program).items()}
    return {(name, it) for name, said in lines.items() for line in said for it in line.split(", ") if it != "--help"}


def wide_help(program):
    """Lines of help that don't fit into 80 columns, with how many texts of help there are."""
    said = helps(program)
    return [f"help of {name} has {len(line)} columns: {line}" for name, it in said.items() for line in it.splitlines() if len(line) > 80], len(said)


def wrong_files(program, room):
    """Files that are sorted together, and one that is replaced."""
    one, two, found = os.path.join(room, "one"), os.path.join(room, "two"), []

    def write(path, text):
        with open(path, "wb") as it:
            it.write(text)

    def read(path):
        with open(path, "rb") as it:
            return it.read()

    write(one, b"c\nA")
    write(two, b"b\n")
    ran = run(program, [*SORT, one, "-", two], b"a")
    if ran.came_to() != (0, b"a\nA\nb\nc\n", b""):
        found.append(f"two files and standard input: {ran}")
    ran = run(program, [*SORT, "-o", one, one, two])
    if ran.came_to() != (0, b"", b"") or read(one) != b"A\nb\nc\n" or sorted(os.listdir(room)).count("one") != 1:
        found.append(f"a file that is replaced by its lines: {ran}, {read(one)}")
    ran = run(program, [*SORT, "-o", one, two, "absent"])
    if ran.status != 3 or read(one) != b"A\nb\nc\n":
        found.append(f"a file that stays where another is missing: {ran}, {read(one)}")
    left = [it for it in os.listdir(room) if "unfinished" in it]
    return found + [f"left behind: {left}"] * bool(left)


# ---- options of which both matter

NUMERIC, SHIFTED, BLANKED, LEVEL = "--numeric", "--alternate=shifted", "--alternate=blanked", "--case-level"
UPPER, SPACES = "--case-first=upper", "--max-variable=space"
# Two options, what is asked with options that stand beside them, its input, and what is printed with neither, the first, the
# second and both. Both print something else than each does alone.
PAIRS = [
    (NUMERIC, SHIFTED, [], ["compare", "3", "a 10", "a9"], "", "< < < >"),
    (NUMERIC, BLANKED, [], ["compare", "4", "a 10", "a9"], "", "< < < >"),
    (NUMERIC, LEVEL, [], ["compare", "1", "A07", "a7"], "", "< = < >"),
    (NUMERIC, UPPER, [], ["compare", "3", "A7", "a07"], "", "> > > <"),
    (NUMERIC, SPACES, [SHIFTED], ["compare", "3", "07-", "7"], "", "< = < >"),
    (SHIFTED, LEVEL, [], ["compare", "1", "A-b", "ab"], "", "< = < >"),
    (BLANKED, LEVEL, [], ["compare", "1", "A-b", "ab"], "", "< = < >"),
    (SHIFTED, UPPER, [], ["compare", "3", "a-b", "Ab"], "", "< < < >"),
    (BLANKED, UPPER, [], ["compare", "3", "a-b", "Ab"], "", "< < < >"),
    (SHIFTED, SPACES, [], ["compare", "3", "a-b", "a b"], "", "> = > <"),
    (BLANKED, SPACES, [], ["compare", "3", "a-b", "a b"], "", "> = > <"),
    (LEVEL, UPPER, [], ["compare", "1", "A", "a"], "", "= > = <"),
    (LEVEL, SPACES, [SHIFTED], ["sort", "1"], "Ac ac a-c", "Ac,ac,a-c ac,a-c,Ac a-c,Ac,ac a-c,ac,Ac"),
    (UPPER, SPACES, [SHIFTED], ["sort", "3"], "ac Ac a-c", "ac,a-c,Ac Ac,ac,a-c a-c,ac,Ac a-c,Ac,ac"),
]
# Of two options that choose one setting the last counts.
LAST = [
    (BLANKED, SHIFTED, [], ["compare", "4", "a-b", "ab"], "", "< = < <"),
    (SHIFTED, BLANKED, [], ["compare", "4", "a-b", "ab"], "", "< < = ="),
    (UPPER, "--case-first=off", [], ["compare", "3", "A", "a"], "", "> < > >"),
    ("--case-first=off", UPPER, [], ["compare", "3", "A", "a"], "", "> > < <"),
    (SPACES, "--max-variable=punctuation", [SHIFTED], ["compare", "3", "a-b", "ab"], "", "= < = ="),
    ("--max-variable=currency", SPACES, [SHIFTED], ["compare", "3", "a-b", "ab"], "", "= = < <"),
]


def wrong_options(program, pairs):
    """The pairs of options that don't print what is wanted, with neither, each and both, in both orders where both matter."""
    found = []
    for first, second, beside, command, given, wanted in pairs:
        chosen = [[], [first], [second], [first, second]]
        printed = [it.replace(",", "\n") + "\n" for it in wanted.split(" ")]
        if pairs is PAIRS:
            chosen, printed = [*chosen, [second, first]], [*printed, printed[-1]]
        for options, lines in zip(chosen, printed):
            name, strength, *texts = command
            words = over(name, strength, *beside, *options, *(["-s"] if name == "sort" else []), *texts)
            ran = run(program, words, "".join(f"{it}\n" for it in given.split()).encode())
            if ran.came_to() != (int(lines in ("<\n", ">\n")), lines.encode(), b""):
                found.append(f"{[*beside, *options, *command]}: {ran}; wanted: {lines!r}")
    return found


# ---- the file with a line cut at each place


def letter_lines():
    with open(LETTERS, encoding="utf-8") as it:
        return it.read().splitlines()


def probe_of(lines):
    """A text with each character that lines map by itself."""
    first = [line.partition(";")[0].split() for line in lines if ";" in line and not line.startswith("#")]
    codes = [int(it[0], 16) for it in first if len(it) == 1]
    return "".join(chr(it) for it in codes if it)


def key_over(program, room, name, lines, probe):
    """The run that shows the key of a text by the tables of these lines."""
    path = os.path.join(room, name)
    with open(path, "w", encoding="utf-8") as it:
        it.write("\n".join(lines) + "\n")
    ran = run(program, ["key", "--root", path, "--strength", "i", "--", probe])
    os.remove(path)
    return ran


def cut_lines(lines):
    """Each place at which a line may be cut: its index, and the place. Of lines that are alike, the combining marks', the
    first and the last two are taken."""
    marks = [at for at, line in enumerate(lines) if line.startswith("03")]
    left_out = set(marks[1:-2])
    return [(at, end) for at, line in enumerate(lines) if at not in left_out for end in range(1, len(line))]


def wrong_cuts(program, room, cuts):
    """Of these cuts of a line of the small file, those that are neither refused, at that line, at the end of the file or by a
    condition on tables, nor give all characters the key that the whole file gives them."""
    lines = letter_lines()
    probe = probe_of(lines)
    whole = key_over(program, room, "whole", lines, probe)
    if whole.status != 0:
        return [f"the whole file: {whole}"]

    def wrong(at, end):
        cut = lines[at][:end]
        name = f"cut-{at}-{end}"
        ran = key_over(program, room, name, [*lines[:at], cut, *lines[at + 1 :]], probe)
        path = os.path.join(room, name)
        if ran.status == 3 and not ran.output:
            places = [f"line {at + 1}: ", "at the end: ", "collation table "]
            return None if any(ran.faults.startswith(f"collate-cldr: {path}: {it}".encode()) for it in places) else f"{cut!r}: {ran}"
        if ran.came_to() == whole.came_to():
            return None
        return f"{cut!r}, of line {at + 1}, was read as something else: {ran}"

    with concurrent.futures.ThreadPoolExecutor(os.cpu_count() or 1) as pool:
        found = [*pool.map(lambda it: wrong(*it), cuts)]
    return [it for it in found if it]


# ---- the file cut off at each place

CUT_OFF = "at the end: the file is cut off: expected its last line, [fixed first ignorable tertiary byte 3C]"


def wrong_ends(program, room, step=1):
    """The places, of each so many bytes, where the small file may end and isn't refused: behind a line as one that is cut off, and
    within a line also by that line. Without a byte it is empty, and it is whole without its last line feed."""
    with open(LETTERS, "rb") as it:
        whole = it.read()

    def wrong(end):
        path, begun = os.path.join(room, f"ends-{end}"), whole[:end]
        with open(path, "wb") as it:
            it.write(begun)
        ran = run(program, ["compare", "--root", path, "a", "b"], b"")
        os.remove(path)
        said = CUT_OFF if begun else "the file is empty"
        if ran.status == 1 and not ran.faults and end == len(whole) - 1:
            return None
        if not begun.endswith(b"\n") and ran.faults.startswith(f"collate-cldr: {path}: line {begun.count(10) + 1}: expected ".encode()):
            return None
        right = ran.came_to() == (3, b"", f"collate-cldr: {path}: {said}\n".encode())
        return None if right else f"cut off behind {end} bytes: {ran}"

    ends = range(0, len(whole), step)
    with concurrent.futures.ThreadPoolExecutor(os.cpu_count() or 1) as pool:
        found = [*pool.map(wrong, ends)]
    return [it for it in found if it]


# ---- each request refused

is_right = says_refusals(
    "collate-cldr", f"collate-cldr: {LETTERS}: read failed\n".encode(), b"collate-cldr: standard input: Input/output error\n",
    b"collate-cldr: standard input: Resource temporarily unavailable\n", failed=3, answers=(0, 1)
)
# Of the allocations that read the file, which are the same for each command, one in so many is refused with all after it; by the
# commands but the first none is, which leaves so many of the last ones.
SOME, LAST_ONES = 8, 60
# The commands, their input, and which of their allocations are refused.
COMMANDS = [
    (SORT, NAMES, lambda at, count, after: not after or at % SOME == 0 or at > count - LAST_ONES),
    (over("sort", "3", "-u"), NAMES, lambda at, count, after: at > count - LAST_ONES),
    (over("compare", "3", "ab", "aB"), b"", lambda at, count, after: at > count - LAST_ONES),
    (over("key", "3", "ab"), b"", lambda at, count, after: at > count - LAST_ONES),
    (KEYS, NAMES, lambda at, count, after: at > count - LAST_ONES),
    (over("explain", "3", "ab"), b"", lambda at, count, after: at > count - LAST_ONES),
    (over("why", "3", "ab", "aB"), b"", lambda at, count, after: at > count - LAST_ONES),
    (over("search", "1", "--colour=always", "-n", "a"), NAMES, lambda at, count, after: at > count - LAST_ONES),
    (over("sort", "3", "--csv", "--column", "1"), NAMES, lambda at, count, after: at > count - LAST_ONES),
    (over("sort", "3", "-k1,1nr", "-k2"), NAMES, lambda at, count, after: at > count - LAST_ONES),
    (CHECK, b"a\nb\n", lambda at, count, after: at > count - LAST_ONES),
    (over("sort", "3", "-n"), b"10\n9\n", lambda at, count, after: at > count - LAST_ONES),
    (over("sort", "3", "--debug", "-k1,1"), NAMES, lambda at, count, after: at > count - LAST_ONES),
]
# What is said of a request that is refused while several files are read.
READ_REASONS = (b": no memory", b": write failed", b": Input/output error", b": Resource temporarily unavailable", b": read failed")


def loses_files(plain, refused, ran):
    """Whether a run over several files, or one that prints lines as they are found, did right where a request was refused: its whole
    answer, or status 3, a line that says what was refused, and of its answer as many lines as it could, in their order."""
    is_opened = refused.request == "file"
    if ran.came_to() == plain.came_to() and (is_opened or not refused.is_error()):
        return True
    if not is_opened and not refused.is_error() or refused.request == "allocation" and not refused.also_after and not ran.status:
        return ran.came_to() == plain.came_to()
    left, said = iter(plain.output.splitlines()), ran.faults.splitlines()
    is_said = all(it.startswith(b"collate-cldr: ") and it.endswith(READ_REASONS) for it in said)
    is_silent = refused.request == "write" and refused.also_after
    return ran.status == 3 and is_said and (is_silent or bool(said)) and all(it in left for it in ran.output.splitlines())


def check_refused_folders(report, room, program, shim):
    """Each request refused of a search below a folder, and of a sort of files that a list names."""
    top, names = os.path.join(room, "below"), os.path.join(room, "names0")
    files = [os.path.join(top, it) for it in ("one", "sub/two", "three")]
    os.makedirs(os.path.join(top, "sub"))
    for path, text in zip(files, ("a\n", "b\na\n", "a\n")):
        with open(path, "w", encoding="utf-8") as it:
            it.write(text)
    with open(names, "w", encoding="utf-8") as it:
        it.write("".join(f"{path}\0" for path in files))
    for words in (over("search", "3", "-r", "a", top), over("sort", "3", f"--files0-from={names}")):
        outcomes = sweep(shim, program, words, b"", [*REQUESTS, "file"], loses_files, lambda at, count, after: at > count - LAST_ONES)
        report.say(f"collate-cldr: each request refused, {words[0]} of several files", faults_of(outcomes), len(outcomes))
    words = over("search", "1", "--line-buffered", "-nb", "a")
    outcomes = sweep(shim, program, words, NAMES, REQUESTS, loses_files, lambda at, count, after: at > count - LAST_ONES)
    report.say("collate-cldr: each request refused, lines as they are found", faults_of(outcomes), len(outcomes))


def check_refused(report, program, shim):
    for words, given, is_chosen in COMMANDS:
        outcomes = sweep(shim, program, words, given, REQUESTS, is_right, is_chosen)
        plain = run(program, words, given, shim=shim)
        report.say(f"collate-cldr: each request refused, {' '.join(words[:1] + words[5:])}", faults_of(outcomes), len(outcomes))
        if not plain.output:
            continue
        missed = losses_missed(outcomes, plain, is_right)
        report.say(f"collate-cldr: a loss where a request is refused is found, {' '.join(words[:1] + words[5:])}", missed, len(outcomes))


# ---- the run of all, and programs with a fault

# Scripts around the true program, and what has to find each.
FAULTY = [
    ("the usage text on standard error where it is asked for",
     'case $1 in --help) exec "$COLLATE" "$@" >&2;; esac; exec "$COLLATE" "$@"', wrong_runs),
    ("status 0 for words that are no command", '"$COLLATE" "$@"; [ $? = 1 ] && exit 1; exit 0', wrong_runs),
    ("the first of two options alone",
     'case $6 in --*) a=$1 b=$2 c=$3 d=$4 e=$5 f=$6; shift 6; while case $1 in --*) true;; *) false;; esac; do shift; done; '
     'exec "$COLLATE" "$a" "$b" "$c" "$d" "$e" "$f" "$@";; esac; exec "$COLLATE" "$@"',
     lambda program: wrong_options(program, PAIRS[:4])),
    ("lines that are equal in any order", '"$COLLATE" "$@" | sort', wrong_runs),
]


def faults_missed(room, program):
    found = []
    for at, (what, text, wrong) in enumerate(FAULTY):
        found += [f"not found: {what}"] * (not wrong(wrapped(room, f"cldr{at}", program, text)))
    return found


def check_collate_cldr(report, room, shim):
    program = built("collate_cldr")
    report.say("collate-cldr: words", wrong_runs(program), len(RUNS) + len(STREAM_RUNS) + len(WRONG_WORDS) + len(HELP))
    folder = os.path.join(room, "files")
    os.mkdir(folder)
    report.say("collate-cldr: files", wrong_files(program, folder), 4)
    report.say("collate-cldr: help fits 80 columns", *wide_help(program))
    check_locales(report, folder, program)
    check_refused_files(report, folder, program)
    check_input_files(report, folder, program)
    check_output_files(report, folder, program, shim)
    check_lines(report, folder, program, LETTERS)
    check_lists(report, folder, program, LETTERS)
    check_csv(report, folder, program, LETTERS)
    check_shell(report, folder, program)
    check_tables(report, folder, program, LETTERS, shim)
    report.say("collate-cldr: options of which both matter", wrong_options(program, PAIRS), 5 * len(PAIRS))
    report.say("collate-cldr: options of which the last counts", wrong_options(program, LAST), 4 * len(LAST))
    report.say("collate-cldr: programs with a fault are found", faults_missed(room, program), len(FAULTY))
    check_refused(report, program, shim)
    check_refused_folders(report, folder, program, shim)
    cuts = cut_lines(letter_lines())
    report.say("collate-cldr: each line of a file cut at each place", wrong_cuts(program, room, cuts), len(cuts))
    ends = os.path.getsize(LETTERS)
    report.say("collate-cldr: a file cut off at each place", wrong_ends(program, room), ends)
    accepting = wrapped(room, "accepting_reader", program, 'printf "[fixed first ignorable tertiary byte 3C]" >>"$3"; "$COLLATE" "$@"')
    missed = [] if wrong_ends(accepting, room, 100) else ["not found: a file that is cut off and read"]
    report.say("collate-cldr: a program that reads a file which is cut off is found", missed, ends // 100)
    some = cuts[len(cuts) // 2 :: 100]
    careless = wrapped(room, "careless_reader", program, '"$COLLATE" "$@" 2>/dev/null || echo')
    missed = [] if wrong_cuts(careless, room, some) else ["not found: a file that isn't read taken for an empty one"]
    report.say("collate-cldr: a program with a fault is found", missed, len(some))
