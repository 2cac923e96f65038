"""The commands sort and check over records of CSV, of the program `collate-cldr` over its small file with Mini's letters, and sorts of
random records beside those of Python."""
import csv
import io
import os
import random

from sweeps import faults_missed, run

MARK = "\ufeff"
# Further words, the input, and what is printed.
SORTED = [
    (["--header", "--column=b"], "a,b\n1,b\n2,a\n", "a,b\n2,a\n1,b\n"),
    (["--header", "--column", "2"], "a,b\n1,b\n2,a\n", "a,b\n2,a\n1,b\n"),
    (["--header", "--column", "2"], "2,b\n2,b\n1,c\n", "2,b\n1,c\n2,b\n"),
    (["--column", "2"], "1,b\n2,a\n", "2,a\n1,b\n"),
    (["--column", "1"], '"b",1\na,"2"\n', 'a,"2"\n"b",1\n'),
    (["--column", "1"], '"b\n,a",1\n"a ""b""",2\n', '"a ""b""",2\n"b\n,a",1\n'),
    (["--column", "1"], 'b"\na\n', 'a\nb"\n'),
    (["--column", "1"], '"b"b,\n"a"\n', '"a"\n"b"b,\n'),
    (["--column", "1"], "b\na", "a\nb\n"),
    (["--column", "1"], "b,1\r\na,2\r\n", "a,2\r\nb,1\r\n"),
    (["--column", "1"], "b\ra\r", "a\r\nb\r\n"),
    (["--column", "1"], "\n\nb\n\r\n\na\n\n", "a\nb\n"),
    (["--column", "2"], "2,a\n1,a\n", "2,a\n1,a\n"),
    (["-u", "--column", "2"], "2,a\n1,b\n3,a\n", "2,a\n1,b\n"),
    (["-r", "--column", "1"], "a\nb\n", "b\na\n"),
    (["-r", "--header", "--column", "a"], "a\na\nb\n", "a\nb\na\n"),
    (["--column", "2", "--column", "1"], "b,a\na,b\na,a\n", "a,a\nb,a\na,b\n"),
    (["--delimiter", ";", "--column", "2"], "1;b,\n2;a\n", "2;a\n1;b,\n"),
    (["--delimiter", "\t", "--column", "2"], "1\tb\n2\ta\n", "2\ta\n1\tb\n"),
    (["--header", "--column", "b"], f"{MARK}b\nb\na\n", f"{MARK}b\na\nb\n"),
    (["--header", "--column", "b"], f'{MARK}"b"\nb\na\n', f'{MARK}"b"\na\nb\n'),
    (["--column", "1"], "", ""),
    (["--header", "--column", "1"], "b", "b\n"),
    (["--numeric", "--column", "1"], "10\n9\n", "9\n10\n"),
    (["--column", "1"], ",1\na,2\n\"\",3\n", ",1\n\"\",3\na,2\n"),
    (["--column", "1"], "á\nb\na\n", "a\ná\nb\n"),
    (["--header", "--column", "n:n"], "n,t\n10,a\n9,b\n", "n,t\n9,b\n10,a\n"),
    (["--header", "--column", "n:nr"], "n,t\n10,a\n9,b\n11,c\n", "n,t\n11,c\n10,a\n9,b\n"),
    (["--header", "-r", "--column", "n:nr"], "n,t\n10,a\n9,b\n11,c\n", "n,t\n11,c\n10,a\n9,b\n"),
    (["--header", "-r", "--column", "n:n"], "n,t\n10,a\n9,b\n11,c\n", "n,t\n9,b\n10,a\n11,c\n"),
    (["--header", "--column", "a:n"], "a:n,t\nb,a\na,b\n", "a:n,t\na,b\nb,a\n"),
    (["--column", "1:nr", "--column", "2:r"], "1,a\n2,b\n2,c\n", "2,c\n2,b\n1,a\n"),
    (["--column", "1:rn"], "-1,a\n2,b\nx,c\n", "2,b\nx,c\n-1,a\n"),
    (["-u", "--column", "1:n"], "1,a\n01,b\n2,c\n", "1,a\n2,c\n"),
    # -n is said of columns without letters.
    (["-n", "--column", "1"], "10,a\n9,b\n", "9,b\n10,a\n"),
    (["-n", "--column", "1:r", "--column", "2"], "a,10\nb,1\na,9\n", "b,1\na,9\na,10\n"),
]
# Words that are wrong, and what is named.
WRONG_WORDS = [
    (["--column", "1"], "--csv"),
    (["--delimiter", ";"], "--csv"),
    (["--csv"], "--column"),
    (["--csv", "--column", "x"], "'x'"),
    (["--csv", "--column", "0"], "'0'"),
    (["--csv", "--column", "1:x"], "'1:x'"),
    (["--csv", "--column", "0:n"], "'0:n'"),
    (["--csv", "--column", "1:"], "'1:'"),
    (["--csv", "--column", "1", "--delimiter", ""], "''"),
    (["--csv", "--column", "1", "--delimiter", '"'], "'\"'"),
    (["--csv", "--column", "1", "--delimiter", "ab"], "'ab'"),
    (["--csv", "--column", "1", "-k1"], "--key"),
    (["--csv", "--column", "1", "-z"], "--zero-terminated"),
    (["--csv", "--column", "1", "-b"], "-b"),
    (["--csv", "--column", "1", "x", "y"], "one file"),
]
# Further words, an input that is refused, and what is said.
REFUSED = [
    (["--header", "--column", "c"], "a,b\n", "line 1: no column 'c'; the columns are: a, b"),
    (["--header", "--column", "c:n"], "a,b\n", "line 1: no column 'c:n'; the columns are: a, b"),
    (["--header", "--column", "a:r"], "a,b,a\n", "line 1: several columns are 'a:r': name one by its number"),
    (["--header", "--column", "0"], "a,b\n", "line 1: no column '0'; the columns are: a, b"),
    (["--header", "--column", "c"], "", "line 1: no column 'c'; the columns are: "),
    (["--header", "--column", "c"], '"\x1b\n",b\n', "line 1: no column 'c'; the columns are: \\u{1b}\\n, b"),
    (["--header", "--column", "b", "--column", "a"], "a,b,a\n", "line 1: several columns are 'a': name one by its number"),
    (["--column", "2"], 'a,b\n\n"c\nd",e\nf\n', "line 5: no column 2"),
    (["--header", "--column", "3"], "a,b\n1,2\n", "line 2: no column 3"),
    (["--column", "1"], 'a\n"b\n', "line 2: a quote isn't closed"),
]
# Further words, the input, and the record that isn't in order.
CHECKED = [
    (["--column", "1"], "a\nb\n", None),
    (["--column", "1"], "b\na\n", "2 is out of order: a"),
    (["--header", "--column", "x"], "x\nb\na\n", "3 is out of order: a"),
    (["--header", "--column", "x"], 'x\n"b\nb"\na\n', "4 is out of order: a"),
    (["--column", "2"], "2,a\n1,a\n", None),
    (["-u", "--column", "2"], "2,a\n1,a\n", "2 is out of order: 1,a"),
    (["-r", "--column", "1"], "b\na\n", None),
    (["--column", "1:n"], "10\n9\n", "2 is out of order: 9"),
    (["--column", "1:nr"], "10\n9\n", None),
    (["--column", "1"], "", None),
]


def over(letters, command, strength, *words):
    return [command, "--root", letters, "--strength", strength, *words]


def wrong_sorts(program, letters):
    found = []
    for words, given, printed in SORTED:
        ran = run(program, over(letters, "sort", "3", "--csv", *words), given.encode())
        if ran.came_to() != (0, printed.encode(), b""):
            found.append(f"sort --csv {words} of {given!r}: {ran}; wanted: {printed!r}")
    damaged = run(program, over(letters, "sort", "3", "--csv", "--column", "1"), b"b\xff\na\xff\n")
    if damaged.came_to() != (0, b"a\xff\nb\xff\n", b""):
        found.append(f"sort --csv of damaged UTF-8: {damaged}")
    for words, named in WRONG_WORDS:
        ran = run(program, over(letters, "sort", "3", *words), b"a\n")
        if ran.status != 2 or ran.output or named.encode() not in ran.faults:
            found.append(f"sort {words}: {ran}; wanted: status 2, and {named} named")
    return found


def wrong_refusals(program, letters, room):
    found = []
    for words, given, said in REFUSED:
        ran = run(program, over(letters, "sort", "3", "--csv", *words), given.encode())
        if ran.came_to() != (3, b"", f"collate-cldr: standard input: {said}\n".encode()):
            found.append(f"sort --csv {words} of {given!r}: {ran}; wanted: {said}")
    path = os.path.join(room, "book.csv")
    with open(path, "w", encoding="utf-8") as it:
        it.write("a,b\n1\n")
    ran = run(program, over(letters, "sort", "3", "--csv", "--header", "--column", "b", "-o", path, path))
    if ran.came_to() != (3, b"", f"collate-cldr: {path}: line 2: no column 2\n".encode()) or open(path, encoding="utf-8").read() != "a,b\n1\n":
        found.append(f"sort --csv of a file: {ran}")
    with open(path, "w", encoding="utf-8") as it:
        it.write("a,b\n1,b\n2,a\n")
    ran = run(program, over(letters, "sort", "3", "--csv", "--header", "--column", "b", "-o", path, path))
    if ran.came_to() != (0, b"", b"") or open(path, encoding="utf-8").read() != "a,b\n2,a\n1,b\n":
        found.append(f"sort --csv -o: {ran}")
    return found


def wrong_checks(program, letters):
    found = []
    for words, given, said in CHECKED:
        wanted = (0, b"", b"") if said is None else (1, b"", f"collate-cldr: the record at line {said}\n".encode())
        for command in (["check"], ["sort", "-c"]):
            ran = run(program, [*command, *over(letters, "", "3", "--csv", *words)[1:]], given.encode())
            if ran.came_to() != wanted:
                found.append(f"{command} --csv {words} of {given!r}: {ran}; wanted: {said}")
        quiet = run(program, over(letters, "check", "3", "-q", "--csv", *words), given.encode())
        if quiet.came_to() != (wanted[0], b"", b""):
            found.append(f"check -q --csv {words} of {given!r}: {quiet}")
    return found


def random_field(chance, letters):
    text = "".join(chance.choice(letters) for _ in range(chance.randint(0, 5)))
    if chance.random() < 0.4 or any(it in text for it in '",\r\n'):
        return text, '"' + text.replace('"', '""') + '"'
    return text, text


def unlike_python(program, letters, times=100):
    """Sorts of random records that differ from stable ones by Python. The characters of the first two columns have primary weights in
    the order of their bytes; the third has quotes, commas and line feeds."""
    chance, found = random.Random(46), []
    for _ in range(times):
        records = []
        for _ in range(chance.randint(0, 30)):
            one, other, rest = random_field(chance, " --..0123789ab"), random_field(chance, "ab"), random_field(chance, 'a",\n\r')
            end = chance.choice(["\n", "\r\n"])
            records.append((one[0], other[0], f"{one[1]},{other[1]},{rest[1]}{end}"))
        words = [["--column", "1"], ["--column", "2", "--column", "1"]][chance.random() < 0.5] + ["-r"] * (chance.random() < 0.3)
        key = (lambda it: it[0]) if len(words) < 4 else (lambda it: (it[1], it[0]))
        given = "".join(it[2] for it in records)
        backward = "-r" in words
        # A stable sort in the other direction: the records turned before and behind.
        wanted = sorted(records, key=key) if not backward else sorted(records[::-1], key=key)[::-1]
        ran = run(program, over(letters, "sort", "1", "--csv", *words), given.encode())
        if ran.came_to() != (0, "".join(it[2] for it in wanted).encode(), b""):
            found.append(f"sort --csv {words} of {given!r}: {ran}")
        elif len(list(csv.reader(io.StringIO(given, newline="")))) != len(records):
            found.append(f"Python reads other records of {given!r}")
    return found


# ---- the run of all, and programs with a fault

FAULTY = [
    ("the header among the records", '"$COLLATE" "$@" | LC_ALL=C sort', lambda program, letters, room: wrong_sorts(program, letters)),
    ("quotes taken off", '"$COLLATE" "$@" | tr -d \'"\'', lambda program, letters, room: unlike_python(program, letters, 10)),
    ("status 0 where a column lacks", '"$COLLATE" "$@"; exit 0', wrong_refusals),
    ("a record that isn't seen", '"$COLLATE" "$@" 2>&1 | tail -n +2 >&2', lambda program, letters, room: wrong_checks(program, letters)),
]


def check_csv(report, room, program, letters):
    report.say("collate-cldr: sorts of records", wrong_sorts(program, letters), len(SORTED) + len(WRONG_WORDS) + 1)
    report.say("collate-cldr: records that are refused", wrong_refusals(program, letters, room), len(REFUSED) + 2)
    report.say("collate-cldr: records that are checked", wrong_checks(program, letters), 3 * len(CHECKED))
    report.say("collate-cldr: sorts of records as those of Python", unlike_python(program, letters), 100)
    report.say("collate-cldr: programs with a fault in records are found", faults_missed(room, "csv", program, letters, FAULTY), len(FAULTY))
