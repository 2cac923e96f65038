"""The option `-o` of the program `collate-cldr`: what becomes of the file that it names, whoever owns it, whatever it is, and where a
call to the system is refused."""
import concurrent.futures
import os
import stat
import subprocess
import threading

from sweeps import ENVIRONMENT, TOP, Refused, Run, ended, run

LETTERS = os.path.join(TOP, "crates", "collate_cldr", "data", "letters.txt")
GIVEN, SORTED, OLD = b"b\na\n", b"a\nb\n", b"old\n"
# A user who isn't root, for runs where root runs the tests.
NOBODY = 65534
RACERS, RACER_LINES = 8, 20_000


def sort_to(path, *words):
    return ["sort", "--root", LETTERS, *words, "-o", path]


def text_of(path):
    with open(path, "rb") as it:
        return it.read()


def write_old(path, mode=0o644):
    with open(path, "wb") as it:
        it.write(OLD)
    os.chmod(path, mode)
    return path


def facts(path):
    it = os.lstat(path)
    return it.st_uid, it.st_gid, stat.S_IMODE(it.st_mode)


def said(path, reason):
    return b"collate-cldr: " + os.fsencode(path) + b": " + reason + b"\n"


class Room:
    """A folder for the files of one case."""

    def __init__(self, room, name):
        self.folder = os.path.join(room, f"output-{name}")
        os.mkdir(self.folder)

    def path(self, name):
        return os.path.join(self.folder, name)

    def others(self, *names):
        """What is there beside these names."""
        return [f"left behind: {it}" for it in sorted(set(os.listdir(self.folder)) - set(names))]


def wrong_run(ran, *wanted):
    return [] if ran.came_to() == wanted else [f"{ran}; wanted: {Run(*wanted, None)}"]


def wrong_text(path, text=SORTED):
    return [] if text_of(path) == text else [f"{path} holds {text_of(path)[:80]!r}"]


def wrong_modes(program, room):
    """A file keeps its owner, group and mode; a new one has what the process's mask leaves."""
    found, it = [], Room(room, "modes")
    for mode in (0o600, 0o640, 0o666, 0o755, 0o400 if os.geteuid() == 0 else 0o200):
        path = write_old(it.path(f"{mode:o}"), mode)
        was = facts(path)
        found += wrong_run(run(program, sort_to(path), GIVEN), 0, b"", b"")
        os.chmod(path, mode | 0o400)
        found += wrong_text(path)
        os.chmod(path, mode)
        found += [f"{mode:o}: {was} became {facts(path)}"] * (facts(path) != was)
    for mask in (0o022, 0o077, 0o000):
        path = it.path(f"new{mask:o}")
        ran = ended([program, *sort_to(path)], GIVEN, env=ENVIRONMENT, umask=mask)
        found += wrong_run(Run(ran.returncode, ran.stdout, ran.stderr, None), 0, b"", b"") + wrong_text(path)
        found += [f"mask {mask:o}: {facts(path)}"] * (facts(path)[2] != 0o666 & ~mask)
    return found + [name for name in it.others() if "unfinished" in name]


def wrong_links(program, room):
    """What a link leads to is written, and the link stays; a file with several names stays one."""
    found, it = [], Room(room, "links")
    write_old(it.path("target"), 0o600)
    os.symlink("target", it.path("link"))
    found += wrong_run(run(program, sort_to(it.path("link")), GIVEN), 0, b"", b"") + wrong_text(it.path("target"))
    found += ["the link is none"] * (not os.path.islink(it.path("link")))
    found += [f"{facts(it.path('target'))}"] * (facts(it.path("target"))[2] != 0o600)
    write_old(it.path("one"))
    os.link(it.path("one"), it.path("two"))
    found += wrong_run(run(program, sort_to(it.path("one")), GIVEN), 0, b"", b"") + wrong_text(it.path("two"))
    found += ["two files of one"] * (os.stat(it.path("one")).st_ino != os.stat(it.path("two")).st_ino)
    os.symlink("nowhere", it.path("dangling"))
    ran = run(program, sort_to(it.path("dangling")), GIVEN)
    found += wrong_run(ran, 3, b"", said(it.path("dangling"), b"No such file or directory"))
    return found + it.others("target", "link", "one", "two", "dangling")


def through_fifo(program, path):
    """What a run wrote into a pipe, and what it came to."""
    read = []
    reader = threading.Thread(target=lambda: read.append(text_of(path)))
    reader.start()
    ran = run(program, sort_to(path), GIVEN)
    reader.join()
    return ran, read[0]


def wrong_devices(program, room):
    """A pipe and a device are written through, and stay."""
    found, it = [], Room(room, "devices")
    os.mkfifo(it.path("fifo"))
    ran, read = through_fifo(program, it.path("fifo"))
    found += wrong_run(ran, 0, b"", b"") + [f"read: {read}"] * (read != SORTED)
    found += ["the pipe is none"] * (not stat.S_ISFIFO(os.stat(it.path("fifo")).st_mode))
    found += wrong_run(run(program, sort_to("/dev/full"), GIVEN), 3, b"", said("/dev/full", b"No space left on device"))
    try:
        os.mknod(it.path("null"), stat.S_IFCHR | 0o666, os.makedev(1, 3))
        os.close(os.open(it.path("null"), os.O_WRONLY))
    except OSError:
        return found
    found += wrong_run(run(program, sort_to(it.path("null")), GIVEN), 0, b"", b"")
    found += ["the device is none"] * (not stat.S_ISCHR(os.stat(it.path("null")).st_mode))
    return found + it.others("fifo", "null")


def wrong_streams(program, room):
    """The file of standard output or standard error is written through that stream."""
    found, it = [], Room(room, "streams")
    for redirections in (">out -o out", ">>out -o out", ">out -o /dev/stdout", "2>out -o out", "2>out -o /dev/stderr"):
        streams, name = redirections.rsplit(" -o ")
        command = f'cd "{it.folder}"; rm -f out; exec "$0" sort --root "{LETTERS}" -o {name} {streams}'
        ran = ended(["sh", "-c", command, program], GIVEN, env=ENVIRONMENT)
        found += [f"{redirections}: {ran}"] * (ran.returncode != 0) + wrong_text(it.path("out"))
    command = f'cd "{it.folder}"; exec "$0" sort --root "{LETTERS}" -o out >&-'
    ran = ended(["sh", "-c", command, program], GIVEN, env=ENVIRONMENT)
    found += [f"closed: {ran}"] * (ran.returncode != 0) + wrong_text(it.path("out"))
    ran = ended(["sh", "-c", f'cd "{it.folder}"; exec "$0" sort --root "{LETTERS}" out >&-', program], GIVEN, env=ENVIRONMENT)
    found += [f"printed into a file: {ran}"] * (ran.returncode != 3) + wrong_text(it.path("out"))
    return found + it.others("out")


def wrong_names(program, room):
    """Names that are refused, with the system's reason and before anything is read, and odd ones that work."""
    found, it = [], Room(room, "names")
    folder = it.folder
    for path, reason in [
        (folder, b"Is a directory"),
        (it.path("none/out"), b"No such file or directory"),
        (it.path("none/"), b"No such file or directory"),
        ("", b"No such file or directory"),
        (LETTERS + "/out", b"Not a directory"),
    ]:
        found += wrong_run(run(program, [*sort_to(path), "absent"], GIVEN), 3, b"", said(path, reason))
    long = "x" * 256
    ran = run(program, sort_to(long), GIVEN)
    found += wrong_run(ran, 3, b"", said("x" * 201 + "...", b"File name too long"))
    for name in (b"y" * 255, "\U0010ffff".encode(), b"a\nb"):
        path = os.path.join(os.fsencode(folder), name)
        found += wrong_run(run(program, sort_to(path), GIVEN), 0, b"", b"") + wrong_text(path)
        found += wrong_run(run(program, ["sort", "--root", LETTERS, path]), 0, SORTED, b"")
    path = write_old(it.path("both"))
    found += wrong_run(run(program, [*sort_to(path), path, "-"], GIVEN), 0, b"", b"") + wrong_text(path, b"a\nb\nold\n")
    return found


def wrong_races(program, room):
    """Of several runs to one file one is there as a whole."""
    found, it = [], Room(room, "races")
    texts = [b"".join(b"%c%d\n" % (97 + racer, line) for line in range(RACER_LINES)) for racer in range(RACERS)]
    wanted = {b"".join(sorted(text.splitlines(keepends=True), key=lambda line: (len(line), line))) for text in texts}
    write_old(it.path("one"))
    os.link(it.path("one"), it.path("two"))
    for name in ("new", "one"):
        with concurrent.futures.ThreadPoolExecutor(RACERS) as pool:
            runs = list(pool.map(lambda text: run(program, [*sort_to(it.path(name)), "--numeric"], text), texts))
        found += [it for ran in runs for it in wrong_run(ran, 0, b"", b"")]
        found += [f"{name}: a mixture of {len(text_of(it.path(name)))} bytes"] * (text_of(it.path(name)) not in wanted)
    return found + it.others("new", "one", "two")


def as_nobody(program, words, given=GIVEN):
    ran = ended([program, *words], given, env=ENVIRONMENT, user=NOBODY, group=NOBODY, extra_groups=[])
    return Run(ran.returncode, ran.stdout, ran.stderr, None)


def protects_links():
    try:
        return text_of("/proc/sys/fs/protected_symlinks").strip() == b"1"
    except OSError:
        return False


def wrong_users(program, room):
    """Files of others, and folders of others, where root runs the tests and the program may be run by others."""
    if os.geteuid() != 0 or as_nobody("/bin/sh", ["-c", 'test -x "$0" -a -r "$1"', program, LETTERS]).status:
        return []
    found, it = [], Room(room, "users")
    for folder in (os.path.dirname(room), room, it.folder):
        os.chmod(folder, os.stat(folder).st_mode | 0o055)
    write_old(it.path("mine"), 0o666)
    os.chown(it.path("mine"), NOBODY, NOBODY)
    was, number = facts(it.path("mine")), os.stat(it.path("mine")).st_ino
    found += wrong_run(as_nobody(program, sort_to(it.path("mine"))), 0, b"", b"") + wrong_text(it.path("mine"))
    found += ["another file in a folder of another"] * (os.stat(it.path("mine")).st_ino != number)
    found += wrong_run(run(program, sort_to(it.path("mine")), GIVEN), 0, b"", b"") + [f"{was}: {facts(it.path('mine'))}"] * (facts(it.path("mine")) != was)
    write_old(it.path("closed"), 0o644)
    ran = as_nobody(program, [*sort_to(it.path("closed")), "absent"])
    found += wrong_run(ran, 3, b"", said(it.path("closed"), b"Permission denied")) + wrong_text(it.path("closed"), OLD)
    ran = as_nobody(program, sort_to(it.path("new")))
    found += wrong_run(ran, 3, b"", said(it.path("new"), b"Permission denied"))
    found += it.others("mine", "closed")
    os.chmod(it.folder, 0o1777)
    write_old(it.path("open"), 0o666)
    was, number = facts(it.path("open")), os.stat(it.path("open")).st_ino
    # A file of another in a sticky folder that anyone writes in may be guarded by the system itself (fs.protected_regular).
    ran = as_nobody(program, sort_to(it.path("open")))
    found += wrong_run(ran, 0, b"", b"") + wrong_text(it.path("open"))
    found += [f"{was}: {facts(it.path('open'))}"] * ((facts(it.path("open")), os.stat(it.path("open")).st_ino) != (was, number))
    if protects_links():
        write_old(it.path("victim"), 0o600)
        os.symlink("victim", it.path("planted"))
        os.lchown(it.path("planted"), NOBODY, NOBODY)
        ran = run(program, [*sort_to(it.path("planted")), "absent"], GIVEN)
        found += wrong_run(ran, 3, b"", said(it.path("planted"), b"Permission denied")) + wrong_text(it.path("victim"), OLD)
    return found + [name for name in it.others() if "unfinished" in name]


def wrong_refusal(program, shim, place, paths, refused):
    """What is wrong where one call to the system is refused: the file has the text and the status is 0, or what it had and 3, but where
    it is written into."""
    for path in paths:
        if os.path.exists(path):
            os.unlink(path)
    if len(paths) > 1:
        write_old(paths[0], 0o640)
        if len(paths) > 2:
            os.link(paths[0], paths[1])
    ran = run(program, sort_to(paths[0]), GIVEN, refused, shim)
    text = text_of(paths[0]) if os.path.exists(paths[0]) else None
    old = OLD if len(paths) > 1 else None
    rest = place.others(*map(os.path.basename, paths))
    is_in_place = len(paths) > 2
    is_done = ran.status == 0 and text == SORTED
    is_refused = ran.status == 3 and ran.faults.startswith(b"collate-cldr: ") and (text == old or is_in_place)
    if rest or ran.output or not (is_done or is_refused):
        return [f"{refused}, {len(paths)}: {ran}; {text!r} {rest}"]
    if old and facts(paths[0])[2] != 0o640:
        return [f"{refused}: {facts(paths[0])}"]
    return []


def wrong_refusals(program, room, shim):
    """Each call by which files are opened and changed refused, and each write, where a file is new, replaced, or written in place."""
    found, tries = [], 0
    # A file that there is none of; one that has a name; and one that has another name as well.
    for names in (["new"], ["old", "none"], ["old", "other", "none"]):
        it = Room(room, f"refusals-{len(names)}")
        paths = [it.path(name) for name in names]
        for request in ("file", "write"):
            wrong_refusal(program, shim, it, paths, None)
            for path in paths:
                if os.path.exists(path):
                    os.unlink(path)
            plain = run(program, sort_to(paths[0]), GIVEN, None, shim)
            # Beside an old file there are a few calls more.
            for at in range(1, plain.counts[request] + 6):
                for how in ("fail", "full"):
                    found += wrong_refusal(program, shim, it, paths, Refused(request, at, how))
                    tries += 1
    return found, tries


def check_output_files(report, room, program, shim):
    for what, wrong in [
        ("modes", wrong_modes),
        ("links", wrong_links),
        ("pipes and devices", wrong_devices),
        ("the standard streams", wrong_streams),
        ("names", wrong_names),
        ("races", wrong_races),
        ("users", wrong_users),
    ]:
        report.say(f"collate-cldr -o: {what}", wrong(program, room), 1)
    found, tries = wrong_refusals(program, room, shim)
    report.say("collate-cldr -o: calls to the system that are refused", found, tries)
