"""Servers of PostgreSQL of one's own, in a folder of one's own, on the loopback: for postgresql.py.

The server's programs are copied and its other files linked into a tree of their own, which they find by where they stand. So the
extension is installed there, and nothing of the system is changed. A server doesn't run as root: root runs all of it as the user
`postgres`."""
import os
import shutil
import socket
import subprocess
import time

TOP = os.path.dirname(os.path.dirname(os.path.dirname(os.path.realpath(__file__))))
USER = "postgres"
NEEDS = ["postgresql", "postgresql-contrib", "postgresql-server-dev-15", "gcc", "make"]
SETTINGS = {"listen_addresses": "'127.0.0.1'", "fsync": "off", "max_wal_size": "4GB", "autovacuum": "off", "jit": "off", "shared_buffers": "'256MB'",
            "deadlock_timeout": "'200ms'", "max_standby_streaming_delay": "'2s'", "lc_messages": "'C'", "log_min_messages": "error"}


class Failed(Exception):
    """A command that has to end well didn't."""


def as_user(words):
    """A command of the server's user."""
    return ["runuser", "-u", USER, "--", *words] if os.geteuid() == 0 else words


def run(words, given="", **env):
    """The status of a command, and what it printed on both streams."""
    ran = subprocess.run(words, input=given, capture_output=True, text=True, env={**os.environ, **env}, check=False)
    return ran.returncode, ran.stdout, ran.stderr


def done(words, given="", **env):
    """What a command printed that ended well."""
    status, printed, error = run(words, given, **env)
    if status:
        raise Failed(f"{' '.join(words)}: status {status}\n{printed}{error}")
    return printed


def pg_config(asked):
    return done(["pg_config", asked]).strip()


def own_folder(path):
    """A new folder of the server's user."""
    os.makedirs(path)
    if os.geteuid() == 0:
        shutil.chown(path, USER)


def link_missing(source, target):
    """Links to what a folder has, and another one doesn't have yet."""
    os.makedirs(target, exist_ok=True)
    for it in os.scandir(source):
        place = os.path.join(target, it.name)
        if os.path.isdir(place) and not os.path.islink(place):
            link_missing(it.path, place)
        elif not os.path.lexists(place):
            os.symlink(it.path, place)


def build_tree(room, library):
    """Builds the extension over libcollate.a of a folder, and returns the programs of a tree that has it."""
    tree, sources = os.path.join(room, "tree"), os.path.join(room, "bindings")
    for it in ("c", "postgresql"):
        shutil.copytree(os.path.join(TOP, "bindings", it), os.path.join(sources, it))
    done(["make", "-C", os.path.join(sources, "postgresql"), f"COLLATE={library}", "TABLES=/usr/share/collate", f"DESTDIR={tree}", "install"])
    programs = tree + pg_config("--bindir")
    shutil.copytree(pg_config("--bindir"), programs)
    for it in ("--sharedir", "--pkglibdir"):
        link_missing(pg_config(it), tree + pg_config(it))
    return programs


def free_port():
    with socket.socket() as it:
        it.bind(("127.0.0.1", 0))
        return it.getsockname()[1]


class Server:
    """A server over a folder of table files."""

    def __init__(self, programs, folder, tables):
        self.programs, self.folder, self.tables, self.port = programs, folder, tables, free_port()

    def program(self, name):
        return os.path.join(self.programs, name)

    def make(self):
        done(as_user([self.program("initdb"), "-D", self.folder, "-E", "UTF8", "--locale=C.UTF-8", "-A", "trust", "-U", USER, "--no-sync"]))
        return self

    def copy_of(self, primary):
        """Makes this server a replica."""
        done(as_user([self.program("pg_basebackup"), "-D", self.folder, "-R", "-X", "stream", "-c", "fast", *primary.at()]))
        return self

    def start(self):
        settings = {**SETTINGS, "port": self.port, "unix_socket_directories": f"'{self.folder}'"}
        said = " ".join(f"-c {key}={value}" for key, value in settings.items())
        words = as_user(["env", f"COLLATE_TABLES={self.tables}", self.program("pg_ctl"), "-D", self.folder, "-w", "-l", f"{self.folder}.log", "-o", said, "start"])
        # What it starts keeps the streams of who starts it.
        if subprocess.run(words, stdin=subprocess.DEVNULL, stdout=subprocess.DEVNULL, stderr=subprocess.DEVNULL, check=False).returncode:
            with open(f"{self.folder}.log", encoding="utf-8") as it:
                raise Failed(it.read())
        return self

    def stop(self):
        if os.path.exists(os.path.join(self.folder, "postmaster.pid")):
            run(as_user([self.program("pg_ctl"), "-D", self.folder, "-w", "-m", "immediate", "stop"]))

    def at(self):
        return ["-h", "127.0.0.1", "-p", str(self.port), "-U", USER]

    def program_done(self, name, *words):
        return done(as_user([self.program(name), *self.at(), *words]))

    def program_refused(self, name, *words):
        """What a program says that fails."""
        status, printed, error = run(as_user([self.program(name), *self.at(), *words]))
        if not status:
            raise Failed(f"{name}: not refused")
        return (printed + error).rstrip("\n")

    def words(self, database, *more):
        return [self.program("psql"), "-X", "-q", "-v", "ON_ERROR_STOP=1", *more, *self.at(), database]

    def sql(self, database, text):
        """What commands print that end well: values alone."""
        return done(self.words(database, "-A", "-t"), text).rstrip("\n")

    def shown(self, database, text):
        """The same as tables, and the notices."""
        status, printed, error = run(self.words(database), text)
        if status:
            raise Failed(f"{text}\n{printed}{error}")
        return (error + printed).rstrip("\n")

    def refused(self, database, text):
        """What is said of commands of which one is refused."""
        status, printed, error = run(self.words(database), text)
        if not status:
            raise Failed(f"{text}: not refused, it printed\n{printed}")
        return error.rstrip("\n")

    def wait_for(self, primary):
        """Waits until this replica has what the primary has."""
        wanted = primary.sql("postgres", "SELECT pg_current_wal_lsn();")
        while self.sql("postgres", f"SELECT pg_last_wal_replay_lsn() >= '{wanted}';") != "t":
            time.sleep(0.1)

    def session(self, database):
        return Session(self, database)


class Session:
    """One connection, which is asked again and again."""

    def __init__(self, server, database):
        words = [server.program("psql"), "-X", "-q", "-A", "-t", *server.at(), database]
        self.process = subprocess.Popen(words, stdin=subprocess.PIPE, stdout=subprocess.PIPE, stderr=subprocess.STDOUT, text=True)
        self.backend = int(self.ask("SELECT pg_backend_pid();"))

    def ask(self, text):
        """What is printed, errors too."""
        self.process.stdin.write(f"{text}\n\\echo END\n")
        self.process.stdin.flush()
        lines = iter(self.process.stdout.readline, "END\n")
        return "".join(lines).rstrip("\n")

    def seconds(self, text):
        """The processor time that the backend takes for it, in seconds, and the time that passes."""
        before, start = self.used(), time.monotonic()
        said = self.ask(text)
        if "ERROR" in said:
            raise Failed(said)
        return self.used() - before, time.monotonic() - start

    def used(self):
        with open(f"/proc/{self.backend}/stat", encoding="utf-8") as it:
            fields = it.read().rpartition(")")[2].split()
        return (int(fields[11]) + int(fields[12])) / os.sysconf("SC_CLK_TCK")

    def close(self):
        self.process.stdin.close()
        self.process.wait()
