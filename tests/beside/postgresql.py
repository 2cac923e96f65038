#!/usr/bin/env python3
"""Tries the extension of PostgreSQL over servers of its own on the loopback, and prints what its page quotes.

  tests/beside/postgresql.py --library FOLDER --tables FOLDER [--names COUNT] [--install]

--library has libcollate.a, as bin/c-library leaves it in out/c-library. --tables has sv.table, and da.table, which under the name of
the first stands for a new release. --names is how many names are sorted for time, 1,000,000 if it isn't said. --install installs
what this needs by apt-get. The status is 0 if all is as it should be."""
import argparse
import os
import shutil
import subprocess
import sys
import tempfile

sys.path[:0] = [os.path.dirname(os.path.realpath(__file__))]
from index_times import names as made_names  # noqa: E402
from postgresql_servers import NEEDS, Failed, Server, build_tree, own_folder  # noqa: E402

NAMES = ["zebra", "ångström", "Ärla", "öl", "apa", "Apa", "Müller", "muller", "MÜLLERIN", "mus", "Aa", "åa", "øl", "ö"]
PEOPLE = "CREATE TABLE people (id int, name text);"
ORDERED = "SELECT string_agg(name, ' ' ORDER BY collate_key(name, 'sv'), name COLLATE \"C\") FROM people;"
BETWEEN = "collate_key(name, 'sv') >= collate_low('{0}', 'sv') AND collate_key(name, 'sv') < collate_high('{0}', 'sv')"
BEGIN_SO = f"SELECT name FROM people\n  WHERE {BETWEEN.format('mü')}\n    AND name LIKE 'mü%'"
# The names that begin so whatever their accents and case, in the order of their numbers.
FOUND = f"SELECT string_agg(name, ' ' ORDER BY id) FROM people WHERE {BETWEEN.format('a')};"
BY_SCAN, BY_INDEX = "SET enable_indexscan = off; SET enable_bitmapscan = off;", "SET enable_seqscan = off; SET enable_bitmapscan = off;"
ROUNDS = 3


class Report:
    """What was tried, and what of it isn't as it should be."""

    def __init__(self):
        self.tried, self.wrong = 0, 0

    def head(self, text):
        print(f"\n== {text}\n", flush=True)

    def show(self, asked, said):
        print(f"{asked.strip()}\n{said}\n", flush=True)

    def want(self, what, is_so, seen=""):
        self.tried += 1
        if not is_so:
            self.wrong += 1
        print(f"{'ok' if is_so else 'WRONG'}: {what}{'' if is_so else f': {seen}'}", flush=True)

    def refused(self, server, database, text, *words):
        """A command that has to be refused with these words."""
        said = server.refused(database, text)
        self.show(text, said)
        self.want(f"refused by {words[0]!r}", all(it in said for it in words), said)


def filled(server, database, count=0):
    """A database with the extension and names."""
    server.sql("postgres", f"CREATE DATABASE {database};")
    rows = ", ".join(f"({at}, '{name}')" for at, name in enumerate(NAMES))
    server.sql(database, f"CREATE EXTENSION collate_tables; SELECT collate_use('sv'); {PEOPLE} INSERT INTO people VALUES {rows};")
    if count:
        server.sql(database, f"INSERT INTO people SELECT at, 'Namn ' || md5(at::text) FROM generate_series(1, {count}) at;")


def try_first_steps(report, one):
    report.head("First steps")
    one.sql("postgres", "CREATE DATABASE first;")
    one.sql("first", "CREATE EXTENSION collate_tables;")
    report.refused(one, "first", "SELECT collate_key('a', 'sv');", "isn't registered", "HINT:  Run SELECT collate_use('sv')")
    for text in ("SELECT collate_use('sv');", "SELECT collate_key('Ärla', 'sv'), collate_compare('a', 'B', 'sv');", "SELECT * FROM collate_names;"):
        report.show(text, one.shown("first", text))
    for text, words in (("SELECT collate_use('../sv');", "no name of a collation"), ("SELECT collate_use('absent');", "absent.table"),
                        ("SELECT collate_use('damaged');", "damaged.table"), ("SELECT collate_use('folder');", "is no file")):
        report.refused(one, "first", text, words)
    one.sql("postgres", "CREATE DATABASE latin ENCODING 'LATIN1' TEMPLATE template0 LOCALE 'C';")
    one.sql("latin", "CREATE EXTENSION collate_tables;")
    report.refused(one, "latin", "SELECT collate_use('sv');", "needs a database in UTF8, and this one is in LATIN1")
    one.sql("first", "CREATE ROLE plain LOGIN;")
    report.refused(one, "first", "SET ROLE plain; SELECT collate_accept('sv'), collate_use('da');", "permission denied")
    said = one.sql("first", "SET ROLE plain; SELECT collate_key('', 'sv') IS NOT NULL, collate_key(NULL, 'sv') IS NULL, collate_high('', 'sv') IS NULL;")
    report.want("a role without rights makes keys; NULL, and no bound", said == "t|t|t", said)
    said = one.sql("first", "SELECT length(collate_key(repeat('ab', 1000000), 'sv')) > 2000000;")
    report.want("the key of a long text", said == "t", said)


def try_index(report, one):
    report.head("An index by keys")
    filled(one, "names", 20000)
    one.sql("names", "CREATE INDEX by_key ON people (collate_key(name, 'sv')); ANALYZE people;")
    text = "EXPLAIN (COSTS OFF) SELECT name FROM people ORDER BY collate_key(name, 'sv') LIMIT 20;"
    said = one.shown("names", text)
    report.show(text, said)
    report.want("the index orders", "Index Scan using by_key" in said and "Sort" not in said, said)
    said = one.shown("names", f"EXPLAIN (COSTS OFF) {BEGIN_SO};")
    report.show(f"EXPLAIN (COSTS OFF) {BEGIN_SO};", said)
    report.want("LIKE by bounds uses the index", "by_key" in said and "Index Cond" in said, said)
    found = one.sql("names", BY_INDEX + FOUND)
    report.want("an index finds what a scan of the whole finds", found and found == one.sql("names", BY_SCAN + FOUND), found)


def try_workers(report, one):
    report.head("Parallel workers")
    forced = "SET parallel_setup_cost = 0; SET parallel_tuple_cost = 0; SET min_parallel_table_scan_size = 0; SET enable_indexscan = off; "
    text = "SELECT id FROM people ORDER BY collate_key(name, 'sv'), id"
    said = one.shown("names", f"{forced} EXPLAIN (ANALYZE, COSTS OFF, TIMING OFF, SUMMARY OFF) {text};")
    report.show(text, said)
    report.want("workers make keys", "Gather Merge" in said and "Workers Launched: 2" in said, said)
    report.want("the same order", one.sql("names", f"{forced} {text};") == one.sql("names", f"SET max_parallel_workers_per_gather = 0; {text};"))
    forced += "SET min_parallel_index_scan_size = 0; SET max_parallel_maintenance_workers = 2; ALTER TABLE people SET (parallel_workers = 2); "
    one.sql("names", f"{forced} CREATE INDEX by_workers ON people (collate_key(name, 'sv'));")
    same = "SELECT string_agg(id::text, ' ') FROM (SELECT id FROM people ORDER BY collate_key(name, 'sv') OFFSET 0) x;"
    first = one.sql("names", f"SET enable_sort = off; {same}")
    one.sql("names", "DROP INDEX by_key; ALTER INDEX by_workers RENAME TO by_key;")
    report.want("an index that workers built", one.sql("names", f"SET enable_sort = off; {same}").count(" ") == first.count(" "))


def put_release(tables, which):
    """Puts another table file under the name sv."""
    made = os.path.join(tables, "new")
    shutil.copy(os.path.join(tables, f"{which}.release"), made)
    os.replace(made, os.path.join(tables, "sv.table"))


def tables_folder(room, name, given):
    folder = os.path.join(room, name)
    os.makedirs(os.path.join(folder, "folder.table"))
    for release, file in (("old", "sv"), ("new", "da")):
        shutil.copy(os.path.join(given, f"{file}.table"), os.path.join(folder, f"{release}.release"))
    shutil.copy(os.path.join(given, "da.table"), folder)
    with open(os.path.join(folder, "damaged.table"), "wb") as it:
        it.write(b"a\n")
    put_release(folder, "old")
    return folder


def try_dump(report, one, other, room):
    report.head("Dump and restore")
    file = os.path.join(room, "servers", "names.dump")
    one.sql("names", "CREATE TABLE a_column (name text, key bytea GENERATED ALWAYS AS (collate_key(name, 'sv')) STORED); INSERT INTO a_column VALUES ('ö');")
    one.program_done("pg_dump", "-Fc", "-f", file, "names")
    for server in (one, other):
        server.sql("postgres", "CREATE DATABASE again;")
    one.sql("again", "CREATE EXTENSION collate_tables; SELECT collate_use('sv');")
    one.program_done("pg_restore", "-d", "again", file)
    report.want("the registered names are restored", one.sql("again", "TABLE collate_names;") == one.sql("names", "TABLE collate_names;"))
    report.want("the order too", one.sql("again", ORDERED) == one.sql("names", ORDERED))
    said = other.program_refused("pg_restore", "-d", "again", file)
    report.show("$ pg_restore -d again names.dump           # on a server with other tables", said)
    report.want("refused by name", 'collation "sv" has other tables here' in said and "CREATE INDEX by_key" in said, said)
    other.sql("postgres", "DROP DATABASE again; CREATE DATABASE again;")
    other.sql("again", "CREATE EXTENSION collate_tables; SELECT collate_use('sv');")
    other.program_done("pg_restore", "-d", "again", file)
    said = other.sql("again", BY_INDEX + FOUND)
    report.want("if the name is registered there before, keys are made by that server's tables", said == other.sql("again", BY_SCAN + FOUND), said)
    one.sql("names", "DROP TABLE a_column;")


FIRST_THREE = "SELECT name FROM people ORDER BY collate_key(name, 'sv') LIMIT 3;"
REFUSED = 'collation "sv" has other tables here than those that its indexes were made by'


def try_replica(report, one, replica, tables):
    report.head("A replica with other tables")
    put_release(tables, "new")
    replica.copy_of(one).start()
    report.refused(replica, "names", FIRST_THREE, REFUSED, "This server is a replica")
    put_release(tables, "old")
    report.want("with the same tables it answers", replica.sql("names", FIRST_THREE) == one.sql("names", FIRST_THREE))


def try_refusals(report, one):
    report.refused(one, "names", FIRST_THREE, REFUSED, "Registered in collate_names is", "collate_accept('sv')")
    for text in ("INSERT INTO people VALUES (0, 'ny');", "REINDEX INDEX by_key;", "CREATE INDEX other ON people (collate_key(name, 'sv'));"):
        said = one.refused("names", text)
        report.want(f"refused: {text}", REFUSED in said, said)
    text = "SELECT name FROM collate_names WHERE fingerprint <> collate_fingerprint(name);"
    report.show(text, one.shown("names", text))


def try_upgrade(report, one, replica, tables):
    report.head("An upgrade of the tables under a live index")
    session = one.session("names")
    session.ask(f"SET plan_cache_mode = force_generic_plan; {BY_INDEX} PREPARE found AS {FOUND}")
    before, order = session.ask("EXECUTE found;"), one.sql("names", ORDERED)
    put_release(tables["one"], "new")
    try_refusals(report, one)
    report.want("an open session goes on by the old tables", session.ask("EXECUTE found;") == before)
    session.ask("BEGIN; SELECT collate_key('a', 'sv');")
    said = one.refused("names", "SET lock_timeout = '300ms'; SELECT collate_accept('sv');")
    report.want("accepting waits for transactions that made keys", "lock timeout" in said, said)
    session.ask("COMMIT;")
    text = "SELECT collate_accept('sv');"
    report.show(text, one.shown("names", text))
    report.want("a fresh session has another order", one.sql("names", ORDERED) != order)
    said, wanted = session.ask("EXECUTE found;"), one.sql("names", BY_SCAN + FOUND)
    report.want("the open session's prepared statement follows", said == wanted != before, f"{said}; wanted {wanted}; before {before}")
    session.close()
    replica.wait_for(one)
    said = replica.refused("names", FIRST_THREE)
    report.want("its replica refuses", REFUSED in said, said)
    put_release(tables["replica"], "new")
    report.want("until it is given the file", replica.sql("names", BY_INDEX + FOUND) == wanted)


def try_transactions(report, one, tables):
    report.head("Transactions")
    put_release(tables, "old")
    session = one.session("names")
    said = session.ask("BEGIN; SAVEPOINT a; SELECT collate_accept('sv') IS NOT NULL; SELECT collate_key('å', 'sv') IS NOT NULL; ROLLBACK TO a; SELECT collate_key('å', 'sv');")
    report.want("after ROLLBACK TO the old registration counts", said.count("\nt") == 2 and REFUSED in said, said)
    put_release(tables, "new")
    said = session.ask("ROLLBACK; SELECT collate_key('å', 'sv') IS NOT NULL;")
    report.want("the tables that are registered work again", said == "t", said)
    session.ask("BEGIN ISOLATION LEVEL REPEATABLE READ; SELECT 1;")
    put_release(tables, "old")
    one.sql("names", "SELECT collate_accept('sv');")
    said, wanted = session.ask(BY_INDEX + FOUND), one.sql("names", BY_SCAN + FOUND)
    report.want("a snapshot from before reads the index by the tables that it has now", said == wanted, said)
    session.close()


def try_uses(report, one, tables):
    report.head("What is stored by a name")
    one.sql("names", "SELECT collate_use('da'); CREATE INDEX danish ON people (collate_key(name, 'da'));"
            "CREATE TABLE stored (name text, key bytea GENERATED ALWAYS AS (collate_key(name, 'sv')) STORED, CHECK (collate_key(name, 'sv') < '\\xff'));"
            "CREATE TABLE parted (name text) PARTITION BY RANGE (collate_key(name, 'sv'));"
            "CREATE MATERIALIZED VIEW seen AS SELECT collate_key(name, 'sv') FROM people; CREATE VIEW other AS SELECT collate_key(name, 'sv') FROM people;")
    text = "SELECT * FROM collate_uses('sv');"
    said = one.shown("names", text)
    report.show(text, said)
    report.want("all are listed, and nothing else", "(5 rows)" in said and "danish" not in said, said)
    put_release(tables, "new")
    report.refused(one, "names", "SELECT collate_accept('sv');", 'keys of collation "sv" are stored by generated column', "Drop it")
    one.sql("names", "DROP TABLE stored, parted; DROP MATERIALIZED VIEW seen;")
    said = one.shown("names", "SELECT collate_accept('sv');")
    report.want("indexes by other names stay", "by_key" in said and "danish" not in said, said)
    one.sql("names", "DELETE FROM collate_names WHERE name = 'sv';")
    put_release(tables, "old")
    said = one.shown("names", "SELECT collate_use('sv');")
    report.want("a name that is taken out and registered anew has its indexes made anew", "by_key" in said, said)


def try_servers(report, one, two):
    report.head("Partitions on two servers")
    for server, part in ((one, 0), (two, 1)):
        filled(server, "part")
        server.sql("part", f"DELETE FROM people; CREATE INDEX by_key ON people (collate_key(name, 'sv')) INCLUDE (name);"
                   f"INSERT INTO people SELECT at, 'Namn ' || md5(at::text) FROM generate_series(1, 200000) at WHERE at % 2 = {part};"
                   f"INSERT INTO people SELECT at, name FROM unnest(ARRAY{NAMES}) WITH ORDINALITY AS x (name, at) WHERE at % 2 = {part}; VACUUM ANALYZE people;")
    one.sql("postgres", "CREATE DATABASE front;")
    one.sql("front", "CREATE EXTENSION collate_tables; SELECT collate_use('sv'); CREATE EXTENSION postgres_fdw;"
            "CREATE TABLE people (id int, name text) PARTITION BY LIST ((id % 2));")
    for number, server in enumerate((one, two)):
        one.sql("front", f"""CREATE SERVER part{number} FOREIGN DATA WRAPPER postgres_fdw
          OPTIONS (host '127.0.0.1', port '{server.port}', dbname 'part', extensions 'collate_tables', use_remote_estimate 'true');
          CREATE USER MAPPING FOR CURRENT_USER SERVER part{number} OPTIONS (user 'postgres');
          CREATE FOREIGN TABLE people{number} PARTITION OF people FOR VALUES IN ({number}) SERVER part{number} OPTIONS (table_name 'people');""")
    text = "SELECT name FROM people ORDER BY collate_key(name, 'sv')"
    said = one.shown("front", f"EXPLAIN (VERBOSE, COSTS OFF) {text};")
    report.show(f"EXPLAIN (VERBOSE, COSTS OFF) {text};", said)
    report.want("merged, and sorted by each server", "Merge Append" in said and said.count("ORDER BY public.collate_key") == 2, said)
    rows = one.sql("front", f"{text}, id;").split("\n")
    keys = one.sql("front", "SELECT name FROM (SELECT * FROM people OFFSET 0) x ORDER BY collate_key(name, 'sv'), id;").split("\n")
    report.want(f"{len(rows):,} rows in the order of one sort of the whole", rows == keys)
    said = one.shown("front", f"EXPLAIN (VERBOSE, COSTS OFF) {BEGIN_SO};")
    report.show(f"EXPLAIN (VERBOSE, COSTS OFF) {BEGIN_SO};", said)
    report.want("bounds are sent to the servers", said.count("Remote SQL: SELECT name FROM public.people WHERE") == 2 and said.count("collate_key") >= 4, said)
    check = """CREATE FOREIGN TABLE names1 (name text, fingerprint text) SERVER part1 OPTIONS (table_name 'collate_names');
SELECT name FROM collate_names FULL JOIN names1 USING (name, fingerprint) WHERE collate_names IS NULL OR names1 IS NULL;"""
    report.show(check, one.shown("front", check))


WAYS = ["collate_key(name, 'sv')", 'name COLLATE "sv-x-icu"', 'name COLLATE "C"']
WORK = {"ORDER BY": "SELECT count(*) FROM (SELECT name FROM names ORDER BY {} OFFSET 0) x;", "CREATE INDEX": "CREATE INDEX made ON names (({}));"}


def least_times(session, text):
    """Of each way to order the least processor time and the least time, in seconds, and the size of the index that was made."""
    took, sizes = {way: [] for way in WAYS}, {}
    for _ in range(ROUNDS):
        for way in WAYS:
            took[way].append(session.seconds(text.format(way)))
            sizes[way] = session.ask("SELECT round(pg_relation_size(to_regclass('made')) / 1e6, 1); DROP INDEX IF EXISTS made;")
    return {way: (*map(min, zip(*it)), sizes[way]) for way, it in took.items()}


def many_names(one, room, count):
    """A session of a database with many names."""
    file = os.path.join(room, "names.txt")
    with open(file, "w", encoding="utf-8") as it:
        it.writelines(line.partition("\t")[0] + "\n" for line in made_names(count))
    one.sql("postgres", "CREATE DATABASE times;")
    one.sql("times", f"CREATE EXTENSION collate_tables; SELECT collate_use('sv'); CREATE TABLE names (name text);\n\\copy names FROM '{file}'\nVACUUM ANALYZE names; CHECKPOINT;")
    session = one.session("times")
    session.ask("SET max_parallel_workers_per_gather = 0; SET max_parallel_maintenance_workers = 0; SET client_min_messages = warning; SELECT collate_key('a', 'sv');")
    return session


def try_times(report, one, room, count):
    report.head(f"{count:,} names beside COLLATE \"sv-x-icu\"")
    session = many_names(one, room, count)
    for memory in ("'512MB'", "DEFAULT"):
        session.ask(f"SET work_mem = {memory}; SET maintenance_work_mem = {memory};")
        for what, text in WORK.items():
            least = least_times(session, text)
            for way, (processor, time, size) in least.items():
                print(f"{what} {way}, memory {memory}: {processor:.2f} s of processor, {time:.2f} s{f', {size} MB' if size else ''}")
            ratio = least[WAYS[0]][0] / least[WAYS[1]][0]
            report.want(f"{what}, memory {memory}: {ratio:.2f} of ICU's processor time", ratio <= 1)
    for text in ("count(collate_key(name, 'sv'))", "count(name)"):
        print(f"{text}: {min(session.seconds(f'SELECT {text} FROM names;')[0] for _ in range(ROUNDS)):.2f} s of processor")
    session.close()


def want_commands(install):
    """Ends the program if what it needs isn't there."""
    if install:
        subprocess.run(["apt-get", "install", "-y", *NEEDS], check=True)
    missing = [it for it in ("pg_config", "psql", "make", "cc") if not shutil.which(it)]
    if missing or not os.path.exists("/usr/lib/postgresql/15/bin/postgres"):
        sys.exit(f"postgresql.py: it needs Debian's packages: apt-get install {' '.join(NEEDS)}")


def try_all(report, servers, room, tables, count):
    one, two, replica = servers
    for server in (one, two):
        server.make().start()
    try_first_steps(report, one)
    try_index(report, one)
    try_workers(report, one)
    put_release(tables["two"], "new")
    try_dump(report, one, two, room)
    put_release(tables["two"], "old")
    try_servers(report, one, two)
    try_replica(report, one, replica, tables["replica"])
    try_upgrade(report, one, replica, tables)
    try_transactions(report, one, tables["one"])
    try_uses(report, one, tables["one"])
    if count:
        try_times(report, one, room, count)


def main(words):
    said = argparse.ArgumentParser(usage=__doc__, allow_abbrev=False)
    said.add_argument("--library", required=True)
    said.add_argument("--tables", required=True)
    said.add_argument("--names", type=int, default=1_000_000)
    said.add_argument("--install", action="store_true")
    wanted = said.parse_args(words)
    want_commands(wanted.install)
    report, servers = Report(), []
    with tempfile.TemporaryDirectory(prefix="postgresql-") as room:
        os.chmod(room, 0o755)
        own_folder(os.path.join(room, "servers"))
        tables = {it: tables_folder(room, f"tables-{it}", wanted.tables) for it in ("one", "two", "replica")}
        try:
            programs = build_tree(room, os.path.abspath(wanted.library))
            servers += [Server(programs, os.path.join(room, "servers", it), folder) for it, folder in tables.items()]
            try_all(report, servers, room, tables, wanted.names)
        finally:
            for it in reversed(servers):
                it.stop()
    print(f"\n{report.tried} tried, {report.wrong} wrong")
    return 1 if report.wrong else 0


if __name__ == "__main__":
    try:
        sys.exit(main(sys.argv[1:]))
    except Failed as why:
        sys.exit(f"postgresql.py: {why}")
