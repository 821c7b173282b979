"""Runs of a script's sessions on a PostgreSQL server, and a server of Debian's package for as long as a tool runs.

A run gives each session a connection of its own. A session that waits is known by `pg_blocking_pids`, which tells whose
locks a server process waits for, and it counts as waiting once the server has looked for a deadlock too.
"""
import glob
import os
import pwd
import re
import secrets
import select
import shutil
import subprocess
import tempfile
import time

import psycopg2
import psycopg2.extensions

from session_scripts import Answer, Problem, Table

LONGEST_SECONDS = 60
DEADLOCK_SECONDS = 0.05
SETTINGS = {"fsync": "off", "synchronous_commit": "off", "full_page_writes": "off", "autovacuum": "off",
            "max_connections": "50", "shared_buffers": "16MB", "jit": "off", "listen_addresses": "",
            "deadlock_timeout": "50ms", "lc_messages": "C", "timezone": "UTC", "log_timezone": "UTC"}
# What the guard does: it makes the files of a server, in which texts are compared by their bytes, runs it, and ends it and
# removes the folder when its own input ends, which it does however the tool ends.
GUARD = """
trap '' INT HUP TERM
folder=$1 programs=$2; shift 2
if "$programs/initdb" -D "$folder/data" -A trust -U pgrc -E UTF8 --locale=C --no-sync --no-instructions \\
    >"$folder/log" 2>&1 </dev/null
then
    "$programs/postgres" -D "$folder/data" -k "$folder" "$@" >"$folder/log" 2>&1 </dev/null &
    server=$!
    echo "$server" >"$folder/server"
else
    : >"$folder/failed"
fi
cat >/dev/null
if [ -n "$server" ]
then
    while kill -INT "$server" 2>/dev/null; do sleep 0.1; done &
    wait "$server"
fi
rm -rf "$folder"
"""
# What statements are given to find out why a server answers otherwise: values that it does not know beforehand, and a
# sign that puts together texts alone.
WORDS = """
CREATE FUNCTION held(integer) RETURNS integer VOLATILE LANGUAGE plpgsql AS 'BEGIN RETURN $1; END';
CREATE FUNCTION held(bigint) RETURNS bigint VOLATILE LANGUAGE plpgsql AS 'BEGIN RETURN $1; END';
CREATE FUNCTION held(boolean) RETURNS boolean VOLATILE LANGUAGE plpgsql AS 'BEGIN RETURN $1; END';
CREATE FUNCTION held(text) RETURNS text VOLATILE LANGUAGE plpgsql AS 'BEGIN RETURN $1; END';
CREATE OPERATOR ||| (LEFTARG = text, RIGHTARG = text, FUNCTION = textcat);
"""


def words_of(error):
    """What a server or its library says of an error, on one line."""
    return " ".join(str(error).split())


def program_folder():
    """The folder of the newest server of Debian's packages."""
    found = glob.glob("/usr/lib/postgresql/*/bin/postgres")
    if not found:
        raise Problem("no PostgreSQL server is installed: apt-get install postgresql, or name one by --dsn")
    return os.path.dirname(max(found, key=lambda path: [int(part) for part in re.findall(r"\d+", path)]))


def lesser_user():
    """The user to run a server as: this one, or where this is root, who may not, postgres or nobody."""
    if os.geteuid() != 0:
        return {}, os.geteuid(), os.getegid()
    for name in ("postgres", "nobody"):
        try:
            user = pwd.getpwnam(name)
            return {"user": user.pw_uid, "group": user.pw_gid, "extra_groups": []}, user.pw_uid, user.pw_gid
        except KeyError:
            continue
    raise Problem("a PostgreSQL server does not run as root, and there is neither a user postgres nor nobody")


class ThrowawayServer:
    """A server in a temporary folder, which lives as long as this object is entered."""

    def __enter__(self):
        programs = program_folder()
        self.identity, uid, gid = lesser_user()
        self.folder = tempfile.mkdtemp(prefix="pgrc-compare-")
        self.guard = None
        try:
            os.chown(self.folder, uid, gid)
            self.start(programs)
        except BaseException:
            self.__exit__()
            raise
        return self

    def start(self, programs):
        settings = [word for name, value in SETTINGS.items() for word in ("-c", f"{name}={value}")]
        self.guard = subprocess.Popen(["/bin/sh", "-c", GUARD, "guard", self.folder, programs, *settings], stdin=subprocess.PIPE,
                                      cwd="/", start_new_session=True, env={"PATH": "/usr/bin:/bin", "LC_ALL": "C"},
                                      stdout=subprocess.DEVNULL, stderr=subprocess.DEVNULL, **self.identity)
        self.dsn = f"host={self.folder} user=pgrc dbname=postgres"
        ends = time.monotonic() + LONGEST_SECONDS
        while True:
            try:
                psycopg2.connect(self.dsn).close()
                return
            except psycopg2.OperationalError:
                if time.monotonic() > ends or self.has_given_up():
                    raise Problem(f"the server did not start; it said:\n{self.log()}") from None
                time.sleep(0.05)

    def has_given_up(self):
        """Whether the server has ended by itself: its process is gone, or waits for the guard to notice."""
        server = self.file("server")
        if not server:
            return os.path.exists(f"{self.folder}/failed") or self.guard.poll() is not None
        try:
            with open(f"/proc/{server}/stat", encoding="ascii", errors="replace") as file:
                return file.read().rsplit(")", 1)[1].split()[0] == "Z"
        except OSError:
            return True

    def log(self):
        return self.file("log") or "nothing"

    def file(self, name):
        """What a file of the server's folder holds, or nothing where it is not there."""
        try:
            with open(f"{self.folder}/{name}", encoding="utf-8", errors="replace") as file:
                return file.read().strip()
        except OSError:
            return ""

    def __exit__(self, *_):
        if self.guard:
            self.guard.stdin.close()
            self.guard.wait(LONGEST_SECONDS)
        shutil.rmtree(self.folder, ignore_errors=True)


class Link:
    """A session's connection: it is asked without waiting for the answer."""

    def __init__(self, server, name):
        self.name = name
        self.connection = psycopg2.connect(server.dsn, async_=1)
        self.wait()
        self.pid = self.connection.info.backend_pid
        self.cursor = None

    def wait(self):
        while self.turn() != psycopg2.extensions.POLL_OK:
            select.select([self.connection.fileno()], [], [], 0.05)

    def turn(self):
        state = self.connection.poll()
        if state == psycopg2.extensions.POLL_WRITE:
            select.select([], [self.connection.fileno()], [], 0.05)
        return state

    def do(self, text):
        """Asks and takes the answer, for what never waits."""
        cursor = self.connection.cursor()
        cursor.execute(text)
        self.wait()
        return cursor

    def ask(self, text):
        self.cursor = self.connection.cursor()
        self.cursor.execute(text)

    def answer(self):
        """The answer to what was asked, or None where it has not come."""
        try:
            if self.turn() != psycopg2.extensions.POLL_OK:
                return None
        except psycopg2.Error as error:
            if error.pgcode is None:
                raise Problem(f"the connection of session {self.name} is lost: {words_of(error)}") from None
            return Answer([], None, error.pgcode, error.diag.message_primary)
        rows = self.cursor.fetchall() if self.cursor.description else []
        return Answer([row_text(row) for row in rows], self.cursor.statusmessage)


class Server:
    """A server that sessions run on: by its connection string, with a schema of its own for the words of this tool."""

    def __init__(self, dsn):
        self.dsn = dsn
        self.links = {}
        self.runs = 0
        self.schema = f"pgrc_compare_{os.getpid()}_{secrets.token_hex(4)}"
        try:
            self.watch = psycopg2.connect(dsn)
        except psycopg2.Error as error:
            raise Problem(f"there is no connection to a server; it said: {words_of(error)}") from None
        self.watch.autocommit = True
        self.version = self.watch.server_version // 10000
        try:
            self.ask(f"CREATE SCHEMA {self.schema}")
            self.settle_itself()
        except psycopg2.Error as error:
            raise Problem(f"the server does not let this tool work; it said: {words_of(error)}") from None

    def settle_itself(self):
        self.ask(f"SET search_path TO {self.schema}, pg_catalog")
        self.ask(WORDS)
        self.name = "PostgreSQL " + self.ask("SHOW server_version")[0][0].split()[0]
        self.order_of_texts = self.ask("SELECT datcollate FROM pg_database WHERE datname = current_database()")[0][0]
        self.compares_by_bytes = self.order_of_texts in ("C", "POSIX", "C.UTF-8", "C.utf8")
        self.may_set = self.ask("SELECT usesuper FROM pg_user WHERE usename = current_user")[0][0]
        milliseconds = self.ask("SELECT setting FROM pg_settings WHERE name = 'deadlock_timeout'")[0][0]
        self.deadlock_seconds = DEADLOCK_SECONDS if self.may_set else int(milliseconds) / 1000
        self.keywords = {word for word, in self.ask("SELECT word FROM pg_get_keywords() WHERE catcode <> 'U'")}

    def ask(self, text, values=None):
        """What the server answers to a question of the tool's own."""
        with self.watch.cursor() as cursor:
            cursor.execute(text, values)
            return cursor.fetchall() if cursor.description else []

    def link(self, name, place):
        """The connection for the session of this place, as one that begins."""
        if place not in self.links:
            self.links[place] = Link(self, name)
        link = self.links[place]
        link.name = name
        if self.may_set:
            link.do(f"SET deadlock_timeout TO '{int(DEADLOCK_SECONDS * 1000)}ms'; SET lc_messages TO 'C'")
        link.do("SET default_transaction_isolation TO 'read committed'; SET standard_conforming_strings TO on;"
                f" SET search_path TO {self.schema}_run, pg_catalog, {self.schema}")
        return link

    def drop_links(self):
        for link in self.links.values():
            link.connection.close()
        self.links = {}

    def close(self):
        """Takes away what the tool has made on the server."""
        self.drop_links()
        try:
            self.ask("SET client_min_messages TO error")
            self.ask(f"DROP SCHEMA IF EXISTS {self.schema}_run, {self.schema} CASCADE")
            self.watch.close()
        except psycopg2.Error as error:
            raise Problem(f"the schema {self.schema} could not be removed; the server said: {words_of(error)}") from None


class Asked:
    """A statement as it went on the server: its answer, and the sessions that it waited for."""

    def __init__(self, statement, text):
        self.statement, self.text = statement, text
        self.answer, self.waits = None, []


class Place:
    """A session in a run: its connection, what it was asked, and what is still to be asked."""

    def __init__(self, link):
        self.link, self.queue, self.asked, self.is_busy = link, [], None, False


class Run:
    """One run of a script on a server, in the order in which the program moved.

    `texts` gives some statements other texts, by the number of their line. The run ends behind the statement of the line
    `until`, where one is named."""

    def __init__(self, server, script, journal, texts=None, until=None):
        self.server, self.script, self.texts = server, script, texts or {}
        self.asked, self.tables, self.refused_setup = {}, [], {}
        server.ask(f"DROP SCHEMA IF EXISTS {server.schema}_run CASCADE; CREATE SCHEMA {server.schema}_run")
        self.set_up()
        self.places = {name: Place(server.link(name, place)) for place, name in enumerate(script.sessions)}
        self.by_pid = {place.link.pid: name for name, place in self.places.items()}
        try:
            self.follow(journal, until)
            self.take_tables()
        finally:
            self.clear()

    def set_up(self):
        """Declares the tables and stores the rows of setup, in one transaction."""
        search = f"SET search_path TO {self.server.schema}_run, pg_catalog, {self.server.schema}"
        self.server.ask(search)
        self.server.ask("BEGIN")
        for statement in self.script.setup:
            self.server.ask("SAVEPOINT line")
            try:
                self.server.ask(self.texts.get(statement.number, statement.text))
            except psycopg2.Error as error:
                self.server.ask("ROLLBACK TO line")
                self.refused_setup[statement.number] = Answer([], None, error.pgcode, error.diag.message_primary)
        self.server.ask("COMMIT")

    def follow(self, journal, until):
        """Makes the journal's steps one after the other, as far as a server knows them."""
        coming = {name: iter(self.script.of_session(name)) for name in self.places}
        inside = {}
        for entry in journal:
            if entry.act in ("closed", "cut"):
                self.give(entry.session, None)
                continue
            if entry.session not in inside:
                inside[entry.session] = next(coming[entry.session])
                self.give(entry.session, inside[entry.session])
            if entry.ends_statement:
                if inside.pop(entry.session).number == until:
                    return

    def give(self, session, statement):
        """Gives a session its next statement, or its end, and lets all go on as far as they can."""
        self.places[session].queue.append(statement)
        while any(self.start(place) for place in self.places.values()):
            self.settle()

    def start(self, place):
        """Asks a session that is free what is next for it."""
        if place.is_busy or not place.queue:
            return False
        statement = place.queue.pop(0)
        if statement is None:
            place.asked = Asked(None, "ROLLBACK")
        else:
            place.asked = Asked(statement, self.texts.get(statement.number, statement.text))
            self.asked[statement.number] = place.asked
        place.link.ask(place.asked.text)
        place.is_busy = True
        return True

    def settle(self):
        """Waits until each session that was asked has answered or waits for another."""
        ends = time.monotonic() + LONGEST_SECONDS
        first_seen = {}
        while True:
            busy = [place for place in self.places.values() if place.is_busy and not self.took(place)]
            if not busy or self.all_wait(busy, first_seen):
                return
            if time.monotonic() > ends:
                names = ", ".join(place.link.name for place in busy)
                raise Problem(f"no answer and no wait on the server for {LONGEST_SECONDS} seconds: {names}")
            select.select([place.link.connection.fileno() for place in busy], [], [], 0.01)

    def took(self, place):
        """Takes a session's answer where it has come."""
        answer = place.link.answer()
        if answer is None:
            return False
        place.asked.answer, place.is_busy = answer, False
        return True

    def all_wait(self, busy, first_seen):
        """Whether all these wait, and each so long that the server has looked for a deadlock."""
        found = dict(self.server.ask("SELECT pid, pg_blocking_pids(pid) FROM unnest(%s) AS pid",
                                     ([place.link.pid for place in busy],)))
        now, all_wait = time.monotonic(), True
        for place in busy:
            blockers = [self.by_pid.get(pid, "another process") for pid in found.get(place.link.pid) or []]
            if not blockers:
                first_seen.pop(place.link.pid, None)
                all_wait = False
                continue
            place.asked.waits += [name for name in blockers if name not in place.asked.waits]
            since = first_seen.setdefault(place.link.pid, now)
            all_wait = all_wait and now - since > self.server.deadlock_seconds * 1.5 + 0.05
        return all_wait

    def take_tables(self):
        """Reads the tables as they are at the end, in the order in which setup declares them."""
        for statement in self.script.setup:
            name = re.match(r"(?i)create\s+table\s+(\w+)", statement.text)
            if name and statement.number not in self.refused_setup:
                self.tables.append(Table(name[1].lower()))
                self.tables[-1].rows = [row_text(row) for row in self.server.ask(f"SELECT * FROM {name[1]}")]

    def clear(self):
        """Ends what is still open, so that the next run finds its connections as new."""
        if any(place.is_busy for place in self.places.values()):
            self.server.drop_links()
            return
        for place in self.places.values():
            place.link.do("ROLLBACK")


def row_text(row):
    """A row as the program prints it."""
    return "|".join(value_text(value) for value in row)


def value_text(value):
    if value is None:
        return "null"
    if isinstance(value, bool):
        return "t" if value else "f"
    if isinstance(value, str):
        return "'" + value.replace("'", "''") + "'"
    return str(value)
