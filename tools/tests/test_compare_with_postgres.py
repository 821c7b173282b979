#!/usr/bin/python3
"""Tests of tools/compare_with_postgres. PGRC_PROGRAM names the program, by default ./pgrc."""
import glob
import importlib.machinery
import importlib.util
import os
import signal
import subprocess
import sys
import tempfile
import time
import unittest

sys.dont_write_bytecode = True
HERE = os.path.dirname(os.path.abspath(__file__))
TOOLS = os.path.dirname(HERE)
TOP = os.path.dirname(TOOLS)
TOOL = os.path.join(TOOLS, "compare_with_postgres")
PROGRAM = os.environ.get("PGRC_PROGRAM", os.path.join(TOP, "pgrc"))
sys.path.insert(0, TOOLS)


def missing():
    """What of Debian's packages is not there, or nothing."""
    if importlib.util.find_spec("psycopg2") is None:
        return "python3-psycopg2 is not installed"
    return "" if glob.glob("/usr/lib/postgresql/*/bin/postgres") else "no PostgreSQL server is installed"


def folders():
    """The folders of servers that stand now."""
    return set(glob.glob(os.path.join(tempfile.gettempdir(), "pgrc-compare-*")))


def tool_as_module():
    """The tool as a module."""
    loader = importlib.machinery.SourceFileLoader("compare_with_postgres", TOOL)
    module = importlib.util.module_from_spec(importlib.util.spec_from_loader(loader.name, loader))
    loader.exec_module(module)
    return module


def later(name):
    """A script of statements that the program may not know yet, and a stand-in that answers it as the rules say."""
    folder = os.path.join(HERE, "stand_ins")
    return os.path.join(folder, f"{name}.rc"), os.path.join(folder, name)


@unittest.skipIf(missing(), missing())
class Comparing(unittest.TestCase):
    def compare(self, *words, program=PROGRAM, text=None, **more):
        return subprocess.run([TOOL, "--program", program, "--width", "120", *words], input=text, capture_output=True, text=True, **more)

    def check(self, status, ran, *wanted):
        said = ran.stdout + ran.stderr
        self.assertEqual(status, ran.returncode, said)
        self.assertNotIn("Traceback", said)
        for words in wanted:
            self.assertIn(words, said)

    def script(self, *lines):
        return "\n".join(["rc 1 stepped", *lines, ""])

    def test_sessions_that_agree(self):
        ran = self.compare(os.path.join(TOP, "examples", "uncommitted_rows.rc"))
        self.check(0, ran, "no difference", "1|500")

    def test_a_declared_difference_and_what_follows_from_it(self):
        ran = self.compare("-", text=self.script("setup: CREATE TABLE t (k integer)", "a: BEGIN", "a: SELECT 1 / 0 FROM t",
                                                 "a: INSERT INTO t VALUES (1)", "a: COMMIT"))
        self.check(0, ran, "declared: Constant expressions are evaluated with the rows", "1 declared, 3 that follow, 0 unknown")

    def test_a_difference_that_nobody_declared(self):
        ran = self.compare(os.path.join(HERE, "stand_ins", "wrong.rc"), program=os.path.join(HERE, "stand_ins", "wrong"))
        self.check(1, ran, "unknown: declared nowhere", "SELECT 7")

    def test_a_wait_is_seen(self):
        script, program = later("lost_update")
        self.check(0, self.compare(script, program=program), "(waits for a)", "no difference")

    def test_a_deadlock_is_seen(self):
        script, program = later("deadlock")
        self.check(0, self.compare(script, program=program), "40P01", "no difference")

    def test_a_script_with_pauses_is_refused(self):
        script, program = later("pause")
        self.check(2, self.compare(script, program=program), "line 3: this script is not compared", "`pause`")

    def test_a_statement_that_a_server_lacks(self):
        tool = tool_as_module()
        server = type("Server", (), {"version": 15, "name": "PostgreSQL 15"})
        script = tool.Script(b"rc 1 stepped\na: MERGE INTO t USING s ON t.k = s.k WHEN MATCHED THEN DELETE RETURNING t.k\n")
        with self.assertRaises(tool.Problem) as found:
            tool.refuse_lacking(server, script)
        self.assertIn("line 2: this statement needs version 17 of a server", str(found.exception))

    def test_a_refused_script_is_shown_with_its_line(self):
        ran = self.compare("-", text=self.script("setup: CREATE TABLE t (k integer)", "a: SELEC k FROM t"))
        self.check(2, ran, "at line 3: syntax at 4", "a: SELEC k FROM t")

    def test_a_table_that_a_server_refuses(self):
        ran = self.compare("-", text=self.script("setup: CREATE TABLE user (k integer)", "a: SELECT k FROM user"))
        self.check(2, ran, "line 2: the server does not declare this table", "42601")

    def test_a_missing_file_and_a_missing_program(self):
        self.check(2, self.compare("/nowhere.rc"), "/nowhere.rc: No such file")
        self.check(2, self.compare("-", program="/nowhere", text="rc 1 stepped\n"), "/nowhere cannot be run")

    def test_a_server_that_is_not_there(self):
        ran = self.compare("--dsn", "host=/nowhere", os.path.join(TOP, "examples", "first.rc"))
        self.check(2, ran, "there is no connection to a server; it said: ", "/nowhere")

    def test_a_named_server_is_left_as_it_was(self):
        import postgres_runs
        with postgres_runs.ThrowawayServer() as server:
            ran = self.compare("--dsn", server.dsn, os.path.join(TOP, "examples", "first.rc"))
            watch = postgres_runs.psycopg2.connect(server.dsn)
            with watch.cursor() as cursor:
                cursor.execute("SELECT nspname FROM pg_namespace WHERE nspname LIKE 'pgrc%'")
                left = cursor.fetchall()
            watch.close()
        self.check(0, ran, "no difference")
        self.assertEqual([], left)

    def test_a_server_that_does_not_start_says_why(self):
        import postgres_runs
        before = folders()
        settings = dict(postgres_runs.SETTINGS)
        postgres_runs.SETTINGS["shared_buffers"] = "no number"
        try:
            with self.assertRaises(postgres_runs.Problem) as found:
                postgres_runs.ThrowawayServer().__enter__()
        finally:
            postgres_runs.SETTINGS.clear()
            postgres_runs.SETTINGS.update(settings)
        self.assertIn("the server did not start; it said:", str(found.exception))
        self.assertIn("shared_buffers", str(found.exception))
        self.assertLessEqual(folders(), before)

    def test_the_server_goes_whatever_ends_the_tool(self):
        for number in (signal.SIGTERM, signal.SIGINT, signal.SIGKILL):
            before = folders()
            script, program = later("slow")
            tool = subprocess.Popen([TOOL, "--program", program, script], stdout=subprocess.DEVNULL, stderr=subprocess.DEVNULL)
            made = self.wait_for(lambda: [it for it in folders() - before if os.path.exists(f"{it}/data/postmaster.pid")])
            tool.send_signal(number)
            tool.wait()
            self.assertTrue(made)
            self.assertTrue(self.wait_for(lambda: not any(os.path.exists(it) for it in made)), f"{number}: {made}")

    def wait_for(self, test):
        ends = time.monotonic() + 60
        while not test() and time.monotonic() < ends:
            time.sleep(0.02)
        return test()


@unittest.skipIf(missing(), missing())
class Reasons(unittest.TestCase):
    """Each declared difference has its heading in docs/differences.md."""

    def test_headings(self):
        import declared_differences
        with open(os.path.join(TOP, "docs", "differences.md"), encoding="utf-8") as page:
            headings = {line.lstrip("#").strip().replace("`", "") for line in page if line.startswith("#")}
        self.assertEqual(set(), set(declared_differences.TITLES.values()) - headings)


if __name__ == "__main__":
    unittest.main()
