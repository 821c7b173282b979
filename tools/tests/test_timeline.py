#!/usr/bin/env python3
"""Tests of tools/timeline. PGRC_PROGRAM names the program, by default ./pgrc."""
import json
import os
import re
import shutil
import subprocess
import sys
import tempfile
import unittest
from html import unescape
from xml.etree import ElementTree

sys.dont_write_bytecode = True
HERE = os.path.dirname(os.path.abspath(__file__))
TOP = os.path.dirname(os.path.dirname(HERE))
TOOL = os.path.join(TOP, "tools", "timeline")
PROGRAM = os.environ.get("PGRC_PROGRAM", os.path.join(TOP, "pgrc"))
BROWSER = shutil.which("chromium")
# What is put behind a page: it moves the slider to each step, presses the buttons, and notes what is shown and what failed.
STEPPING = """
<script>
"use strict";
const seen = { faults: [], steps: [] };
addEventListener("error", event => seen.faults.push(event.message));
const note = () => seen.steps.push([document.getElementById("entry").textContent, document.getElementById("tables").innerText]);
for (let count = 0; count <= Number(slider.max); count++) {
  slider.value = count;
  slider.dispatchEvent(new Event("input"));
  note();
}
document.getElementById("back").click();
seen.back = slider.value;
document.getElementById("on").click();
seen.on = slider.value;
marks[2].dispatchEvent(new Event("click"));
seen.mark = slider.value;
const told = document.createElement("pre");
told.id = "seen";
told.textContent = JSON.stringify(seen);
document.body.append(told);
</script>
"""


class Timeline(unittest.TestCase):
    def setUp(self):
        self.folder = tempfile.TemporaryDirectory()
        self.addCleanup(self.folder.cleanup)

    def path(self, name):
        return os.path.join(self.folder.name, name)

    def run_tool(self, *words, program=PROGRAM, text=None):
        ran = subprocess.run([TOOL, "--program", program, *words], input=text, capture_output=True, text=True, cwd=self.folder.name)
        self.assertNotIn("Traceback", ran.stderr)
        return ran

    def page(self, script, program=PROGRAM):
        ran = self.run_tool("--html", self.path("page.html"), "--svg", self.path("page.svg"), script, program=program)
        self.assertEqual((0, ""), (ran.returncode, ran.stderr))
        with open(self.path("page.html"), encoding="utf-8") as page, open(self.path("page.svg"), encoding="utf-8") as picture:
            return page.read(), picture.read()

    def browse(self, page):
        """What the page shows at each step in a browser, and what the browser says of it."""
        with open(self.path("tried.html"), "w", encoding="utf-8") as file:
            file.write(page.replace("</body>", STEPPING + "</body>"))
        ran = subprocess.run([BROWSER, "--headless", "--no-sandbox", "--disable-gpu", "--enable-logging=stderr", "--v=0",
                              f"--user-data-dir={self.path('browser')}", "--virtual-time-budget=10000", "--dump-dom",
                              "file://" + self.path("tried.html")], capture_output=True, text=True, timeout=180)
        said = [line for line in ran.stderr.splitlines() if "CONSOLE" in line]
        return json.loads(unescape(re.search(r'<pre id="seen">(.*?)</pre>', ran.stdout, re.DOTALL)[1])), said

    @unittest.skipUnless(BROWSER, "chromium is not installed")
    def test_the_page_in_a_browser(self):
        page, _ = self.page(os.path.join(TOP, "examples", "rollback.rc"))
        seen, said = self.browse(page)
        self.assertEqual(([], []), (seen["faults"], said))
        self.assertEqual(25, len(seen["steps"]))
        self.assertEqual("the beginning", seen["steps"][0][0])
        self.assertIn("no row", seen["steps"][0][1])
        self.assertEqual("5 of 24: ann inserted t 1", seen["steps"][5][0])
        self.assertIn("ann: not committed", seen["steps"][5][1])
        self.assertIn("ann: drawn", seen["steps"][7][1])
        self.assertNotIn("ann", seen["steps"][12][1])
        self.assertRegex(seen["steps"][24][1], r"3\s+3\s+committed")
        self.assertEqual(("23", "24", "3"), (seen["back"], seen["on"], seen["mark"]))

    @unittest.skipUnless(BROWSER, "chromium is not installed")
    def test_steps_of_later_statements_in_a_browser(self):
        stand_in = os.path.join(HERE, "stand_ins", "lost_update")
        page, _ = self.page(stand_in + ".rc", stand_in)
        seen, said = self.browse(page)
        self.assertEqual(([], []), (seen["faults"], said))
        self.assertEqual(18, len(seen["steps"]))
        self.assertIn("could not be found", seen["steps"][0][1])

    def test_the_page_needs_no_network(self):
        page, _ = self.page(os.path.join(TOP, "examples", "uncommitted_rows.rc"))
        self.assertEqual([], re.findall(r'(?:src|href)=|url\((?!#)|@import|fetch\(', page))

    def test_the_picture_has_all_steps(self):
        _, picture = self.page(os.path.join(TOP, "examples", "uncommitted_rows.rc"))
        root = ElementTree.fromstring(picture)
        marks = {group.get("data-entry") for group in root.iter("{http://www.w3.org/2000/svg}g")}
        self.assertEqual({str(number) for number in range(24)}, marks)
        texts = [text.text for text in root.iter("{http://www.w3.org/2000/svg}text")]
        for wanted in ("ann", "bob", "INSERT INTO accounts VALUES (1, 500)", "SELECT 2", "snapshot: sees 3 commits", "table accounts at the end"):
            self.assertIn(wanted, texts)

    def test_waits_and_locks_are_drawn(self):
        stand_in = os.path.join(HERE, "stand_ins", "lost_update")
        _, picture = self.page(stand_in + ".rc", stand_in)
        self.assertEqual(2, picture.count('class="wait" d='))
        self.assertIn("waits for a", picture)
        self.assertIn("locks row 1 of acct", picture)

    def test_what_texts_hold_stays_text(self):
        script = "rc 1 stepped\nsetup: CREATE TABLE t (v text)\n# <b>bold</b> & @STORY@\na: INSERT INTO t VALUES ('</script><b>@PICTURE@')\n"
        ran = self.run_tool("--html", "-", "-", text=script)
        self.assertEqual(0, ran.returncode, ran.stderr)
        self.assertEqual(2, ran.stdout.count("</script>"))
        self.assertNotIn("<b>", ran.stdout)

    def test_a_script_without_sessions(self):
        ran = self.run_tool("--svg", "-", "-", text="rc 1 stepped\nsetup: CREATE TABLE t (k integer)\nsetup: INSERT INTO t VALUES (7)\n")
        self.assertEqual(0, ran.returncode, ran.stderr)
        self.assertIn(">7<", ran.stdout)

    def test_every_example(self):
        for name in sorted(os.listdir(os.path.join(TOP, "examples"))):
            if name.endswith(".rc"):
                ran = self.run_tool("--svg", "-", "--html", self.path("page.html"), os.path.join(TOP, "examples", name))
                if ran.returncode == 0:
                    ElementTree.fromstring(ran.stdout)
                self.assertIn(ran.returncode, (0, 2), name)
                self.assertEqual(ran.returncode == 2, "the program refuses this script at line" in ran.stderr, name + ran.stderr)

    def test_a_refused_script_is_shown_with_its_line(self):
        ran = self.run_tool("-", text="rc 1 stepped\nsetup: CREATE TABLE t (k integer)\na: SELEC k FROM t\n")
        self.assertEqual(2, ran.returncode)
        self.assertIn("at line 3: syntax at 4", ran.stderr)
        self.assertIn("a: SELEC k FROM t", ran.stderr)

    def test_files_that_cannot_be_read_or_written(self):
        self.assertIn("/nowhere.rc: No such file", self.run_tool("/nowhere.rc").stderr)
        script = os.path.join(TOP, "examples", "first.rc")
        self.assertIn("/nowhere/a.svg: No such file", self.run_tool("--svg", "/nowhere/a.svg", script).stderr)
        self.assertIn("cannot be run", self.run_tool(script, program="/nowhere").stderr)


if __name__ == "__main__":
    unittest.main()
