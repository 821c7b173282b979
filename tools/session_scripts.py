"""Scripts of sessions as the tools read them: their lines, what the program answers to them, and the steps that it makes.

The program decides what a script is. Nothing here checks one: a script is read only once the program has run it.
"""
import os
import re
import subprocess
import sys

TOP = os.path.dirname(os.path.dirname(os.path.abspath(__file__)))
PROGRAM = os.path.join(TOP, "pgrc")
REFUSED = 4
# The signs and words of a statement, with the white space before each.
TOKEN = re.compile(r"(\s*)('(?:[^']|'')*'|[0-9]+|[A-Za-z_][A-Za-z_0-9]*|<>|!=|<=|>=|\|\||\S)")


class Problem(Exception):
    """What stops a tool, in words for its user."""


class Statement:
    """A statement of a script: the number of its line, its session (None for a setup line), and its text."""

    def __init__(self, number, session, text):
        self.number, self.session, self.text = number, session, text


class Script:
    """A script: its bytes, its lines, the sessions in order of their first line, and the statements in order."""

    def __init__(self, source):
        self.source = source
        self.lines = [line.removesuffix("\r") for line in source.decode("ascii", "replace").split("\n")]
        self.sessions, self.setup, self.statements, self.orders = [], [], [], []
        for number, line in enumerate(self.lines[1:], 2):
            self.take(number, line)

    def take(self, number, line):
        """Takes one line: a comment is nothing, a line that tells the order is kept apart."""
        order = re.fullmatch(r"[ \t]*(pause|go|cut)[ \t]+([A-Za-z_][A-Za-z_0-9]*)([ \t].*)?", line)
        given = re.fullmatch(r"[ \t]*([A-Za-z_][A-Za-z_0-9]*)[ \t]*:(.*)", line)
        if order:
            self.orders.append((number, order[1]))
            self.name(order[2].lower())
        elif given and given[1] == "setup":
            self.setup.append(Statement(number, None, statement_text(given[2])))
        elif given:
            self.statements.append(Statement(number, given[1].lower(), statement_text(given[2])))
            self.name(given[1].lower())

    def name(self, session):
        if session not in self.sessions:
            self.sessions.append(session)

    def of_session(self, session):
        """The statements of a session, in order."""
        return [statement for statement in self.statements if statement.session == session]


class Entry:
    """One step of the journal: its session, its act by one word, and what stands behind."""

    def __init__(self, line):
        self.session, self.act, *rest = line.split(" ", 2)
        self.rest = rest[0] if rest else ""
        self.line = line

    @property
    def ends_statement(self):
        return self.act in ("replied", "failed")


class Answer:
    """What a statement was answered: its rows, and a tag or an error."""

    def __init__(self, rows, tag=None, state=None, text=None):
        self.rows, self.tag, self.state, self.text = rows, tag, state, text

    def lines(self):
        return [*self.rows, self.tag if self.state is None else f"ERROR {self.state}: {self.text}"]


class Table:
    """A table at the end of a run: its name and its rows, as they are printed."""

    def __init__(self, name):
        self.name, self.rows = name, []


def statement_text(text):
    """The text of a statement as it is shown: without white space around it and without its `;`."""
    return re.sub(r"[ \t]*;[ \t]*$", "", text.strip(" \t"))


def tokens_of(text):
    """The tokens of a statement, each with the white space before it."""
    return [list(found.groups()) for found in TOKEN.finditer(text)]


def read_file(path):
    """The bytes of a file, or of standard input where the path is `-`."""
    try:
        if path == "-":
            return sys.stdin.buffer.read()
        with open(path, "rb") as file:
            return file.read()
    except OSError as error:
        raise Problem(f"{path}: {error.strerror}") from None


def told(program, word, source):
    """What the program writes for a script, or why it writes nothing."""
    try:
        ran = subprocess.run([program, word], input=source, capture_output=True)
    except OSError as error:
        raise Problem(f"the program {program} cannot be run: {error.strerror}") from None
    said = ran.stderr.decode("utf-8", "replace").strip()
    refused = re.search(r"^line (\d+): (.*)$", said, re.MULTILINE)
    if ran.returncode == REFUSED and refused:
        raise Problem(refusal(source, int(refused[1]), refused[2]))
    if ran.returncode != 0:
        raise Problem(f"the program {program} ended with status {ran.returncode}: {said or 'it said nothing'}")
    return ran.stdout.decode("ascii", "replace")


def refusal(source, number, reason):
    """A refusal in words: the line, its text and the reason, with the place that the reason names marked."""
    lines = [line.removesuffix("\r") for line in source.decode("ascii", "replace").split("\n")]
    said = [f"the program refuses this script at line {number}: {reason}"]
    if 1 <= number <= len(lines):
        said.append(f"    {lines[number - 1]}")
        place = re.search(r" at (\d+)$", reason)
        if place and len(lines[number - 1]) < 120:
            said.append("    " + re.sub(r"[^\t]", " ", lines[number - 1][: int(place[1]) - 1]) + "^")
    if reason == "later":
        said.append("    (this form is part of the language and is not built yet)")
    return "\n".join(said)


def journal_of(program, source):
    """The steps that the program makes of a script."""
    return [Entry(line) for line in told(program, "trace", source).splitlines()]


def run_of(program, source):
    """The answers of a run, with their sessions, in order, and the tables at its end."""
    answers, tables, rows = [], [], []
    for line in told(program, "replay", source).splitlines():
        answered = re.match(r"(\w+)(>|:) (.*)", line)
        if line.startswith("table "):
            tables.append(Table(line.removeprefix("table ")))
        elif tables:
            tables[-1].rows.append(line)
        elif answered and answered[2] == ">":
            rows.append(answered[3])
        elif answered:
            error = re.fullmatch(r"ERROR (\w{5}): (.*)", answered[3])
            answers.append((answered[1], Answer(rows, None, *error.groups()) if error else Answer(rows, answered[3])))
            rows = []
        else:
            raise Problem(f"this line of the program's output is not understood: {line}")
    return answers, tables


def each_with_answer(script, answers):
    """The statements in the order of their answers, each with its answer."""
    waiting = {session: iter(script.of_session(session)) for session in script.sessions}
    try:
        return [(next(waiting[session]), answer) for session, answer in answers]
    except (KeyError, StopIteration):
        raise Problem("the program's answers do not belong to this script") from None
