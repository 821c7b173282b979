"""What a journal does, step by step: the meaning of each entry, the transactions, and the rows of the tables at each.

A journal names rows by number and does not tell their values. They are found by asking: the script is run once more
with a SELECT of the table behind each statement that writes, by the session that wrote. Where that run makes other steps
than the script itself, or the script is long, the values are those of the tables at the end, and others are not shown.
"""
from session_scripts import Problem, Script, journal_of, run_of, tokens_of

WRITING = ("insert", "update", "delete", "merge")
STORING = ("inserted", "updated", "deleted")
MOST_BYTES = 1_048_576
MOST_ASKED = 200
# The label of an act beside its mark, and its meaning; {0} is the session, {1} and so on the words behind the act.
ACTS = {
    "snapped": ("snapshot: sees {1} commits", "{0} takes the snapshot of this statement: it sees the first {1} commits, and what its "
                "own transaction did before. A transaction opens where none is open."),
    "found": ("candidate {1}", "{0} takes up candidate {1}: the row, or the combination of rows, that the statement is about next."),
    "locked": ("locks row {2} of {1}", "{0} holds row {2} of {1} to the end of its transaction, at the strength {3}."),
    "placed": ("draws row {2} of {1}", "{0} draws row number {2} of {1} for the row that it proposes. The number is never given back."),
    "claimed": ("claims index {1}", "{0} claims the key of its row in unique index {1}."),
    "withdrawn": ("withdraws row {2} of {1}", "{0} gives up the row that it proposed, and its claims; the candidate is taken up again."),
    "inserted": ("stores row {2} of {1}", "The values are stored as the first version of row {2} of {1}. Others see it once {0} has committed."),
    "updated": ("changes row {2} of {1}", "Row {2} of {1} gets a new version. Others see it once {0} has committed."),
    "deleted": ("deletes row {2} of {1}", "Row {2} of {1} is gone for {0}, and for others once {0} has committed."),
    "passed": ("passes", "This candidate is left as it is."),
    "picked": ("returns the row", "The row is locked, and is one of those that the statement returns."),
    "waits": ("waits for {1}", "{0} waits for {1}, until {1} has ended its transaction or given way."),
    "committed": ("commits", "The transaction of {0} commits: it takes the next place in the order of all commits, and later snapshots see what it did."),
    "rolled back": ("rolls back", "The transaction of {0} ends, and all that it did is taken back."),
    "replied": ("is answered", "The statement of {0} is answered: {1}."),
    "failed": ("fails", "The statement of {0} fails, and what its transaction did is taken back."),
    "closed": ("session ends", "The session {0} ends; a transaction that it has open is rolled back."),
    "cut": ("session is lost", "The connection of {0} is lost; a transaction that it has open is rolled back."),
}


class Moment:
    """An entry of the journal in its place: its statement (None where it has none) and what it changes in the tables."""

    def __init__(self, entry, statement):
        self.entry, self.statement = entry, statement
        self.is_first = self.is_last = False
        self.answer, self.changes = None, []
        self.act, self.words = act_of(entry)
        self.label, self.meaning = (text.format(entry.session, *self.words, "", "", "") for text in
                                    ACTS.get(self.act, (entry.line, "{0}: " + entry.line.split(" ", 1)[1].replace("{", "(").replace("}", ")"))))
        if self.act == "snapped" and self.words[0] in ("0", "1"):
            count = ["no commit", "1 commit"][int(self.words[0])]
            self.label = self.label.replace(f"{self.words[0]} commits", count)
            self.meaning = self.meaning.replace(f"the first {self.words[0]} commits", count)


class Transaction:
    """A transaction of the journal: its session, its first and last entry by number, and how it ended."""

    def __init__(self, session, first):
        self.session, self.first, self.last, self.has_committed = session, first, first, False


class Block:
    """A block: from the answer to BEGIN to that of its end, and where it failed, if it did."""

    def __init__(self, session, first):
        self.session, self.first, self.last, self.failed = session, first, None, None


class Version:
    """A version of a row: its transaction, and its number among all versions, by which its values are found."""

    def __init__(self, number, transaction, is_gone):
        self.number, self.transaction, self.is_gone = number, transaction, is_gone


def act_of(entry):
    """The act of an entry and the words behind it."""
    if entry.act == "rolled" and entry.rest == "back":
        return "rolled back", []
    if entry.act in ("replied", "failed"):
        return entry.act, [entry.rest]
    words = entry.rest.split(" ") if entry.rest else []
    return entry.act, words[:2] + [" ".join(words[2:])]


class World:
    """The tables while a journal goes by: for each row its versions that are not taken back, and what is drawn."""

    def __init__(self, tables, rows):
        self.tables = {name: {} for name in tables}
        self.number, self.open, self.drawn = 0, {}, {}
        for name, count in rows.items():
            for row in range(1, count + 1):
                self.store(name, row, None, False)

    def store(self, table, row, transaction, is_gone):
        self.tables.setdefault(table, {}).setdefault(row, []).append(Version(self.number, transaction, is_gone))
        self.number += 1

    def take(self, place, moment):
        """Takes the entry of this place; tells the rows that it may change, as (table, row)."""
        session, act, words = moment.entry.session, moment.act, moment.words
        if act == "snapped" and session not in self.open:
            self.open[session] = Transaction(session, place)
        row = (words[0], int(words[1])) if act in (*STORING, "placed", "withdrawn") else None
        if act == "placed":
            self.drawn[session] = row
        elif row:
            self.drawn.pop(session, None)
        if act in STORING:
            self.store(*row, self.open.get(session), act == "deleted")
        if act in ("committed", "rolled back", "failed", "closed", "cut"):
            return self.end(place, session, act == "committed")
        return [row] if row else []

    def end(self, place, session, has_committed):
        """Ends a session's transaction, where one is open."""
        transaction = self.open.pop(session, None)
        drawn = self.drawn.pop(session, None)
        if transaction is None:
            return []
        transaction.last, transaction.has_committed = place, has_committed
        touched = [drawn] if drawn else []
        for name, rows in self.tables.items():
            for row, versions in rows.items():
                if any(it.transaction is transaction for it in versions):
                    touched.append((name, row))
                if not has_committed:
                    versions[:] = [it for it in versions if it.transaction is not transaction]
        return touched

    def seen(self, table, session):
        """The versions of a table that a new snapshot of this session sees, in order of row number."""
        own = self.open.get(session)
        for _, versions in sorted(self.tables.get(table, {}).items()):
            seen = [it for it in versions if is_committed(it) or own and it.transaction is own]
            if seen and not seen[-1].is_gone:
                yield seen[-1]

    def lines(self, table, row, values):
        """A row as it stands: its committed version and those that are not committed, each with whose it is and its values."""
        shown = []
        for version in self.tables.get(table, {}).get(row, []):
            if is_committed(version):
                shown = [] if version.is_gone else [["", values.get(version.number)]]
        for version in self.tables.get(table, {}).get(row, []):
            if not is_committed(version):
                shown.append([version.transaction.session, "deleted" if version.is_gone else values.get(version.number)])
        return shown + [[session, "drawn"] for session, drawn in self.drawn.items() if drawn == (table, row)]


def is_committed(version):
    return version.transaction is None or version.transaction.has_committed


class Story:
    """All that a picture shows of a script: its sessions, moments, transactions, blocks, and tables at each moment."""

    def __init__(self, program, source):
        self.script = Script(source)
        self.journal = journal_of(program, source)
        answers, self.tables = run_of(program, source)
        self.moments = moments_of(self.script, self.journal, answers)
        names = [table.name for table in self.tables]
        asked = AskedStory(program, self.script, self.journal, names)
        self.values, self.setup_rows = asked.values, asked.setup_rows
        self.is_told = asked.is_told or not self.script.statements
        if not self.script.statements:
            self.setup_rows = {table.name: len(table.rows) for table in self.tables}
            self.values = dict(enumerate(row for table in self.tables for row in table.rows))
        self.transactions, self.blocks = [], blocks_of(self.moments)
        self.take_end(World(names, self.setup_rows))
        self.follow(World(names, self.setup_rows))

    def take_end(self, world):
        """Takes the values of the rows at the end from the tables that the program prints."""
        for place, moment in enumerate(self.moments):
            world.take(place, moment)
        for table in self.tables:
            seen = list(world.seen(table.name, None))
            if len(seen) == len(table.rows):
                self.values.update((it.number, row) for it, row in zip(seen, table.rows))

    def follow(self, world):
        """Goes through the journal and keeps the transactions and what each entry changes in the tables."""
        self.start = [[table, row, world.lines(table, row, self.values)] for table, rows in world.tables.items() for row in rows]
        for place, moment in enumerate(self.moments):
            opened = world.open.get(moment.entry.session)
            for table, row in world.take(place, moment):
                moment.changes.append([table, row, world.lines(table, row, self.values)])
            now = world.open.get(moment.entry.session)
            if now is not opened and now is not None:
                self.transactions.append(now)


class AskedStory:
    """The values of all versions, by their number, and the number of rows of setup, by asking the program."""

    def __init__(self, program, script, journal, tables):
        self.values, self.setup_rows, self.is_told = {}, {}, False
        source, asking = asking_script(script, tables)
        if not script.statements or len(source) > MOST_BYTES:
            return
        try:
            asked = Script(source)
            moments = moments_of(asked, journal_of(program, source), run_of(program, source)[0])
        except Problem:
            return
        same = [it for it in moments if not (it.statement and it.statement.number in asking)]
        if [it.entry.line for it in same if it.act != "snapped"] == [it.line for it in journal if it.act != "snapped"]:
            self.is_told = True
            self.read(moments, asking)

    def read(self, moments, asking):
        """Goes through the journal of the asking script and finds the values that each answer tells."""
        world = None
        for place, moment in enumerate(moments):
            table = asking.get(moment.statement.number) if moment.statement else None
            if moment.is_last and table and moment.answer.state is None:
                if world is None and table not in self.setup_rows:
                    self.take_setup(table, moment.answer.rows)
                elif world:
                    seen = list(world.seen(table, moment.entry.session))
                    if len(seen) == len(moment.answer.rows):
                        self.values.update((it.number, row) for it, row in zip(seen, moment.answer.rows))
            elif world is None and not table:
                world = World(self.setup_rows, self.setup_rows)
            if world:
                world.take(place, moment)

    def take_setup(self, table, rows):
        before = sum(self.setup_rows.values())
        self.setup_rows[table] = len(rows)
        self.values.update((before + number, row) for number, row in enumerate(rows))


def asking_script(script, tables):
    """A script with a SELECT of each table before its first statement, and of the table written behind each that writes; and
    which lines ask what. Behind many statements nothing is asked, since the answers would be long."""
    first = script.statements[0].number if script.statements else 0
    writing = {it.number: it for it in script.statements if it.text.split(" ", 1)[0].lower() in WRITING}
    if len(writing) > MOST_ASKED:
        writing = {}
    lines, asking = [], {}

    def ask(session, names):
        for table in names:
            lines.append(f"{session}: SELECT * FROM {table}")
            asking[len(lines)] = table
    for number, line in enumerate(script.source.split(b"\n"), 1):
        if number == first:
            ask(script.statements[0].session, tables)
        lines.append(line.decode("latin-1"))
        if number in writing:
            named = [word.lower() for _, word in tokens_of(writing[number].text)[1:3]]
            ask(writing[number].session, [table for table in tables if table in named])
    return "\n".join(lines).encode("latin-1"), asking


def moments_of(script, journal, answers):
    """The entries of a journal, each with its statement, and the last of each statement with its answer."""
    coming = {name: iter(script.of_session(name)) for name in script.sessions}
    inside, moments, answered = {}, [], iter(answers)
    for entry in journal:
        if entry.act in ("closed", "cut"):
            moments.append(Moment(entry, inside.pop(entry.session, None)))
            continue
        is_first = entry.session not in inside
        if is_first:
            inside[entry.session] = next(coming[entry.session])
        moment = Moment(entry, inside[entry.session])
        moment.is_first, moment.is_last = is_first, entry.ends_statement
        if moment.is_last:
            moment.answer = next(answered)[1]
            del inside[entry.session]
        moments.append(moment)
    return moments


def blocks_of(moments):
    """The blocks of a journal, by the places of the first entry of BEGIN and the last of their end."""
    inside, blocks, begun = {}, [], {}
    for place, moment in enumerate(moments):
        session = moment.entry.session
        if moment.is_first:
            begun[session] = place
        block = inside.get(session)
        if moment.act == "failed" and block:
            block.failed = block.failed if block.failed is not None else place
        elif moment.act == "replied" and moment.answer.tag == "BEGIN" and not block:
            inside[session] = Block(session, begun[session])
            blocks.append(inside[session])
        elif block and (moment.act in ("closed", "cut") or moment.is_last and moment.answer.tag in ("COMMIT", "ROLLBACK")):
            inside.pop(session).last = place
    return blocks
