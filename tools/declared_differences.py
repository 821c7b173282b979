"""The differences from a server that are choices of this program, as docs/differences.md declares them.

Each is found by trying it out wherever that can be done: the statement is given to the server in a form that takes the
difference away, such as `'1'::text` for `'1'`. Where the server then answers as the program does, that is the reason.
The others are known by the two answers.
"""
from itertools import combinations

from session_scripts import tokens_of

TITLES = {
    "literals": "A text literal is a text",
    "texts": "|| takes texts alone",
    "stored": "Numbers and booleans do not go into text columns",
    "conditions": "AND, OR and NOT over what is no boolean",
    "nulls": "Arithmetic of bare NULLs is an integer",
    "constants": "Constant expressions are evaluated with the rows",
    "left": "AND and OR are evaluated from left to right",
    "where": "WHERE is evaluated for all rows before the first item",
    "written": "Values are evaluated in the order written",
    "short": "A row of an INSERT may be shorter than another",
    "errors": "The errors of an INSERT are looked for in another order",
    "long": "A text has at most 4,096 bytes",
    "marks": "Marks and words are cut as they can be read",
    "chains": "Tests with IS may follow each other",
    "names": "A server has names of its own",
    "waits": "WHERE is evaluated for all rows before the first wait",
    "queue": "Who waits for a row waits for who holds it",
    "order": "Rows come in the order of their numbers",
    "letters": "Texts are compared by their bytes",
}
SYSTEM_COLUMNS = {"tableoid", "ctid", "xmin", "xmax", "cmin", "cmax"}
MOST_CHANGES = 3
ENDS_OF_WHERE = {"order", "limit", "for", "returning"}
COMPARISONS = {"=", "<>", "!=", "<", "<=", ">", ">="}
ARITHMETIC = {"+", "-", "*", "/", "%"}


def word(token):
    return token[1].lower()


def text_of(tokens):
    return "".join(lead + text for lead, text in tokens).strip()


def changed(tokens, change):
    """The tokens with a change to each text, or None where none is changed."""
    after = [[lead, change(place, text)] for place, (lead, text) in enumerate(tokens)]
    return after if after != tokens else None


def at_depth_0(tokens, start=0):
    """The places of the tokens that stand in no brackets, from `start` on."""
    depth = 0
    for place in range(start, len(tokens)):
        depth -= tokens[place][1] == ")"
        if depth == 0:
            yield place
        depth += tokens[place][1] == "("


def place_of(tokens, wanted, start=0):
    """The first place, outside of brackets, of one of these words, or None."""
    return next((place for place in at_depth_0(tokens, start) if word(tokens[place]) in wanted), None)


def tuples_of(tokens):
    """Of an INSERT with VALUES: where its rows begin, and the rows as lists of tokens; or None."""
    start = place_of(tokens, {"values"}) if tokens and word(tokens[0]) == "insert" else None
    if start is None:
        return None
    rows, depth = [], 0
    for token in tokens[start + 1:]:
        if token[1] == "(":
            depth += 1
            rows += [[]] if depth == 1 else []
        if depth:
            rows[-1].append(token)
        elif token[1] != ",":
            return None
        depth -= token[1] == ")"
    return start + 1, rows


def spaced(tokens):
    after = [[" ", text] for _, text in tokens]
    return after if text_of(after) != text_of(tokens) else None


def padded(tokens):
    found = tuples_of(tokens)
    if not found:
        return None
    counts = [1 + sum(row[1 + place][1] == "," for place in at_depth_0(row[1:-1])) for row in found[1]]
    after = tokens[:found[0]]
    for number, row in enumerate(found[1]):
        missing = max(counts) - counts[number]
        after += [["", ","]] if number else []
        after += row[:-1] + [["", ", NULL"]] * missing + row[-1:]
    return after if min(counts) < max(counts) else None


def twice(tokens):
    found = tuples_of(tokens)
    return tokens + [["", ","]] + found[1][0] if found and len(found[1]) == 1 else None


def typed_literals(tokens):
    return changed(tokens, lambda _, text: f"{text}::text" if text.startswith("'") else text)


def is_null_beside(tokens, place, signs):
    """Whether a bare NULL stands here, beside one of these signs."""
    beside = [tokens[at][1] for at in (place - 1, place + 1) if 0 <= at < len(tokens)]
    return word(tokens[place]) == "null" and any(text in signs for text in beside)


def typed_nulls(tokens):
    return changed(tokens, lambda at, text: "NULL::integer" if is_null_beside(tokens, at, ARITHMETIC) else text)


def held_nulls(tokens):
    return changed(tokens, lambda at, text: "held(NULL::integer)" if is_null_beside(tokens, at, ARITHMETIC) else text)


def held_compared_nulls(tokens):
    signs = ARITHMETIC | COMPARISONS
    return changed(tokens, lambda at, text: "held(NULL::integer)" if is_null_beside(tokens, at, signs) else text)


def held_bracketed_nulls(tokens):
    """As the one before, with a boolean where a bracket is on the other side, which a condition stands in."""
    def change(at, text):
        if not is_null_beside(tokens, at, ARITHMETIC | COMPARISONS):
            return text
        others = [tokens[there][1] for there in (at - 2, at + 2) if 0 <= there < len(tokens)]
        is_condition = not is_null_beside(tokens, at, ARITHMETIC) and any(it in ("(", ")") for it in others)
        return "held(NULL::boolean)" if is_condition else "held(NULL::integer)"
    return changed(tokens, change)


def texts_alone(tokens):
    return changed(tokens, lambda _, text: "||| " if text == "||" else text)


def held(tokens):
    return changed(tokens, lambda _, text: f"held({text})" if text.isdigit() or text.lower() in ("true", "false") else text)


def held_texts(tokens):
    return changed(tokens, lambda _, text: f"held({text}::text)" if text.startswith("'") else text)


def where_of(tokens):
    """The places between which the condition of the WHERE stands, or None."""
    where = place_of(tokens, {"where"})
    if where is None:
        return None
    end = place_of(tokens, ENDS_OF_WHERE, where + 1)
    return where + 1, len(tokens) if end is None else end


def from_left(tokens):
    found = where_of(tokens)
    if not found:
        return None
    start, end = found
    return tokens[:start] + [[" ", "CASE WHEN ("]] + tokens[start:end] + [["", ") THEN true END"]] + tokens[end:]


def where_first(tokens):
    source, found = place_of(tokens, {"from"}), where_of(tokens)
    if not tokens or word(tokens[0]) != "select" or not source or not found or found[1] != len(tokens):
        return None
    name = tokens[source + 1:found[0] - 1]
    if any(it[1] in ",(" or word(it) == "join" for it in name):
        return None
    alias = name[-1][1]
    inner = f" (SELECT {alias}.* FROM {name[0][1]} AS {alias} WHERE"
    return tokens[:source + 1] + [["", inner]] + tokens[found[0]:] + [["", f" ORDER BY {alias}.ctid) AS {alias}"]]


def only_row(number):
    """The rewriting of an INSERT with several rows to one that has this row alone."""
    def rewriting(tokens):
        found = tuples_of(tokens)
        return tokens[:found[0]] + found[1][number] if found and number < len(found[1]) > 1 else None
    return rewriting


# Those that concern what a statement is before it runs, and those that concern what it does when it runs.
READING = [("marks", spaced), ("short", padded), ("literals", typed_literals), ("nulls", typed_nulls)]
ANALYSING = [("texts", texts_alone), *(("errors", only_row(number)) for number in range(8))]
RUNNING = [("written", twice), ("constants", held_nulls), ("constants", held_compared_nulls),
           ("constants", held_bracketed_nulls), ("constants", held),
           ("constants", held_texts), ("left", from_left), ("where", where_first)]


def rewritten(text, state=None):
    """The forms of a statement with some differences taken away, the least changes first: their names and their texts.

    The state is that of the program's error, where it has one: an error of class 42 comes before a statement runs."""
    tokens = tokens_of(text)
    fitting = [it for it in READING + (ANALYSING if state and state.startswith("42") else RUNNING) if it[1](tokens)]
    for count in range(1, min(len(fitting), MOST_CHANGES) + 1):
        for chosen in combinations(fitting, count):
            after = tokens
            for _, rewriting in chosen:
                after = rewriting(after) if after else None
            if after:
                yield list(dict.fromkeys(name for name, _ in chosen)), text_of(after)


def known_by_answers(server, text, ours, theirs):
    """The name of the difference that the two answers tell by themselves, or None."""
    tests = [("long", is_long(ours)), ("conditions", is_of_conditions(ours, theirs)), ("nulls", theirs.state == "42725"),
             ("stored", is_of_stored_texts(server, text, ours, theirs)), ("errors", is_of_count(ours, theirs)),
             ("chains", is_of_chains(text, theirs)), ("names", is_of_names(server, ours, theirs)),
             ("waits", is_of_waits(ours, theirs)), ("queue", is_of_queue(ours, theirs))]
    return next((name for name, fits in tests if fits), None)


def is_long(ours):
    return ours.state == "54000" and "text longer" in ours.text


def is_of_conditions(ours, theirs):
    said = theirs.text or ""
    return (ours.state or "")[:2] == "42" and theirs.state == "42804" and any(f"argument of {it}" in said for it in ("AND", "OR", "NOT"))


def is_of_stored_texts(server, text, ours, theirs):
    """Whether the statement may store a number or a boolean as a text: its table has a column of texts."""
    stores = ours.state == "42804" and theirs.state in (None, "22003", "22012") and tokens_of(text)[0][1].lower() in ("insert", "update", "merge")
    return stores and any(server.ask(
        "SELECT 1 FROM pg_attribute WHERE attrelid = to_regclass(%s) AND attnum > 0 AND atttypid = 'text'::regtype",
        [f"{server.schema}_run.{name.lower()}"]) for _, name in tokens_of(text)[1:3])


def is_of_count(ours, theirs):
    later = {"42P01", "42703", "42702", "42883", "42725", "42804", "22P02"}
    return ours.state == "42601" and "number of expressions" in ours.text and theirs.state in later


def is_of_chains(text, theirs):
    return theirs.state == "42601" and 'near "IS"' in (theirs.text or "").replace('"is"', '"IS"') and "distinct" in text.lower()


def is_of_names(server, ours, theirs):
    named = (ours.text or "").split('"')[1:2]
    if theirs.state == "42601" and any(f'near "{word}"' in theirs.text.lower() for word in server.keywords):
        return ours.state != "42601"
    if ours.state == "42703" and named:
        return named[0] in SYSTEM_COLUMNS or named[0] in server.keywords or is_row(server, named[0])
    return ours.state == "42P01" and named and server.ask("SELECT to_regclass(%s)", [f"pg_catalog.{named[0]}"])[0][0]


def waits_in(answer):
    """The lines of an answer that tell for whom its statement has waited."""
    return [row for row in answer.rows if row.startswith("(waits for ")]


def is_of_waits(ours, theirs):
    """Whether the program tells an error of an evaluation at once, and the server waits first."""
    return (ours.state or "")[:2] == "22" and not waits_in(ours) and bool(waits_in(theirs))


def is_of_queue(ours, theirs):
    """Whether both wait and then answer the same, and only for whom they wait differs."""
    rest = [sorted(set(answer.rows) - set(waits_in(answer))) for answer in (ours, theirs)]
    return bool(waits_in(ours) and waits_in(theirs)) and (ours.state, ours.tag) == (theirs.state, theirs.tag) and rest[0] == rest[1]


def is_row(server, name):
    """Whether a column of this name may be a whole row there: a table of the script has the name."""
    return bool(server.ask("SELECT to_regclass(%s)", [f"{server.schema}_run.{name}"])[0][0])


def raising(state):
    """A statement that fails with this state, and does nothing else."""
    return f"DO $$ BEGIN RAISE EXCEPTION 'as the program' USING ERRCODE = '{state}'; END $$"
