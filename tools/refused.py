"""The record of what was refused: edits/refused.txt, one line a crate.

A line says by which digest of the crate all of its edits were refused, how many these were, and on which day. The
digest is of the crate's src/ and specs/ without comments and its edits, and of the public contracts of the crates below
it: their specs/, and their sources without private functions, bodies, imports and comments. So a line is stale where
something changed on which it rests that an edit could notice. Only tools/try_edits writes a line, and only where it saw
every edit refused.
"""
import datetime
import functools
import hashlib
import re

from edits import TOP, below, edit_files, functions_of, sources_of

RECORD = TOP / "edits" / "refused.txt"
HEAD = """# Which crates had all of their wrong bodies refused: the crate, the digest of what that rests on (tools/refused.py), how
# many edits, and the day. `./check --edits CRATE` writes a line; nobody else does.
"""
# what of a source file no contract depends on
IMPORT = re.compile(r"^[ ]*(?:pub |ghost )?use [^;]*;$", re.MULTILINE)
ASIDE = ("//", "mod ", "pub mod ")


def head_rows(rows, function):
    """The rows of a function up to its body: its attributes, its name and its clauses."""
    indent = rows[function.last][: len(rows[function.last]) - len(rows[function.last].lstrip())]
    for row in range(function.first, function.last + 1):
        if rows[row] == indent + "{" or rows[row].startswith(indent) and rows[row].endswith(" {") and "fn " in rows[row]:
            return rows[function.first : row + 1]
    return rows[function.first : function.last + 1]


def is_public(rows, function):
    """Whether a function can be called from another crate, as far as its text tells: also one of a trait or its
    impl."""
    return function.is_of_trait or any(it.lstrip().startswith(("pub fn", "pub const fn", "pub unsafe fn")) for it in rows[function.first : function.last + 1])


def contracts_in(file, text):
    """The lines of a source file without private functions, bodies, imports and comments."""
    rows = IMPORT.sub(lambda it: "\n" * it[0].count("\n"), text).split("\n")
    kept = dict(enumerate(rows))
    for function in functions_of(file, text):
        heads = head_rows(rows, function) if is_public(rows, function) else []
        for row in range(function.first + len(heads), function.last + 1):
            kept.pop(row, None)
    return [it for _, it in sorted(kept.items()) if it.strip() and not it.lstrip().startswith(ASIDE)]


def without_comments(text, sign):
    return [it for it in text.split("\n") if it.strip() and not it.lstrip().startswith(sign)]


def specs_of(name):
    home = TOP / "crates" / name
    return [(str(it.relative_to(home)), without_comments(it.read_text(), "--")) for it in sorted(home.glob("specs/**/*.antt"))]


@functools.cache
def promises_of(name):
    """All that a crate above can build on, as text."""
    return repr([specs_of(name), [(file, contracts_in(file, text)) for file, text in sources_of(name).items()]])


def digest_of(name, uses):
    """What a line of the record rests on, as 16 digits."""
    parts = [[(file, without_comments(text, "//")) for file, text in sources_of(name).items()], specs_of(name), [(it.name, it.read_text()) for it in edit_files(name)]]
    parts += [(low, promises_of(low)) for low in sorted(below(name, uses))]
    return hashlib.sha256(repr(parts).encode()).hexdigest()[:16]


def lines():
    """The lines of the record, by their crate."""
    text = RECORD.read_text() if RECORD.exists() else ""
    return {it.split()[0]: it for it in text.split("\n") if it and not it.startswith("#")}


def recorded(name):
    """The digest of a crate as it was when all of its edits were refused; empty where the record has no line of it."""
    line = lines().get(name, "").split()
    return line[1] if len(line) == 4 else ""


def write(name, digest, count, uses):
    """Writes the line of a crate of which all edits, so many, were refused."""
    today = datetime.date.today().isoformat()
    all_lines = lines() | {name: f"{name} {digest} {count} {today}"}
    RECORD.write_text(HEAD + "".join(f"{all_lines[it]}\n" for it in uses if it in all_lines))
