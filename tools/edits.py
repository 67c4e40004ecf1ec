"""What a wrong body is: an edit, the functions that it changes, and what the prover says of these.

An edit is a file NAME.edit with a line `file: src/x.rt` and then pairs of lines `old: TEXT` and `new: TEXT`, each TEXT
one line and each `old` standing once. It turns the meaning of a function, and the prover must refuse that function. The
edits of a crate stand in edits/CRATE/. Those that every `rt ci` tries stand in crates/CRATE/must-fail/ too: rt takes no
links.
"""
import pathlib
import re
import sys
from dataclasses import dataclass, field

TOP = pathlib.Path(__file__).resolve().parent.parent

# a source file as `rt fmt` lays it out
FUNCTION = re.compile(r"(\s*)(?:pub(?:\([^)]*\))? )?(?:const )?(?:unsafe )?fn (\w+)")
CYCLE = re.compile(r"\s*#\[cycle\((\w+)\)\]")
BLOCK = re.compile(r"(?:pub )?(?:unsafe )?(?:impl|trait)(?:<.*?>)? (?:(?:\w+::)*(\w+)(?:<.*>)? for )?(?:\w+::)*(\w+)")
# what `rt check` says of a goal, of a proof, of a text that does not compile, and whether it came to the proofs at all
GOAL = re.compile(r"note: (?:\./)?(src/\S+?\.rt):(\d+):\d+: (it is not proved that .*)")
PROOF = re.compile(r"(?:\./)?proofs/(\S+)/(?:Answers|Invariants|Proof)\.antt:\d+:\d+: error: (.*)")
CODE = re.compile(r"(?:\./)?(src/\S+?\.rt):(\d+):\d+: error(?:\[[\w-]+\])?: (.*)")
ERROR = re.compile(r": error(?:\[[\w-]+\])?: ")
VERDICT = re.compile(r"^logic=(proved|not-proved)", re.MULTILINE)
LOST_NAME = re.compile(r"has no field|is not in scope|has no `|was not admitted|is no name")


@dataclass(frozen=True)
class Function:
    """A function of a source file, its rows from its attributes on, the impl or trait that it stands in, and the cycle
    of functions that it is proved with."""

    file: str
    name: str
    first: int
    last: int
    block: str
    is_of_trait: bool
    cycle: str

    def holds(self, file, row):
        return file == self.file and self.first <= row <= self.last

    def is_proved_in(self, folder):
        """Whether its proof files lie in this folder of proofs/: MODULE/NAME, MODULE/BLOCK/NAME, or MODULE/+CYCLE."""
        module = [it for it in self.file.removeprefix("src/").removesuffix(".rt").split("/") if it not in ("lib", "main")]
        *parts, name = folder.split("/")
        if parts == module and self.cycle and name == "+" + self.cycle:
            return True
        if name != self.name or parts[: len(module)] != module:
            return False
        between = "/".join(parts[len(module) :])
        # (of an impl of a trait, the trait's parameters follow)
        return between.startswith(self.block) if self.is_of_trait else between == self.block


def functions_of(file, text):
    """The functions of a file that have a body."""
    rows, block, is_of_trait = text.split("\n"), "", False
    for row, line in enumerate(rows):
        if found := BLOCK.match(line):
            block, is_of_trait = found[2] + (found[1] or ""), bool(found[1])
        started = FUNCTION.match(line)
        if started and line.endswith("}"):
            last = row
        elif started:
            last = next((it for it in range(row, len(rows)) if rows[it] == started[1] + "}"), row)
        else:
            continue
        inside, first = started[1] != "", row
        while first > 0 and rows[first - 1].lstrip().startswith("#["):
            first -= 1
        cycle = next((found[1] for it in rows[first:row] if (found := CYCLE.match(it))), "")
        yield Function(file, started[2], first, last, block if inside else "", is_of_trait and inside, cycle)


@dataclass
class Edit:
    """A wrong body: what it puts in place of what, and the functions that it changes."""

    name: str
    pairs: list = field(default_factory=list)
    functions: set = field(default_factory=set)
    fault: str = ""

    def put_into(self, texts):
        """The texts with the edit in them, or None where an `old` doesn't stand there once."""
        texts = dict(texts)
        for file, old, new in self.pairs:
            if texts.get(file, "").count(old) != 1:
                return None
            texts[file] = texts[file].replace(old, new)
        return texts

    def is_reported_at(self, line, pattern):
        """What a line of `rt check` by this pattern says of a function that the edit changes."""
        if not (at := pattern.match(line)):
            return None
        if pattern is PROOF:
            return at[2] if any(it.is_proved_in(at[1]) for it in self.functions) else None
        return at[3] if any(it.holds(at[1], int(at[2]) - 1) for it in self.functions) else None

    def reports(self, output, *patterns):
        """All that is said of its functions, lost names last."""
        said = [self.is_reported_at(line, it) for line in output.split("\n") for it in patterns]
        return sorted(filter(None, said), key=lambda it: bool(LOST_NAME.search(it)))


def read_edit(path, texts):
    """The edit of a file, whose `fault` says why it is none."""
    edit, file, old = Edit(path.stem), "", ""
    for line in path.read_text().removesuffix("\n").split("\n"):
        key, _, value = line.partition(": ")
        if key == "file":
            file = value
        elif key == "old":
            old = value
        elif key in ("new", "new:") and old:
            edit.pairs.append((file, old, value))
        else:
            edit.fault = f"no line `file: `, `old: ` or `new: `: {line}"
    for file, old, new in edit.pairs:
        text = texts.get(file, "")
        row = text.split(old)[0].count("\n")
        # (of a function within another, the inner one)
        around = [it for it in functions_of(file, text) if it.holds(file, row)]
        if text.count(old) != 1:
            edit.fault = f"its text stands {text.count(old)} times in {file}: {old}"
        elif not around:
            edit.fault = f"it changes no function: {old}"
        else:
            edit.functions.add(around[-1])
            texts = {**texts, file: text.replace(old, new)}
    if not edit.pairs:
        edit.fault = edit.fault or "it has no pair of `old: ` and `new: `"
    return edit


def groups_of(edits):
    """The edits in groups, in each of which no two change one function."""
    groups = []
    for edit in edits:
        fitting = (group for group in groups if not any(it.functions & edit.functions for it in group))
        if (group := next(fitting, None)) is None:
            groups.append([edit])
        else:
            group.append(edit)
    return groups


def listed():
    """The crates of crates.txt, lowest first, and what each lists."""
    lines = [line.partition("#")[0].partition(":") for line in (TOP / "crates.txt").read_text().split("\n")]
    left, found = {head.split()[0]: rest.split() for head, colon, rest in lines if colon}, {}
    while left:
        ready = [it for it in left if not left.keys() & set(left[it])]
        if not ready:
            sys.exit("crates.txt: its crates use each other in a circle")
        found |= {it: left.pop(it) for it in ready}
    return found


def below(name, uses):
    """The libraries of the repository that a crate stands on, itself not among them."""
    found = set()
    for it in uses[name]:
        if it in uses:
            found |= {it} | below(it, uses)
    return found


def edit_files(name):
    """The files of a crate's edits, those last that `rt ci` tries too."""
    of_ci = {it.name for it in (TOP / "crates" / name / "must-fail").glob("*.edit")}
    return sorted((TOP / "edits" / name).glob("*.edit"), key=lambda it: (it.name in of_ci, it))


def sources_of(name):
    """The text of each source file of a crate, by its path in the crate."""
    home = TOP / "crates" / name
    return {str(it.relative_to(home)): it.read_text() for it in sorted(home.glob("src/**/*.rt"))}


def standing(names):
    """Of each edit of these crates its crate, its name, and why it can't be put into the sources as they are; empty
    where it can."""
    for name in names:
        texts = sources_of(name)
        for path in edit_files(name):
            edit = read_edit(path, texts)
            yield name, edit.name, edit.fault
