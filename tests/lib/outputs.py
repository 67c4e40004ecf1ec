"""The commands whose outputs stand in README.md and docs/tutorial.md: how they are found, run and written anew.

A block that is fenced as text and begins with `$ ` has commands, each with what it prints: its standard output where
there is any, else its standard error. They run from a folder that looks like a clone with a trace: `mpimatch` is the
program, `examples` the repository's, and `mpimatch-trace` has the texts of examples/hangs/traces/NAME, by the last
comment `<!-- trace: NAME -->` above. A page's commands run one after another in one folder. A line `..` stands for any
lines.
"""
import pathlib
import re
import shutil
import subprocess
import tempfile

from program import TOP

PAGES = [TOP / "README.md", TOP / "docs" / "tutorial.md"]
BLOCK = re.compile(r"<!-- trace: (?P<trace>\w+) -->|^```text\n(?P<block>\$ .*?)^```$", re.DOTALL | re.MULTILINE)
SECONDS = 60


class Room:
    """A folder in which the commands of a page run."""

    def __init__(self, program, folder):
        self.top = self.at = pathlib.Path(folder)
        (self.top / "mpimatch").symlink_to(program)
        shutil.copytree(TOP / "examples", self.top / "examples")

    def trace(self, name):
        shutil.rmtree(self.top / "mpimatch-trace", ignore_errors=True)
        shutil.copytree(TOP / "examples" / "hangs" / "traces" / name, self.top / "mpimatch-trace")

    def run(self, command):
        """What a command prints; where it changes the folder, the next one runs there."""
        words = f'{{ {command}\n}}; pwd >"{self.top}/.at"'
        done = subprocess.run(["sh", "-c", words], cwd=self.at, stdin=subprocess.DEVNULL, capture_output=True, text=True, timeout=SECONDS)
        self.at = pathlib.Path((self.top / ".at").read_text().strip())
        return done.stdout or done.stderr


def commands_of(block):
    """The commands of a block, each with the lines that stand below it."""
    found = []
    for line in block.splitlines():
        if line.startswith("$ "):
            found.append((line[2:], []))
        else:
            found[-1][1].append(line)
    return found


def fits(shown, printed):
    """Whether lines are those that were printed, where `..` stands for any."""
    pattern = "".join("(?:.*\n)*?" if it.strip() == ".." else re.escape(it) + "\n" for it in shown)
    return re.fullmatch(pattern, "".join(f"{it}\n" for it in printed)) is not None


def run_page(program, page, each):
    """Runs the commands of a page. `each(command, shown, printed)` gives the lines that are to stand below a command;
    the page with these lines is given."""
    with tempfile.TemporaryDirectory(prefix="outputs-") as folder:
        room = Room(program, folder)

        def again(match):
            if match["trace"]:
                room.trace(match["trace"])
                return match[0]
            lines = []
            for command, shown in commands_of(match["block"]):
                printed = room.run(command).splitlines()
                lines += [f"$ {command}", *each(command, shown, printed)]
            return "\n".join(["```text", *lines, "```"])

        return BLOCK.sub(again, page.read_text())
