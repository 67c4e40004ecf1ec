"""Runs of the built program in which the system refuses one request: what tests/run/run_refusals and
tests/run/run_devices share."""
import ctypes
import itertools
import mmap
import os
import pathlib
import re
import shutil
import struct
import subprocess
from collections import Counter, namedtuple

from program import CASES, LIB, TOP, in_memory, is_alone

SECONDS = 300
# `struct seen` of tests/lib/refuse.c
KINDS = ["memory", "system", "thread", "net", "open", "read", "write", "recv", "send", "stranger"]
HEAD, STACK = struct.Struct(f"=Q {len(KINDS)}Q 8Q 256s Q"), 8 * 4096
# the descriptors on which its forks look for their files
LOG, OUTS, ERRS = 200, 201, 202
# how many forks one run makes at most (their numbers are one word of its environment)
FORKS = 10_000

# how a run ended: its status, its two streams, how many requests of each kind were met, and for memory before a file was
# opened; which one was refused (0: none), its file, what that had moved before, the stack and where the program lies;
# and the most memory of the run, in KB
Ran = namedtuple("Ran", "status out err met before refused file moved stack base memory")
# what the library notes of a run: beside that how its fork ended, what the run had said before, and where the two files
# of the forks end
Seen = namedtuple("Seen", "base met before refused moved status said ends file stack")
# a name, the words of the run, and the folder in which it runs
Case = namedtuple("Case", "name words room")


def refusable(checks, program, room):
    """The program and tests/lib/refuse.c as a library that is laid before it; neither where this machine can't do that.
    A program without a loader takes no library: then the one beside it does, which is the same but for its C
    library."""
    if is_alone(program):
        program = program.with_name(f"{program.name}-dynamic")
    try:
        subprocess.run([program, "--version"], capture_output=True, check=True)
    except (OSError, subprocess.CalledProcessError) as error:
        checks.leave_out(f"{program} doesn't start here, so nothing was refused: {error}")
        return None, None
    library = compiled(room)
    if not library:
        checks.leave_out("no C compiler is here that makes tests/lib/refuse.c (cc, gcc or clang), so nothing was refused")
    return library and program, library


def compiled(room):
    """tests/lib/refuse.c as a library, by a C compiler of the machine or by the kit's; None without one."""
    library = room / "refuse.so"
    kit = []
    if shutil.which("rt"):
        start = subprocess.run(["rt", "doc"], capture_output=True, text=True, check=False).stdout.split("\n")[0]
        kit = [str(pathlib.Path(start).parent / "toolchain" / "bin" / "clang")]
    for compiler in [*filter(None, map(shutil.which, ("cc", "gcc", "clang"))), *kit]:
        words = [compiler, "-O1", "-fno-omit-frame-pointer", "-fno-builtin", "-shared", "-fPIC", "-nostdlib", "-o", library, LIB / "refuse.c"]
        if subprocess.run(words, capture_output=True, check=False).returncode == 0:
            return library
    return None


def seen_of(noted, at=0):
    base, *counts = HEAD.unpack_from(noted, at)
    met, (before, refused, moved, status, *ends, path, words) = counts[:len(KINDS)], counts[len(KINDS):]
    stack = memoryview(noted)[at + HEAD.size:at + HEAD.size + 8 * words].cast("Q")
    return Seen(base, dict(zip(KINDS, met)), before, refused, moved, status, ends[:2], ends[2:], os.fsdecode(path.rstrip(b"\0")), stack)


def contents(file):
    file.seek(0)
    return file.read()


class Refuser:
    """Runs the program, with one request refused by a compiled library, or each of several in a fork of its own, in the
    folder of a case; what that notes lies in a room. It runs on one processor, unless it is to run on all: several threads
    would make their requests in another order each time."""

    def __init__(self, program, library, room, on_all=False):
        self.program, self.library, self.room, self.runs = program, library, room, 0
        # (the one on which this waits for it is free)
        self.processor = None if on_all else ctypes.CDLL(None).sched_getcpu
        self.streams = [in_memory(it) for it in ("out", "err")]
        self.of_forks = [in_memory(it) for it in ("log", "outs", "errs")]
        with open(room / "seen", "wb+") as file:
            file.truncate(HEAD.size + STACK)
            self.seen = mmap.mmap(file.fileno(), 0)

    def run(self, case, kind="none", at=0, how="fail"):
        status, memory = self.start(case, f"{kind}:{at}:{how}", zip(self.streams, (1, 2)))
        return ran_of(seen_of(self.seen[:]), status, *map(contents, self.streams), memory)

    def forks(self, case, kind, numbers, how):
        """How a run ends that starts no thread, and how its forks end, in each of which one of these requests is refused."""
        files = zip([*self.streams, *self.of_forks], (1, 2, LOG, OUTS, ERRS))
        status, memory = self.start(case, f"{kind}:{','.join(map(str, numbers))}:{how}", files, REFUSE_FORKS="yes")
        said, (log, *written) = [*map(contents, self.streams)], map(contents, self.of_forks)
        forked, at, begins = [], 0, [0, 0]
        while at < len(log):
            seen = seen_of(log, at)
            both = (first[:end] + more[begin:stop] for first, end, more, begin, stop in zip(said, seen.said, written, begins, seen.ends))
            forked.append(ran_of(seen, seen.status, *both, memory))
            at, begins = at + HEAD.size + 8 * len(seen.stack), seen.ends
        return ran_of(seen_of(self.seen[:]), status, *said, memory), forked

    def start(self, case, refused, files, **more):
        """Runs the program with these descriptors of its own, and gives its status and its memory."""
        self.runs += 1
        self.seen[:HEAD.size] = bytes(HEAD.size)
        given = [(os.POSIX_SPAWN_OPEN, 0, os.devnull, os.O_RDONLY, 0)]
        for file, descriptor in files:
            file.seek(0)
            file.truncate()
            given.append((os.POSIX_SPAWN_DUP2, file.fileno(), descriptor))
        told = {"LD_PRELOAD": str(self.library), "REFUSE": refused, "REFUSE_SEEN": str(self.room / "seen"), "REFUSE_SECONDS": str(SECONDS), **more}
        os.chdir(case.room)
        processors = os.sched_getaffinity(0)
        if self.processor:
            os.sched_setaffinity(0, [self.processor()])
        process = os.posix_spawn(self.program, ["mpimatch", *case.words], told, file_actions=given)
        if self.processor:
            os.sched_setaffinity(0, processors)
        _, status, used = os.wait4(process, 0)
        return status, used.ru_maxrss


def ran_of(seen, status, out, err, memory):
    return Ran(os.waitstatus_to_exitcode(status), out.decode(), err.decode(), seen.met, seen.before, seen.refused, seen.file, seen.moved, seen.stack, seen.base, memory)


def ended(ran):
    return ran.status, ran.out, ran.err


def without_words(end):
    """How a run ended, without the words that `explain` says below a fault's line."""
    status, out, err = end
    return status, out, re.sub(r"(?m)^(mpimatch: .*\n)(?:  .*\n)+\Z", r"\1", err)


def without_sites(case, end):
    """How `explain` or `graph` ended, without what a second look at the texts finds: where calls stand, and names of
    functions that aren't read. A person's words are left in outline, since ranks that differ in a line alone share one
    without it."""
    status, out, err = end
    plain = [re.sub(r",? ?[\w./-]+\.(txt|c)\b(:\d+)?( in \w+)?", "", it) for it in out.splitlines()]
    return status, [it for it in plain if case.words[0] == "graph" or not it.startswith(" ")], err


def second_looks(case, whole, ran):
    """How `explain` and `graph` may end where they can't look at a text once more: without what that would have
    told. `calls` and `timeline` have the same lines then, without names."""
    if case.words[:1] in (["explain"], ["graph"]) and without_sites(case, ended(ran)) == without_sites(case, ended(whole)):
        yield ended(ran)
    if case.words[:1] in (["calls"], ["timeline"]) and ran.status == whole.status == 0 and ran.out.count("\n") == whole.out.count("\n"):
        yield ended(ran)


def fault(line):
    """How a run ends that is refused, without words below the line."""
    return 1, "", f"mpimatch: {line}\n"


def after_notes(whole, line):
    """How a run ends that is refused behind what it has said on standard error, as one over texts alone."""
    return 1, "", f"{whole.err}mpimatch: {line}\n"


class Sweep:
    """Refuses the requests of a kind in turn."""

    def __init__(self, checks, refuser):
        self.checks, self.refuser, self.refused = checks, refuser, Counter()

    def over(self, case, kind, how, wanted, numbers=None, note=None, share=(0, 1), whole=None):
        """Refuses the requests of these numbers (None: each), and looks how each run ends; then one in which none is
        refused. `wanted` tells by the case, the run without a refusal and the one with it, how that may end, with words
        below a fault's line or without; `note` gets the latter. Of a share (K, N) every Nth of the numbers is refused, from
        the Kth on. A run without a refusal may be given, if there is one."""
        whole = whole or self.refuser.run(case)
        numbers = itertools.islice(numbers(whole) if numbers else itertools.count(1), share[0], None, share[1])
        wrong, is_sound = [], {}
        for ran in self.each(case, kind, how, whole, numbers):
            if not ran.refused:
                if ended(ran) != ended(whole):
                    wrong.append(f"none of {kind}: came {ended(ran)}, wanted {ended(whole)}")
                continue
            self.refused[kind, how] += 1
            if note:
                note(ran)
            # (most of them end in one of a few ways)
            way = (ended(ran), ran.file, ran.moved)
            if way not in is_sound:
                is_sound[way] = not {ended(ran), without_words(ended(ran))}.isdisjoint(wanted(case, whole, ran))
            if not is_sound[way]:
                wrong.append(f"{kind} {ran.refused} {ran.file} {ran.moved}: came {ended(ran)}, wanted {wanted(case, whole, ran)}")
        of = f", {share[0] + 1} of {share[1]}" if share[1] > 1 else ""
        self.checks.told(f"{case.name}: {kind} {how}{of}", not wrong, f"{len(wrong)} of them: {wrong[:1]}")

    def each(self, case, kind, how, whole, numbers):
        """The runs in which these requests are refused, and one that meets none of them. They are forks of one run, unless
        that starts a thread."""
        if whole.met["thread"]:
            for at in numbers:
                ran = self.refuser.run(case, kind, at, how)
                yield ran
                if not ran.refused:
                    break
            return
        numbers = list(itertools.takewhile(lambda at: at <= whole.met[kind], numbers))
        for some in (numbers[at:at + FORKS] for at in range(0, len(numbers), FORKS)):
            none, forked = self.refuser.forks(case, kind, some, how)
            if [it.refused for it in forked] != some:
                raise AssertionError(f"{case.name}: of {some} {[it.refused for it in forked]} were refused")
            yield from forked
            yield none


def folders(room):
    """The folders of tests/cases/ whose streams and files are as usual and where nothing is written, each laid out in a
    folder of its own."""
    for folder in sorted(CASES.iterdir()):
        if any((folder / it).exists() for it in ("full", "terminal", "unreadable", "writable")):
            continue
        data = folder / "data"
        if (folder / "example").exists():
            data = TOP / "examples" / (folder / "example").read_text().strip()
        to = room / folder.name
        shutil.copytree(data, to) if data.is_dir() else to.mkdir(parents=True)
        args = (folder / "args").read_bytes() if (folder / "args").exists() else b"report\nlayout.json\nmanifest.json\n"
        yield Case(folder.name, os.fsdecode(args).split("\n")[:-1], to)


def is_cluster(case):
    return case.words[:1] == ["cluster"]
