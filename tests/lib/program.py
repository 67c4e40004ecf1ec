"""What the scripts of tests/run share: the built program, runs of it, texts of calls, sizes of frames, and the count of
checks."""
import functools
import importlib.machinery
import importlib.util
import itertools
import json
import os
import pathlib
import pickle
import signal
import struct
import subprocess
import sys
import tempfile
import traceback

LIB = pathlib.Path(__file__).resolve().parent
TESTS = LIB.parent
CASES, ROWS, TOP = TESTS / "cases", TESTS / "rows", TESTS.parent
SECONDS = 300
NOBODY = 65534
# the kind of the part of an ELF file that names its loader
LOADER = 3
# the verbs that read texts by several threads
READING = ["explain", "graph", "page", "report", "calls", "timeline", "replay", "check", "pack", "init"]
# by how many they are told to, from run to run
TURNS = itertools.cycle([1, 3])
# a segment has at most 65,536 events, two for each call
CALLS_OF_A_SEGMENT = 32_768
# bytes of a frame that may follow its length field, and those of the count of runs
LONGEST, COUNT = 67_108_864, 4
# rank, first place and count of a run; kind of a cell; kind, wall and CPU time of an event
RUN, CELL, EVENT = 16, 1, 17
# By docs/formats/frames.md the Enter of a call that waits for requests has their number (4 bytes) and each of them (8),
# and its Return as many told sources (4 each). So many calls of so many requests, all in one run, fit a frame, and no
# more.
REQUESTS = 32_000
MOST_HEAVY = (LONGEST - COUNT - RUN) // (2 * (CELL + EVENT + 4) + 12 * REQUESTS)


class Checks:
    """Counts checks, shows each that fails, and ends a script with the line `N passed, M failed`."""

    def __init__(self, show=print):
        self.passed = self.failed = self.left_out = 0
        self.show = show

    def told(self, name, ok, why=""):
        self.passed, self.failed = (self.passed + 1, self.failed) if ok else (self.passed, self.failed + 1)
        if not ok:
            self.show(f"FAILED: {name}: {why[:2000]}")

    def leave_out(self, why):
        """Says what can't be checked on this machine."""
        self.left_out += 1
        self.show(f"note: {why}")

    def end(self):
        """Prints the counts, and gives the status of the script: it fails where a check failed, or none ran or was left
        out."""
        print(f"{self.passed} passed, {self.failed} failed")
        return 0 if (self.passed or self.left_out) and not self.failed else 1


def do_one(work, item, room):
    """What the work of an item counted, showed and answered."""
    shown = []
    checks = Checks(shown.append)
    try:
        answer = work(checks, item, room)
    except Exception:
        checks.told(f"{item!r:.200}", False, traceback.format_exc())
        answer = None
    return checks.passed, checks.failed, shown, answer


def do_some(items, work, lay_out, queue, out):
    """Does the work of one item after another, as their numbers come from the queue, in a folder of its own."""
    found = {}
    with tempfile.TemporaryDirectory(prefix="checks-") as folder:
        room = pathlib.Path(folder)
        room.chmod(0o755)
        if lay_out:
            lay_out(room)
        while number := os.read(queue, 4):
            at = int.from_bytes(number, "little")
            found[at] = do_one(work, items[at], room)
        os.chdir(TOP)
    with open(out, "wb") as file:
        pickle.dump(found, file)


def by_workers(checks, items, work, lay_out=None):
    """Calls `work(checks, item, room)` of each item, by as many processes as there are processors, and gives what it
    answered, in the order of the items. The room is a folder of each process, in which `lay_out(room)` may put files
    first."""
    items, found, workers = list(items), {}, []
    sys.stdout.flush()
    with tempfile.TemporaryDirectory(prefix="workers-") as folder, open(f"{folder}/queue", "wb+") as queue:
        queue.write(b"".join(at.to_bytes(4, "little") for at in range(len(items))))
        queue.seek(0)
        for at in range(min(len(items), len(os.sched_getaffinity(0)))):
            out = f"{folder}/{at}"
            worker = os.fork()
            if not worker:
                status = 1
                try:
                    do_some(items, work, lay_out, queue.fileno(), out)
                    status = 0
                except BaseException:
                    traceback.print_exc()
                finally:
                    # (the parent's open files and folders are its own)
                    os._exit(status)
            workers.append((worker, out))
        for worker, out in workers:
            if os.waitstatus_to_exitcode(os.waitpid(worker, 0)[1]) == 0:
                with open(out, "rb") as file:
                    found |= pickle.load(file)
    for at, item in enumerate(items):
        passed, failed, shown, _ = found.setdefault(at, (0, 1, [f"FAILED: {item!r:.200}: the process that was at it ended"], None))
        checks.passed, checks.failed = checks.passed + passed, checks.failed + failed
        for line in shown:
            checks.show(line)
    return [found[at][3] for at in range(len(items))]


def found_program():
    """The program of these sources: bin/mpimatch, where the digest beside it is theirs, else the one that was built
    here."""
    program, beside = TOP / "bin" / "mpimatch", TOP / "bin" / "sources.sha256"
    if program.exists() and beside.exists():
        digest, kit = beside.read_text().rstrip("\n").split(" ", 1)
        now = subprocess.run([TOP / "tools" / "sources", kit], capture_output=True, text=True, check=True).stdout.strip()
        if now == digest:
            return program
    return TOP / "crates" / "mpimatch" / "out" / "mpimatch"


def program_of(words):
    """The program that is the first of these words (without one that of these sources), and the other words; None where
    it isn't there."""
    program = pathlib.Path(words[0]).resolve() if words else found_program()
    if not program.is_file() or not os.access(program, os.X_OK):
        print(f"{program} is not built: run ./mpimatch --version, which proves and builds it")
        program = None
    return program, words[1:]


def is_alone(program):
    """Whether a program (ELF) names no loader: it runs without a library of the machine."""
    file = program.read_bytes()
    table, size, count = struct.unpack_from("<Q", file, 0x20)[0], *struct.unpack_from("<HH", file, 0x36)
    return LOADER not in [struct.unpack_from("<I", file, table + at * size)[0] for at in range(count)]


def script(name, folder=TESTS / "run"):
    """A script of tests/run, or of another folder, as a module."""
    loader = importlib.machinery.SourceFileLoader(name, str(folder / name))
    module = importlib.util.module_from_spec(importlib.util.spec_from_loader(name, loader))
    sys.modules[name] = module
    loader.exec_module(module)
    return module


def by_threads(words, count):
    """The words of a run, told to read texts by so many threads; as they are where they ask for no such verb, or for
    its help."""
    plain = [os.fsdecode(it) for it in words]
    if plain[:1] == [] or plain[0] not in READING or {"--threads", "-h", "--help"} & {*plain}:
        return [*words]
    more = ["--threads", str(count)]
    return [words[0], *([os.fsencode(it) for it in more] if isinstance(words[0], bytes) else more), *words[1:]]


def in_turn(words):
    """The words of a run, told to read texts by one thread and by three in turn."""
    return by_threads(words, next(TURNS))


def in_memory(name):
    """A file that is nowhere but in memory."""
    return open(os.memfd_create(name), "rb+", buffering=0)


@functools.cache
def streams_of(process):
    """The files of a process for the two streams of the programs that it runs, one after another."""
    return in_memory("out"), in_memory("err")


def overdue(*_):
    raise TimeoutError(f"it has run for {SECONDS} s")


def finished(program, folder, words):
    """The status of the program in a folder, and its two streams as bytes. This takes a third of the time of
    `subprocess.run`, which counts where a program runs for a millisecond."""
    streams = streams_of(os.getpid())
    given = [(os.POSIX_SPAWN_OPEN, 0, os.devnull, os.O_RDONLY, 0)]
    for at, file in enumerate(streams, 1):
        file.seek(0)
        file.truncate()
        given.append((os.POSIX_SPAWN_DUP2, file.fileno(), at))
    here = os.open(".", os.O_PATH)
    signal.signal(signal.SIGALRM, overdue)
    os.chdir(folder)
    try:
        process = os.posix_spawn(program, [program, *words], os.environ, file_actions=given, setsigdef=[signal.SIGPIPE, signal.SIGXFSZ])
    finally:
        os.fchdir(here)
        os.close(here)
    signal.alarm(SECONDS)
    try:
        _, status = os.waitpid(process, 0)
    except TimeoutError:
        os.kill(process, signal.SIGKILL)
        os.waitpid(process, 0)
        raise
    finally:
        signal.alarm(0)
    for file in streams:
        file.seek(0)
    return os.waitstatus_to_exitcode(status), *(it.read() for it in streams)


def run(program, room, *words, manifest=None, plain=False, **how):
    """The status of the program in a folder, and its two streams; with a manifest, that is written first, and named
    last. Texts are read by one thread and by three in turn, unless the words are to stay as they are."""
    if manifest is not None:
        (room / "manifest.json").write_text(json.dumps(manifest))
        words = [*words, "layout.json", "manifest.json"]
    words = words if plain else in_turn(words)
    if how:
        done = subprocess.run([program, *words], cwd=room, stdin=subprocess.DEVNULL, capture_output=True, timeout=SECONDS, **how)
        return done.returncode, done.stdout.decode(), done.stderr.decode()
    status, out, err = finished(program, room, words)
    return status, out.decode(), err.decode()


def call(name, at, *parameters, shift=0, returns=True):
    """The text of a call, the one of this number of its rank: it was entered at that second, and returned half a second
    later."""
    lines = [f"{name} entering at walltime {at + shift}.0, cputime 0.0 seconds in thread 0."]
    lines += [f"int {it}" for it in parameters]
    if returns:
        lines.append(f"{name} returning at walltime {at + shift}.5, cputime 0.0 seconds in thread 0.")
    return "\n".join([*lines, ""])


def heavy_calls(first, count):
    """The text of so many calls that each wait for REQUESTS requests, from the one of this number of its rank on."""
    value = "requests={" + ",".join(["4"] * REQUESTS) + "}"
    return "".join(call("MPI_Waitall", first + at, value) for at in range(count))
