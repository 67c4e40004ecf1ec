"""Where a program asks for memory: its functions and the calls between them, read from the file of the program (ELF,
x86-64)."""
import bisect
import struct

CALL, JUMP = 0xE8, 0xE9
ALLOCATORS = ("rattle_alloc", "rattle_realloc")


class Sites:
    """The places in functions of some crates from which a request for memory comes: each call of an allocator, or of a
    function of another crate that comes to one. `all` has them, each as its place in the program."""

    def __init__(self, path, crates):
        self.crates = set(crates)
        file = path.read_bytes()
        sections = sections_of(file)
        self.starts, self.ends, self.names = functions_of(file, sections)
        self.text_at, self.text = part(file, sections[".text"])
        self.calls, jumps = self.direct(CALL), self.direct(JUMP)
        self.jumps = {(self.function(at), to) for at, to in jumps.items()}
        askers = self.askers({**jumps, **self.calls})
        self.all = {at for at, to in self.calls.items() if to in askers and self.is_of_crates(self.function(at))}

    def function(self, at):
        """The start of the function that holds this place; None where none does."""
        n = bisect.bisect_right(self.starts, at) - 1
        return self.starts[n] if n >= 0 and at < self.ends[n] else None

    def name(self, at):
        """The name of the function that holds this place, without what tells its types."""
        return self.names[self.function(at)].split("::<#")[0]

    def is_of_crates(self, start):
        return start is not None and self.names[start].replace("+", ":").split(":")[0] in self.crates

    def direct(self, code):
        """The calls or jumps to the start of a function: by the place of each, that function."""
        found, at = {}, self.text.find(code)
        while at >= 0:
            to = self.text_at + at + 5 + int.from_bytes(self.text[at + 1:at + 5], "little", signed=True)
            if to in self.names:
                found[self.text_at + at] = to
            at = self.text.find(code, at + 1)
        return found

    def askers(self, calls):
        """The allocators, and the functions of other crates that come to one of them by functions of other crates
        alone."""
        callers = {}
        for at, to in calls.items():
            callers.setdefault(to, set()).add(self.function(at))
        found = {it for it, name in self.names.items() if name in ALLOCATORS}
        more = list(found)
        while more:
            for it in callers.get(more.pop(), ()):
                if it is not None and it not in found and not self.is_of_crates(it):
                    found.add(it)
                    more.append(it)
        return found

    def of_stack(self, base, stack):
        """The place of `all` from which a request came, by the stack: its first word is the address to which the
        request returns, and the program lies at `base`. None where no chain of direct calls leads there."""
        now = self.function(stack[0] - base)
        for it in stack[1:]:
            at = it - base - 5
            to = self.calls.get(at)
            # (a function can end in a jump to another, which then returns to the caller of the first)
            if to is not None and (to == now or (to, now) in self.jumps):
                now = self.function(at)
                if self.is_of_crates(now):
                    return at
        return None


def sections_of(file):
    """The headers of the sections, by name: kind, address, offset, size, link."""
    table, size, count, names = struct.unpack_from("<Q10xHHH", file, 0x28)
    heads = [struct.unpack_from("<IIQQQQI", file, table + n * size) for n in range(count)]
    return {text(file, heads[names][4] + it[0]): (it[1], *it[3:]) for it in heads}


def part(file, section):
    _, at, offset, size, _ = section
    return at, file[offset:offset + size]


def text(file, at):
    return file[at:file.index(b"\0", at)].decode()


def functions_of(file, sections):
    """The starts of all functions, in order, the end of each, and the names by start."""
    _, symbols = part(file, sections[".symtab"])
    strings = sections[".strtab"][2]
    found = {}
    for name, info, _, _, at, size in struct.iter_unpack("<IBBHQQ", symbols):
        if info & 15 == 2 and size:
            found[at] = (at + size, text(file, strings + name))
    starts = sorted(found)
    return starts, [found[it][0] for it in starts], {it: found[it][1] for it in starts}
