#!/usr/bin/env python3
"""Makes a GOAL schedule, which LogGOPSim simulates, of a table of calls: goal.py CALLS.csv >run.goal

CALLS.csv is what `mpimatch calls` prints. Each rank computes from the return of a call to the entry of the next one.
A message that has a partner is a send and a receive of one tag, the number of its pair, so they match as they did. One
that has none is left out, since it would never end. What a call posts goes on beside the calls behind it, up to the
call that completes it. A collective call is messages between its members and the root, or else the first member: from
it, to it, or both, by the function. So neither the algorithm of a library nor the time within calls is simulated.

Sizes are bytes: those that the table tells, else the count times the size of a datatype of a known name, else 1.
"""
import csv
import sys
from collections import defaultdict

# the sizes of datatypes by name, as they are on 64-bit machines
SIZES = {
    "MPI_CHAR": 1, "MPI_SIGNED_CHAR": 1, "MPI_UNSIGNED_CHAR": 1, "MPI_BYTE": 1, "MPI_PACKED": 1, "MPI_INT8_T": 1, "MPI_UINT8_T": 1, "MPI_C_BOOL": 1,
    "MPI_SHORT": 2, "MPI_UNSIGNED_SHORT": 2, "MPI_INT16_T": 2, "MPI_UINT16_T": 2,
    "MPI_INT": 4, "MPI_UNSIGNED": 4, "MPI_FLOAT": 4, "MPI_INT32_T": 4, "MPI_UINT32_T": 4, "MPI_WCHAR": 4, "MPI_INTEGER": 4, "MPI_REAL": 4, "MPI_LOGICAL": 4,
    "MPI_LONG": 8, "MPI_UNSIGNED_LONG": 8, "MPI_LONG_LONG": 8, "MPI_LONG_LONG_INT": 8, "MPI_UNSIGNED_LONG_LONG": 8, "MPI_DOUBLE": 8, "MPI_INT64_T": 8,
    "MPI_UINT64_T": 8, "MPI_AINT": 8, "MPI_OFFSET": 8, "MPI_COUNT": 8, "MPI_DOUBLE_PRECISION": 8, "MPI_COMPLEX": 8, "MPI_FLOAT_INT": 8, "MPI_2INT": 8,
    "MPI_DOUBLE_COMPLEX": 16, "MPI_LONG_DOUBLE": 16, "MPI_DOUBLE_INT": 12,
}
# which collective functions move data from the root alone, and to it alone
FROM_ROOT = ("bcast", "scatter", "scatterv")
TO_ROOT = ("reduce", "gather", "gatherv")


def nanoseconds(time):
    seconds, _, rest = time.partition(".")
    return int(seconds) * 10**9 + int(rest.ljust(9, "0"))


def size(row):
    """The bytes of a row's message: the table tells them, or its count and its datatype do."""
    if row["bytes"]:
        return int(row["bytes"])
    return max(1, int(row["count"] or 1) * SIZES.get(row["datatype"], 1))


def name(row):
    return row["rank"], row["call"], row["part"]


def partner(row):
    return row["partner_rank"], row["partner_call"], row["partner_part"]


def kind(function):
    """The kind of a collective function, blocking or not: `bcast` of MPI_Ibcast and MPI_Bcast_c."""
    word = function.removeprefix("MPI_").removesuffix("_c").lower()
    return word[1:] if word[:1] == "i" and word[1:] in (*FROM_ROOT, *TO_ROOT) else word


class Schedule:
    """The lines of each rank, and the numbers of the messages."""

    def __init__(self, rows):
        self.rows = rows
        self.lines = defaultdict(list)
        self.sends = {name(row): row for row in rows if row["side"] == "send" and row["partner_rank"]}
        self.tags = {of: number for number, of in enumerate(self.sends)}
        self.rounds = defaultdict(list)
        for row in rows:
            if row["round"]:
                self.rounds[row["object"], row["round"]].append(row)
        self.round_tags = {of: len(self.tags) + 2 * number for number, of in enumerate(self.rounds)}

    def put(self, rank, label, what, *needs):
        self.lines[rank] += [f"{label}: {what}", *(f"{label} requires {it}" for it in needs)]
        return label

    def message(self, row, label, before):
        """The send or the receive of a row, where it has a partner."""
        if not row["partner_rank"]:
            return []
        sent = row if row["side"] == "send" else self.sends.get(partner(row))
        if not sent:
            return []
        way = f"send {size(sent)}b to" if row["side"] == "send" else f"recv {size(sent)}b from"
        return [self.put(row["rank"], label, f"{way} {row['partner_rank']} tag {self.tags[name(sent)]}", before)]

    def collective(self, row, before):
        """The messages of a collective call, by which its members wait for the root, or the root for them: the first
        call that names a root says which, and the first member's which function."""
        of = row["object"], row["round"]
        head, members = self.rounds[of][0], sorted({it["rank"] for it in self.rounds[of]}, key=int)
        root = next((it["peer"] for it in self.rounds[of] if it["peer"] in members), members[0])
        others, tag, how, sizes = [it for it in members if it != root], self.round_tags[of], kind(head["function"]), size(head)
        up, down, call, rank = how not in FROM_ROOT, how not in TO_ROOT, row["call"], row["rank"]
        if rank != root:
            last = [self.put(rank, f"u{call}", f"send {sizes}b to {root} tag {tag}", before)] if up else [before]
            return [self.put(rank, f"d{call}", f"recv {sizes}b from {root} tag {tag + 1}", *last)] if down else last
        came = [self.put(rank, f"u{call}_{it}", f"recv {sizes}b from {it} tag {tag}", before) for it in others] if up else []
        gone = [self.put(rank, f"d{call}_{it}", f"send {sizes}b to {it} tag {tag + 1}", *(came or [before])) for it in others] if down else []
        return gone or came

    def rank(self, rank, calls):
        """The lines of a rank: its calls one after another."""
        last, free, posted = None, None, defaultdict(list)
        for call, rows in calls.items():
            first = rows[0]
            pause = max(0, nanoseconds(first["enter"]) - free) if free is not None else 0
            begin = self.put(rank, f"c{call}", f"calc {pause}", *([last] if last else []))
            needs = posted.pop(call, [])
            for at, row in enumerate(rows):
                ends = self.message(row, f"m{call}_{at}", begin) + (self.collective(row, begin) if row["round"] else [])
                if row["completed_by"]:
                    posted[row["completed_by"]] += ends
                elif not row["request"]:
                    # (what is posted and never completed goes on to the end)
                    needs += ends
            needs = [it for it in dict.fromkeys(needs) if it != begin]
            last = self.put(rank, f"e{call}", "calc 0", begin, *needs) if needs else begin
            free = nanoseconds(first["return"] or first["enter"])

    def write(self, out):
        calls = defaultdict(lambda: defaultdict(list))
        for row in self.rows:
            calls[row["rank"]][row["call"]].append(row)
        for rank in calls:
            self.rank(rank, calls[rank])
        ranks = 1 + max((int(row["rank"]) for row in self.rows), default=-1)
        out.write(f"num_ranks {ranks}\n")
        for rank in range(ranks):
            out.write(f"\nrank {rank} {{\n")
            out.writelines(f"{line}\n" for line in self.lines[str(rank)])
            out.write("}\n")


def main():
    with open(sys.argv[1], newline="") as file:
        rows = list(csv.DictReader(file))
    Schedule(rows).write(sys.stdout)


if __name__ == "__main__":
    main()
