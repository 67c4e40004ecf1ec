"use strict";
// Words for what stands in the answer, as `mpimatch explain` says them. The answer is the value that
// `mpimatch explain --json` prints; what its keys mean is said in docs/formats/json.md.

const LONGEST = 160;
// what would not be seen, or would turn the characters beside it around
const HIDDEN = /[\u0000-\u001f\u007f-\u00a0\u00ad\u061c\u180e\u200b-\u200f\u2028-\u202f\u2060-\u206f\ufeff\ufff9-\ufffb]/u;
const BEYOND = {
  gap: "more is known behind a gap", contradiction: "two pieces contradict each other there",
  unread: "the next call is one that mpimatch does not read", cut: "the text was cut there",
};

/** A text of a trace, to be read: hidden characters stand as escapes, and a long text is cut. */
function shown(text, most = LONGEST) {
  const characters = Array.from(text.slice(0, 2 * most));
  const front = characters.slice(0, most).map((it) => (HIDDEN.test(it) ? `\\u{${it.codePointAt(0).toString(16)}}` : it)).join("");
  return characters.length > most || text.length > 2 * most ? `${front} .. (${text.length} characters)` : front;
}

/** `3 ranks`, `1 rank`. */
const counted = (count, one, many = `${one}s`) => `${count} ${count === 1 ? one : many}`;

/** Items by their keys, in the order in which those come. */
function grouped(items, keyOf) {
  const groups = new Map();
  for (const item of items) {
    const key = keyOf(item);
    if (!groups.has(key)) groups.set(key, []);
    groups.get(key).push(item);
  }
  return groups;
}

/** Ranks in rising order as stretches of neighbours: `3`, `8 to 11`. */
function stretchesOf(ranks) {
  const firsts = ranks.filter((rank, i) => ranks[i - 1] !== rank - 1);
  const lasts = ranks.filter((rank, i) => ranks[i + 1] !== rank + 1);
  return firsts.map((first, i) => (first === lasts[i] ? `${first}` : `${first} to ${lasts[i]}`));
}

/** `rank 4`, `ranks 0 to 1, 3`, `ranks 0, 2, 4, .. (512 ranks)`. */
function rankWords(ranks) {
  const parts = stretchesOf(ranks);
  const told = parts.length > 8 ? `${parts.slice(0, 3).join(", ")}, .. (${ranks.length} ranks)` : parts.join(", ");
  return `${ranks.length === 1 ? "rank" : "ranks"} ${told}`;
}

/** A time in nanoseconds, which a text gives in seconds with nine decimals. */
const nanoseconds = (text) => BigInt(text.replace(".", ""));

/** The seconds from one time to another, with three decimals or more. */
function secondsBetween(from, to, decimals = 3) {
  const second = 10n ** BigInt(decimals);
  const parts = ((to - from) * second) / 1000000000n;
  return `${parts / second}.${String(parts % second).padStart(decimals, "0")}`;
}

/** The name of an MPI function, of its word in the answer: `MPI_Reduce_scatter` of `reduce_scatter`. */
const functionOf = (kind) => `MPI_${kind.charAt(0).toUpperCase()}${kind.slice(1)}`;

/** `head_to_head.c:13 in exchange`, where the texts tell from where a call was made. */
const siteWords = ({ caller = "" }) => shown(caller.replace(/ \(([^()]*)\)$/, " in $1"));

/** `call 4, head_to_head.c:13 in exchange`. */
function callWords(call) {
  const number = call.part ? `call ${call.call}, part ${call.part}` : `call ${call.call}`;
  return call.caller === undefined ? number : `${number}, ${siteWords(call)}`;
}

/** `r0.txt:25`, where the texts tell it. */
function traceWords({ file, line }) {
  if (typeof file !== "string") return "";
  return line === undefined ? shown(file) : `${shown(file)}:${line}`;
}

/** The answer, with what is looked up in it more than once. */
class Answer {
  constructor(value) {
    this.value = value;
    this.begin = value.begin === null ? null : nanoseconds(value.begin);
    this.end = value.end === null ? null : nanoseconds(value.end);
    this.standing = new Map(value.standing.map((it) => [it.rank, it]));
    this.polls = new Map(value.polls.map((it) => [it.rank, it]));
    this.stuck = new Set(value.stuck);
    this.truncated = value.truncated ?? [];
    this.differing = value.arguments ?? [];
    this.ownRoots = this.rootsBy("ranks");
    this.holders = this.rootsBy("holds_up");
  }

  /** Of each rank the places of the roots that have it in this list. */
  rootsBy(key) {
    const pairs = this.value.roots.flatMap((root, at) => root[key].map((rank) => ({ rank, at })));
    return new Map(Array.from(grouped(pairs, (it) => it.rank), ([rank, own]) => [rank, own.map((it) => it.at)]));
  }

  /** Since when a rank stands there, from the first time on, and for how long. */
  moment(standing) {
    if (standing.wall === undefined || this.begin === null) return null;
    const wall = nanoseconds(standing.wall);
    return { since: secondsBetween(this.begin, wall), lasts: secondsBetween(wall, this.end) };
  }

  /** Ranks that stand alike together, each group by its first rank; `more` is what else they have to share. */
  groupsOf(ranks, more = () => "") {
    const standing = ranks.map((rank) => this.standing.get(rank)).filter((it) => it !== undefined);
    const key = (it) => JSON.stringify([it.state, it.beyond, this.polls.has(it.rank), it.function, it.comm, it.k, it.caller, more(it.rank)]);
    return Array.from(grouped(standing, key).values(), (alike) => {
      const calls = alike.map((it) => it.call).sort((a, b) => a - b);
      return { first: alike[0], ranks: alike.map((it) => it.rank), calls: [calls[0], calls.at(-1)] };
    });
  }

  /** The ranks that stand in the roots of such kinds, where those wait themselves, or behind them. */
  countIn(isWanted) {
    const waiting = (it) => (it.kind === "mismatch" || it.kind === "cycle" ? [...it.ranks, ...it.holds_up] : it.holds_up);
    return new Set(this.value.roots.filter(isWanted).flatMap(waiting)).size;
  }

  countOf(state) {
    return this.value.standing.filter((it) => it.state === state).length;
  }

  /** The first line of `mpimatch explain`; of arguments that don't agree by what the value tells of them. */
  headline() {
    const all = this.value.ranks;
    const told = (count, front, one, many) => (count === 0 ? "" : `${front}${count} of ${counted(all, "rank")} ${count === 1 ? one : many}.`);
    const unproved = "No rank is proved to be stuck, but ";
    const [ended, disagree] = [this.countOf("ended"), this.truncated.length + this.differing.length > 0];
    return told(this.value.stuck.length, "", "is stuck", "are stuck")
      || told(this.countIn((it) => it.kind === "mismatch"), "Collective calls don't match, which MPI forbids: ",
        "stands in them or waits for those that do", "stand in them or wait for those that do")
      || (disagree ? `Arguments of calls don't agree, which MPI forbids: ${this.disagreementWords()}.` : "")
      || told(this.countIn((it) => it.kind === "silent" || it.kind === "open"), unproved,
        "waits for ranks that give no sign", "wait for ranks that give no sign")
      || told(this.countIn((it) => it.kind === "cycle" && !it.proved), unproved,
        "waits for itself, by polling", "wait for one another, some of them by polling")
      || told(this.countIn((it) => it.kind === "ended"), unproved,
        "waits for ranks that have ended, by polling", "wait for ranks that have ended, some of them by polling")
      || `Nobody waits: ${counted(ended, "rank")} ended${ended < all ? `, ${counted(all - ended, "is", "are")} not seen to wait` : ""}.`;
  }

  /** The first message that is longer than its receive, or the first round in which arguments differ. */
  disagreementWords() {
    if (this.truncated.length > 0) {
      const [{ message, receive, sent, room }] = this.truncated;
      return `rank ${receive.rank} has room for ${counted(room, "element")} (${callWords(receive)}), and the message of rank ${message.rank} `
        + `(${callWords(message)}) has ${sent}`;
    }
    const [{ comm, k, kind, what, groups }] = this.differing;
    const values = groups.slice(0, 4).map(({ value, ranks, call }) => `${shown(value)} at ${rankWords(ranks)} (${callWords(call)})`);
    return `round ${k} on object ${comm}, ${functionOf(kind)}: ${shown(what)} ${values.join(", ")}${groups.length > 4 ? ", .." : ""}`;
  }

  /** Its second line. */
  summary() {
    const told = (state, one, many) => counted(this.countOf(state), one, many);
    const parts = [told("in", "stands in a call", "stand in a call"), told("behind", "is behind its last one", "are behind their last one"),
      told("ended", "has ended", "have ended"), told("none", "has no call that can be read", "have no call that can be read")];
    return `Of ${counted(this.value.ranks, "rank")}, ${parts.slice(0, this.countOf("none") > 0 ? 4 : 3).join(", ")}.`;
  }

  /** What ranks do that stand alike: `are in MPI_Barrier on object 2 (round 0, call 5, main.c:10 in main)`. */
  groupWords({ first, ranks, calls }) {
    const [is, has, poll] = ranks.length === 1 ? ["is", "has", "it polls"] : ["are", "have", "they poll"];
    if (first.state === "none") return `${has} no call that can be read`;
    const state = first.state === "ended" ? `${has} ended,` : `${is} ${first.state}`;
    const object = first.comm === undefined ? "" : ` on object ${first.comm}`;
    const round = first.k === undefined ? "" : `round ${first.k}, `;
    const site = first.caller === undefined ? "" : `, ${siteWords(first)}`;
    const numbers = calls[0] === calls[1] ? `call ${calls[0]}` : `calls ${calls[0]} to ${calls[1]}`;
    const polls = this.polls.has(first.rank) ? `; ${poll}` : "";
    return `${state} ${shown(first.function)}${object} (${round}${numbers}${site})${polls}${this.beyondWords(first)}`;
  }

  beyondWords({ beyond }) {
    return beyond === null ? "" : `; ${BEYOND[beyond] ?? beyond}`;
  }

  /** What may be the matter with ranks that give no sign and stand alike. */
  silenceWords({ first: { state, beyond }, ranks }) {
    const isOne = ranks.length === 1;
    if (beyond !== null || state === "ended") return "";
    if (state === "none") return isOne ? ": its text is missing or has none" : ": their texts are missing or have none";
    if (state === "in") return `, and ${isOne ? "hasn't" : "haven't"} returned: mpimatch doesn't know what that call waits for`;
    return isOne
      ? ", and makes no further call: it computes, has died, or its trace ends too early"
      : ", and make no further call: they compute, have died, or their traces end too early";
  }

  /** What a root is, in a few words. */
  rootWords({ kind, ranks, holds_up: waiting, comm, k, proved }) {
    const [those, isOne] = [rankWords(ranks), ranks.length === 1];
    // (more ranks have ended than wait for them)
    const late = ranks.length > waiting.length ? ", and others make a call too many, or these one too few" : "";
    const words = {
      mismatch: `round ${k} on object ${comm}: the calls of its ranks don't match`,
      cycle: `${those} ${isOne ? "waits for itself" : "wait for one another"}${proved ? "" : ", some by polling"}`,
      ended: `${those} ${isOne ? "has" : "have"} ended${late}`,
      silent: `${those} ${isOne ? "gives" : "give"} no sign`,
      open: `${those} may still go on`,
    };
    return words[kind] ?? `${those}: ${shown(kind)}`;
  }

  /** What stands in a root: of a round its calls, and else its ranks. Each has its ranks and its words. */
  membersOf({ kind: sort, comm, k, ranks: own }) {
    const round = sort === "mismatch" ? this.value.mismatched.find((it) => it.comm === comm && it.k === k) : undefined;
    if (round === undefined) {
      const silence = (it) => (sort === "silent" ? this.silenceWords(it) : "");
      return this.groupsOf(own).map((it) => ({ ranks: it.ranks, words: `${this.groupWords(it)}${silence(it)}` }));
    }
    return round.groups.map(({ kind, root, ranks, call }) => {
      const of = root === null ? "" : ` with root ${root}`;
      const [calls, whose] = ranks.length === 1 ? ["calls", ""] : ["call", `rank ${call.rank}: `];
      return { ranks, words: `${calls} ${functionOf(kind)}${of} (${whose}${callWords(call)})` };
    });
  }
}
