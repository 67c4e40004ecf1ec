// Tables whose rows are sorted by a column, and left out where they don't fit the filter.

const FIRST_ROWS = 50;

/** An element of HTML with this class, and text or elements in it. */
function made(name, className, ...children) {
  const element = document.createElement(name);
  if (className !== "") element.className = className;
  element.append(...children);
  return element;
}

/** An element, with these attributes too. */
function having(element, attributes) {
  Object.entries(attributes).forEach(([name, value]) => element.setAttribute(name, `${value}`));
  return element;
}

/** An element that does so where such events come. */
function listening(element, acts) {
  Object.entries(acts).forEach(([event, act]) => element.addEventListener(event, act));
  return element;
}

const button = (text, act, className = "plain") => listening(having(made("button", className, text), { type: "button" }), { click: act });

/** A name that comes from a trace: a short one stays on its line. */
const named = (text) => made("span", text.length <= 36 ? "name short" : "name", text);

/** Items one below the other. */
const list = (items) => made("ul", "", ...items.map((it) => made("li", "", it)));

/** What two cells are sorted by: numbers by their size and before texts, texts by their characters. */
function compared(a, b) {
  if (typeof a !== typeof b) return typeof a === "number" ? -1 : 1;
  return a < b ? -1 : Number(a > b);
}

/** The ranks that a filter names, as `3, 8 to 11` or `3,8-11`: null where it names none, a test else. */
function ranksWanted(words) {
  const stretches = [...words.matchAll(/(\d+)(?:\s*(?:to|-)\s*(\d+))?/g)].map(([, first, last]) => [Number(first), Number(last ?? first)]);
  return stretches.length === 0 ? null : (rank) => stretches.some(([first, last]) => first <= rank && rank <= last);
}

/** A table. A row has its cells in the order of the columns, its ranks, and perhaps the object that it is about. A cell has what is
 * shown, and a number or a text by which it is sorted. A column in which nothing stands is left out. */
class Table {
  constructor(name, columns, rows, about = "") {
    const isUsed = (_, at) => at === 0 || rows.some((it) => it.cells[at].by !== "");
    this.columns = columns.filter(isUsed);
    this.rows = rows.map((it) => ({ ...it, cells: it.cells.filter(isUsed) }));
    this.about = about;
    this.sorted = { column: -1, isRising: true };
    this.most = FIRST_ROWS;
    this.fits = () => true;
    this.count = made("span", "count");
    this.heads = this.columns.map((head, at) => {
      const isNumber = this.rows.some((it) => it.cells[at].isNumber);
      return having(made("th", isNumber ? "number" : "", button(head, () => this.sortBy(at), "")), { scope: "col" });
    });
    this.body = made("tbody", "");
    this.more = button("", () => {
      this.most = Infinity;
      this.show();
    });
    const caption = made("caption", "", `${name} `, this.count);
    const table = made("table", "", caption, made("thead", "", made("tr", "", ...this.heads)), this.body);
    this.element = having(made("div", "rows", table, this.more), { tabindex: 0, role: "region", "aria-label": name });
    this.show();
  }

  sortBy(column) {
    const isRising = this.sorted.column !== column || !this.sorted.isRising;
    this.sorted = { column, isRising };
    const [order, sign] = isRising ? ["ascending", " \u25b2"] : ["descending", " \u25bc"];
    this.heads.forEach((cell, at) => {
      having(cell, { "aria-sort": at === column ? order : "none" }).firstChild.textContent = `${this.columns[at]}${at === column ? sign : ""}`;
    });
    this.show();
  }

  /** Shows the rows that fit, and answers how many there are. */
  show(fits = this.fits) {
    this.fits = fits;
    const rows = this.rows.filter(fits);
    const { column, isRising } = this.sorted;
    if (column >= 0) rows.sort((a, b) => compared(a.cells[column].by, b.cells[column].by) * (isRising ? 1 : -1));
    this.body.replaceChildren();
    for (const { cells } of rows.slice(0, this.most)) {
      const shownCells = cells.map(({ shown: it, isNumber }, at) => made(at === 0 ? "th" : "td", isNumber ? "number" : "", it));
      having(shownCells[0], { scope: "row" });
      this.body.append(made("tr", "", ...shownCells));
    }
    this.count.textContent = rows.length < this.rows.length ? `(${rows.length} of ${this.rows.length} rows) ${this.about}` : this.about;
    this.more.textContent = `Show all ${rows.length} rows`;
    this.more.hidden = rows.length <= this.most;
    return rows.length;
  }
}

/** A cell of a number, or of none. */
const number = (n, text = `${n}`) => (n === null || n === undefined ? { by: "", shown: "" } : { by: Number(n), shown: text, isNumber: true });

/** A cell of words, or of several, one below the other. */
function words(...parts) {
  const all = parts.filter((it) => it !== "");
  return { by: all.join(" "), shown: all.length > 1 ? list(all.map(named)) : named(all.join("")) };
}

/** A cell of ranks. */
function ranksCell(ranks) {
  const text = rankWords(ranks);
  return { by: ranks[0] ?? -1, shown: made("span", text.length <= 24 ? "short" : "", text) };
}

/** A row, with the text in which a filter looks. */
const rowOf = (ranks, object, ...cells) => ({ ranks, object, cells, text: cells.map((it) => `${it.by}`).join("\n").toLowerCase() });

/** What ranks are in the diagnosis: proved to be stuck, of a root, behind roots, polling. */
function partsOf(answer, { first, ranks }) {
  const stuck = ranks.filter((rank) => answer.stuck.has(rank)).length;
  const numbers = (roots) => [...new Set(ranks.flatMap((rank) => roots.get(rank) ?? []))].map((at) => at + 1).slice(0, 8).join(", ");
  const [own, behind, polls] = [numbers(answer.ownRoots), numbers(answer.holders), answer.polls.get(first.rank)];
  return [
    stuck === 0 ? "" : `${stuck === ranks.length ? "" : `${stuck} of ${ranks.length} `}proved to be stuck`,
    own === "" ? "" : `holds up the run (${own})`, behind === "" ? "" : `held up by ${behind}`,
    polls === undefined ? ""
      : `polls: ${polls.count} tests or probes without success, ${polls.calls.map(callWords).slice(0, 3).join("; ")}`,
    answer.beyondWords(first).slice(2),
  ];
}

/** How ranks stand that stand alike. */
function standingRow(answer, group) {
  const { first, ranks, calls } = group;
  const moment = answer.moment(first);
  const state = { in: "in", behind: "behind", ended: "ended", none: "no call" }[first.state] ?? first.state;
  const call = number(calls[0], calls[0] === calls[1] ? `${calls[0]}` : `${calls[0]} to ${calls[1]}`);
  return rowOf(ranks, first.comm, ranksCell(ranks), words(state), words(shown(first.function ?? "")), number(first.comm), number(first.k), call,
    words(siteWords(first)), number(moment?.since), number(moment?.lasts), words(traceWords(first)), words(...partsOf(answer, group)));
}

/** The table of how ranks stand: those that stand alike in one row, or each in its own. */
function standingTable(answer, isOneByOne) {
  const ranks = answer.value.standing.map((it) => it.rank);
  const parts = (rank) => [answer.ownRoots.get(rank), answer.holders.get(rank), answer.stuck.has(rank)];
  const groups = answer.groupsOf(ranks, (rank) => (isOneByOne ? rank : parts(rank)));
  const columns = ["ranks", "stand", "function", "object", "round", "call", "call site", "since (s)", "for (s)", "trace", "of the run"];
  const about = isOneByOne ? "" : "(times and traces are those of the first rank)";
  return new Table("Where the ranks stand", columns, groups.map((it) => standingRow(answer, it)), about);
}

const WHY = {
  tag: "another tag", comm: "another communicator", source: "another source", dest: "another rank", taken: "taken by an earlier receive",
  postponed: "an open receive may have taken it", idle: "a persistent request that isn't active",
};

/** A nearest miss: what differs, and the call that would fit but for that. */
function nearWords({ why, message, receive, by }) {
  const other = message ?? receive;
  const taker = by === undefined ? "" : `; that is rank ${by.rank}, ${callWords(by)}`;
  return `${WHY[why] ?? shown(why)}: rank ${other.rank}, ${callWords(other)}${taker}`;
}

/** All further tables that have rows. */
function otherTables(answer) {
  const { truncated, differing } = answer;
  const { mismatched, open, left_over: left, starving, unfinished, doubts } = answer.value;
  const lone = (call, ...more) => rowOf([call.rank], undefined,
    ranksCell([call.rank]), number(call.call), words(siteWords(call)), words(traceWords(call)), ...more);
  const rounds = (list, row) => list.flatMap((it) => it.groups.map((group) =>
    rowOf(group.ranks, it.comm, ranksCell(group.ranks), number(it.comm), number(it.k), ...row(it, group))));
  const callHeads = ["rank", "call", "call site", "trace"];
  return [
    ["Rounds of collective calls that don't match", ["ranks", "object", "round", "function", "root", "first call", "trace"],
      rounds(mismatched, (it, { kind, root, call }) => [words(functionOf(kind)), number(root), words(callWords(call)), words(traceWords(call))])],
    ["Rounds of collective calls that not all have entered", ["haven't entered", "object", "round", "function", "root", "have entered"],
      open.map((it) => rowOf(it.missing, it.comm,
        ranksCell(it.missing), number(it.comm), number(it.k), words(functionOf(it.kind)), number(it.root), ranksCell(it.entered)))],
    ["Messages that nobody has received", [...callHeads, "came through before", "missed by"],
      left.map((it) => lone(it.message, number(it.before), words(...it.near.map(nearWords))))],
    ["Receives that wait for a message that nobody has sent", [...callHeads, "came through before", "missed by"],
      starving.map((it) => lone(it.receive, number(it.before), words(...it.near.map(nearWords))))],
    ["Messages longer than their receives", [...callHeads, "sent", "room", "receive"],
      truncated.map((it) => lone(it.message, number(it.sent), number(it.room), words(`rank ${it.receive.rank}, ${callWords(it.receive)}`)))],
    ["Arguments that don't agree", ["ranks", "object", "round", "function", "argument", "value", "first call"],
      rounds(differing, (it, { value, call }) => [words(functionOf(it.kind)), words(shown(it.what)), words(shown(value)), words(callWords(call))])],
    ["Requests that were never completed, of ranks that have ended", callHeads, unfinished.map((it) => lone(it))],
    ["What may make this wrong", ["what", "calls or ranks"], doubtRows(doubts)],
  ].filter(([, , rows]) => rows.length > 0).map(([name, columns, rows]) => new Table(name, columns, rows));
}

/** What may make the answer wrong. */
function doubtRows(doubts) {
  const row = (ranks, text, cell) => rowOf(ranks, undefined, words(text), cell);
  const ofRanks = [["unread", "the next call is one that mpimatch does not read"], ["gaps", "more is known behind a gap"],
    ["conflicts", "pieces contradict each other"], ["no_calls", "no call can be read"]];
  return [
    ...doubts.local.map((it) => row([], `${shown(it.function)} may wait or move data, and isn't read`, number(it.calls))),
    ...doubts.foreign.map((it) => row([], `${shown(it.object)} ${it.number} isn't known`, number(it.calls))),
    ...ofRanks.filter(([key]) => doubts[key].length > 0).map(([key, text]) => row(doubts[key], text, ranksCell(doubts[key]))),
    ...doubts.cut.map((it) => row([it.rank], `the text was cut: ${traceWords(it)}`, ranksCell([it.rank]))),
    ...(doubts.size === null ? [] : [row([], "MPI_Comm_size of the world tells more ranks", number(doubts.size))]),
  ];
}
