// The last moments, drawn: the last calls of some ranks against time, with their messages and their rounds.

const [FIRST_LANES, TICKS] = [12, 5];
// the height of a lane, and of a bar in it
const [LANE, BAR] = [24, 14];
// the width of the names of lanes, and of what lies behind the end, where calls go on that haven't returned
const [NAMES, AFTER] = [76, 104];

/** The lanes of rows: of each rank its calls, each with its rows. */
function lanesOf(rows) {
  return Array.from(grouped(rows, (it) => it.rank).values(), (ofRank) => Array.from(grouped(ofRank, (it) => it.call).values(), (own) => {
    const [{ rank, call, enter, return: leaves }] = own;
    return { rank, call, rows: own, enter: nanoseconds(enter), leaves: leaves === null ? null : nanoseconds(leaves) };
  }));
}

/** What a row says beside its times. */
function rowWords(row) {
  const [way, other] = { send: ["to rank", "its message went to"], receive: ["from rank", "its message came from"] }[row.side] ?? ["root", ""];
  const told = (key, words) => (row[key] === null ? "" : shown(`${words} ${row[key]}`));
  return [
    row.part > 0 ? `part ${row.part}` : "", row.side ?? "", told("object", "on object"), told("round", "round"), told("peer", way),
    told("tag", "tag"), told("count", "count"), told("datatype", "datatype"), told("request", "request"),
    told("partner_call", `${other} rank ${row.partner_rank}, call`), told("completed_by", "completed by call"),
  ].filter((it) => it !== "").join(", ");
}

/** The lanes, of whose time a stretch is shown; `tell(call)` is told at which call somebody points. */
class Moments {
  constructor(answer, tell) {
    // (time is shown between its parts `from` and `to`)
    Object.assign(this, { answer, tell, most: FIRST_LANES, isTrue: false, from: 0, to: 1, chosen: null, times: [] });
    this.lanes = lanesOf(answer.value.last_calls);
    this.element = listening(drawn("svg", { tabindex: 0, role: "group" }), { keydown: (event) => this.press(event) });
  }

  /** Where a moment lies in all time, from 0 to 1. */
  partOf(time) {
    const { times, isTrue } = this;
    return isTrue ? Number(time - times[0]) / Math.max(1, Number(times.at(-1) - times[0])) : this.placeOf.get(time) / Math.max(1, times.length - 1);
  }

  xOf(time) {
    const x = NAMES + ((this.partOf(time) - this.from) / (this.to - this.from)) * (this.width - NAMES - AFTER);
    return Math.round(Math.min(Math.max(x, -1e5), 1e5) * 100) / 100;
  }

  /** Where a call begins and ends in the picture. */
  stretchOf({ enter, leaves }) {
    const x = this.xOf(enter);
    return [x, leaves === null ? Math.max(x + AFTER, this.width) : Math.max(x + 4, this.xOf(leaves))];
  }

  /** The middle of a rank's lane. */
  yOf(rank) {
    return LANE * (this.laneOf.get(rank) + 0.5);
  }

  /** A call, and since when or from when to when it lasts. */
  wordsOf({ rank, call, rows: [{ function: name, site }], enter, leaves }) {
    const since = secondsBetween(this.answer.begin, enter, 6);
    const times = leaves === null ? `since ${since} s, hasn't returned`
      : `from ${since} s to ${secondsBetween(this.answer.begin, leaves, 6)} s, for ${secondsBetween(enter, leaves, 6)} s`;
    return `rank ${rank}, call ${call}, ${shown(name ?? "")}, ${times}${site === null ? "" : `, ${siteWords({ caller: site })}`}`;
  }

  /** Shows time from one part to another, or nearly so. */
  show(from, to) {
    const length = Math.min(1, Math.max(this.isTrue ? 1e-7 : 4 / this.times.length, to - from));
    this.from = Math.min(Math.max(0, from), 1 - length);
    this.to = this.from + length;
    this.draw();
  }

  /** Shows less or more time. The chosen call stays where it is, else the end. */
  zoom(factor) {
    const part = this.chosen === null ? 1 : this.partOf(this.chosen.enter);
    const kept = Math.min(Math.max(part, this.from), this.to);
    this.show(kept - (kept - this.from) * factor, kept + (this.to - kept) * factor);
  }

  /** Shows what lies before, or behind. */
  move(way) {
    const by = (way * (this.to - this.from)) / 2;
    this.show(this.from + by, this.to + by);
  }

  press(event) {
    const act = {
      ArrowLeft: () => this.go(-1, 0), ArrowRight: () => this.go(1, 0), ArrowUp: () => this.go(0, -1), ArrowDown: () => this.go(0, 1),
      "+": () => this.zoom(0.5), "=": () => this.zoom(0.5), "-": () => this.zoom(2), 0: () => this.show(0, 1),
    }[event.key];
    if (act === undefined || event.ctrlKey || event.metaKey || event.altKey) return;
    event.preventDefault();
    act();
  }

  /** Goes to the call before or behind the chosen one, or to that of the next lane that is as far from the last one. */
  go(across, down) {
    const bound = (i, list) => list[Math.min(Math.max(0, i), list.length - 1)];
    const from = this.chosen ?? this.seen[0].at(-1);
    const at = this.laneOf.get(from.rank);
    const lane = bound(at + down, this.seen);
    this.chosen = bound(lane.length - this.seen[at].length + this.seen[at].indexOf(from) + across, lane);
    const [part, half] = [this.partOf(this.chosen.enter), (this.to - this.from) / 2];
    if (part < this.from || part > this.to) this.show(part - half, part + half);
    this.bars.get(this.chosen).focus();
  }

  bar(call) {
    const [x, end] = this.stretchOf(call);
    const [y, isOpen] = [this.yOf(call.rank), call.leaves === null];
    const box = drawn("path", { class: "box", d: `M ${end} ${y - BAR / 2} H ${x} v ${BAR} H ${end}${isOpen ? "" : " z"}` });
    const group = drawn("g", { class: isOpen ? "bar open" : "bar", role: "img", tabindex: -1, "aria-label": this.wordsOf(call) }, box);
    const name = shown(call.rows[0].function ?? "", 40).replace(/^MPI_/, "");
    const front = Math.max(x, NAMES) + 5;
    if (Math.min(end, this.width) - front > name.length * CHARACTER) group.append(drawn("text", { x: front, y: y + 4 }, name));
    this.bars.set(call, group);
    const choose = () => {
      this.chosen = call;
      this.tell(call);
    };
    return listening(group, { pointerenter: () => this.tell(call), focus: choose });
  }

  lane(calls) {
    const [{ rank }] = calls;
    const isRoot = this.answer.ownRoots.has(rank);
    return drawn("g", { class: isRoot ? "lane root" : "lane", role: "group", "aria-label": `rank ${rank}${isRoot ? ", holds up the run" : ""}` },
      drawn("path", { class: "grid", d: `M ${NAMES} ${this.yOf(rank)} H ${this.width}` }), ...calls.map((it) => this.bar(it)));
  }

  /** A band behind the calls of each round that two lanes have at least. */
  bands() {
    const own = [...this.rows.values()].filter(({ row }) => row.object !== null && row.round !== null);
    const rounds = Array.from(grouped(own, ({ row }) => `${row.object} ${row.round}`).values(), (alike) => alike.map((it) => it.call));
    return rounds.filter((calls) => calls.some((it) => it.rank !== calls[0].rank)).map((calls) => {
      const x = Math.min(...calls.map((it) => this.stretchOf(it)[0])) - 2;
      const width = Math.max(...calls.map((it) => this.stretchOf(it)[1])) + 2 - x;
      const rows = calls.map((it) => this.yOf(it.rank));
      const y = Math.min(...rows) - LANE / 2 + 2;
      return drawn("rect", { class: "band", x, y, width, height: Math.max(...rows) - y + LANE / 2 - 2, rx: 3 });
    });
  }

  /** The row of a shown lane that sends, or receives. (A Sendrecv has one of each.) */
  rowAt(rank, call, part, side) {
    return this.rows.get(`${rank} ${call} ${part} ${side}`);
  }

  /** An arrow from each send to the end of its receive, or of the call that completes that. */
  messages() {
    return [...this.rows.values()].filter(({ row }) => row.side === "send").flatMap(({ call, row }) => {
      const to = this.rowAt(row.partner_rank, row.partner_call, row.partner_part, "receive");
      if (to === undefined) return [];
      const last = this.seen[this.laneOf.get(to.call.rank)].find((it) => it.call === to.row.completed_by) ?? to.call;
      const [x, y, end, bottom] = [this.xOf(call.enter), this.yOf(call.rank), this.stretchOf(last)[1], this.yOf(last.rank)];
      const angle = Math.atan2(bottom - y, end - x);
      const side = (turn) => `${end - 8 * Math.cos(angle + turn)} ${bottom - 8 * Math.sin(angle + turn)}`;
      const line = y === bottom ? `Q ${(x + end) / 2} ${y - LANE}` : "L";
      return drawn("path", { class: "message", d: `M ${x} ${y} ${line} ${end} ${bottom} M ${side(0.4)} L ${end} ${bottom} L ${side(-0.4)}` });
    });
  }

  /** A short arrow with a cross for each message that nobody has received. */
  lost() {
    const rows = this.answer.value.left_over.map(({ message: { rank, call, part = 0 } }) => this.rowAt(rank, call, part, "send"));
    return rows.filter((it) => it !== undefined).map(({ call, row }) => {
      const way = (this.laneOf.get(row.peer) ?? Infinity) < this.laneOf.get(call.rank) ? -1 : 1;
      return drawn("path", { class: "lost", d: `M ${this.xOf(call.enter)} ${this.yOf(call.rank)} l 12 ${way * 14} m -4 -4 l 8 8 m 0 -8 l -8 8` });
    });
  }

  /** Some moments for the axis. */
  ticks() {
    const { times, from, to } = this;
    const lasts = Number(times.at(-1) - times[0]);
    const parts = Array.from({ length: TICKS + 1 }, (_, i) => from + ((to - from) * i) / TICKS);
    const timeOf = (part) => (this.isTrue ? times[0] + BigInt(Math.round(part * lasts)) : times[Math.round(part * (times.length - 1))]);
    return [...new Set(parts.map(timeOf))];
  }

  /** Looks what the shown lanes have, and draws it. */
  draw() {
    this.seen = this.lanes.slice(0, this.most);
    const calls = this.seen.flat();
    this.laneOf = new Map(this.seen.map(([it], i) => [it.rank, i]));
    this.rows = new Map(calls.flatMap((call) => call.rows.map((row) => [`${call.rank} ${call.call} ${row.part} ${row.side}`, { call, row }])));
    this.times = [...new Set([...calls.flatMap((it) => [it.enter, it.leaves ?? it.enter]), this.answer.end])].sort(compared);
    this.placeOf = new Map(this.times.map((it, i) => [it, i]));
    this.bars = new Map();
    this.width = Math.max(620, this.element.parentElement.clientWidth);
    const [bottom, height] = [LANE * this.seen.length, LANE * (this.seen.length + 1)];
    const isWithin = this.element.contains(document.activeElement) && this.element !== document.activeElement;
    const ticks = this.ticks().map((it) => [this.xOf(it), `${secondsBetween(this.answer.begin, it, 6)} s`]);
    const names = this.seen.map(([{ rank }]) =>
      drawn("text", { class: this.answer.ownRoots.has(rank) ? "strong" : "plain", x: 2, y: this.yOf(rank) + 4 }, `rank ${rank}`));
    const about = `The last ${counted(calls.length, "call")} of ${counted(this.seen.length, "rank")} against time`;
    having(this.element, { viewBox: `0 0 ${this.width} ${height}`, width: this.width, height, "aria-label": about });
    this.element.replaceChildren(...this.bands(), ...ticks.map(([x]) => drawn("path", { class: "grid", d: `M ${x} 0 V ${bottom + 5}` })),
      ...this.seen.map((it) => this.lane(it)), ...this.messages(), ...this.lost(), drawn("rect", { class: "cover", width: NAMES - 3, height }), ...names,
      ...ticks.map(([x, text]) => drawn("text", { class: "tick", x, y: bottom + 18 }, text)));
    if (isWithin) this.bars.get(this.chosen).focus();
  }
}
