// The parts of the page, from top to bottom.

const answer = new Answer(JSON.parse(document.getElementById("answer").textContent));
const at = (id) => document.getElementById(id);
let tables = [];

/** Groups of ranks with their words, the first of them where there are many. */
function listOf(groups, most) {
  const lines = groups.slice(0, most).map((it) => named(`${rankWords(it.ranks)} ${it.words}`));
  const more = groups.length > most ? [`and ${counted(groups.length - most, "group")} more, which stand in the table below`] : [];
  return list([...lines, ...more]);
}

/** What holds up the run: each root with its ranks, and who waits for it. */
function showRoots() {
  at("headline").textContent = answer.headline();
  document.title = answer.headline();
  at("summary").textContent = answer.summary();
  const { roots: all } = answer.value;
  const roots = all.slice(0, MOST_BOXES).map((root, i) => {
    const proved = root.kind === "cycle" || root.kind === "ended" ? (root.proved ? " (proved)" : " (not proved)") : "";
    const head = made("p", "", made("span", "kind", `${i + 1} ${root.kind}${proved}`), made("strong", "", answer.rootWords(root)));
    const members = listOf(answer.membersOf(root), 12);
    const count = root.holds_up.length;
    const whom = root.kind === "mismatch" || root.ranks.length > 1 ? "them" : "it";
    const those = `${counted(count, "rank waits", "ranks wait")} for ${whom}: ${rankWords(root.holds_up)}`;
    const waiting = answer.groupsOf(root.holds_up).map((it) => ({ ranks: it.ranks, words: answer.groupWords(it) }));
    return made("li", "", head, members, ...(count === 0 ? [] : [made("p", "", those), listOf(waiting, 6)]));
  });
  if (all.length > MOST_BOXES) roots.push(made("li", "", `and ${all.length - MOST_BOXES} more: the table below has their ranks`));
  at("roots").replaceChildren(...(roots.length > 0 ? roots : [made("li", "", "Nothing holds it up.")]));
}

/** Tells which ranks a box of the picture has; where it is chosen, the tables show those alone. */
function point(box, isChosen) {
  const lines = answer.groupsOf(box.ranks).slice(0, 8).map((group) => {
    const moment = answer.moment(group.first);
    const times = moment === null ? "" : `; the first stands there since ${moment.since} s, for ${moment.lasts} s, in ${traceWords(group.first)}`;
    return named(`${rankWords(group.ranks)} ${answer.groupWords(group)}${times}`);
  });
  at("pointed").replaceChildren(list(lines));
  if (!isChosen) return;
  at("ranks-wanted").value = stretchesOf(box.ranks).join(", ");
  filterTables();
  at("tables").scrollIntoView();
}

/** What the picture's signs mean, of those that it has. */
function legendOf(roots) {
  if (roots.length === 0) return "No rank is seen to wait for another.";
  const signs = [
    [["cycle"], "An arrow back: they wait for one another."], [["mismatch"], "A double frame: calls that don't match."],
    [["ended", "silent"], "A bold frame: ended, or no sign."],
  ].filter(([kinds]) => roots.some((it) => kinds.includes(it.kind))).map(([, words]) => words);
  const more = roots.length > MOST_BOXES ? [`The first ${MOST_BOXES} of ${roots.length} are drawn.`] : [];
  return ["An arrow leads from ranks that wait to what holds them up, perhaps by way of others.", ...signs, ...more,
    "Choose a box, and the tables show its ranks."].join(" ");
}

function showPicture() {
  const { roots } = answer.value;
  at("legend").textContent = legendOf(roots);
  at("pointed").hidden = roots.length === 0;
  if (roots.length === 0) return;
  at("picture").replaceChildren(pictureOf(answer, point));
  at("pointed").textContent = "Point at a box, or go there by the tab key: its ranks and calls stand here.";
}

/** The last calls of some ranks against time, where the value has them. */
function showMoments() {
  const rows = answer.value.last_calls ?? [];
  at("last-moments").hidden = rows.length === 0;
  if (rows.length === 0) return;
  const moments = new Moments(answer, (call) => {
    const lines = call.rows.map(rowWords).filter((it) => it !== "").map(named);
    at("moment").replaceChildren(named(moments.wordsOf(call)), list(lines));
  });
  const change = (changes) => {
    Object.assign(moments, changes);
    more.hidden = moments.lanes.length <= moments.most;
    having(isTimely, { "aria-pressed": moments.isTrue });
    at("moments-mode").textContent = moments.isTrue ? "Lengths are true to time."
      : "Each begin or end is a step, all steps are equally long: not true to time.";
    moments.show(0, 1);
  };
  const more = button(`Show all ${moments.lanes.length} lanes`, () => change({ most: Infinity }));
  const isTimely = button("True to time", () => change({ isTrue: !moments.isTrue }));
  at("moments").replaceChildren(moments.element);
  at("moments-buttons").replaceChildren(button("Zoom in", () => moments.zoom(0.5)), button("Zoom out", () => moments.zoom(2)),
    button("All", () => moments.show(0, 1)), button("Earlier", () => moments.move(-1)), button("Later", () => moments.move(1)), isTimely, more);
  change({});
  window.addEventListener("resize", () => moments.draw());
}

/** Leaves out the rows of all tables that don't fit the words of the filter. */
function filterTables() {
  const isWanted = ranksWanted(at("ranks-wanted").value);
  const [text, object] = [at("text-wanted").value.trim().toLowerCase(), at("object-wanted").value.trim()];
  const fits = (row) => (isWanted === null || row.ranks.some(isWanted)) && row.text.includes(text)
    && (object === "" || (row.object !== undefined && `${row.object}` === object));
  const counts = tables.map((it) => it.show(fits));
  at("fitting").textContent = `${counted(counts.reduce((a, b) => a + b, 0), "row")} in ${counted(counts.filter((it) => it > 0).length, "table")}`;
}

function field(id, label) {
  const input = having(made("input", ""), { id, type: "text", spellcheck: false });
  return made("label", "", label, listening(input, { input: filterTables }));
}

function showFilter() {
  const each = listening(having(made("input", ""), { id: "each-rank", type: "checkbox" }), { change: showTables });
  const count = having(made("output", ""), { id: "fitting" });
  at("filter").replaceChildren(field("ranks-wanted", "Ranks, as 3, 8 to 11"), field("text-wanted", "Function, call site or other text"),
    field("object-wanted", "Object (its id in the layout)"), made("label", "", each, " a row for each rank"), count);
}

function showTables() {
  tables = [standingTable(answer, at("each-rank").checked), ...otherTables(answer)];
  at("tables").replaceChildren(...tables.map((it) => it.element));
  filterTables();
}

/** A wall time, and as a date where it can be one. */
function wallWords(text) {
  const seconds = Number(text);
  return seconds < 1e9 || seconds > 1e10 ? `${text} s` : `${new Date(seconds * 1000).toISOString()} (${text} s)`;
}

function showMade() {
  const { ranks, sends, begin, end, standing, other_sends: other } = answer.value;
  const files = new Set(standing.map((it) => it.file).filter((it) => it !== undefined)).size;
  const sentence = { wait: "a send of standard mode waits for its receive", buffer: "a send of standard mode is buffered" }[sends] ?? sends;
  const rows = [
    ["Made by", `${document.querySelector("meta[name=generator]").content} page, of what mpimatch explain --json says`],
    ["Ranks", `${ranks}`], ["Files", `${files}, in which the last calls of ranks stand`], ["Sends", sentence],
    ["Begins", begin === null ? "no call can be read" : wallWords(begin)], ["Ends", end === null ? "" : wallWords(end)],
    ["Lasts", begin === null ? "" : `${secondsBetween(answer.begin, answer.end)} s`],
    ["Other sends", other === null ? "" : `with the other kind of sends ${other.length === 0 ? "no rank" : rankWords(other)} would be stuck`],
  ];
  at("made").replaceChildren(...rows.filter(([, text]) => text !== "").flatMap(([name, text]) => [made("dt", "", name), made("dd", "", named(text))]));
}

[showRoots, showPicture, showMoments, showFilter, showTables, showMade].forEach((part) => part());
