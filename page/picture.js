// Who waits for whom, drawn: on the left ranks that wait and stand alike, on the right what holds them up.

// the width of a character of the fixed font, the height of a line, and what lies around the lines
const [CHARACTER, LINE, AROUND] = [7.25, 16, 9];
const LONGEST_LINE = 46;
const PARTS_OF_LINE = new RegExp(`.{1,${LONGEST_LINE}}`, "gsu");
const [MOST_BOXES, MOST_MEMBERS] = [40, 8];
const [COLUMN_GAP, BOX_GAP] = [84, 18];

/** An element of SVG with these attributes. */
function drawn(name, attributes = {}, ...children) {
  const element = having(document.createElementNS("http://www.w3.org/2000/svg", name), attributes);
  element.append(...children);
  return element;
}

/** Words as lines of a box: broken between words, where they are too long, and within one that is longer than a line. */
function linesOf(words) {
  const lines = [];
  for (const word of words.split(" ")) {
    const isFit = lines.length > 0 && lines.at(-1).length + 1 + word.length <= LONGEST_LINE;
    const line = isFit ? `${lines.pop()} ${word}` : word;
    lines.push(...(line.match(PARTS_OF_LINE) ?? [""]));
  }
  return lines;
}

/** A box of a picture: its lines, each strong or not, and what it has. */
function boxOf(parts, about) {
  const lines = parts.flatMap(({ words, strong }) => linesOf(words).map((text) => ({ text, strong })));
  const longest = Math.max(...lines.map((it) => Array.from(it.text).length));
  return { ...about, lines, width: longest * CHARACTER + 2 * AROUND, height: lines.length * LINE + 2 * AROUND - 4 };
}

/** The boxes of ranks that wait: alike, and for the same roots, by the middle of those; the last one has those that are too many. */
function waitingBoxes(answer) {
  const ranks = [...answer.holders.keys()].sort((a, b) => a - b);
  const middle = ({ ranks: [rank] }) => answer.holders.get(rank).reduce((sum, it) => sum + it, 0) / answer.holders.get(rank).length;
  const groups = answer.groupsOf(ranks, (rank) => answer.holders.get(rank)).sort((a, b) => middle(a) - middle(b));
  const boxes = groups.slice(0, MOST_BOXES).map((group) => boxOf(
    [{ words: rankWords(group.ranks), strong: true }, { words: answer.groupWords(group) }],
    { ranks: group.ranks, roots: answer.holders.get(group.ranks[0]), kind: "waits" }));
  if (groups.length > MOST_BOXES) {
    const more = groups.slice(MOST_BOXES).flatMap((it) => it.ranks).sort((a, b) => a - b);
    const roots = [...new Set(more.flatMap((rank) => answer.holders.get(rank)))];
    const words = `and ${counted(groups.length - MOST_BOXES, "group")} more: ${rankWords(more)}`;
    boxes.push(boxOf([{ words, strong: true }], { ranks: more, roots, kind: "waits" }));
  }
  return boxes;
}

/** The box of a root: what it is, and its ranks with where they stand. */
function rootBox(answer, root, at) {
  const members = answer.membersOf(root).map(({ ranks, words }) => ({ words: `${rankWords(ranks)} ${words}` }));
  const more = members.splice(MOST_MEMBERS).length;
  if (more > 0) members.push({ words: `and ${counted(more, "group")} more` });
  const head = { words: `${at + 1} ${root.kind}: ${answer.rootWords(root)}`, strong: true };
  return boxOf([head, ...members], { ranks: root.ranks, root: at, kind: root.kind });
}

/** Puts boxes below one another, the column in the middle of this height. */
function place(boxes, x, height) {
  let y = (height - columnHeight(boxes)) / 2;
  for (const box of boxes) {
    Object.assign(box, { x, y });
    y += box.height + BOX_GAP;
  }
}

const columnHeight = (boxes) => boxes.reduce((sum, it) => sum + it.height, BOX_GAP * Math.max(0, boxes.length - 1));

/** A box as it is drawn: a button that tells its ranks. */
function drawnBox(box, point) {
  const { x, y, width, height, kind, root, lines } = box;
  const texts = lines.map(({ text, strong }, i) =>
    drawn("text", { x: x + AROUND, y: y + AROUND + 10 + i * LINE, class: strong ? "strong" : "plain" }, text));
  const frame = drawn("rect", { class: "frame", x: x - 4, y: y - 4, width: width + 8, height: height + 8, rx: 6 });
  const group = drawn("g", {
    class: `${root === undefined ? "waits" : "root"}${kind === "ended" || kind === "silent" ? " bold" : ""}`, role: "button", tabindex: 0,
    "aria-label": lines.map((it) => it.text).join(" "), "aria-describedby": "pointed",
  }, drawn("rect", { class: "box", x, y, width, height, rx: 4 }), ...texts, ...(kind === "mismatch" ? [frame] : []));
  const [look, choose] = [() => point(box, false), () => point(box, true)];
  const press = (event) => {
    if (event.key !== "Enter" && event.key !== " ") return;
    event.preventDefault();
    choose();
  };
  return listening(group, { pointerenter: look, focus: look, click: choose, keydown: press });
}

/** The tip of an arrow that comes from the left, or from the right. */
const tip = (x, y, side) => drawn("path", { class: "tip", d: `M ${x} ${y} l ${-9 * side} -4.5 v 9 z` });

/** An arrow from a box that waits to a root. */
function arrow(from, to, enters) {
  const [x, y] = [from.x + from.width, from.y + from.height / 2];
  const end = to.x - (to.kind === "mismatch" ? 4 : 0);
  const bend = (x + end) / 2;
  return [drawn("path", { class: "edge", d: `M ${x} ${y} C ${bend} ${y} ${bend} ${enters} ${end - 8} ${enters}` }), tip(end, enters, 1)];
}

/** The arrow of ranks that wait for one another, back to their own box. */
function loop(box) {
  const [x, y] = [box.x + box.width, box.y + box.height / 2];
  return [drawn("path", { class: "edge", d: `M ${x} ${y - 9} C ${x + 42} ${y - 22} ${x + 42} ${y + 22} ${x + 8} ${y + 9}` }), tip(x, y + 9, -1)];
}

/** The picture of an answer; `point(box, isChosen)` is told which box is pointed at, or chosen. */
function pictureOf(answer, point) {
  const waiting = waitingBoxes(answer);
  const roots = answer.value.roots.slice(0, MOST_BOXES).map((root, at) => rootBox(answer, root, at));
  const left = Math.max(0, ...waiting.map((it) => it.width));
  const height = Math.max(columnHeight(waiting), columnHeight(roots));
  place(waiting, 0, height);
  place(roots, waiting.length > 0 ? left + COLUMN_GAP : 0, height);
  const right = Math.max(...roots.map((it) => it.x + it.width)) + 46;
  const edges = roots.flatMap((root) => {
    const from = waiting.filter((it) => it.roots.includes(root.root));
    const arrows = from.flatMap((it, i) => arrow(it, root, root.y + (root.height * (i + 1)) / (from.length + 1)));
    return root.kind === "cycle" ? [...arrows, ...loop(root)] : arrows;
  });
  const boxes = [...waiting, ...roots].map((it) => drawnBox(it, point));
  return drawn("svg", {
    viewBox: `-8 -8 ${right + 16} ${height + 16}`, width: right + 16, height: height + 16, role: "group",
    "aria-label": "Groups of ranks that wait, and what holds them up",
  }, ...edges, ...boxes);
}
