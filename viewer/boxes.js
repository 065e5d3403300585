/** The boxes of the nodes where there is room for them, with what an event did; and subtrees as blocks where there is none. */
import * as Dom from "./dom.js";
import * as Layout from "./layout.js";
import * as Signs from "./signs.js";
import * as Words from "./words.js";

const { svg } = Dom;
const { STATUSES } = Words;
const NAME_FONT = '600 13px "DejaVu Sans", system-ui, sans-serif';
const SMALL_FONT = '11px "DejaVu Sans", system-ui, sans-serif';
const WIDEST = 250;
const SIGN_WIDTH = 30;
const BADGE_ROOM = 30;
const LINE_HEIGHT = 15;
const MOST_DETAILS = 12;
const BOX_HEIGHT = 42;
/** Below a box there is room for the strip of what the event did with the node. */
const STRIP_ROOM = 24;
/** A strip is at most so much wider than its box. */
const STRIP_BEYOND = 2;
/** The badge of a box whose texts can't be read. */
const TINY_BADGE = 34;

const nameWidth = Dom.measuring(NAME_FONT);
const smallWidth = Dom.measuring(SMALL_FONT);

/** The ports, the code and the guards of a node, a line each. */
function detailsOf(node) {
  const lines = node.ports.map(({ name, value }) => `${name} = ${value}`);
  if (node.code !== null) lines.push(`code: ${node.code}`);
  return lines.concat(node.guards.map(({ name, value }) => `${name}: ${value}`));
}

/** The lines of these that go into a box: all, or the first of them and how many there are more. */
function boxDetailsOf(node) {
  const lines = detailsOf(node);
  return lines.length <= MOST_DETAILS ? lines : [...lines.slice(0, MOST_DETAILS - 1), `… ${lines.length - MOST_DETAILS + 1} more`];
}

/** The second line in a box: the uid, and the ID where the name is another. */
function underName(node) {
  return node.name === node.id ? `${node.uid}` : `${node.uid} · ${node.id}`;
}

/** What is said of a node where the pointer rests on it. */
function titleOf(node) {
  return [`${node.name} (node ${node.uid}, ${node.id})`, ...detailsOf(node)].join("\n");
}

/** The size of a node's box with the room for its strip. */
function sizeOf(node, withDetails) {
  const details = withDetails ? boxDetailsOf(node) : [];
  const lengths = [nameWidth(node.name), smallWidth(underName(node)), ...details.map(smallWidth)];
  const width = Math.min(WIDEST, Math.max(96, Math.ceil(Math.max(...lengths)) + SIGN_WIDTH + BADGE_ROOM + 14));
  return { width, height: BOX_HEIGHT + details.length * LINE_HEIGHT + (details.length ? 4 : 0) + STRIP_ROOM };
}

/** The elements of a node's box. `view` is the tree's: how it is arranged, folded and read. */
function make(view, node) {
  const place = view.arranged.places.get(node.uid);
  const height = place.height - STRIP_ROOM;
  const kind = Signs.kindOf(node, view.run.world);
  const radius = kind === "condition" || node.id === "ScriptCondition" ? height / 2 : node.family === "decorator" ? 12 : 4;
  const isFolded = view.folds.has(node.uid);
  const { width } = place;
  const state = svg("g", { class: "state" });
  const group = svg("g", {
    class: `node ${node.family} ${kind}`, "data-uid": node.uid, transform: `translate(${place.x} ${place.y})`, role: "img",
  },
    svg("rect", { class: "changed-mark", x: -4, y: -4, width: width + 8, height: height + 8, rx: radius + 4 }),
    svg("rect", { class: "selected-mark", x: -7, y: -7, width: width + 14, height: height + 14, rx: radius + 7 }),
    isFolded ? svg("rect", { class: "stack", x: 5, y: 5, width: width - 1, height: height - 1, rx: radius }) : null,
    svg("rect", { class: "box", x: 0.5, y: 0.5, width: width - 1, height: height - 1, rx: radius }),
    view.level === "tiny" ? svg("title", {}, titleOf(node)) : signOf(node, kind, height, radius),
    view.level === "tiny" ? null : textOf(view, node, place),
    node.children.length > 0 && view.level !== "tiny" ? foldButton(view, node, place, height) : null,
    state);
  const parts = { group, state, all: [group], edge: null };
  if (node.parent !== 0) parts.edge = svg("path");
  if (node.children.length > 0 && !isFolded) {
    parts.all.push(view.edges.appendChild(svg("path", { d: Layout.trunkOf(view.arranged, node, STRIP_ROOM) })));
  }
  if (node.family === "subtree" && !isFolded) {
    const frame = Layout.frameOf(view.run.tree, view.arranged, node.uid);
    parts.all.push(view.frames.appendChild(svg("g", { class: "frame" }, svg("rect", { ...frame, rx: 12 }))));
  }
  return parts;
}

/** A subtree as one block, in place of its frame and all in it. */
function makeBlock(view, node) {
  const frame = Layout.frameOf(view.run.tree, view.arranged, node.uid);
  const state = svg("g", { class: "state" });
  const group = svg("g", { class: "node subtree block", "data-uid": node.uid, transform: `translate(${frame.x} ${frame.y})`, role: "img" },
    svg("rect", { class: "changed-mark", x: -6, y: -6, width: frame.width + 12, height: frame.height + 12, rx: 16 }),
    svg("rect", { class: "selected-mark", x: -9, y: -9, width: frame.width + 18, height: frame.height + 18, rx: 18 }),
    svg("rect", { class: "box", x: 0, y: 0, width: frame.width, height: frame.height, rx: 12 }),
    svg("title", {}, `${titleOf(node)}\n${Words.count(node.size, "node")}`), state);
  return { group, state, all: [group], edge: node.parent === 0 ? null : svg("path"), frame };
}

function edgeOf(view, node, isWhole) {
  return Layout.edgeTo(view.arranged, node, STRIP_ROOM, isWhole);
}

function signOf(node, kind, height, radius) {
  const inset = radius > 12 ? 8 : 7;
  const letter = Signs.letterOf(node);
  return svg("g", { class: "sign", transform: `translate(${inset} ${(Math.min(height, BOX_HEIGHT) - 18) / 2}) scale(1.125)` },
    svg("path", { d: Signs.KINDS[kind] }),
    letter ? svg("text", { x: 14.5, y: 15.5 }, letter) : null);
}

function textOf(view, node, place) {
  const room = place.width - SIGN_WIDTH - BADGE_ROOM - 4;
  const lines = view.withDetails ? boxDetailsOf(node) : [];
  return svg("g", { class: "texts", transform: `translate(${SIGN_WIDTH + 2} 0)` },
    svg("text", { class: "name", y: 18 }, Dom.shortened(node.name, room, nameWidth)),
    svg("text", { class: "small", y: 33 }, Dom.shortened(underName(node), room, smallWidth)),
    ...lines.map((line, at) =>
      svg("text", { class: "small detail", y: 48 + at * LINE_HEIGHT }, Dom.shortened(line, room + BADGE_ROOM - 6, smallWidth))),
    svg("title", {}, titleOf(node)));
}

function foldButton(view, node, place, height) {
  const isFolded = view.folds.has(node.uid);
  const label = isFolded ? `+${Words.number(node.size - 1)}` : "−";
  const width = isFolded ? smallWidth(label) + 14 : 18;
  const at = view.direction === "down" ? { x: place.width / 2, y: height + 3 } : { x: place.width + 3, y: height / 2 };
  return svg("g", { class: `fold${isFolded ? " folded" : ""}`, transform: `translate(${at.x} ${at.y})` },
    svg("title", {}, isFolded ? `Unfold ${Words.count(node.size - 1, "node")}` : "Fold"),
    svg("rect", { x: -width / 2, y: -8, width, height: 16, rx: 8 }),
    svg("text", { y: 4 }, label));
}

/** What changes in a box with the event. */
function stateParts(view, node, { status, doings, folded, isFaulty }) {
  const place = view.arranged.places.get(node.uid);
  const height = place.height - STRIP_ROOM;
  const name = isFaulty ? "fault" : status;
  if (view.level === "tiny") return [Signs.badge(name, (place.width - TINY_BADGE) / 2, (BOX_HEIGHT - TINY_BADGE) / 2, TINY_BADGE)];
  return [
    Signs.badge(name, place.width - 26, (BOX_HEIGHT - 18) / 2, 18),
    ...stripOf(doings, height, place.width + STRIP_BEYOND),
    ...(folded ? summaryOf(folded, height, doings.length > 0) : []),
  ];
}

function blockParts({ status, isFaulty }, { width, height }) {
  const size = Math.min(80, height / 2, width / 2);
  return [Signs.badge(isFaulty ? "fault" : status, (width - size) / 2, height / 2 - size * 1.1, size)];
}

/** The strip below a box: what the event did with the node, or the last of it and how much goes before. */
function stripOf(doings, height, widest) {
  if (doings.length === 0) return [];
  const widthOf = ({ text }) => (text ? smallWidth(text) + 4 : 0) + 14;
  let first = doings.length - 1;
  for (let width = 40 + widthOf(doings[first]); first > 0; first--) {
    width += widthOf(doings[first - 1]);
    if (width > widest && !(first === 1 && width - 24 <= widest)) break;
  }
  const strip = svg("g", { class: "strip" });
  let x = first > 0 ? addText(strip, 6, `${first} +`) : 6;
  for (const { text, badge } of doings.slice(first)) {
    if (text) x = addText(strip, x, text);
    strip.append(Signs.badge(badge, x, 3.5, 11));
    x += 14;
  }
  strip.prepend(svg("rect", { x: 0.5, y: 0.5, width: x + 3, height: 17, rx: 8.5 }));
  strip.setAttribute("transform", `translate(6 ${height - 3})`);
  return [strip];
}

function addText(strip, x, text) {
  strip.append(svg("text", { x, y: 12.5 }, text));
  return x + smallWidth(text) + 4;
}

/** What stands below a folded node: a badge and a number for each status but IDLE. */
function summaryOf({ statuses, changed }, height, lowered) {
  const summary = svg("g", { class: "summary", transform: `translate(4 ${height + (lowered ? 17 : 12)})` });
  let x = 0;
  for (const status of [Words.RUNNING, Words.SUCCESS, Words.FAILURE]) {
    if (statuses[status] === 0) continue;
    summary.append(Signs.badge(STATUSES[status], x, 0, 11));
    const text = Words.number(statuses[status]);
    summary.append(svg("text", { x: x + 14, y: 9.5 }, text));
    x += 14 + smallWidth(text) + 8;
  }
  if (changed > 0) summary.append(svg("text", { class: "changes", x, y: 9.5 }, `${Words.number(changed)} changed`));
  return [summary];
}

export { make, makeBlock, edgeOf, stateParts, blockParts, sizeOf, titleOf, STRIP_ROOM };
