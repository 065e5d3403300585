/** The cells of a tree that is shown in rows: a group with its name, and a leaf with its name or as its status alone. */
import * as Boxes from "./boxes.js";
import * as Dom from "./dom.js";
import * as Rows from "./rows.js";
import * as Signs from "./signs.js";
import * as Words from "./words.js";

const { svg } = Dom;
const FONT = '11px "DejaVu Sans", system-ui, sans-serif';
const BOLD = '600 11px "DejaVu Sans", system-ui, sans-serif';
const MOST_NAME = 128;
/** The badge and the sign in a cell, each with the room round it. */
const BADGE = 15;
const SIGN = 14;
const { CELL } = Rows;

const width = Dom.measuring(FONT);
const boldWidth = Dom.measuring(BOLD);

/** The name of a leaf, in full where it is chosen to be shown; of a decorator, none; of a group, its own. */
function textOf(node, withNames) {
  if (node.family === "decorator" && node.name === node.id) return "";
  return node.children.length > 0 || withNames ? node.name : "";
}

const measureOf = (node) => (node.children.length > 0 ? boldWidth : width);

/** The width of a node's cell. `withNames` says whether leaves have their names. */
function widthOf(node, withNames, isFolded) {
  const text = textOf(node, withNames);
  const sign = node.children.length > 0 ? SIGN : 0;
  const hidden = isFolded ? width(`+${Words.number(node.size - 1)}`) + 12 : 0;
  const named = text ? Math.min(MOST_NAME, Math.ceil(measureOf(node)(text))) + 5 : 1;
  return BADGE + sign + named + hidden;
}

/** The elements of a node's cell. `view` is the tree's: how it is arranged, folded and read. */
function make(view, node) {
  const place = view.arranged.places.get(node.uid);
  const isGroup = node.children.length > 0;
  const kind = Signs.kindOf(node, view.run.world);
  const text = textOf(node, view.rowLevel === "names");
  const isFolded = view.folds.has(node.uid);
  const state = svg("g", { class: "state" });
  const radius = isGroup ? 3 : CELL / 2;
  const group = svg("g", {
    class: `node cell ${node.family}${isGroup ? " group" : ""}`, "data-uid": node.uid, role: "img",
    transform: `translate(${place.x} ${place.y})`,
  },
    svg("rect", { class: "selected-mark", x: -3, y: -3, width: place.width + 6, height: CELL + 6, rx: radius + 3 }),
    svg("rect", { class: "box", width: place.width, height: CELL, rx: radius }),
    isGroup ? svg("path", { class: "cell-sign", d: Signs.KINDS[kind], transform: `translate(${BADGE} 2) scale(.75)` }) : null,
    text ? svg("text", { x: BADGE + (isGroup ? SIGN : 0) + 1, y: 12 }, Dom.shortened(text, MOST_NAME, measureOf(node))) : null,
    isFolded ? foldMark(node, place.width) : null,
    state, svg("title", {}, Boxes.titleOf(node)));
  return { group, state, all: [group], edge: svg("path") };
}

/** How many nodes a folded group hides; a click unfolds it. */
function foldMark(node, right) {
  const label = `+${Words.number(node.size - 1)}`;
  const wide = width(label) + 8;
  return svg("g", { class: "fold folded", transform: `translate(${right - wide / 2 - 2} ${CELL / 2})` },
    svg("rect", { x: -wide / 2, y: -6.5, width: wide, height: 13, rx: 6.5 }), svg("text", { y: 3.5 }, label));
}

function stateParts(view, node, { status, isFaulty }) {
  return [Signs.badge(isFaulty ? "fault" : status, 2, 2, 12)];
}

export { make, widthOf, stateParts };
