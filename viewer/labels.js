/** Names in a size that can be read, beside boxes that are too small to hold theirs. */
import * as Dom from "./dom.js";
import * as Words from "./words.js";

const { svg } = Dom;
const FONT = '600 11px "DejaVu Sans", system-ui, sans-serif';
const HEIGHT = 16;
const MOST = 60;
const LONGEST = 150;
/** A block that is narrower goes without its name. */
const SHORTEST = 28;
/** How much a subtree weighs more than its size, and what runs. */
const SUBTREE = 1e4;
const RUNS = 1e6;
/** The bottom of the window, which belongs to the legend. */
const LEGEND = 34;

const widthOf = Dom.measuring(FONT);

/** Where a label may stand at a box in the window: beside it, above it, below it; and of a block in it. */
function placesAt({ left, top, width, height }, wide, isBlock) {
  const middle = { x: left + (width - wide) / 2, y: top + (height - HEIGHT) / 2 };
  if (isBlock) return [{ x: middle.x, y: top + height * 0.62 - HEIGHT / 2 }, middle];
  return [
    { x: left + width + 3, y: middle.y }, { x: middle.x, y: top - HEIGHT - 2 }, { x: middle.x, y: top + height + 2 },
    { x: left - wide - 3, y: middle.y }, { x: left + width + 3, y: top - HEIGHT }, { x: left + width + 3, y: top + height },
  ];
}

/** Where the label of a node in rows may stand: a group's over it, a leaf's at the end of its row, after others there. */
function placesInRow(view, node, { left, top, height }, placed) {
  const y = top + (height - HEIGHT) / 2;
  if (node.children.length > 0) return [{ x: left, y }];
  const row = view.arranged.rows[view.arranged.rowOf.get(node.uid)];
  let x = row.end * view.camera.scale + view.camera.x + 1;
  for (const other of placed) if (Math.abs(other.y - y) < HEIGHT && other.x + other.wide + 3 > x) x = other.x + other.wide + 3;
  return [{ x, y }];
}

const overlap = (one, other) =>
  one.x < other.x + other.wide && other.x < one.x + one.wide && one.y < other.y + HEIGHT && other.y < one.y + HEIGHT;

/** Whether a label may stand here: in the window, and on no other. */
function isFree(at, room, placed) {
  return at.x >= 2 && at.x + at.wide <= room.width - 2 && at.y >= 2 && at.y + HEIGHT <= room.height - LEGEND
    && !placed.some((other) => overlap(at, other));
}

/**
 * The nodes that want a label, the most important ones first: the chosen one, what runs, subtrees, and groups by their
 * size.
 */
function wanted(view, visible) {
  const { tree } = view.run;
  const statuses = view.run.statusesAfter(view.count, view.runner);
  const isRows = view.direction === "rows";
  const found = [];
  for (const uid of visible) {
    const node = tree.node(uid);
    if (isRows && view.areNamesLegible && node.children.length > 0) continue;  // Its name is in its cell.
    const isRunning = (child) => statuses[child] === Words.RUNNING && visible.has(child);
    const runs = isRunning(uid) && !node.children.some(isRunning);
    let weight = node.children.length > 0 ? node.size + (node.family === "subtree" && !isRows ? SUBTREE : 0) : 0;
    if (runs) weight = RUNS - uid;
    if (uid === view.selected) weight = RUNS;
    if (weight > 0) found.push({ node, runs, weight });
  }
  return found.sort((one, other) => other.weight - one.weight);
}

/** The label of a node, with its place in the window; or null where there is no room for it. */
function labelOf(view, { node, weight }, room, placed) {
  const { scale, x, y } = view.camera;
  const frame = view.drawn.get(node.uid)?.frame;
  const place = frame ?? view.arranged.places.get(node.uid);
  const height = place.height - (frame ? 0 : view.strip);
  const box = { left: place.x * scale + x, top: place.y * scale + y, width: place.width * scale, height: height * scale };
  const most = frame ? box.width - 10 : LONGEST;
  if (most < SHORTEST) return null;
  const text = Dom.shortened(node.name, most, widthOf);
  const wide = widthOf(text) + 8;
  // A group whose stretch is shorter than its name goes without.
  if (weight < SUBTREE && view.direction === "down" && (place.to - place.from) * scale < wide) return null;
  const places = view.direction === "rows" ? placesInRow(view, node, box, placed) : placesAt(box, wide, frame !== undefined);
  const spot = places.map((at) => ({ ...at, wide })).find((at) => isFree(at, room, placed));
  return spot ? { ...spot, text } : null;
}

/** Draws the labels of the visible nodes into a group that is not scaled. */
function draw(view, host, visible, room) {
  const placed = [];
  const labels = [];
  for (const want of wanted(view, visible)) {
    if (placed.length === MOST) break;
    const label = labelOf(view, want, room, placed);
    if (!label) continue;
    const { x, y, wide, text } = label;
    placed.push(label);
    labels.push(svg("g", { class: `tag${want.runs ? " RUNNING" : ""}`, "data-uid": want.node.uid, transform: `translate(${x} ${y})` },
      svg("rect", { width: wide, height: HEIGHT, rx: 4 }), svg("text", { x: 4, y: 12 }, text)));
  }
  host.replaceChildren(...labels);
}

export { draw };
