/**
 * Places the boxes of a tree, from the root down or from left to right, without those below folded nodes. Many leaves of
 * one parent stand in rows, like the words of a text.
 *
 * @typedef {{x: number, y: number, width: number, height: number, from: number, to: number, turn: number}} Place
 *   a box; between `from` and `to` all below it lies across, and at `turn` the edge to it turns
 * @typedef {"down" | "right" | "rows"} Direction
 */

const BETWEEN_SIBLINGS = { down: 18, right: 10 };
const BETWEEN_LEVELS = { down: 54, right: 46 };
/** The edges to a node's children turn at this distance from their boxes. */
const EDGE_TURN = 22;
const FRAME = 12;
/** So many leaves of one parent stand beside each other; more of them stand in rows. */
const IN_A_ROW = 8;
/** The room between the rows of leaves, that beside them, and how many times as wide as high all of them are to be. */
const BETWEEN_ROWS = { down: 34, right: 46 };
const BESIDE_ROWS = 20;
const ROWS_SHAPE = 2.2;

/**
 * The nodes that are folded where only so many are to be shown: those farthest from the root.
 * @param {import("./treefile.js").Tree} tree
 * @param {number} atOnce
 * @returns {Set<number>}
 */
function firstFolds(tree, atOnce) {
  const folded = new Set();
  let shown = 1;
  for (let queue = [1], at = 0; at < queue.length; at++) {
    const { children } = tree.node(queue[at]);
    if (children.length === 0) continue;
    if (shown + children.length > atOnce) {
      folded.add(queue[at]);
    } else {
      shown += children.length;
      queue.push(...children);
    }
  }
  return folded;
}

/** The uids that are not below a folded node, in pre-order. */
function shownOf(tree, folded) {
  const shown = [];
  for (let uid = 1; uid <= tree.size; uid += folded.has(uid) ? tree.node(uid).size : 1) shown.push(uid);
  return shown;
}

/** The size of a box across, and from level to level. */
function turned(size, direction) {
  return direction === "down" ? [size.width, size.height] : [size.height, size.width];
}

/** How far each level lies from the root, and how far the tree goes. */
function levelsOf(tree, shown, sizeOf, direction) {
  const sizes = [];
  for (const uid of shown) {
    const { depth } = tree.node(uid);
    sizes[depth - 1] = Math.max(sizes[depth - 1] ?? 0, turned(sizeOf(uid), direction)[1]);
  }
  const begins = [0];
  for (const size of sizes) begins.push(begins[begins.length - 1] + size + BETWEEN_LEVELS[direction]);
  return begins;
}

/** The rows in which the children of this node stand, where they are many leaves; else null. */
function gridOf(tree, node, folded, sizeOf, direction) {
  const { children } = node;
  if (children.length <= IN_A_ROW || children.some((child) => tree.node(child).children.length > 0)) return null;
  let own = 0;
  let deep = 0;
  for (const child of children) {
    const [across, along] = turned(sizeOf(child), direction);
    own = Math.max(own, across);
    deep = Math.max(deep, along);
  }
  const each = own + BETWEEN_SIBLINGS[direction];
  const high = deep + BETWEEN_ROWS[direction];
  const shape = direction === "down" ? ROWS_SHAPE : 1 / ROWS_SHAPE;
  const columns = Math.max(2, Math.ceil(Math.sqrt((children.length * high * shape) / each)));
  return { columns, each, high, width: columns * each + BESIDE_ROWS, rows: Math.ceil(children.length / columns) };
}

/** How much room each shown node takes across, with all that is shown below it. */
function spansOf(tree, shown, folded, sizeOf, direction) {
  const spans = new Map();
  for (let at = shown.length - 1; at >= 0; at--) {
    const node = tree.node(shown[at]);
    const [own] = turned(sizeOf(node.uid), direction);
    const open = !folded.has(node.uid) && node.children.length > 0;
    const grid = open ? gridOf(tree, node, folded, sizeOf, direction) : null;
    let below = open ? BETWEEN_SIBLINGS[direction] * (node.children.length - 1) : 0;
    if (grid) below = grid.width;
    else if (open) for (const child of node.children) below += spans.get(child).span;
    const frame = open && node.family === "subtree" ? FRAME : 0;
    spans.set(node.uid, { own, below, open, grid, frame, span: Math.max(own, below) + 2 * frame });
  }
  return spans;
}

/** Where the children of a node begin across, or in their rows. `at` gets what is known of each. */
function placeChildren(node, { grid, frame, span, below }, from, begin, spans, at, direction) {
  let next = from + frame + (span - 2 * frame - below) / 2;
  node.children.forEach((child, number) => {
    if (grid) {
      const row = Math.floor(number / grid.columns);
      const place = next + BESIDE_ROWS + (number % grid.columns) * grid.each;
      at.set(child, { from: place, along: begin + row * grid.high });
    } else {
      at.set(child, { from: next, along: begin });
      next += spans.get(child).span + BETWEEN_SIBLINGS[direction];
    }
  });
}

/**
 * The place of each shown node. `begins` says how far from the root each level is, and `grids` in which rows the leaves of
 * a node stand.
 * @param {import("./treefile.js").Tree} tree
 * @param {{has: (uid: number) => boolean}} folded
 * @param {(uid: number) => {width: number, height: number}} sizeOf
 * @param {Direction} direction
 */
function arrange(tree, folded, sizeOf, direction) {
  const shown = shownOf(tree, folded);
  const begins = levelsOf(tree, shown, sizeOf, direction);
  const spans = spansOf(tree, shown, folded, sizeOf, direction);
  /** @type {Map<number, Place>} */
  const places = new Map();
  const grids = new Map();
  const at = new Map([[1, { from: 0, along: 0 }]]);
  let end = begins[begins.length - 1] - BETWEEN_LEVELS[direction];
  for (const uid of shown) {
    const node = tree.node(uid);
    const kept = spans.get(uid);
    const { from, along } = at.get(uid);
    if (kept.open) placeChildren(node, kept, from, begins[node.depth], spans, at, direction);
    if (kept.grid) {
      grids.set(uid, { ...kept.grid, side: from + kept.frame + (kept.span - 2 * kept.frame - kept.below) / 2 + BESIDE_ROWS / 2 });
      end = Math.max(end, begins[node.depth] + kept.grid.rows * kept.grid.high);
    }
    const size = sizeOf(uid);
    const across = from + kept.span / 2 - kept.own / 2;
    const box = direction === "down" ? { x: across, y: along } : { x: along, y: across };
    places.set(uid, { ...box, width: size.width, height: size.height, from, to: from + kept.span, turn: along - EDGE_TURN });
  }
  const across = spans.get(1).span;
  const extent = direction === "down" ? { width: across, height: end } : { width: end, height: across };
  return { direction, shown, places, begins, grids, extent };
}

/** The uids of the shown nodes whose boxes, or those of nodes below them, are in this part of the drawing. */
function inView(tree, arranged, folded, part, isBlock) {
  const { places, direction, shown, begins, grids } = arranged;
  const down = direction === "down";
  const [from, to] = down ? [part.left, part.right] : [part.top, part.bottom];
  const [near, far] = down ? [part.top, part.bottom] : [part.left, part.right];
  const found = [];
  for (let at = 0; at < shown.length;) {
    const node = tree.node(shown[at]);
    const place = places.get(node.uid);
    const begin = down ? place.y : place.x;
    const isShut = folded.has(node.uid) || isBlock(node);
    if (place.to >= from && place.from <= to && begin <= far) {
      const isOpen = node.children.length > 0 && !isShut;
      const grid = grids.get(node.uid);
      const below = grid ? begins[node.depth] + grid.rows * grid.high : begins[node.depth];
      const reach = isOpen ? below : begin + (down ? place.height : place.width);
      if (reach >= near || node.family === "subtree") found.push(node.uid);
      at = isShut ? after(shown, at, node) : at + 1;
    } else {
      at = after(shown, at, node);
    }
  }
  return found;
}

/** The place in the list of shown nodes after this node and all that is shown below it. */
function after(shown, at, node) {
  let from = at + 1;
  let to = shown.length;
  while (from < to) {
    const middle = (from + to) >> 1;
    if (shown[middle] < node.uid + node.size) from = middle + 1;
    else to = middle;
  }
  return from;
}

/** The frame round a SubTree node and all that is shown below it. */
function frameOf(tree, arranged, uid) {
  const { places, direction, shown } = arranged;
  const place = places.get(uid);
  const node = tree.node(uid);
  const first = shown.indexOf(uid);
  let end = direction === "down" ? place.y + place.height : place.x + place.width;
  for (let at = first + 1; at < shown.length && shown[at] < uid + node.size; at++) {
    const below = places.get(shown[at]);
    end = Math.max(end, direction === "down" ? below.y + below.height : below.x + below.width);
  }
  const from = place.from + FRAME / 3;
  const to = place.to - FRAME / 3;
  const room = 8;
  return direction === "down"
    ? { x: from, y: place.y - 10, width: to - from, height: end + room - place.y + 10 }
    : { x: place.x - 10, y: from, width: end + 20 - place.x, height: to - from };
}

// ---- Edges

/** The lines along which edges go: `M` and then one step in each direction, by how the tree is drawn. */
function along(direction) {
  return direction === "down" ? { M: (a, b) => `M${a} ${b}`, A: (a) => `H${a}`, B: (b) => `V${b}` }
    : { M: (a, b) => `M${b} ${a}`, A: (a) => `V${a}`, B: (b) => `H${b}` };
}

/** The middle of a box across, where edges meet it; and where it begins and ends from level to level. */
function jointOf(place, direction, strip) {
  return direction === "down"
    ? { middle: place.x + place.width / 2, begin: place.y, end: place.y + place.height - strip }
    : { middle: place.y + (place.height - strip) / 2, begin: place.x, end: place.x + place.width };
}

/** The edge to a node from where it leaves that of its siblings, or with `isWhole` from its parent. */
function edgeTo(arranged, node, strip, isWhole) {
  const { places, direction, grids } = arranged;
  const { M, A, B } = along(direction);
  const place = places.get(node.uid);
  const { middle, begin } = jointOf(place, direction, strip);
  if (!isWhole) return M(middle, place.turn) + B(begin);
  const from = jointOf(places.get(node.parent), direction, strip);
  const grid = grids.get(node.parent);
  const round = grid ? B(arranged.begins[node.depth - 1] - EDGE_TURN) + A(grid.side) : "";
  return M(from.middle, from.end) + round + B(place.turn) + A(middle) + B(begin);
}

/** The edge from a node to where those to its children leave it, from the first to the last, in each row of them. */
function trunkOf(arranged, node, strip) {
  const { places, direction, grids, begins } = arranged;
  const { M, A, B } = along(direction);
  const from = jointOf(places.get(node.uid), direction, strip);
  const turn = begins[node.depth] - EDGE_TURN;
  const middleOf = (uid) => jointOf(places.get(uid), direction, strip).middle;
  const grid = grids.get(node.uid);
  const { children } = node;
  if (!grid) return M(from.middle, from.end) + B(turn) + M(middleOf(children[0]), turn) + A(middleOf(children[children.length - 1]));
  let path = M(from.middle, from.end) + B(turn) + A(grid.side) + B(turn + (grid.rows - 1) * grid.high);
  for (let row = 0; row < grid.rows; row++) {
    const last = children[Math.min(children.length, (row + 1) * grid.columns) - 1];
    path += M(row === 0 ? Math.min(grid.side, from.middle) : grid.side, turn + row * grid.high) + A(middleOf(last));
  }
  return path;
}

export { firstFolds, shownOf, arrange, inView, frameOf, edgeTo, trunkOf };
