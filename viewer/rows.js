/**
 * Places a large tree in rows, like an outline in columns: each group begins a row, indented below its parent, and leaves
 * that follow each other share one. So three hundred nodes go into a window, with the names of all groups.
 */
import * as Layout from "./layout.js";

const ROW = 18;
const CELL = 16;
/** How far a level is indented; less in a deep tree, so that its rows keep some room. */
const INDENT = 12;
const LEAST_INDENT = 2;
const MOST_INDENTED = 200;
const BETWEEN_CELLS = 3;
const BETWEEN_COLUMNS = 20;
/** A row is not longer than this, unless one cell is. */
const WIDEST_ROW = 330;
/** The first row of a column gives way to a caption that says where it stands. */
const CAPTION = 17;
/** A caption names so many groups, those nearest to its rows. */
const CAPTIONED = 2;
/** A column ends near its share of the rows, at a row that is not deep: so much of it may be moved. */
const SHIFT = 0.14;
const MOST_COLUMNS = 14;

/** Whether the node shares a row with its siblings: a leaf, or decorators with one. */
function isInline(tree, folded, node) {
  if (node.children.length === 0) return true;
  return node.family === "decorator" && !folded.has(node.uid) && isInline(tree, folded, tree.node(node.children[0]));
}

/** How far a level of this tree is indented. */
function indentOf(tree, folded) {
  const deepest = Layout.shownOf(tree, folded).reduce((most, uid) => Math.max(most, tree.node(uid).depth), 1);
  return Math.max(LEAST_INDENT, Math.min(INDENT, MOST_INDENTED / deepest));
}

/** Makes the rows of a tree: what stands in each, how far it is indented, and the group that it belongs to. */
class RowMaker {
  constructor(tree, folded, widthOf) {
    Object.assign(this, { tree, folded, widthOf, rows: [], indent: indentOf(tree, folded) });
  }

  /** All rows, each with where it begins in its column. */
  all() {
    if (isInline(this.tree, this.folded, this.tree.node(1))) this.putChain(this.add(0, 0), 1);
    else this.lay(1, 0, null, 0);
    for (const row of this.rows) row.left = row.indent * this.indent;
    return this.rows;
  }

  /** A new row. `continues` says how far the next one is indented where this one is too long. */
  add(indent, group, continues = indent + 1) {
    this.rows.push({ indent, group, continues, cells: [], width: 0 });
    return this.rows[this.rows.length - 1];
  }

  /** Puts a node into a row, or into one more where it is too long. Answers the row. */
  put(row, uid) {
    const width = this.widthOf(uid) + BETWEEN_CELLS;
    const isLong = row.cells.length > 0 && row.indent * this.indent + row.width + width > WIDEST_ROW;
    const into = isLong ? this.add(row.continues, row.group, row.continues) : row;
    into.cells.push(uid);
    into.width += width;
    return into;
  }

  /** Puts a leaf with the decorators above it into a row. */
  putChain(row, uid) {
    let into = row;
    for (let at = uid; at !== undefined; at = this.tree.node(at).children[0]) into = this.put(into, at);
    return into;
  }

  /** Lays a group: in a row that has its parent, where it is the one child of that, or in a new one. */
  lay(uid, indent, shared, parent) {
    const { children } = this.tree.node(uid);
    const row = this.put(shared ?? this.add(indent, parent), uid);
    if (this.folded.has(uid)) return;
    const isOnly = children.length === 1;
    let open = row;
    for (const child of children) {
      if (isInline(this.tree, this.folded, this.tree.node(child))) {
        open = this.putChain(open ?? this.add(indent + 1, uid, indent + 1), child);
      } else {
        this.lay(child, isOnly ? indent : indent + 1, isOnly ? row : null, uid);
        open = null;
      }
    }
  }
}

/** Where each of so many columns begins: near its share of the rows, and where the rows are not deep. */
function breaksOf(rows, columns) {
  const begins = [0];
  const share = rows.length / columns;
  for (let column = 1; column < columns; column++) {
    const middle = Math.round(begins[column - 1] + (rows.length - begins[column - 1]) / (columns - column + 1));
    let best = middle;
    for (let at = Math.ceil(middle - share * SHIFT); at <= middle + share * SHIFT; at++) {
      const better = rows[at] && (rows[at].indent < rows[best]?.indent || (rows[at].indent === rows[best]?.indent
        && Math.abs(at - middle) < Math.abs(best - middle)));
      if (better && at > begins[column - 1]) best = at;
    }
    begins.push(Math.min(rows.length, best));
  }
  return begins;
}

/** The extent of the rows in these columns, and where each column lies. */
function columnsOf(rows, begins) {
  const columns = [];
  let x = 0;
  let most = 0;
  for (let column = 0; column < begins.length; column++) {
    const first = begins[column];
    const end = begins[column + 1] ?? rows.length;
    // A column begins where the least indented of its rows does, with room for the lines to those.
    let least = Infinity;
    for (let at = first; at < end; at++) least = Math.min(least, rows[at].left);
    const shift = Math.max(0, least - INDENT);
    let width = 60;
    for (let at = first; at < end; at++) width = Math.max(width, rows[at].left - shift + rows[at].width);
    columns.push({ first, end, x, width, shift });
    x += width + BETWEEN_COLUMNS;
    most = Math.max(most, end - first);
  }
  return { columns, extent: { width: x - BETWEEN_COLUMNS, height: CAPTION + most * ROW } };
}

/** The columns in which the rows can be shown largest in a room of this shape. */
function bestColumns(rows, room) {
  let best = null;
  for (let count = 1; count <= Math.min(MOST_COLUMNS, rows.length); count++) {
    const made = columnsOf(rows, breaksOf(rows, count));
    const scale = Math.min(room.width / made.extent.width, room.height / made.extent.height);
    // More columns than are needed would only stretch what is large enough.
    if (!best || Math.min(scale, 1.1) > Math.min(best.scale, 1.1) + 0.005) best = { ...made, scale };
  }
  return best;
}

/** The frames of a SubTree's rows, one in each column that has some of them. */
function framesOf(rows, columns, from, to) {
  const frames = [];
  for (const { first, end, x, width, shift } of columns) {
    const begin = Math.max(first, from);
    const last = Math.min(end, to);
    if (begin >= last) continue;
    const left = x + Math.max(0, rows[from].left - shift) - 4;
    frames.push({ x: left, y: CAPTION + (begin - first) * ROW - 1, width: x + width + 4 - left, height: (last - begin) * ROW - 1 });
  }
  return frames;
}

/**
 * The place of each shown node, in as many columns as the room wants.
 * @param {import("./treefile.js").Tree} tree
 * @param {{has: (uid: number) => boolean}} folded
 * @param {(uid: number) => number} widthOf the width of a node's cell
 * @param {{width: number, height: number}} room
 */
function arrange(tree, folded, widthOf, room) {
  const rows = new RowMaker(tree, folded, widthOf).all();
  const { columns, extent } = bestColumns(rows, room);
  const places = new Map();
  const rowOf = new Map();
  for (const { first, end, x, shift } of columns) {
    for (let at = first; at < end; at++) {
      const row = rows[at];
      let left = x + row.left - shift;
      row.y = CAPTION + (at - first) * ROW;
      row.x = left;
      row.column = x;
      row.isFirst = at === first;
      for (const uid of row.cells) {
        const width = widthOf(uid);
        places.set(uid, { x: left, y: row.y, width, height: CELL });
        rowOf.set(uid, at);
        left += width + BETWEEN_CELLS;
      }
      row.end = left;
    }
  }
  return { direction: "rows", shown: Layout.shownOf(tree, folded), places, rows, rowOf, columns, extent };
}

/** The frames of each SubTree node that is unfolded. */
function allFrames(tree, arranged, folded) {
  const { rows, columns, rowOf, shown } = arranged;
  const frames = [];
  for (const uid of shown) {
    const node = tree.node(uid);
    if (node.family !== "subtree" || folded.has(uid)) continue;
    const first = rowOf.get(uid);
    let end = first + 1;
    while (end < rows.length && rows[end].cells[0] > uid && rows[end].cells[0] < uid + node.size) end++;
    frames.push({ uid, parts: framesOf(rows, columns, first, end) });
  }
  return frames;
}

/** Where the columns after the first stand in the tree: the names of the groups above their first rows. */
function captionsOf(tree, arranged) {
  return arranged.columns.slice(1).filter(({ first }) => arranged.rows[first]?.group > 0).map(({ first, x, width }) => {
    const { group } = arranged.rows[first];
    const names = [...tree.above(group), group].slice(1).slice(-CAPTIONED).map((uid) => tree.node(uid).name);
    return { x, width, text: names.length > 0 ? `… ${names.join(" › ")}` : "" };
  });
}

/** The uids of the shown nodes whose cells are in this part of the drawing. */
function inView(arranged, part) {
  const found = [];
  for (const { first, end, x, width } of arranged.columns) {
    if (x > part.right || x + width < part.left) continue;
    const from = Math.max(first, first + Math.floor((part.top - CAPTION) / ROW) - 1);
    const to = Math.min(end, first + Math.ceil((part.bottom - CAPTION) / ROW) + 1);
    for (let at = from; at < to; at++) found.push(...arranged.rows[at].cells);
  }
  return found;
}

/** The line to the first cell of a row from the group that it belongs to; "" for another cell, or the root's. */
function edgeTo(arranged, uid) {
  const row = arranged.rows[arranged.rowOf.get(uid)];
  if (row.cells[0] !== uid || row.group === 0) return "";
  const above = arranged.rows[arranged.rowOf.get(row.group)];
  const x = Math.min(row.x - 2, above.column === row.column ? above.x + 5 : row.x - 7);
  const from = above.column === row.column ? above.y + CELL : CAPTION - 3;
  return `M${x} ${from}V${row.y + CELL / 2}H${row.x}`;
}

export { arrange, allFrames, captionsOf, inView, edgeTo, CELL };
