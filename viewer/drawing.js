/** Draws the tree: only the nodes in view are in the page, and with an event only what changed is drawn again. */
import * as Boxes from "./boxes.js";
import * as Cameras from "./camera.js";
import * as Cells from "./cells.js";
import * as Doings from "./doings.js";
import * as Dom from "./dom.js";
import * as Dots from "./dots.js";
import * as Folding from "./folds.js";
import * as Labels from "./labels.js";
import * as Layout from "./layout.js";
import * as Minimaps from "./minimap.js";
import * as Pointer from "./pointer.js";
import * as Rows from "./rows.js";
import * as Words from "./words.js";

const { svg } = Dom;
const { STATUSES, RUNNING } = Words;
/** Below this scale the texts of boxes can't be read: they become their statuses, with labels beside them. */
const READABLE = 0.45;
const READABLE_ROWS = 0.65;
/** From this scale on a whole tree is shown as boxes, and rows as they are. */
const WHOLE = 0.55;
const WHOLE_ROWS = 0.71;
/** At these scales the leaves of rows lose their names, and get them. */
const WITHOUT_NAMES = 0.6;
const WITH_NAMES = 1.3;
/** So many nodes at most are unfolded by themselves, as boxes and in rows: the most of these that can be read. */
const BOXES_AT_ONCE = 60;
const ROWS_AT_ONCE = [800, 400, 200, 100, 50, 25];
/** A subtree whose frame is smaller than this on the screen, and in which nothing runs, is drawn as one block. */
const BLOCK = 260;

class TreeView {
  /** `actions` has what a click leads to, `select(uid)`, and `moved(view)` for what follows the window. */
  constructor(host, actions) {
    Object.assign(this, { host, actions, run: null, withDetails: false, selected: 0, count: 0, runner: 1, direction: "down" });
    /** How much is drawn: "boxes", or "tiny" ones; and in rows "names" of all, or leaves as "squares". */
    this.level = "boxes";
    this.folds = new Folding.Folds([]);
    /** The nodes that a step of a plan added. */
    this.marked = new Set();
    this.camera = new Cameras.Camera();
    this.drawn = new Map();
    this.frames = svg("g");
    this.edges = svg("g", { class: "edges" });
    this.running = svg("g", { class: "edges running" });
    this.boxes = svg("g");
    this.moved = svg("g", {}, this.frames, this.edges, this.running, this.boxes);
    this.labels = svg("g", { class: "tags" });
    this.canvas = Dom.html("canvas", { class: "dots", hidden: true });
    this.drawing = svg("svg", { class: "tree-drawing", role: "group", "aria-label": "Nodes of the tree" }, this.moved, this.labels);
    host.append(this.canvas, this.drawing);
    this.minimap = new Minimaps.Minimap(host, (x, y) => this.centre(x, y));
    this.drawSoon = Dom.eachFrame(() => this.draw());
    Pointer.listen(this);
    Dom.onTheme(this.drawSoon);
    new ResizeObserver(() => this.resized()).observe(host);
  }

  /** Shows the tree of a run with these nodes marked, in this direction or the one in which it can be read best. */
  open(run, marked, direction) {
    Object.assign(this, { run, marked, count: 0, runner: 1, selected: 0 });
    this.sizes = new Map();
    this.folds = new Folding.Folds([]);
    this.settle(direction);
  }

  /** Shows no tree any more. */
  shut() {
    this.run = null;
    this.drawn.clear();
    for (const group of [this.frames, this.edges, this.running, this.boxes, this.labels]) group.replaceChildren();
  }

  // ---- How it is arranged

  get room() {
    return { width: this.host.clientWidth, height: this.host.clientHeight };
  }

  /** How much of a place's height is no part of its box. */
  get strip() {
    return this.direction === "rows" ? 0 : Boxes.STRIP_ROOM;
  }

  scaleOf(arranged) {
    return Cameras.fittingScale(arranged.extent, this.room);
  }

  arrangement(direction, level = "names") {
    const { tree } = this.run;
    if (direction !== "rows") return Layout.arrange(tree, this.folds, (uid) => this.sizeOf(uid), direction);
    const width = (uid) => Cells.widthOf(tree.node(uid), level === "names", this.folds.has(uid));
    return Rows.arrange(tree, this.folds, width, Cameras.roomIn(this.room));
  }

  sizeOf(uid) {
    if (!this.sizes.has(uid)) this.sizes.set(uid, Boxes.sizeOf(this.run.tree.node(uid), this.withDetails));
    return this.sizes.get(uid);
  }

  /** Folds and arranges the tree, as far as the reader has not, so that all of it can be read at once. */
  settle(direction) {
    this.wish = direction;
    this.direction = direction ?? this.boxDirection() ?? "rows";
    if (this.folds.isUntouched && this.direction !== "rows") this.foldFor(direction === undefined ? Infinity : BOXES_AT_ONCE);
    if (this.direction === "rows") this.settleRows();
    this.arrange();
    this.fit();
  }

  foldFor(atOnce) {
    this.folds = new Folding.Folds(Layout.firstFolds(this.run.tree, atOnce));
  }

  /** The direction in which the unfolded tree can be shown as boxes, or undefined where they would be too small. */
  boxDirection() {
    const [down, right] = ["down", "right"].map((direction) => this.scaleOf(this.arrangement(direction)));
    if (Math.max(down, right) < WHOLE) return undefined;
    return down >= Math.min(right, 0.8) ? "down" : "right";
  }

  /** Finds how much of the tree, and with which names, goes into the window. */
  settleRows() {
    const { isUntouched } = this.folds;
    for (const atOnce of isUntouched ? ROWS_AT_ONCE : [0]) {
      if (isUntouched) this.foldFor(atOnce);
      for (const level of ["names", "squares"]) {
        this.rowLevel = level;
        if (this.scaleOf(this.arrangement("rows", level)) >= WHOLE_ROWS) return;
      }
    }
  }

  arrange() {
    this.arranged = this.arrangement(this.direction, this.rowLevel);
    this.clear();
    this.drawSoon();
    if (this.mirror?.run) this.mirror.arrangeLike(this);
  }

  // ---- Another view of the same tree, beside this one

  /** Opens another run of the same tree, arranged as in that view. */
  openLike(view, run) {
    Object.assign(this, { run, marked: new Set(), count: 0, runner: 1, selected: view.selected, sizes: view.sizes });
    this.arrangeLike(view);
  }

  arrangeLike(view) {
    const { direction, folds, rowLevel, arranged, withDetails, wish } = view;
    Object.assign(this, { direction, folds, rowLevel, arranged, withDetails, wish });
    this.clear();
    this.moveLike(view);
  }

  moveLike(view) {
    const { scale, x, y, isFitted } = view.camera;
    Object.assign(this.camera, { scale, x, y, isFitted });
    this.drawSoon();
  }

  clear() {
    this.drawn.clear();
    for (const group of [this.frames, this.edges, this.running, this.boxes]) group.replaceChildren();
    if (this.direction === "rows") this.drawGround();
  }

  /** The frames and captions of rows, which do not change with the event. */
  drawGround() {
    for (const { parts } of Rows.allFrames(this.run.tree, this.arranged, this.folds)) {
      for (const part of parts) this.frames.append(svg("g", { class: "frame rows" }, svg("rect", { ...part, rx: 5 })));
    }
    for (const { x, width, text } of Rows.captionsOf(this.run.tree, this.arranged)) {
      this.frames.append(svg("text", { class: "caption", x, y: 11 }, Dom.shortened(text, width, Dom.measuring("10px sans-serif"))));
    }
  }

  // ---- What the user chooses

  setDirection(direction) {
    this.settle(direction);
  }

  setDetails(withDetails) {
    this.withDetails = withDetails;
    this.sizes.clear();
    if (this.direction === "rows" && withDetails) this.settle("right");
    else this.rearranged(this.selected || 1);
  }

  /** Arranges anew, with this node where it was in the window. */
  rearranged(uid) {
    const before = this.arranged.places.get(uid);
    this.arrange();
    const after = this.arranged.places.get(uid);
    if (this.camera.isFitted) this.fit();
    else if (before && after) this.camera.pan((before.x - after.x) * this.camera.scale, (before.y - after.y) * this.camera.scale);
  }

  toggleFold(uid) {
    if (this.run.tree.node(uid).children.length === 0) return;
    this.folds.toggle(uid);
    this.camera.isFitted = this.camera.isFitted && this.direction === "rows";
    this.rearranged(uid);
  }

  foldAll() {
    const { tree } = this.run;
    this.folds.replace(tree.nodes.slice(2).filter((node) => node.children.length > 0).map((node) => node.uid));
    this.refold();
  }

  unfoldAll() {
    this.folds.replace([]);
    this.refold();
  }

  refold() {
    if (this.direction === "rows") this.settleRows();
    this.arrange();
    this.fit();
  }

  /** Marks the node, and unfolds what hides it. */
  select(uid) {
    this.selected = uid;
    const hiding = uid === 0 ? 0 : this.folds.unfoldTo(this.run.tree, uid);
    if (hiding !== 0) this.rearranged(hiding);
    for (const [drawn, parts] of this.drawn) parts.group.classList.toggle("selected", drawn === uid);
    this.drawSoon();
  }

  /** Opens what hides these nodes while they matter, and shuts what was opened for others. */
  openFor(uids) {
    const anchor = this.shownFor([...uids][0] ?? 1);
    if (this.folds.openFor(this.run.tree, uids)) this.rearranged(anchor);
  }

  /** Unfolds what hides any of these nodes, and goes to the first of them. */
  showAll(uids) {
    const hiding = [...uids].map((uid) => this.folds.unfoldTo(this.run.tree, uid)).filter((uid) => uid !== 0);
    if (hiding.length > 0) this.rearranged(hiding[0]);
    this.reveal(Math.min(...uids));
  }

  /** The node itself, or the folded one above that hides it. */
  shownFor(uid) {
    return this.run.tree.above(uid).find((above) => this.folds.has(above)) ?? uid;
  }

  // ---- The view

  /** Shows the whole tree. */
  fit() {
    this.camera.fit(this.arranged.extent, this.room);
    this.drawSoon();
    this.actions.moved?.(this);
  }

  resized() {
    if (!this.run || this.host.clientWidth === 0) return;
    if (!this.camera.isFitted) return this.drawSoon();
    if (this.folds.isUntouched && this.folds.opened.size === 0) this.settle(this.wish);
    else this.refold();
  }

  zoom(factor, at = { x: this.room.width / 2, y: this.room.height / 2 }) {
    this.camera.zoom(factor, at, this.arranged.extent, this.room);
    if (this.direction === "rows") this.changeNames(at);
    this.drawSoon();
    this.actions.moved?.(this);
  }

  /** Gives the leaves of rows their names where they are large enough, with what is at this place where it was. */
  changeNames(at) {
    const level = this.rowLevel === "names" ? (this.camera.scale < WITHOUT_NAMES ? "squares" : "names")
      : (this.camera.scale > WITH_NAMES ? "names" : "squares");
    if (level === this.rowLevel) return;
    this.rowLevel = level;
    this.rearranged(this.nearest(at));
  }

  /** The shown node whose box is nearest to a place in the window. */
  nearest({ x, y }) {
    const { camera } = this;
    const far = ({ x: left, y: top }) => Math.hypot(left * camera.scale + camera.x - x, top * camera.scale + camera.y - y);
    let best = 1;
    for (const [uid, place] of this.arranged.places) if (far(place) < far(this.arranged.places.get(best))) best = uid;
    return best;
  }

  pan(x, y) {
    this.camera.pan(x, y);
    this.drawSoon();
    this.actions.moved?.(this);
  }

  /** Moves the middle of the window to this place of the drawing. */
  centre(x, y) {
    const { camera, room } = this;
    this.pan(room.width / 2 - x * camera.scale - camera.x, room.height / 2 - y * camera.scale - camera.y);
  }

  /** Moves the window to the node, or what hides it: across to the middle, so that its siblings show on both sides. */
  reveal(uid) {
    const place = this.arranged.places.get(this.shownFor(uid));
    const toMiddle = { x: this.direction !== "right", y: this.direction !== "down" };
    if (!this.camera.reveal(place, this.arranged.extent, this.room, toMiddle)) return;
    this.drawSoon();
    this.actions.moved?.(this);
  }

  // ---- What is drawn

  /** Shows what stood after so many events, for this runner. */
  show(count, runner) {
    this.count = count;
    this.runner = runner;
    for (const uid of this.drawn.keys()) this.drawState(uid);
    this.drawSoon();
  }

  /** Draws anew what the window shows. */
  draw() {
    if (!this.run || this.host.clientWidth === 0) return;
    const { camera, room } = this;
    this.setLevel();
    const visible = this.drawPart(camera.part(room));
    this.drawDots(visible, room);
    this.moved.setAttribute("transform", `translate(${camera.x} ${camera.y}) scale(${camera.scale})`);
    this.minimap.draw(this, camera.part(room));
    if (this.level === "squares" || !this.areNamesLegible) Labels.draw(this, this.labels, visible, room);
    else this.labels.replaceChildren();
  }

  /** Whether the names in boxes and cells can be read. */
  get areNamesLegible() {
    return this.canvas.hidden && this.camera.scale >= (this.direction === "rows" ? READABLE_ROWS : READABLE);
  }

  setLevel() {
    const boxes = this.camera.scale < READABLE ? "tiny" : "boxes";
    const level = this.direction === "rows" ? this.rowLevel : boxes;
    if (level === this.level) return;
    this.level = level;
    this.drawing.dataset.level = level;
    this.clear();
  }

  /** Whether the node is a subtree that is shown as one block. */
  isBlock(node) {
    if (this.level !== "tiny" || node.family !== "subtree" || this.folds.has(node.uid)) return false;
    if (this.run.statusesAfter(this.count, this.runner)[node.uid] === RUNNING) return false;
    if (this.selected > node.uid && this.selected < node.uid + node.size) return false;
    const place = this.arranged.places.get(node.uid);
    return (place.to - place.from) * this.camera.scale < BLOCK;
  }

  drawPart(part) {
    const uids = this.direction === "rows" ? Rows.inView(this.arranged, part)
      : Layout.inView(this.run.tree, this.arranged, this.folds, part, (node) => this.isBlock(node));
    const visible = new Set(uids);
    this.visible = visible;
    if (visible.size > Dots.MOST_ELEMENTS && this.level !== "print") {
      if (this.drawn.size > 0) this.clear();
      return visible;
    }
    for (const [uid, parts] of this.drawn) {
      const isBlock = parts.frame !== undefined;
      if (visible.has(uid) && isBlock === this.isBlock(this.run.tree.node(uid))) continue;
      for (const element of [...parts.all, parts.edge]) element?.remove();
      this.drawn.delete(uid);
    }
    for (const uid of visible) if (!this.drawn.has(uid)) this.addNode(uid);
    return visible;
  }

  /** Draws the nodes in view as dots, where they are very many. */
  drawDots(visible, room) {
    const isMany = visible.size > Dots.MOST_ELEMENTS;
    this.canvas.hidden = !isMany;
    this.drawing.toggleAttribute("data-dots", isMany);
    if (isMany) Dots.paint(Dots.prepared(this.canvas, room), this, visible, this.camera);
  }

  /** The node whose dot is at this place of the window, or 0. */
  dotAt(at) {
    if (this.canvas.hidden) return 0;
    const { scale, x, y } = this.camera;
    return Dots.nodeAt(this, { x: (at.x - x) / scale, y: (at.y - y) / scale }, 6 / scale);
  }

  /** A drawing of the whole unfolded tree, for print. Gives what undoes it. */
  drawWhole() {
    const { width, height } = this.arranged.extent;
    this.level = "print";
    this.clear();
    this.drawPart({ left: -1e9, right: 1e9, top: -1e9, bottom: 1e9 });
    this.moved.setAttribute("transform", "translate(20 20)");
    this.drawing.setAttribute("viewBox", `0 0 ${width + 40} ${height + 40}`);
    return () => {
      this.drawing.removeAttribute("viewBox");
      this.draw();
    };
  }

  addNode(uid) {
    const node = this.run.tree.node(uid);
    const make = this.direction === "rows" ? Cells.make : this.isBlock(node) ? Boxes.makeBlock : Boxes.make;
    const parts = make(this, node);
    this.boxes.append(parts.group);
    parts.group.classList.toggle("selected", uid === this.selected);
    this.drawn.set(uid, parts);
    this.drawState(uid);
  }

  // ---- What changes with the event

  drawState(uid) {
    const parts = this.drawn.get(uid);
    const node = this.run.tree.node(uid);
    const isFolded = this.folds.has(uid) || parts.frame !== undefined;
    const state = Doings.stateOf(this.run, this.count, this.runner, node, isFolded);
    const isStop = this.actions.isStop?.(uid) ?? false;
    const isClash = this.clashes?.has(uid) ?? false;
    const key = [state.status, state.said, state.isChanged, state.isFaulty, isStop, isClash, state.folded?.statuses, state.folded?.changed].join();
    if (parts.key === key) return;
    parts.key = key;
    const { group } = parts;
    for (const name of STATUSES) group.classList.toggle(name, name === state.status);
    const classes = { changed: state.isChanged, faulty: state.isFaulty, added: this.marked.has(uid), stop: isStop, clash: isClash };
    for (const [name, is] of Object.entries(classes)) group.classList.toggle(name, is);
    Object.assign(group.dataset, { status: state.status, doings: state.said });
    group.setAttribute("aria-label", `${node.name}, node ${uid}, ${state.status}${state.said ? `: ${state.said}` : ""}${isClash ? ", held together with another of its group" : ""}`);
    const stop = isStop ? [svg("circle", { class: "stop-mark", cx: 1, cy: 1, r: 5 })] : [];
    parts.state.replaceChildren(...this.stateParts(parts, node, state), ...stop);
    this.drawEdge(parts, node, state.status === "RUNNING");
  }

  stateParts(parts, node, state) {
    if (this.direction === "rows") return Cells.stateParts(this, node, state);
    return parts.frame ? Boxes.blockParts(state, parts.frame) : Boxes.stateParts(this, node, state);
  }

  /** The edge to a node; to one that runs it goes all the way from its parent, in the colour of what runs. */
  drawEdge(parts, node, runs) {
    if (!parts.edge) return;
    const into = runs ? this.running : this.edges;
    if (parts.edge.parentNode === into) return;
    parts.edge.setAttribute("d", this.direction === "rows" ? Rows.edgeTo(this.arranged, node.uid) : Boxes.edgeOf(this, node, runs));
    into.append(parts.edge);
  }
}

export { TreeView };
