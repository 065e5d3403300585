/** The time line: a row for each leaf, or for each node, and for each value, over the moments or the events. */
import * as Dom from "./dom.js";
import * as Runs from "./run.js";
import * as Series from "./series.js";
import * as Signs from "./signs.js";
import * as TimeMarks from "./timemarks.js";
import * as TimeRows from "./timerows.js";
import * as Words from "./words.js";

const { html, byId } = Dom;
const { IDLE, RUNNING } = Words;
const { ROW, LABELS, COLUMNS, GRAVITY, stepOf, markOf, drawBar, drawMark, drawNumbers, drawTexts } = TimeMarks;
const AXIS = 22;
/** In a tree of more nodes than this, those that were never visited have no row at first. */
const LARGE = 60;
const SIDE = 18;
const FONT = '11px "DejaVu Sans", system-ui, sans-serif';
/** Marks that stand closer than this, on average, are drawn as columns of a pixel. */
const DENSE = 7;
/** A click so near a mark means the mark. */
const NEAR = 9;
/** The whole may be so wide, in pixels: browsers have a limit. And an event, or a millisecond, so wide. */
const WIDEST = 3e7;
const LARGEST = 400;
/** What of the time line goes on a printed page: its width in pixels, and rows. */
const PRINTED = { width: 940, rows: 26 };
class TimelineView {
  /** `actions` has `go(count)` and `select(uid)`. */
  constructor(actions) {
    this.actions = actions;
    this.scroller = byId("timeline");
    this.space = byId("timeline-space");
    this.window = byId("timeline-window");
    this.canvas = byId("timeline-canvas");
    this.labels = byId("timeline-labels");
    this.cursor = byId("timeline-cursor");
    this.mode = "time";
    this.nodes = "leaves";
    this.shut = new Set();
    this.run = null;
    this.drawSoon = Dom.eachFrame(() => this.draw());
    Dom.onTheme(this.drawSoon);
    this.scroller.addEventListener("scroll", this.drawSoon);
    this.canvas.addEventListener("click", (event) => this.clicked(event));
    this.scroller.addEventListener("wheel", (event) => {
      if (!event.ctrlKey || !this.run) return;
      event.preventDefault();
      this.zoom(Math.exp(-event.deltaY * 0.002), event.clientX - this.scroller.getBoundingClientRect().left);
    }, { passive: false });
    new ResizeObserver(() => this.resized()).observe(this.scroller);
  }

  open(run) {
    Object.assign(this, { run, count: 0, runner: 1, selected: 0, part: -1 });
    this.shut = new Set();
    this.visited = run.tree.size > LARGE;
    this.first = run.length > 0 ? run.moments[0] : 0;
    this.last = run.length > 0 ? run.moments[run.length - 1] : 0;
    this.mode = this.last > this.first ? "time" : "steps";
    this.rows = this.rowsOf();
    this.fit();
  }

  /** Takes what the run has more than before. */
  grow() {
    const { run } = this;
    const isFirst = this.last === this.first && this.mode === "steps" && !this.isChosen;
    if (run.length > 0) this.first = run.moments[0];
    this.last = run.length > 0 ? run.moments[run.length - 1] : 0;
    this.rows = this.rowsOf();
    if (isFirst && this.last > this.first) this.mode = "time";
    if (isFirst) this.fit();
    else this.resized();
  }

  // ---- Rows

  rowsOf() {
    return TimeRows.rowsOf(this.run, this);
  }

  /** Makes the rows anew, after another choice of them. */
  chooseRows(choice) {
    Object.assign(this, choice);
    this.rows = this.rowsOf();
    this.resized();
  }

  toggleGroup(uid) {
    if (!this.shut.delete(uid)) this.shut.add(uid);
    this.chooseRows({});
  }

  setNodes(nodes) {
    this.chooseRows({ nodes });
  }

  select(uid) {
    const changesRows = this.hasRowOfItsOwn(this.selected) || this.hasRowOfItsOwn(uid);
    this.selected = uid;
    if (changesRows) this.rows = this.rowsOf();
    this.resized();
    this.revealRow(uid, this.runner);
  }

  /** Whether the node has a row only while it is chosen. */
  hasRowOfItsOwn(uid) {
    return uid !== 0 && (this.visited || (this.nodes === "leaves" && this.run.tree.node(uid).children.length > 0));
  }

  /** Scrolls so that the row of this node, or of the group in which it is shut, is in the window. */
  revealRow(uid, runner) {
    const shown = this.run.tree.above(uid || 1).find((above) => this.shut.has(above)) ?? uid;
    const at = this.rows.findIndex((row) => row.uid === shown && row.runner === runner);
    if (at < 0) return;
    const top = at * ROW;
    const room = this.scroller.clientHeight - AXIS - ROW;
    if (top < this.scroller.scrollTop || top > this.scroller.scrollTop + room) this.scroller.scrollTop = top - room / 2;
  }

  // ---- The axis

  setMode(mode) {
    this.mode = mode;
    this.isChosen = true;
    this.fit();
  }

  get span() {
    return this.mode === "time" ? Math.max(1, this.last - this.first) : Math.max(1, this.run.length);
  }

  /** The room for the rows, in pixels. */
  get width() {
    return Math.max(50, this.scroller.clientWidth - LABELS - 2 * SIDE);
  }

  fit() {
    const each = this.mode === "steps" && this.run.length * 14 > this.width ? 14 : 0;
    this.scale = Math.max(this.width / this.span, each);
    this.fitted = this.scale === this.width / this.span;
    this.resized();
    this.reveal();
  }

  zoomFit() {
    this.scale = this.width / this.span;
    this.fitted = true;
    this.resized();
  }

  zoom(factor, at = LABELS + SIDE + this.width / 2) {
    const left = this.scroller.scrollLeft + at - LABELS - SIDE;
    const place = left / this.scale;
    const least = this.width / this.span;
    this.scale = Math.max(least, Math.min(this.scale * factor, WIDEST / this.span, LARGEST));
    this.fitted = this.scale === least;
    this.resized();
    this.scroller.scrollLeft = place * this.scale - at + LABELS + SIDE;
  }

  resized() {
    if (!this.run) return;
    if (this.fitted) this.scale = this.width / this.span;
    this.space.style.width = `${Math.max(this.scroller.clientWidth, Math.floor(LABELS + 2 * SIDE + this.span * this.scale))}px`;
    this.space.style.height = `${AXIS + this.rows.length * ROW + 6}px`;
    this.window.style.width = `${this.scroller.clientWidth}px`;
    this.window.style.height = `${this.scroller.clientHeight}px`;
    this.drawSoon();
  }

  /** Where an event lies in the whole drawing. */
  placeOf(event) {
    const at = this.mode === "time" ? this.run.moments[event] - this.first : event + 0.5;
    return SIDE + at * this.scale;
  }

  /** The first event that does not lie before this place. */
  eventFrom(place) {
    const at = (place - SIDE) / this.scale;
    if (this.mode === "time") return Runs.countBelow(this.run.moments, at + this.first);
    return Math.min(this.run.length, Math.max(0, Math.ceil(at - 0.5)));
  }

  // ---- The current event

  show(count, runner) {
    this.count = count;
    this.runner = runner;
    this.reveal();
    this.drawCursor();
    this.drawLabels();
  }

  /** Scrolls so that the current event is in the window. */
  reveal() {
    if (!this.run || this.count === 0) return;
    const place = this.placeOf(this.count - 1);
    const left = this.scroller.scrollLeft;
    if (place < left + SIDE || place > left + this.width + SIDE) this.scroller.scrollLeft = place - this.width / 2;
  }

  drawCursor() {
    const place = this.count > 0 ? LABELS + this.placeOf(this.count - 1) - this.scroller.scrollLeft : -1;
    this.cursor.hidden = place < LABELS || place > this.scroller.clientWidth;
    this.cursor.style.transform = `translateX(${place}px)`;
  }

  // ---- Drawing

  get rowsInView() {
    const first = Math.max(0, Math.floor(this.scroller.scrollTop / ROW));
    const last = Math.min(this.rows.length, Math.ceil((this.scroller.scrollTop + this.scroller.clientHeight - AXIS) / ROW));
    return [first, last];
  }

  draw() {
    if (!this.run || this.scroller.clientWidth === 0) return;
    this.left = this.scroller.scrollLeft;
    this.drawCanvas();
    this.drawLabels();
    this.drawCursor();
  }

  drawCanvas() {
    const { clientWidth, clientHeight } = this.scroller;
    const ratio = window.devicePixelRatio || 1;
    this.canvas.width = clientWidth * ratio;
    this.canvas.height = clientHeight * ratio;
    this.canvas.style.width = `${clientWidth}px`;
    this.canvas.style.height = `${clientHeight}px`;
    const context = this.canvas.getContext("2d");
    context.scale(ratio, ratio);
    context.clearRect(0, 0, clientWidth, clientHeight);
    context.font = FONT;
    this.drawGrid(context, clientWidth, clientHeight);
    context.save();
    context.beginPath();
    context.rect(LABELS, AXIS, clientWidth - LABELS, clientHeight - AXIS);
    context.clip();
    const [first, last] = this.rowsInView;
    for (let at = first; at < last; at++) this.drawRow(context, this.rows[at], AXIS + at * ROW - this.scroller.scrollTop);
    context.restore();
  }

  drawGrid(context, width, height) {
    const step = this.mode === "time" ? Math.max(1, stepOf(90 / this.scale)) : Math.max(1, stepOf(48 / this.scale));
    const start = Math.max(0, Math.floor((this.left - SIDE) / this.scale / step) * step);
    context.fillStyle = Dom.colours().text;
    context.strokeStyle = Dom.colours().line;
    context.textAlign = "center";
    for (let value = start; value <= this.span; value += step) {
      const number = this.mode === "time" ? value + this.first : value + 1;
      const x = LABELS + SIDE + (this.mode === "time" ? value : value + 0.5) * this.scale - this.left;
      if (x > width || (this.mode === "steps" && number > this.run.length)) break;
      if (x < LABELS) continue;
      context.beginPath();
      context.moveTo(Math.round(x) + 0.5, AXIS - 4);
      context.lineTo(Math.round(x) + 0.5, height);
      context.stroke();
      const label = this.mode === "time" ? Words.moment(number) : Words.number(number);
      const half = context.measureText(label).width / 2;
      context.fillText(label, Math.min(Math.max(x, LABELS + half), width - half - 4), AXIS - 8);
    }
    if (this.run.fault) this.drawUpright(context, this.run.length - 1, height, Dom.colours().fault);
    if (this.part >= 0) this.drawUpright(context, this.part, height, Dom.colours().halted);
  }

  /** A line through all rows at an event: a fault, or where two runs part. */
  drawUpright(context, event, height, colour) {
    const x = LABELS + this.placeOf(event) - this.left;
    context.save();
    context.strokeStyle = colour;
    context.setLineDash([4, 3]);
    context.beginPath();
    context.moveTo(x, AXIS);
    context.lineTo(x, height);
    context.stroke();
    context.restore();
  }

  drawRow(context, row, top) {
    context.fillStyle = Dom.colours().line;
    context.fillRect(LABELS, top + ROW - 1, this.scroller.clientWidth - LABELS, 1);
    if (row.series) this.drawSeries(context, row.series, top);
    else if (row.expectation) this.drawExpectation(context, row.expectation, top);
    else if (row.uid) this.drawNode(context, row, top);
  }

  /** The event with which an expectation was lost, or the last one. */
  eventOfExpectation({ isMet, at }) {
    const { run } = this;
    return isMet ? Math.max(0, run.length - 1) : Math.min(Math.max(0, run.length - 1), Runs.countBelow(run.moments, at));
  }

  /** The mark of an expectation: at the end where it is met, and else where it was lost. */
  drawExpectation(context, expectation, top) {
    if (this.run.length === 0) return;
    const x = LABELS + this.placeOf(this.eventOfExpectation(expectation)) - this.left;
    drawMark(context, expectation.isMet ? "SUCCESS" : "FAILURE", x, top);
  }

  /** The lines of a node's changes that lie in the window, and the change before them. */
  changesInView({ runner, uid }) {
    const { run } = this;
    const lines = run.changes.of(run.place(runner, uid));
    const from = this.eventFrom(this.left - NEAR);
    const to = this.eventFrom(this.left + this.width + 2 * SIDE + NEAR);
    const first = Runs.countBelow(lines, run.firstLine(from));
    const last = Runs.countBelow(lines, run.firstLine(Math.min(run.length, to + 1)));
    return { lines, first, last };
  }

  drawNode(context, row, top) {
    const found = this.changesInView(row);
    if ((found.last - found.first) * DENSE > this.width) this.drawDense(context, found, top);
    else this.drawSparse(context, row, found, top);
  }

  drawSparse(context, row, { lines, first, last }, top) {
    const { run } = this;
    const x = (line) => LABELS + this.placeOf(run.eventOf(line)) - this.left;
    const end = LABELS + this.placeOf(run.length - 1) - this.left;
    for (let at = Math.max(0, first - 1); at < last; at++) {
      if (run.answer[lines[at]] !== RUNNING) continue;
      const from = Math.max(x(lines[at]), LABELS - 20);
      const to = Math.min(at + 1 < lines.length ? x(lines[at + 1]) : end, LABELS + this.width + 60);
      drawBar(context, from, to, top);
    }
    for (let at = first; at < last; at++) {
      const mark = markOf(run.old[lines[at]], run.answer[lines[at]]);
      if (mark) drawMark(context, mark, x(lines[at]), top);
    }
    this.drawStop(context, row, end, top);
  }

  /** The marks of a fault at its node, and of what the quench after it stopped. */
  drawStop(context, { runner, uid }, end, top) {
    const { fault } = this.run;
    if (!fault) return;
    if (fault.uid === uid && fault.runner === runner) drawMark(context, "fault", end, top);
    else if (fault.quenched.some((leaf) => leaf.uid === uid && leaf.runner === runner)) drawMark(context, "halted", end, top);
  }

  /** A column for each pixel in which there are changes, of the gravest of them. */
  drawDense(context, { lines, first, last }, top) {
    const { run } = this;
    let at = first;
    let status = first > 0 ? run.answer[lines[first - 1]] : IDLE;
    for (let x = -NEAR; x < this.width + 2 * SIDE + NEAR && at < last + 1; x++) {
      const end = run.firstLine(Math.min(run.length, this.eventFrom(this.left + x + 1)));
      let gravest = 0;
      for (; at < last && lines[at] < end; at++) {
        gravest = Math.max(gravest, GRAVITY[markOf(run.old[lines[at]], run.answer[lines[at]])] ?? 1);
        status = run.answer[lines[at]];
      }
      if (gravest === 0 && status !== RUNNING) continue;
      const { name, from, to } = COLUMNS[Math.max(gravest, 1)];
      context.fillStyle = Dom.colours()[name];
      context.fillRect(LABELS + x, top + from, 1, to - from);
    }
  }

  drawSeries(context, series, top) {
    const { run } = this;
    const { texts, numbers, before, isNumeric } = run.valuesOf(series);
    const from = run.firstLine(this.eventFrom(this.left - NEAR));
    const to = run.firstLine(Math.min(run.length, this.eventFrom(this.left + this.width + 2 * SIDE + NEAR) + 1));
    const first = Math.max(0, Runs.countBelow(series.lines, from) + before - 1);
    const last = Runs.countBelow(series.lines, to) + before;
    const end = LABELS + this.placeOf(Math.max(0, run.length - 1)) - this.left;
    const placeOf = (at) => (at < before ? SIDE : this.placeOf(run.eventOf(series.lines[at - before])));
    const x = (at) => (at < last ? LABELS + placeOf(at) - this.left : last < texts.length ? this.scroller.clientWidth : end);
    if (first >= last) return;
    if (isNumeric) drawNumbers(context, numbers, first, last, x, top);
    else drawTexts(context, texts, first, last, x, top);
  }

  drawLabels() {
    if (!this.run) return;
    const [first, last] = this.rowsInView;
    const labels = [];
    for (let at = first; at < last; at++) {
      const label = this.labelOf(this.rows[at]);
      label.style.top = `${AXIS + at * ROW - this.scroller.scrollTop}px`;
      labels.push(label);
    }
    this.labels.replaceChildren(...labels);
  }

  labelOf(row) {
    if (row.title) return html("div", { class: "label title" }, row.title);
    if (row.expectation) return this.expectationLabel(row.expectation);
    return row.series ? this.seriesLabel(row.series) : this.nodeLabel(row);
  }

  seriesLabel(series) {
    const value = this.run.valueAfter(this.count, series);
    const { name, where } = Series.titleOf(this.run, series);
    return html("div", { class: "label series", title: `${name} ${where}` },
      html("span", { class: "label-name" }, name), html("span", { class: "label-value" }, value ?? "–"));
  }

  expectationLabel({ text, isMet, at }) {
    const said = isMet ? "met" : `lost at ${Words.moment(at)}`;
    return html("div", { class: "label series", title: `${text}: ${said}` },
      Signs.badgeImage(isMet ? "SUCCESS" : "FAILURE"), html("span", { class: "label-name" }, text), html("span", { class: "label-value" }, said));
  }

  nodeLabel({ uid, runner, level, isGroup, isShut, within }) {
    const { run, count } = this;
    const node = run.tree.node(uid);
    const status = Words.STATUSES[run.statusAfter(count, runner, uid)];
    const isChosen = uid === this.selected && runner === this.runner;
    const fold = isGroup ? html("span", {
      class: "label-fold", title: isShut ? "Show its rows" : "Hide its rows",
      onclick: (event) => { event.stopPropagation(); this.toggleGroup(uid); },
    }, isShut ? "▸" : "▾") : null;
    return html("button", {
      class: `label of-node${isChosen ? " chosen" : ""}${isGroup ? " group-label" : ""}`, type: "button", tabindex: -1,
      style: `padding-left: ${10 + Math.min(6, level) * 9 - (isGroup ? 6 : 0)}px`,
      title: `${node.name}, node ${uid}${within ? `, in ${within}` : ""}`, onclick: () => this.actions.select(uid, runner),
    },
      fold, Signs.badgeImage(status), html("span", { class: "label-name" }, node.name),
      within ? html("span", { class: "label-within" }, `in ${within}`) : null, html("span", { class: "label-value" }, `${uid}`));
  }

  /** Draws as many rows as go on a printed page. Gives what undoes it. */
  drawWhole() {
    const { style } = this.scroller;
    const rows = Math.min(this.rows.length, PRINTED.rows);
    Object.assign(style, { width: `${PRINTED.width}px`, height: `${AXIS + rows * ROW + 6}px`, flex: "none" });
    this.resized();
    this.draw();
    return () => {
      Object.assign(style, { width: "", height: "", flex: "" });
      this.resized();
    };
  }

  // ---- Clicks

  clicked(event) {
    if (!this.run || this.run.length === 0) return;
    const box = this.canvas.getBoundingClientRect();
    const x = event.clientX - box.left;
    const y = event.clientY - box.top;
    if (x < LABELS) return;
    const row = y > AXIS ? this.rows[Math.floor((y - AXIS + this.scroller.scrollTop) / ROW)] : null;
    this.actions.go((row?.expectation ? this.eventOfExpectation(row.expectation) : this.eventNear(x - LABELS + this.left, row)) + 1);
    if (row?.uid) this.actions.select(row.uid, row.runner);
  }

  /** The event nearest to this place: one that changed the row's node or value, where one is near. */
  eventNear(place, row) {
    const { run } = this;
    const lines = row?.uid ? run.changes.of(run.place(row.runner, row.uid)) : row?.series?.lines ?? [];
    const at = Runs.countBelow(lines, run.firstLine(this.eventFrom(place)));
    const candidates = [lines[at - 1], lines[at]].filter((line) => line !== undefined).map((line) => run.eventOf(line));
    candidates.sort((one, other) => Math.abs(this.placeOf(one) - place) - Math.abs(this.placeOf(other) - place));
    if (candidates.length > 0 && Math.abs(this.placeOf(candidates[0]) - place) <= NEAR) return candidates[0];
    const next = Math.min(run.length - 1, this.eventFrom(place));
    const before = Math.max(0, next - 1);
    return place - this.placeOf(before) < this.placeOf(next) - place ? before : next;
  }
}

export { TimelineView };
