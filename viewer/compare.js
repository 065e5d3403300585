/** Two runs of one tree side by side, and the first event in which they part. */
import * as Dom from "./dom.js";
import * as Lines from "./lines.js";
import * as Words from "./words.js";

const { html, byId } = Dom;

function textOf(run, event) {
  return run.text.slice(run.starts[run.firstLine(event)], run.starts[run.firstLine(event + 1)]);
}

/**
 * The first event whose lines are not the same in both runs, or -1 where there is none.
 * @param {import("./run.js").Run} one
 * @param {import("./run.js").Run} other
 */
function partOf(one, other) {
  const both = Math.min(one.length, other.length);
  for (let event = 0; event < both; event++) if (textOf(one, event) !== textOf(other, event)) return event;
  return one.length === other.length ? -1 : both;
}

/** The lines of an event that the other run's event does not have. */
function partedLines(run, other, event) {
  const parted = new Set();
  if (event >= run.length) return parted;
  const known = new Set(event < other.length ? textOf(other, event).split("\n") : []);
  for (let line = run.firstLine(event); line < run.firstLine(event + 1); line++) {
    if (!known.has(run.lineText(line))) parted.add(line);
  }
  return parted;
}

class Comparison {
  constructor(page, run, other, name) {
    Object.assign(this, { page, run, other, part: partOf(run, other) });
    this.setShown(true);
    byId("tree-other-name").textContent = byId("other-title").textContent = name ?? "The other run";
    this.view = page.otherTree();
    page.tree.mirror = this.view;
    this.view.mirror = page.tree;
    this.list = page.otherLines((at) => this.rowOf(at));
    this.showPart();
    page.timeline.part = this.part;
  }

  setShown(isShown) {
    document.body.classList.toggle("comparing", isShown);
    for (const id of ["tree-other", "other", "parted", "tree-other-name", "tree-name"]) byId(id).hidden = !isShown;
  }

  close() {
    this.setShown(false);
    byId("part-mark").hidden = true;
    this.page.events.parted = null;
    this.view.shut();
    this.page.tree.mirror = null;
  }

  showPart() {
    const { part, run, other } = this;
    byId("part-mark").hidden = part < 0;
    const most = Math.max(1, run.length, other.length);
    byId("part-mark").style.left = `calc(8px + (100% - 16px) * ${(part + 1) / most})`;
    if (part < 0) return byId("parted").replaceChildren("Both runs have the same lines.");
    const where = `event ${Words.number(part + 1)}`;
    const isEnd = part === Math.min(run.length, other.length);
    byId("parted").replaceChildren(
      isEnd ? `One run ends before ${where}; up to there both are the same.` : `The runs part at ${where}: ${run.title(part)}.`,
      html("button", { type: "button", id: "go-part", title: "Where the runs part (C)", onclick: () => this.goToPart() }, "Go there"));
  }

  goToPart() {
    if (this.part >= 0) this.page.go(this.part + 1);
  }

  /** Shows what stood in the other run after so many events, and marks the lines that only one run has. */
  show(count, runner) {
    const { run, other, page, view } = this;
    const known = Math.min(count, other.length);
    if (view.run !== other) view.openLike(page.tree, other);
    view.show(known, Math.min(runner, other.runners));
    const event = count - 1;
    page.events.parted = count > 0 ? partedLines(run, other, event) : null;
    this.parted = count > 0 ? partedLines(other, run, event) : new Set();
    this.first = count > 0 && event < other.length ? other.firstLine(event) : 0;
    this.list.show(count > 0 && event < other.length ? other.firstLine(event + 1) - this.first : 0);
    const lines = count > 0 ? Words.count(this.list.length, "line") : "";
    byId("other-count").textContent = event >= other.length ? "ended before" : lines;
    document.body.classList.toggle("differs", this.parted.size > 0 || (page.events.parted?.size ?? 0) > 0);
  }

  rowOf(at) {
    const line = this.first + at;
    const uid = Lines.hasNode(this.other, line) ? this.other.uid[line] : 0;
    return Lines.lineRow(this.other, line, at, {
      marked: false, chosen: uid !== 0 && uid === this.page.selected, parted: this.parted.has(line),
      onclick: () => uid && this.page.select(uid),
    });
  }
}

export { Comparison };
