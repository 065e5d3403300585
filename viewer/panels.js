/** The panels beside the tree: the event's lines, and the values of facts and blackboards. */
import * as Dom from "./dom.js";
import * as Lines from "./lines.js";
import * as Lists from "./lists.js";
import * as Runs from "./run.js";
import * as Series from "./series.js";
import * as Signs from "./signs.js";
import * as Words from "./words.js";

const { html, byId } = Dom;

/** The lines of an event, each of which leads to its node. */
class EventPanel {
  constructor(actions) {
    this.actions = actions;
    this.marked = -1;
    this.callsOnly = false;
    this.makeRow = (at) => this.rowOf(at);
    this.list = new Lists.VirtualList(byId("event-lines"), (at) => this.makeRow(at));
  }

  /** Shows the lines of a plan, with the one of this step or, at 0, the end marked. */
  showPlan(plan, count, go) {
    const lines = [...plan.steps.map(({ text }) => text), plan.end.text];
    byId("event-moment").textContent = "";
    byId("event-lines-count").textContent = Words.count(plan.steps.length, "step");
    byId("event-empty").hidden = byId("fault").hidden = byId("calls-only").hidden = true;
    this.makeRow = (at) => html("button", {
      class: `row line${at === count - 1 ? " marked" : ""}`, type: "button", "data-at": at,
      onclick: () => go(Math.min(at + 1, plan.steps.length)),
    }, html("span", { class: "line-number" }, Words.number(at + 1)), html("span", { class: "line-text" }, lines[at]));
    this.list.show(lines.length, false);
    if (count > 0) this.list.reveal(count - 1);
  }

  show(run, count) {
    this.makeRow = (at) => this.rowOf(at);
    this.run = run;
    this.count = count;
    const first = count > 0 ? run.firstLine(count - 1) : 0;
    const last = count > 0 ? run.firstLine(count) : 0;
    this.shown = this.callsOnly ? callsIn(run, first, last) : Array.from({ length: last - first }, (_, at) => first + at);
    byId("event-title").textContent = count > 0 ? run.title(count - 1) : "Before the first event";
    byId("event-moment").textContent = count > 0 ? `at ${Words.moment(run.moments[count - 1])}` : "";
    byId("event-lines-count").textContent = count > 0 ? countWords(this.shown.length, last - first) : "";
    byId("event-empty").hidden = count > 0;
    byId("calls-only").hidden = false;
    this.showFault(run, count);
    this.list.show(this.shown.length);
    const marked = this.shown.indexOf(this.marked);
    if (marked >= 0) this.list.reveal(marked);
  }

  setCallsOnly(callsOnly) {
    this.callsOnly = callsOnly;
    if (this.run) this.show(this.run, this.count);
  }

  showFault(run, count) {
    const panel = byId("fault");
    panel.hidden = !run.fault || count < run.length;
    if (!panel.hidden) panel.replaceChildren(...faultWords(run));
  }

  /** Marks a line, which is shown where it is one of the event's. */
  mark(line) {
    this.marked = line;
    this.list.drawSoon();
  }

  rowOf(at) {
    const line = this.shown[at];
    return Lines.lineRow(this.run, line, at, {
      marked: line === this.marked, parted: this.parted?.has(line) ?? false,
      chosen: Lines.hasNode(this.run, line) && this.run.uid[line] === this.actions.selected(),
      onclick: () => {
        this.mark(line);
        if (Lines.hasNode(this.run, line)) this.actions.select(this.run.uid[line]);
      },
    });
  }
}

/** The lines from first to last that are calls, a header, the root's answer or a fault. */
function callsIn(run, first, last) {
  const found = [];
  for (let line = first; line < last; line++) {
    const kind = run.kind[line];
    if (kind <= Runs.FINISH || kind === Runs.ROOT || Runs.isCall(kind)) found.push(line);
  }
  return found;
}

function countWords(shown, all) {
  return shown === all ? Words.count(all, "line") : `${Words.number(shown)} of ${Words.count(all, "line")}`;
}

/** The fault of a run, in words. */
function faultWords(run) {
  const { runner, uid, cause, quenched } = run.fault;
  const who = (number) => (run.runners > 1 ? ` of runner ${number}` : "");
  const named = (number) => `${run.tree.node(number).name} (node ${number})`;
  const dropped = quenched.map((leaf) => `${named(leaf.uid)}${who(leaf.runner)}`);
  return [
    html("strong", {}, Signs.badgeImage("fault"), "The run ended in a fault"),
    html("p", {}, `At ${named(uid)}${who(runner)}: ${Words.cause(cause)}.`),
    html("p", {}, dropped.length === 0
      ? "No leaf was running, so none had to be stopped."
      : `Stopped after it (quenched): ${dropped.join(", ")}. All nodes are IDLE.`),
  ];
}

/** The values of the facts and of a runner's blackboard, the changed ones marked. */
class ValuePanel {
  constructor() {
    this.list = new Lists.VirtualList(byId("values"), (at) => this.rowOf(at));
  }

  show(run, count, runner) {
    const isNew = this.run !== run || this.runner !== runner || this.known !== run.series.size;
    Object.assign(this, { run, count, runner, known: run.series.size });
    if (isNew) this.series = Series.seriesOf(run, runner);
    byId("values-title").textContent = run.runners > 1 ? `Facts, and blackboard of runner ${runner}` : "Facts and blackboard";
    byId("values-empty").hidden = this.series.length > 0;
    this.list.show(this.series.length, isNew);
  }

  rowOf(at) {
    const { run, count } = this;
    const series = this.series[at];
    const value = run.valueAfter(count, series);
    const changed = count > 0 && run.isTold(count - 1, series);
    const before = changed ? run.valueAfter(count - 1, series) : null;
    const { name, where } = Series.titleOf(run, series);
    return html("div", { class: `row value${changed ? " changed" : ""}`, "data-name": name, "data-at": at },
      html("span", { class: "value-mark" }, changed ? "●" : ""),
      html("span", { class: "value-name" }, name, where ? html("span", { class: "muted" }, ` ${where}`) : null),
      before !== null ? html("span", { class: "value-before", title: before }, `${before} →`) : null,
      html("span", { class: `value-text${value === null ? " muted" : ""}`, title: value ?? "" }, value ?? "no value yet"));
  }
}

export { EventPanel, ValuePanel };
