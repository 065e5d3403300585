/** What the page tells of the chosen node: its ports with their values, guards, counts, lines of the file and of the trace. */
import * as Dom from "./dom.js";
import * as Lines from "./lines.js";
import * as Lists from "./lists.js";
import * as Runs from "./run.js";
import * as Series from "./series.js";
import * as Signs from "./signs.js";
import * as Words from "./words.js";

const { html, byId } = Dom;
const { IDLE, RUNNING, SUCCESS, FAILURE } = Words;
/** So many lines of the file are quoted at most. */
const QUOTED = 8;

class NodePanel {
  constructor(actions) {
    this.actions = actions;
    this.lines = [];
    this.list = new Lists.VirtualList(byId("node-lines"), (at) => this.rowOf(at));
  }

  show(run, uid, runner) {
    Object.assign(this, { run, uid, runner });
    byId("node-none").hidden = uid !== 0;
    byId("node-some").hidden = uid === 0;
    if (uid === 0) return;
    const node = run.tree.node(uid);
    byId("node-head").replaceChildren(
      Signs.kindImage(Signs.kindOf(node, run.world)),
      html("strong", {}, node.name),
      html("span", { class: "muted" }, node.name === node.id ? `node ${uid}` : `node ${uid}, ${node.id}`));
    byId("node-facts").replaceChildren(...this.factsOf(node).flatMap(([term, ...texts]) =>
      [html("dt", {}, term), html("dd", {}, ...texts)]));
    this.showSource(node);
    this.showStop();
    this.readLines();
  }

  /** Reads the node's lines, which grow with the trace. */
  readLines() {
    const { run, uid, runner } = this;
    this.lines = merged(run.changes.of(run.place(runner, uid)), run.calls.of(run.place(runner, uid)));
    byId("node-lines-title").textContent = `${Words.count(this.lines.length, "line")} in the trace`;
    this.list.show(this.lines.length, this.shown !== `${uid} ${runner}`);
    this.shown = `${uid} ${runner}`;
  }

  showStop() {
    byId("node-stop").setAttribute("aria-pressed", String(this.actions.isStop(this.uid)));
  }

  /** Shows the node's lines round the current event, its counts and the values of its ports. */
  follow(count) {
    this.count = count;
    if (!this.run || this.uid === 0) return;
    this.showValues(count);
    this.showCounts(count);
    if (this.lines.length === 0) return;
    const told = Runs.countBelow(this.lines, this.run.firstLine(count));
    this.list.reveal(Math.max(0, told - 1));
  }

  showValues(count) {
    const { run, runner, uid } = this;
    const node = run.tree.node(uid);
    for (const place of byId("node-facts").querySelectorAll("[data-port]")) {
      const series = Series.seriesOfPort(run, runner, node, node.ports[Number(place.dataset.port)]);
      const value = series ? run.valueAfter(count, series) : null;
      place.textContent = value ?? "no value";
      place.classList.toggle("muted", value === null);
    }
  }

  showCounts(count) {
    const { run } = this;
    const now = countsOf(run, this.lines, run.firstLine(count));
    const all = countsOf(run, this.lines, run.lines);
    const row = (head, counts) => html("tr", {}, html("th", {}, head), ...COUNTS.map((name) => html("td", {}, Words.number(counts[name]))));
    byId("node-counts").replaceChildren(
      html("tr", {}, html("td"), ...COUNTS.map((name) => html("th", {}, name))), row("so far", now), row("in all", all));
  }

  /** The lines of the tree file, or of the printed tree, in which the node's element stands. */
  showSource(node) {
    const source = this.actions.sourceOf(node);
    byId("node-source").hidden = !source;
    if (!source) return;
    const { file, first, last, lines } = source;
    const range = first === last ? `Line ${first}` : `Lines ${first} to ${last}`;
    byId("node-source-title").textContent = `${range} of ${file}`;
    const quoted = lines.length > QUOTED ? [...lines.slice(0, QUOTED - 1), "…"] : lines;
    byId("node-xml").replaceChildren(...quoted.map((line, at) =>
      html("span", {}, `${line === "…" ? "" : first + at}`.padStart(4), `  ${line}`)));
  }

  factsOf(node) {
    const { world, tree } = this.run;
    const row = node.family === "leaf" ? world.rows.get(node.id) : null;
    const facts = node.ports.map((port, at) => (Series.keyOf(port) === null ? [port.name, port.value]
      : [port.name, `${port.value} `, html("span", { class: "muted" }, "= "), html("b", { "data-port": at })]));
    if (node.code !== null) facts.push(["code", node.code]);
    if (node.autoremap) facts.push(["_autoremap", "true"]);
    facts.push(...node.guards.map(({ name, value }) => [name, value]));
    if (row) facts.push(["row", [`${row.sort === "condition" ? "condition" : "action"} ${row.rule}`, ...row.effects].join("; ")]);
    const above = tree.above(node.uid).filter((uid) => tree.node(uid).family === "subtree");
    if (above.length > 0) facts.push(["within", above.map((uid) => `${tree.node(uid).name} (node ${uid})`).join(" › ")]);
    return facts;
  }

  rowOf(at) {
    const line = this.lines[at];
    const event = this.run.eventOf(line);
    const row = Lines.lineRow(this.run, line, at, {
      marked: event === this.count - 1, chosen: false, onclick: () => this.actions.goToLine(line),
    });
    row.lastChild.textContent = Words.moment(this.run.moments[event]);
    return row;
  }
}

const COUNTS = ["visits", "successes", "failures", "halts"];

/**
 * How often, in its lines before this one, a visit of the node began, and it succeeded, failed and was halted. A leaf that is
 * started again may answer as before, which changes no status, so its calls count, and not the changes that they make.
 */
function countsOf(run, lines, end) {
  const counts = { visits: 0, successes: 0, failures: 0, halts: 0 };
  let told = null;
  for (const line of lines) {
    if (line >= end) break;
    const isCall = run.kind[line] === Runs.START || run.kind[line] === Runs.RAN;
    const answer = run.answer[line];
    if (isCall || answer !== told) {
      if (isCall ? run.kind[line] === Runs.START : run.old[line] !== RUNNING && answer !== IDLE) counts.visits++;
      if (answer === SUCCESS) counts.successes++;
      if (answer === FAILURE) counts.failures++;
    }
    if (run.kind[line] === Runs.NODE && run.old[line] === RUNNING && answer === IDLE) counts.halts++;
    told = isCall ? answer : null;
  }
  return counts;
}

/** Two ascending lists as one. */
function merged(one, other) {
  const both = new Uint32Array(one.length + other.length);
  both.set(one);
  both.set(other, one.length);
  return both.sort();
}

export { NodePanel };
