/** Leaves of a declared group that are held together: after an event, or between two of its calls. */
import * as Dom from "./dom.js";
import * as Runs from "./run.js";
import * as Words from "./words.js";

const { html, byId } = Dom;
/** So many pairs of each sort are told of an event. */
const MOST_TOLD = 10;

/** The leaves of a tree that have one of these IDs, by their uids. */
function leavesOf(tree, ids) {
  return new Set(tree.nodes.filter((node) => node?.family === "leaf" && ids.includes(node.id)).map(({ uid }) => uid));
}

/** Leaves that are held together, and the first of their pairs. */
class Pairs {
  constructor() {
    this.leaves = new Set();
    this.told = new Set();
    this.hasMore = false;
  }

  add(one, other) {
    this.leaves.add(one).add(other);
    const pair = one < other ? `${one} ${other}` : `${other} ${one}`;
    if (this.told.size < MOST_TOLD) this.told.add(pair);
    else if (!this.told.has(pair)) this.hasMore = true;
  }

  /** Adds all pairs of these leaves, which rise. */
  addAmong(leaves) {
    if (leaves.length < 2) return;
    for (const uid of leaves) this.leaves.add(uid);
    for (let one = 0; one < leaves.length && !this.hasMore; one++) {
      for (let other = one + 1; other < leaves.length && !this.hasMore; other++) this.add(leaves[one], leaves[other]);
    }
  }

  /** What is told of them after these words. */
  words(run, begin) {
    if (this.told.size === 0) return [];
    const pairs = [...this.told].map((pair) => pair.split(" ").map((uid) => `${run.tree.node(Number(uid)).name} (node ${uid})`).join(" and "));
    return [html("p", {}, `${begin}: ${pairs.join("; ")}${this.hasMore ? "; and more" : ""}.`)];
  }
}

/** The groups that are declared for a run, and which of their leaves are held together. */
class Groups {
  /** @param {string[][]} groups the IDs of each group */
  constructor(run, groups) {
    this.run = run;
    this.groups = groups.map((ids) => leavesOf(run.tree, ids));
  }

  /** The leaves of a group that a runner holds after so many events, which rise. */
  heldAfter(group, count, runner) {
    const statuses = this.run.statusesAfter(count, runner);
    return [...group].filter((uid) => statuses[uid] === Words.RUNNING);
  }

  /** The pairs of a runner's leaves that are held together after so many events. */
  together(count, runner) {
    const pairs = new Pairs();
    for (const group of this.groups) pairs.addAmong(this.heldAfter(group, count, runner));
    return pairs;
  }

  /** The pairs that came together in the last of so many events and were parted in it. */
  handover(count, runner) {
    const pairs = new Pairs();
    for (const group of count > 0 ? this.groups : []) this.handOver(pairs, group, count, runner);
    return pairs;
  }

  handOver(pairs, group, count, runner) {
    const { run } = this;
    const held = new Set(this.heldAfter(group, count - 1, runner));
    const started = new Set();
    for (let line = run.firstLine(count - 1); line < run.firstLine(count); line++) {
      const [kind, uid] = [run.kind[line], run.uid[line]];
      if (run.runner[line] !== runner || !Runs.isCall(kind) || kind === Runs.FAULT || !group.has(uid)) continue;
      const runs = (kind === Runs.START || kind === Runs.RAN) && run.answer[line] === Words.RUNNING;
      if (runs && !held.has(uid)) started.add(uid);
      else if (!runs && held.delete(uid)) {
        for (const other of held) if (started.has(uid) || started.has(other)) pairs.add(uid, other);
      }
      if (runs) held.add(uid);
    }
  }

  /** Shows the pairs after so many events in the panel of the event, and answers the leaves that stand in one. */
  show(count, runner) {
    const [together, handover] = [this.together(count, runner), this.handover(count, runner)];
    const words = [...together.words(this.run, "After the event"), ...handover.words(this.run, "Between two calls of the event")];
    byId("clash").hidden = words.length === 0;
    byId("clash").replaceChildren(html("strong", {}, "Held together"), ...words);
    return new Set([...together.leaves, ...handover.leaves]);
  }
}

export { Groups };
