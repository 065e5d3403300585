/** A run: its tree, the lines of its trace, and what stood after each event. */
import * as Words from "./words.js";

const { IDLE } = Words;
/** The kinds of lines of a trace. Those of headers come first. */
const KINDS = ["tick", "halt", "set", "tell", "finish", "node", "start", "running", "halted", "root", "fault", "quench", "fact", "board"];
const [TICK, HALT, SET, TELL, FINISH, NODE, START, RAN, HALTED, ROOT, FAULT, QUENCH, FACT, BOARD] = KINDS.keys();
const NO_LINES = [];

/**
 * How many numbers of this ascending list, within its bounds, are below the value.
 * @param {ArrayLike<number>} list
 * @param {number} value
 */
function countBelow(list, value, from = 0, to = list.length) {
  while (from < to) {
    const middle = (from + to) >> 1;
    if (list[middle] < value) from = middle + 1;
    else to = middle;
  }
  return from;
}

/** One value of the world or of a blackboard over the run: the lines that tell it, in order. */
class Series {
  constructor(title, opening) {
    this.title = title;
    this.opening = opening;
    this.lines = [];
  }
}

/** Lists of line numbers, one for each node of each runner. They grow as the trace does. */
class LineIndex {
  constructor() {
    this.lists = [];
  }

  add(place, line) {
    const list = this.lists[place];
    if (list) list.push(line);
    else this.lists[place] = [line];
  }

  /** @param {number} place @returns {number[]} */
  of(place) {
    return this.lists[place] ?? NO_LINES;
  }
}

/** Whether a line of this kind is a call of a leaf, or a stop of one. */
function isCall(kind) {
  return (kind >= START && kind <= HALTED) || kind === FAULT || kind === QUENCH;
}

/** An array of numbers with room for so many, and the numbers of this one in front. */
function grown(array, room) {
  const larger = new array.constructor(room);
  larger.set(array);
  return larger;
}

/**
 * A run, as far as its trace is there. Lines and events are counted from 0 here, and shown from 1. `count` is always a
 * number of events: what stood after so many of them.
 */
class Run {
  constructor(tree, world) {
    Object.assign(this, { tree, world, text: "", lines: 0, fault: null });
    /** Where each line begins, and the end of the last one. */
    this.starts = new Uint32Array(1);
    this.kind = new Uint8Array(0);
    this.uid = new Uint16Array(0);
    this.runner = new Uint8Array(0);
    /** Of a node's line its old and new status; of a call, and of a root, the answer. */
    this.old = new Uint8Array(0);
    this.answer = new Uint8Array(0);
    /** The lines that change a node's status, and those that call it. */
    this.changes = new LineIndex();
    this.calls = new LineIndex();
    this.moments = [];
    this.events = [];
    this.runners = world.runners;
    this.series = new Map(world.facts.map(({ name, opening }) => [`fact ${name}`, new Series(name, opening)]));
    this.openCells(1);
  }

  /** Takes more of the trace. What follows the last line feed is a line only when its own has come. */
  append(text) {
    this.text += text;
    const first = this.starts[this.lines];
    let lines = this.lines;
    for (let at = this.text.indexOf("\n", first); at >= 0; at = this.text.indexOf("\n", at + 1)) lines++;
    this.makeRoom(lines);
    let line = this.lines;
    for (let at = this.text.indexOf("\n", first); at >= 0; at = this.text.indexOf("\n", at + 1)) this.starts[++line] = at + 1;
    this.lines = lines;
  }

  makeRoom(lines) {
    if (lines <= this.kind.length) return;
    const room = this.lines === 0 ? lines : Math.max(lines, 2 * this.kind.length);
    for (const name of ["kind", "uid", "runner", "old", "answer"]) this[name] = grown(this[name], room);
    this.starts = grown(this.starts, room + 1);
  }

  /** What stands after the last whole line. */
  get rest() {
    return this.text.slice(this.starts[this.lines]);
  }

  keep(line, kind, runner, uid, old, answer) {
    this.kind[line] = kind;
    this.runner[line] = runner;
    this.uid[line] = uid;
    this.old[line] = old;
    this.answer[line] = answer;
    if (kind === NODE) this.changes.add(this.place(runner, uid), line);
    else if (isCall(kind)) this.calls.add(this.place(runner, uid), line);
  }

  /** Gives each runner from this one on the cells that its board begins with. */
  openCells(first) {
    for (let runner = first; runner <= this.runners; runner++) {
      for (const { scope, key, value } of this.tree.openingCells()) {
        this.series.set(`board ${runner} ${scope} ${key}`, new Series({ runner, scope, key }, value));
      }
    }
  }

  /** How many events there are. */
  get length() {
    return this.events.length;
  }

  /** The line of this number, without its line feed. */
  lineText(line) {
    return this.text.slice(this.starts[line], this.starts[line + 1] - 1);
  }

  /** The first line of an event's block, and for the number of events the number of lines. */
  firstLine(event) {
    return event < this.events.length ? this.events[event] : this.lines;
  }

  /** The event whose block has this line. */
  eventOf(line) {
    return countBelow(this.events, line + 1) - 1;
  }

  place(runner, uid) {
    return (runner - 1) * this.tree.size + uid - 1;
  }

  /**
   * The status of a node after so many events.
   * @param {number} count
   * @param {number} runner
   * @param {number} uid
   * @returns {number} its place in the list of statuses
   */
  statusAfter(count, runner, uid) {
    if (this.fault && count === this.length) return IDLE;
    const lines = this.changes.of(this.place(runner, uid));
    const told = countBelow(lines, this.firstLine(count));
    return told === 0 ? IDLE : this.answer[lines[told - 1]];
  }

  /**
   * The statuses of all nodes of a runner after so many events, by uid.
   * @returns {Uint8Array} which the next call may change
   */
  statusesAfter(count, runner) {
    const kept = this.kept;
    const end = this.firstLine(count);
    if (kept && kept.runner === runner && kept.count === count && kept.end === end) return kept.statuses;
    const isNext = kept && kept.runner === runner && kept.end <= end && (kept.count === count || kept.count === count - 1);
    const statuses = isNext ? kept.statuses : new Uint8Array(this.tree.size + 1);
    if (!isNext || this.fault) {
      for (let uid = 1; uid <= this.tree.size; uid++) statuses[uid] = this.statusAfter(count, runner, uid);
    } else {
      for (let line = kept.end; line < end; line++) {
        if (this.kind[line] === NODE && this.runner[line] === runner) statuses[this.uid[line]] = this.answer[line];
      }
    }
    this.kept = { count, runner, end, statuses };
    return statuses;
  }

  /** The nodes of a runner whose status an event changes, each once. */
  changedBy(event, runner) {
    const changed = new Set();
    for (let line = this.firstLine(event); line < this.firstLine(event + 1); line++) {
      if (this.kind[line] === NODE && this.runner[line] === runner) changed.add(this.uid[line]);
    }
    if (this.fault && event === this.length - 1) {
      for (let uid = 1; uid <= this.tree.size; uid++) if (this.isQuenched(event, runner, uid)) changed.add(uid);
    }
    return changed;
  }

  /** The lines of an event that change this node's status, or call it. */
  linesIn(index, event, runner, uid) {
    const lines = index.of(this.place(runner, uid));
    return lines.length === 0 ? lines : lines.slice(countBelow(lines, this.firstLine(event)), countBelow(lines, this.firstLine(event + 1)));
  }

  changesIn(event, runner, uid) {
    return this.linesIn(this.changes, event, runner, uid);
  }

  callsIn(event, runner, uid) {
    return this.linesIn(this.calls, event, runner, uid);
  }

  /** Whether the status of the node is another after the quench of the event than its lines say. */
  isQuenched(event, runner, uid) {
    if (!this.fault || event !== this.length - 1) return false;
    const lines = this.changes.of(this.place(runner, uid));
    return lines.length > 0 && this.answer[lines[lines.length - 1]] !== IDLE;
  }

  /**
   * The value of a series after so many events, as the trace prints it, or null where it has none yet.
   * @param {number} count
   * @param {Series} series
   * @returns {string | null}
   */
  valueAfter(count, series) {
    const told = countBelow(series.lines, this.firstLine(count));
    return told === 0 ? series.opening : this.valueAt(series.lines[told - 1]);
  }

  /** The value that a line of a fact or a board tells. */
  valueAt(line) {
    const parts = this.kind[line] === FACT ? 2 : 4;
    const text = this.lineText(line);
    let at = 0;
    for (let part = 0; part < parts; part++) at = text.indexOf(" ", at) + 1;
    return text.slice(at);
  }

  /** The values of a series, the opening one first where it has one. Each is read when it is asked for first. */
  valuesOf(series) {
    const opening = series.opening === null ? [] : [series.opening];
    const values = series.values ??= { texts: opening, numbers: opening.map(Number), before: opening.length };
    for (let at = values.texts.length - values.before; at < series.lines.length; at++) {
      values.texts.push(this.valueAt(series.lines[at]));
      values.numbers.push(Number(values.texts[values.texts.length - 1]));
    }
    values.isNumeric = !values.texts.some((text) => text.startsWith("'"));
    return values;
  }

  /** Whether an event tells a new value of the series. */
  isTold(event, series) {
    const first = countBelow(series.lines, this.firstLine(event));
    return first < series.lines.length && series.lines[first] < this.firstLine(event + 1);
  }

  /** What an event is, in words. */
  title(event) {
    const line = this.events[event];
    const runner = this.runners > 1 ? ` of runner ${this.runner[line]}` : "";
    if (this.kind[line] === TICK) return `Tick${runner}`;
    if (this.kind[line] === HALT) return `Halt${runner}`;
    if (this.kind[line] === FINISH) return `Finish${runner}`;
    if (this.kind[line] === TELL) return `Tell ${this.tree.node(this.uid[line]).name}${runner} ${Words.ANSWERS[this.answer[line]]}`;
    const [, fact, value] = this.lineText(line).split(" ");
    return `Set ${fact} to ${value}`;
  }
}
export { Run, Series, countBelow, isCall, TICK, HALT, SET, TELL, FINISH, NODE, START, RAN, HALTED, ROOT, FAULT, QUENCH, FACT, BOARD };
