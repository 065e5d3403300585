/**
 * Reads a trace against its tree, and tells what stood after each event.
 *
 * The reader keeps a status for each node of each runner by the lines that it has read. A line that does not fit
 * them, or has none of the forms, is a TraceFault with its number: nothing of such a trace is shown.
 */
import * as Runs from "./run.js";
import * as Words from "./words.js";

const { STATUSES, ANSWERS, IDLE, RUNNING, SUCCESS, FAILURE, SKIPPED } = Words;
const { TICK, HALT, SET, TELL, FINISH, NODE, START, RAN, HALTED, ROOT, FAULT, QUENCH, FACT, BOARD } = Runs;
const MOST_RUNNERS = 16;


/** A trace that cannot be shown: the number of the line, what it says, and what is wrong with it. */
class TraceFault extends Error {
  constructor(line, text, reason) {
    super(reason);
    this.line = line;
    this.text = text;
  }
}

/** The number that this word writes in decimal, or NaN. */
function natural(word) {
  if (word === undefined || word === "" || word.length > 15 || (word[0] === "0" && word !== "0")) return NaN;
  let value = 0;
  for (let at = 0; at < word.length; at++) {
    const digit = word.charCodeAt(at) - 48;
    if (digit < 0 || digit > 9) return NaN;
    value = value * 10 + digit;
  }
  return value;
}

/** Reads the lines of a run in order, and keeps the statuses that they give. */
class Reader {
  constructor(run) {
    this.run = run;
    this.size = run.tree.size;
    this.statuses = new Uint8Array(MOST_RUNNERS * this.size);
    this.line = 0;
    this.subject = 0;
    this.finished = 0;
  }

  refuse(reason) {
    throw new TraceFault(this.line + 1, this.run.lineText(this.line), reason);
  }

  /** Reads the lines that are there and were not read yet. */
  readOn() {
    for (; this.line < this.run.lines; this.line++) if (!this.readCommon()) this.readLine();
  }

  /**
   * Reads a line of a node or a call, of which most of a trace consists, without taking it apart. Answers false where
   * the line is none, or is one with a mistake, which readLine then names.
   */
  readCommon() {
    const { text, starts } = this.run;
    const start = starts[this.line];
    const ends = text.startsWith("node ", start) ? NODE_ENDS : text.startsWith("call ", start) ? CALL_ENDS : null;
    if (!ends || this.run.events.length === 0) return false;
    let at = start + 5;
    let uid = 0;
    for (; text.charCodeAt(at) >= 48 && text.charCodeAt(at) <= 57 && uid <= this.size; at++) uid = uid * 10 + text.charCodeAt(at) - 48;
    const end = ends.get(text.slice(at, starts[this.line + 1] - 1));
    if (!end || uid < 1 || uid > this.size || text[start + 5] === "0") return false;
    if (end.kind === NODE) this.changeNode(uid, end.old, end.answer);
    else this.callLeaf(uid, end.kind, end.answer);
    return true;
  }

  readLine() {
    const words = this.run.lineText(this.line).split(" ");
    const read = READS[words[0]];
    if (!read) this.refuse("No line of a trace begins so.");
    if (this.run.events.length === 0 && !HEADERS.includes(words[0])) this.refuse("The line stands before the header of an event.");
    read.call(this, words);
  }

  /** The number of a runner that the word names. */
  runnerOf(word) {
    const runner = natural(word);
    if (!(runner >= 1 && runner <= MOST_RUNNERS)) this.refuse("No runner has this number.");
    const { run } = this;
    if (runner > run.runners) {
      const first = run.runners + 1;
      run.runners = runner;
      run.openCells(first);
    }
    return runner;
  }

  uidOf(word) {
    const uid = natural(word);
    if (!(uid >= 1 && uid <= this.size)) this.refuse(`The tree has ${this.size} nodes, and none has this number.`);
    return uid;
  }

  statusOf(word) {
    const status = STATUSES.indexOf(word);
    if (status < 0) this.refuse(`${word} is no status.`);
    return status;
  }

  answerOf(word) {
    const answer = ANSWERS.indexOf(word);
    if (answer < 0) this.refuse(`${word} is no answer.`);
    return answer;
  }

  expectWords(words, count) {
    if (words.length !== count) this.refuse(`A line "${words[0]}" of this form has ${count} words.`);
  }

  keep(kind, runner, uid, old, answer) {
    this.run.keep(this.line, kind, runner, uid, old, answer);
  }

  /** Keeps the header of an event. The lines of its block are of the runner `subject`, of none where that is 0. */
  header(kind, runner, at, uid = 0, answer = 0, subject = runner) {
    const { run } = this;
    const moment = natural(at);
    if (Number.isNaN(moment)) this.refuse("The event has no moment.");
    if (run.length > 0 && moment < run.moments[run.length - 1]) this.refuse("The moment lies before that of the event before.");
    if (run.fault) this.refuse("An event follows, but the fault ended the run.");
    if (this.finished > 0 && kind !== FINISH) this.refuse("An event follows, but the run was finished.");
    run.events.push(this.line);
    run.moments.push(moment);
    this.subject = subject;
    this.keep(kind, runner, uid, 0, answer);
  }

  readStep(kind, words) {
    this.expectWords(words, 4);
    if (words[2] !== "at") this.refuse(`A line "${words[0]}" names its moment after "at".`);
    this.header(kind, this.runnerOf(words[1]), words[3]);
  }

  readFinish(words) {
    this.readStep(FINISH, words);
    if (this.subject !== ++this.finished) this.refuse(`Runner ${this.finished} is to be finished here.`);
  }

  readSet(words) {
    this.expectWords(words, 5);
    if (words[3] !== "at") this.refuse('A line "set" names its moment after "at".');
    this.header(SET, 0, words[4]);
  }

  readTell(words) {
    this.expectWords(words, 6);
    if (words[4] !== "at") this.refuse('A line "tell" names its moment after "at".');
    const uid = this.uidOf(words[2]);
    if (this.run.tree.nodes[uid].family !== "leaf") this.refuse(`Node ${uid} is no leaf that can be told anything.`);
    const answer = this.answerOf(words[3]);
    if (answer !== SUCCESS && answer !== FAILURE) this.refuse("A leaf is told SUCCESS or FAILURE.");
    this.header(TELL, this.runnerOf(words[1]), words[5], uid, answer, 0);
  }

  readNode(words) {
    this.expectWords(words, 4);
    this.changeNode(this.uidOf(words[1]), this.statusOf(words[2]), this.statusOf(words[3]));
  }

  changeNode(uid, old, status) {
    if (this.subject === 0) this.refuse("A change of a fact, and a telling, change no node.");
    const place = this.run.place(this.subject, uid);
    const kept = this.statuses[place];
    if (kept !== old) this.refuse(`By the lines before it, node ${uid} is ${STATUSES[kept]} here, not ${STATUSES[old]}.`);
    if (old === status) this.refuse("The line tells no change.");
    if (this.run.fault) this.refuse("A node changes after the fault.");
    this.statuses[place] = status;
    this.keep(NODE, this.subject, uid, old, status);
  }

  readCall(words) {
    const uid = this.uidOf(words[1]);
    const kind = CALLS.get(words[2]);
    if (kind === undefined) this.refuse(`${words[2]} is no call.`);
    this.expectWords(words, kind === HALTED ? 3 : 4);
    this.callLeaf(uid, kind, kind === HALTED ? IDLE : this.answerOf(words[3]));
  }

  callLeaf(uid, kind, answer) {
    if (this.subject === 0) this.refuse("A change of a fact, and a telling, call no leaf.");
    if (this.run.tree.nodes[uid].family !== "leaf") this.refuse(`Node ${uid} is no leaf that can be called.`);
    const runs = this.statuses[this.run.place(this.subject, uid)] === RUNNING;
    if (kind === START && runs) this.refuse(`By the lines before it, leaf ${uid} is RUNNING and is not started here.`);
    if (kind !== START && !runs) this.refuse(`By the lines before it, leaf ${uid} is not RUNNING here.`);
    this.keep(kind, this.subject, uid, IDLE, answer);
  }

  readRoot(words) {
    this.expectWords(words, 3);
    const answer = this.answerOf(words[2]);
    if (this.runnerOf(words[1]) !== this.subject) this.refuse("The event is not one of this runner.");
    const kept = this.statuses[this.run.place(this.subject, 1)];
    if (kept !== (answer === SKIPPED ? IDLE : answer)) {
      this.refuse(`By the lines before it, the root is ${STATUSES[kept]} here.`);
    }
    this.keep(ROOT, this.subject, 1, 0, answer);
  }

  readFault(words) {
    if (words.length < 4) this.refuse('A line "fault" has a runner, a node and a cause.');
    const runner = this.runnerOf(words[1]);
    const uid = this.uidOf(words[2]);
    if (runner !== this.subject) this.refuse("The event is not one of this runner.");
    if (this.run.fault) this.refuse("A second fault.");
    this.keep(FAULT, runner, uid, 0, 0);
    this.run.fault = { line: this.line, runner, uid, cause: words.slice(3).join(" "), quenched: [] };
  }

  readQuench(words) {
    this.expectWords(words, 3);
    const runner = this.runnerOf(words[1]);
    const uid = this.uidOf(words[2]);
    if (!this.run.fault) this.refuse("A quench without a fault before it.");
    if (this.run.tree.node(uid).family !== "leaf") this.refuse(`Node ${uid} is no leaf that can be held.`);
    this.keep(QUENCH, runner, uid, 0, 0);
    this.run.fault.quenched.push({ runner, uid });
  }

  readFact(words) {
    this.expectWords(words, 3);
    this.keep(FACT, 0, 0, 0, 0);
    this.told(`fact ${words[1]}`, words[1]);
  }

  readBoard(words) {
    if (words.length < 5) this.refuse('A line "board" has a runner, a scope, a key and a value.');
    const runner = this.runnerOf(words[1]);
    const scope = natural(words[2]);
    if (scope !== 0 && this.run.tree.node(this.uidOf(words[2])).family !== "subtree") {
      this.refuse(`Node ${scope} is no SubTree node, and owns no cell.`);
    }
    this.keep(BOARD, runner, scope, 0, 0);
    this.told(`board ${runner} ${scope} ${words[3]}`, { runner, scope, key: words[3] });
  }

  told(name, title) {
    const { series } = this.run;
    if (!series.has(name)) series.set(name, new Runs.Series(title, null));
    series.get(name).lines.push(this.line);
  }
}

const HEADERS = ["tick", "halt", "set", "tell", "finish"];
const CALLS = new Map([["start", START], ["running", RAN], ["halted", HALTED]]);

/** What may stand after the uid in the line of a node, and what it says. */
const NODE_ENDS = new Map(STATUSES.flatMap((old, from) =>
  STATUSES.map((status, to) => [` ${old} ${status}`, { kind: NODE, old: from, answer: to }])));
/** What may stand after the uid in the line of a call, and what it says. */
const CALL_ENDS = new Map([[" halted", { kind: HALTED, answer: IDLE }]]);
for (const word of ["start", "running"]) {
  for (let answer = 1; answer <= SKIPPED; answer++) {
    CALL_ENDS.set(` ${word} ${ANSWERS[answer]}`, { kind: CALLS.get(word), answer });
  }
}
const READS = {
  tick(words) { this.readStep(TICK, words); },
  halt(words) { this.readStep(HALT, words); },
  finish: Reader.prototype.readFinish,
  set: Reader.prototype.readSet,
  tell: Reader.prototype.readTell,
  node: Reader.prototype.readNode,
  call: Reader.prototype.readCall,
  root: Reader.prototype.readRoot,
  fault: Reader.prototype.readFault,
  quench: Reader.prototype.readQuench,
  fact: Reader.prototype.readFact,
  board: Reader.prototype.readBoard,
};


/**
 * The run that this trace tells of the tree. Facts begin with the values that the world gives them. A last line that lacks
 * its end was cut off, and is left out.
 */
function read(tree, world, text) {
  const { run, reader } = begin(tree, world);
  run.append(text);
  reader.readOn();
  if (run.rest !== "") run.cut = run.rest;
  return run;
}

/**
 * A run without a line yet, and the reader that reads on when lines were appended.
 * @param {import("./treefile.js").Tree} tree
 * @returns {{run: Runs.Run, reader: Reader}}
 */
function begin(tree, world) {
  const run = new Runs.Run(tree, world);
  return { run, reader: new Reader(run) };
}

export { read, begin, TraceFault };
