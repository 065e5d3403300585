/** Plays a run, by a speed or in real time, up to where it is to stop; and finds the next failure or halt. */
import * as Dom from "./dom.js";
import * as Runs from "./run.js";

const { byId } = Dom;
/** A timer can't wait longer than this. */
const LONGEST = 2 ** 31 - 1;

/** What a line is that a run may stop at, by the name of the choice. */
const MARKS = {
  FAILURE: (run, line) => run.kind[line] === Runs.NODE && run.answer[line] === 3,
  halted: (run, line) => run.kind[line] === Runs.HALTED || run.kind[line] === Runs.QUENCH,
  root: (run, line) => run.kind[line] === Runs.ROOT && run.answer[line] !== 1,
};

/**
 * The first line of this sort after so many events; or, with -1 as the direction, in the last event before that has one.
 * @param {import("./run.js").Run} run
 * @param {number} count
 * @param {"FAILURE" | "halted" | "root"} name
 * @param {1 | -1} direction
 * @returns {number} the line, or -1
 */
function findMark(run, count, name, direction) {
  const isMark = MARKS[name];
  if (direction > 0) {
    for (let line = run.firstLine(count); line < run.lines; line++) if (isMark(run, line)) return line;
    return -1;
  }
  let found = -1;
  for (let line = run.firstLine(Math.max(0, count - 1)) - 1; line >= 0; line--) {
    if (isMark(run, line)) found = line;
    if (found >= 0 && run.kind[line] <= Runs.FINISH) return found;
  }
  return found;
}

class Player {
  constructor(page) {
    this.page = page;
    this.timer = null;
    /** The nodes at whose lines playing stops. */
    this.stops = new Set();
  }

  get isOn() {
    return this.timer !== null;
  }

  toggle() {
    if (this.isOn) return this.stop();
    const { page } = this;
    if (page.count === page.length && page.phase === "run") page.go(0);
    byId("play").setAttribute("aria-pressed", "true");
    this.wait();
  }

  stop() {
    if (this.isOn) clearTimeout(this.timer);
    this.timer = null;
    byId("play").setAttribute("aria-pressed", "false");
  }

  /** Waits for the next event: so many a second, or as long as the run did. */
  wait() {
    const { page } = this;
    if (page.count === page.length) return this.stop();
    const [sort, factor] = byId("speed").value.split(" ");
    let time = 1000 / Number(factor);
    if (sort === "real" && page.phase === "run") {
      const { moments } = page.run;
      time = page.count > 0 ? (moments[page.count] - moments[page.count - 1]) / Number(factor) : 0;
    }
    this.timer = setTimeout(() => this.step(sort), Math.min(LONGEST, time));
  }

  /** Goes on by an event; in real time by all of one moment, unless one of them is to be stopped at. */
  step(sort) {
    const { page } = this;
    let next = page.count + 1;
    if (sort === "real" && page.phase === "run") {
      while (next < page.length && page.run.moments[next] === page.run.moments[next - 1] && this.reasonToStop(next) === "") next++;
    }
    page.go(next);
    const reason = this.reasonToStop(next);
    if (reason === "") return this.wait();
    this.stop();
    byId("announcer").textContent = `Stopped: ${reason}.`;
  }

  /** Why playing stops after so many events, or "". */
  reasonToStop(count) {
    const { page } = this;
    if (page.phase !== "run") return "";
    const mark = MARKS[byId("stop-at").value];
    const { run } = page;
    for (let line = run.firstLine(count - 1); line < run.firstLine(count); line++) {
      if (mark?.(run, line)) return byId("stop-at").selectedOptions[0].textContent;
      const isOfNode = run.kind[line] === Runs.NODE || Runs.isCall(run.kind[line]);
      if (isOfNode && this.stops.has(run.uid[line])) return `a line of ${run.tree.node(run.uid[line]).name}`;
    }
    return "";
  }

  toggleStop(uid) {
    if (!this.stops.delete(uid)) this.stops.add(uid);
  }
}

export { Player, findMark };
