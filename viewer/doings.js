/** What an event did with a node, and what stands below a folded one. */
import * as Runs from "./run.js";
import * as Words from "./words.js";

const { STATUSES, ANSWERS, IDLE } = Words;

/**
 * What an event did with a node, in order: its calls with their answers, and the statuses that it came to.
 * A status that a call's answer gave is not said again.
 */
function doingsOf(run, event, runner, uid) {
  const changes = run.changesIn(event, runner, uid);
  const calls = run.callsIn(event, runner, uid);
  const doings = [];
  let told = null;
  for (let change = 0, call = 0; change < changes.length || call < calls.length;) {
    if (call < calls.length && !(changes[change] < calls[call])) {
      doings.push(callDoing(run, calls[call]));
      told = run.answer[calls[call++]];
    } else {
      const status = run.answer[changes[change++]];
      if (status === told && told !== IDLE) doings[doings.length - 1].changes = true;
      else doings.push({ text: "", badge: STATUSES[status], said: STATUSES[status], changes: true });
      told = null;
    }
  }
  if (run.isQuenched(event, runner, uid) && !calls.some((line) => run.kind[line] === Runs.QUENCH)) {
    doings.push({ text: "", badge: "IDLE", said: "IDLE by the quench", changes: true });
  }
  return doings;
}

function callDoing(run, line) {
  const answer = ANSWERS[run.answer[line]];
  if (run.kind[line] === Runs.FAULT) return { text: "fault", badge: "fault", said: "fault", changes: false };
  if (run.kind[line] === Runs.HALTED) return { text: "halted", badge: "halted", said: "halted", changes: false };
  if (run.kind[line] === Runs.QUENCH) return { text: "quenched", badge: "halted", said: "quenched", changes: true };
  const text = run.kind[line] === Runs.START ? "start" : "running";
  return { text, badge: answer, said: `${text} ${answer}`, changes: false };
}

/** How many nodes below this one have each status after so many events, and how many the last event changed. */
function below(run, count, runner, node) {
  const statuses = [0, 0, 0, 0];
  let changed = 0;
  const all = run.statusesAfter(count, runner);
  for (let uid = node.uid + 1; uid < node.uid + node.size; uid++) statuses[all[uid]]++;
  if (count > 0) for (const uid of run.changedBy(count - 1, runner)) if (uid > node.uid && uid < node.uid + node.size) changed++;
  return { statuses, changed };
}

/**
 * How a node is shown after so many events.
 * @param {import("./run.js").Run} run
 * @param {number} count
 * @param {number} runner
 * @param {import("./treefile.js").Node} node
 * @param {boolean} isFolded whether it hides what is below it, which is counted then
 */
function stateOf(run, count, runner, node, isFolded) {
  const doings = count > 0 ? doingsOf(run, count - 1, runner, node.uid) : [];
  const folded = isFolded ? below(run, count, runner, node) : null;
  return {
    status: STATUSES[run.statusesAfter(count, runner)[node.uid]], doings, folded,
    isFaulty: doings.some(({ badge }) => badge === "fault"),
    isChanged: doings.some(({ changes }) => changes) || (folded !== null && folded.changed > 0),
    said: doings.map(({ said }) => said).join(", "),
  };
}

export { stateOf };
