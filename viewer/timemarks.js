/** What the rows of the time line are drawn of: bars, marks, lines of numbers and pieces of texts. */
import * as Dom from "./dom.js";
import * as Signs from "./signs.js";
import * as Words from "./words.js";

const { IDLE, RUNNING, SUCCESS, FAILURE } = Words;
const ROW = 24;
const LABELS = 208;
const PATHS = new Map();

/** The path of a badge, made at its first use. */
function pathOf(d) {
  if (!PATHS.has(d)) PATHS.set(d, new Path2D(d));
  return PATHS.get(d);
}

/** A distance on the axis that is readable: 1, 2 or 5 times a power of ten, at least this. */
function stepOf(least) {
  const power = 10 ** Math.floor(Math.log10(Math.max(least, 1e-9)));
  return [1, 2, 5, 10].map((factor) => factor * power).find((step) => step >= least);
}

/** What a change of a status is marked by, or null where it begins a bar or is a reset. */
function markOf(old, status) {
  if (status === SUCCESS) return "SUCCESS";
  if (status === FAILURE) return "FAILURE";
  return status === IDLE && old === RUNNING ? "halted" : null;
}

/** What stands in a column for the gravest change in it, and from where to where: told apart by more than colour. */
const COLUMNS = [
  null,
  { name: "RUNNING", from: 9, to: ROW - 10 },
  { name: "SUCCESS", from: ROW - 14, to: ROW - 4 },
  { name: "halted", from: 3, to: ROW - 11 },
  { name: "FAILURE", from: 3, to: ROW - 4 },
];
const GRAVITY = { SUCCESS: 2, halted: 3, FAILURE: 4 };

function drawBar(context, from, to, top) {
  context.fillStyle = Dom.colours().RUNNING;
  context.fillRect(from, top + 7, Math.max(2, to - from), ROW - 15);
  context.strokeStyle = Dom.colours().runningEdge;
  context.lineWidth = 1;
  context.strokeRect(from + 0.5, top + 7.5, Math.max(1, to - from - 1), ROW - 16);
}

function drawMark(context, name, x, top) {
  const { outline, inner } = Signs.BADGES[name];
  context.save();
  context.translate(x - 7, top + (ROW - 1) / 2 - 7);
  context.scale(0.7, 0.7);
  context.fillStyle = Dom.colours()[name];
  context.strokeStyle = Dom.colours().panel;
  context.lineWidth = 2.5;
  context.stroke(pathOf(outline));
  context.fill(pathOf(outline));
  if (inner) context.stroke(pathOf(inner));
  context.restore();
}

/** The values from first to last as a line in steps, between the least and the greatest of all. */
function drawNumbers(context, numbers, first, last, x, top) {
  const least = numbers.reduce((one, other) => Math.min(one, other));
  const most = numbers.reduce((one, other) => Math.max(one, other));
  const y = (value) => top + ROW - 6 - (most > least ? ((value - least) / (most - least)) * (ROW - 12) : (ROW - 12) / 2);
  context.strokeStyle = context.fillStyle = Dom.colours().value;
  context.lineWidth = 1.5;
  context.beginPath();
  context.moveTo(x(first), y(numbers[first]));
  for (let at = first; at < last;) {
    // What lies in one pixel is one upright line.
    const from = x(at);
    let low = numbers[at];
    let high = numbers[at];
    for (at++; at < last && x(at) < from + 1; at++) {
      low = Math.min(low, numbers[at]);
      high = Math.max(high, numbers[at]);
    }
    context.lineTo(from, y(low));
    context.lineTo(from, y(high));
    context.lineTo(from, y(numbers[at - 1]));
    context.lineTo(x(at), y(numbers[at - 1]));
  }
  context.stroke();
  context.lineWidth = 1;
  if (last - first > 400) return;
  for (let at = Math.max(1, first); at < last; at++) context.fillRect(x(at) - 2, y(numbers[at]) - 2, 4, 4);
}

/** The values from first to last as pieces, each with its text in it where it is wide enough. */
function drawTexts(context, texts, first, last, x, top) {
  context.textAlign = "left";
  for (let at = first; at < last; at++) {
    const to = Math.max(x(at + 1), x(at) + 3);
    const from = Math.max(x(at), LABELS - 4);
    context.fillStyle = Dom.colours().valueFill;
    context.fillRect(from, top + 4, Math.max(2, to - from - 1), ROW - 9);
    context.fillStyle = Dom.colours().value;
    context.fillRect(x(at), top + 4, 2, ROW - 9);
    if (to - from < 12) continue;
    context.save();
    context.beginPath();
    context.rect(from, top, to - from - 2, ROW);
    context.clip();
    context.fillText(texts[at].slice(0, 200), from + 6, top + ROW / 2 + 4);
    context.restore();
  }
  context.textAlign = "center";
}

export { ROW, LABELS, COLUMNS, GRAVITY, stepOf, markOf, drawBar, drawMark, drawNumbers, drawTexts };
