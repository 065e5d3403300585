/** Lines of a trace as rows of a list. */
import * as Dom from "./dom.js";
import * as Runs from "./run.js";
import * as Signs from "./signs.js";
import * as Words from "./words.js";

const { html } = Dom;
const { STATUSES, ANSWERS } = Words;

/** The name of the badge for a line, or null. */
function badgeOf(run, line) {
  const kind = run.kind[line];
  if (kind === Runs.NODE) return STATUSES[run.answer[line]];
  if (kind === Runs.START || kind === Runs.RAN || kind === Runs.ROOT) return ANSWERS[run.answer[line]];
  if (kind === Runs.HALTED || kind === Runs.QUENCH) return "halted";
  return kind === Runs.FAULT ? "fault" : null;
}

/** Whether a line is about a node. A line of a board is about the SubTree node that owns the cell. */
const hasNode = (run, line) => run.uid[line] !== 0;

/** A line of the trace as a row: its number, its badge, its text as it stands, and the name of its node. */
function lineRow(run, line, at, { marked, chosen, parted, onclick }) {
  const badge = badgeOf(run, line);
  const node = hasNode(run, line) ? run.tree.node(run.uid[line]) : null;
  const isHeader = run.kind[line] <= Runs.FINISH;
  return html("button", {
    class: `row line${marked ? " marked" : ""}${chosen ? " chosen" : ""}${parted ? " parted" : ""}${isHeader ? " header" : ""}`,
    type: "button", "data-at": at, "data-line": line + 1, onclick,
  },
    html("span", { class: "line-number" }, Words.number(line + 1)),
    html("span", { class: "line-badge" }, badge ? Signs.badgeImage(badge) : null),
    html("span", { class: "line-text" }, run.lineText(line)),
    node ? html("span", { class: "line-name" }, node.name) : null);
}

export { hasNode, lineRow };
