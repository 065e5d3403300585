/** What the page says where it has no run to show: a refusal, or a trace that does not fit its tree. */
import * as Dom from "./dom.js";
import * as Signs from "./signs.js";
import * as Words from "./words.js";

const { html, byId } = Dom;
/** So many lines before and after one that is quoted are quoted with it. */
const ROUND = 3;

function show(...parts) {
  byId("work").hidden = true;
  byId("start").hidden = true;
  byId("message").hidden = false;
  byId("message").replaceChildren(...parts.filter((part) => part !== null));
}

function title(text) {
  return html("h2", {}, Signs.badgeImage("fault"), text);
}

/** The line of this number, from 1, among those round it. */
function quoted(text, number) {
  const lines = text.split("\n");
  const first = Math.max(1, number - ROUND);
  const last = Math.min(lines.length, number + ROUND);
  const rows = [];
  for (let at = first; at <= last; at++) {
    rows.push(html("span", { class: at === number ? "here" : "" }, `${String(at).padStart(6)}  ${lines[at - 1]}`));
  }
  return html("pre", {}, ...rows);
}

/** The number of the line in which this byte of the text stands. */
function lineOfByte(text, place) {
  const bytes = new TextEncoder().encode(text).subarray(0, place);
  return bytes.reduce((line, byte) => line + (byte === 10 ? 1 : 0), 1);
}

const PLACED = ["NotUtf8", "BadMark", "DoubleAttribute", "Unmatched", "StrayText", "BadModel", "DoubleModel", "NotRoot"];

/** The lines of the file that a refusal speaks of, where it names a place or a line. */
function excerpt(line, data) {
  const [, what, kind, place] = line.split(" ");
  if (what === "world" && data.world && /^\d+$/.test(place ?? "")) return quoted(data.world, Number(place));
  if (what === "tree" && data.source && PLACED.includes(kind) && /^\d+$/.test(place ?? "")) {
    return quoted(data.source, lineOfByte(data.source, Number(place)));
  }
  return null;
}

/** A refusal of the program, as it was printed, with its status. */
function refusal(data) {
  const line = data.refusal.split("\n")[0];
  const said = (data.said ?? "").trim();
  const words = Words.EXITS[data.exit] ?? "the program was stopped";
  show(title(line.startsWith("refused ") ? line : "The program gave no whole output"),
    data.exit === undefined ? null : html("p", {}, html("strong", {}, `Status ${data.exit}`), `: ${words}.`),
    excerpt(line, data),
    said ? html("p", {}, "What else the program said:") : null,
    said ? html("pre", {}, said) : null);
}

/** A trace, or a plan, of which a line does not fit what the page holds. */
function misfit(what, fault, text) {
  byId("result").hidden = true;
  show(title(`Line ${Words.number(fault.line)} of the ${what} does not fit`),
    html("p", {}, fault.message),
    quoted(text, fault.line),
    html("p", { class: "muted" },
      `The page keeps its own state by the lines before this one, and shows nothing of a ${what} that contradicts it.`));
}

/** A text that is no tree. */
function noTree(fault) {
  byId("result").hidden = true;
  show(title("This tree can't be shown"), html("p", {}, fault.message),
    html("p", { class: "muted" }, "A tree is shown as `bt check` prints it."));
}

export { refusal, misfit, noTree };
