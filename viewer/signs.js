/** The signs of kinds, in a square of 16, and the badges of statuses, in a square of 20. */
import * as Dom from "./dom.js";
import * as Kinds from "./kinds.js";

const { html, svg } = Dom;

const KINDS = {
  sequence: "M2 8h11M9 4l4 4-4 4",
  fallback: "M5 5.6a3 3 0 1 1 4.7 2.4C8.6 8.8 8 9.3 8 10.6M8 13v.3",
  parallel: "M2 5h11M10 2l3 3-3 3M2 11h11M10 8l3 3-3 3",
  branch: "M1.5 8H5l3.5-4H14M5 8l3.5 4H14M11.5 1.7L14 4l-2.5 2.3M11.5 9.7L14 12l-2.5 2.3",
  recovery: "M6 2h4v4h4v4h-4v4H6v-4H2V6h4z",
  rotation: "M13.4 6.4A5.7 5.7 0 0 0 3.2 5M3 2v3.2h3.2M2.6 9.6A5.7 5.7 0 0 0 12.8 11M13 14v-3.2H9.8",
  decorator:
    "M12.2 8a4.2 4.2 0 1 1-8.4 0 4.2 4.2 0 0 1 8.4 0M9.5 8a1.5 1.5 0 1 1-3 0 1.5 1.5 0 0 1 3 0" +
    "M8 1.4v2.4M8 12.2v2.4M1.4 8h2.4M12.2 8h2.4M3.3 3.3L5 5M11 11l1.7 1.7M3.3 12.7L5 11M11 5l1.7-1.7",
  subtree: "M2.5 2.5h11v11h-11zM2.5 6h11M5 9h6M5 11.2h4",
  script: "M6 2.5c-2.4 0-1 5.5-3.5 5.5 2.5 0 1.1 5.5 3.5 5.5M10 2.5c2.4 0 1 5.5 3.5 5.5-2.5 0-1.1 5.5-3.5 5.5",
  constant: "M2.5 2.5h11v11h-11zM5.5 8.5h5",
  condition: "M1.5 8c3-5 10-5 13 0-3 5-10 5-13 0zM10 8a2 2 0 1 1-4 0 2 2 0 0 1 4 0",
  timed: "M14 8A6 6 0 1 1 2 8a6 6 0 0 1 12 0M8 4.5V8l2.5 1.5",
  replay: "M13 8.5A5 5 0 1 1 11.4 4.5M13 1.8v3.2H9.8",
  gate: "M3 14V3M13 14V3M3 5.5h10M3 9.5h10",
  told: "M2 3h12v8H8l-3 3v-3H2zM5 6h6M5 8.3h4",
  leaf: "M3 3h10v10H3zM8 8v.01",
};

/** The outline of each badge, and what is drawn on it in white. */
const BADGES = {
  IDLE: { outline: "M14.5 10a4.5 4.5 0 1 1-9 0 4.5 4.5 0 0 1 9 0", hollow: true },
  RUNNING: { outline: "M4.5 2.5L17.5 10 4.5 17.5z" },
  SUCCESS: { outline: "M18.5 10a8.5 8.5 0 1 1-17 0 8.5 8.5 0 0 1 17 0", inner: "M6 10.3l3 3 5.2-6" },
  FAILURE: { outline: "M6.7 2h6.6L18 6.7v6.6L13.3 18H6.7L2 13.3V6.7z", inner: "M6.8 6.8l6.4 6.4M13.2 6.8l-6.4 6.4" },
  SKIPPED: { outline: "M4 4.5l5.5 5.5L4 15.5M10.5 4.5L16 10l-5.5 5.5", hollow: true },
  halted: { outline: "M3.5 3.5h13v13h-13z" },
  fault: { outline: "M10 1l9 17H1z", inner: "M10 7v5M10 14.8v.2" },
};

/** The sign of a node: its family's, and of a leaf that of its row. */
function kindOf(node, world) {
  if (node.family !== "leaf") return node.family;
  const row = world.rows.get(node.id);
  return row && row.sort in KINDS ? row.sort : "leaf";
}

/** The letter that tells kinds with one sign apart: R for reactive ones, M for memory, P for a pipeline. */
function letterOf(node) {
  return node.family === "leaf" ? "" : Kinds.LETTERS.get(node.id) ?? "";
}

/** A badge for use within a drawing, with its left upper corner at this place. */
function badge(name, x, y, size) {
  const { outline, inner, hollow } = BADGES[name];
  return svg("g", { class: `badge ${name}`, transform: `translate(${x} ${y}) scale(${size / 20})` },
    svg("path", { class: hollow ? "hollow" : "outline", d: outline }),
    inner ? svg("path", { class: "inner", d: inner }) : null);
}

/** A badge as an image in a line of text. */
function badgeImage(name) {
  return svg("svg", { class: "badge-image", viewBox: "0 0 20 20", role: "img", "aria-label": name }, badge(name, 0, 0, 20));
}

/** The sign of a kind as an image in a line of text. */
function kindImage(kind) {
  return svg("svg", { class: "kind-image", viewBox: "0 0 16 16", "aria-hidden": "true" }, svg("path", { d: KINDS[kind] }));
}

/** A status or an answer: its badge and its word. */
function status(name) {
  return html("span", { class: `status ${name}` }, badgeImage(name), name);
}

export { KINDS, BADGES, kindOf, letterOf, badge, badgeImage, kindImage, status };
