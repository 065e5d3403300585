/** Makes elements. Texts of trees and traces reach the page as text nodes alone, so no sign in them is a mark. */

const SVG = "http://www.w3.org/2000/svg";

function fill(element, attributes, children) {
  for (const [name, value] of Object.entries(attributes)) {
    if (name.startsWith("on")) element.addEventListener(name.slice(2), value);
    else if (value !== null && value !== undefined && value !== false) element.setAttribute(name, value === true ? "" : value);
  }
  element.append(...children.filter((child) => child !== null && child !== undefined));
  return element;
}

function html(tag, attributes = {}, ...children) {
  return fill(document.createElement(tag), attributes, children);
}

function svg(tag, attributes = {}, ...children) {
  return fill(document.createElementNS(SVG, tag), attributes, children);
}

const byId = (id) => document.getElementById(id);

/** Calls the function at most once a frame, however often it is asked for. */
function eachFrame(draw) {
  let asked = false;
  return () => {
    if (asked) return;
    asked = true;
    requestAnimationFrame(() => {
      asked = false;
      draw();
    });
  };
}

/** The texts' widths in this font, in pixels. */
function measuring(font) {
  const context = document.createElement("canvas").getContext("2d");
  context.font = font;
  const known = new Map();
  return (text) => {
    if (!known.has(text)) known.set(text, context.measureText(text).width);
    return known.get(text);
  };
}

/** The text, or a front of it that ends in an ellipsis and is no wider than this. */
function shortened(text, width, measure) {
  if (measure(text) <= width) return text;
  let end = Math.min(text.length, Math.ceil(width / 3));
  while (end > 1 && measure(`${text.slice(0, end)}…`) > width) end--;
  return `${text.slice(0, end)}…`;
}

/** The colours of the style that drawings on a canvas need, as the page's theme has them. */
let known = null;
function colours() {
  if (known) return known;
  const style = getComputedStyle(document.documentElement);
  const names = {
    RUNNING: "running-bar", runningEdge: "running", SUCCESS: "success", FAILURE: "failure", halted: "halted", fault: "fault",
    line: "grid", text: "muted", value: "value", valueFill: "value-fill", ink: "ink", panel: "panel", accent: "accent", idle: "idle",
  };
  known = Object.fromEntries(Object.entries(names).map(([name, variable]) => [name, style.getPropertyValue(`--${variable}`).trim()]));
  return known;
}

/** Calls the function when the theme changes, with the colours of the new one in place. */
function onTheme(act) {
  window.matchMedia("(prefers-color-scheme: dark)").addEventListener("change", () => {
    known = null;
    act();
  });
}

/** Makes the theme the light one while the page is printed. */
function setPrinting(isPrinting) {
  document.documentElement.classList.toggle("printing", isPrinting);
  known = null;
}

export { html, svg, byId, eachFrame, measuring, shortened, colours, onTheme, setPrinting };
