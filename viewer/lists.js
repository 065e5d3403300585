/** Lists of which only the rows in view are in the page. */
import * as Dom from "./dom.js";

const { html } = Dom;
const ROW_HEIGHT = 24;
/** So many rows beyond the window are made too, so that scrolling shows no gap. */
const BEYOND = 4;
/** At most so many rows beyond the window are printed. */
const PRINTED = 200;

/** A list of which only the rows in view are in the page. */
class VirtualList {
  constructor(host, makeRow) {
    this.host = host;
    this.makeRow = makeRow;
    this.rows = html("div", { class: "rows" });
    this.host.append(this.rows);
    this.length = 0;
    this.beyond = BEYOND;
    this.drawSoon = Dom.eachFrame(() => this.draw());
    host.addEventListener("scroll", this.drawSoon);
    host.addEventListener("keydown", (event) => this.pressed(event));
    new ResizeObserver(this.drawSoon).observe(host);
  }

  /** The arrows go from row to row. */
  pressed(event) {
    const step = { ArrowDown: 1, ArrowUp: -1 }[event.key];
    if (!step || event.shiftKey || this.length === 0) return;
    event.preventDefault();
    event.stopPropagation();
    const inView = Math.ceil(this.host.scrollTop / ROW_HEIGHT);
    const focused = this.rows.contains(document.activeElement) ? Number(document.activeElement.dataset.at) + step : inView;
    const at = Math.min(this.length - 1, Math.max(0, focused));
    this.reveal(at);
    this.draw();
    this.rows.querySelector(`[data-at="${at}"]`).focus();
  }

  /** Shows so many rows, from the first one where the list is a new one. */
  show(length, isNew = true) {
    this.length = length;
    this.rows.style.height = `${length * ROW_HEIGHT}px`;
    if (isNew) this.host.scrollTop = 0;
    this.draw();
  }

  draw() {
    const first = Math.max(0, Math.floor(this.host.scrollTop / ROW_HEIGHT) - this.beyond);
    const last = Math.min(this.length, Math.ceil((this.host.scrollTop + this.host.clientHeight) / ROW_HEIGHT) + this.beyond);
    const rows = [];
    for (let at = first; at < last; at++) {
      const row = this.makeRow(at);
      row.style.top = `${at * ROW_HEIGHT}px`;
      row.tabIndex = -1;
      rows.push(row);
    }
    const focused = this.rows.contains(document.activeElement) ? document.activeElement.dataset.at : null;
    this.rows.replaceChildren(...rows);
    if (focused !== null) this.rows.querySelector(`[data-at="${focused}"]`)?.focus();
  }

  /** Makes more rows than are in view, for print. Gives what undoes it. */
  drawMore() {
    this.beyond = PRINTED;
    this.draw();
    return () => {
      this.beyond = BEYOND;
      this.draw();
    };
  }

  reveal(at) {
    const top = at * ROW_HEIGHT;
    if (top < this.host.scrollTop || top + ROW_HEIGHT > this.host.scrollTop + this.host.clientHeight) {
      this.host.scrollTop = top - Math.floor(this.host.clientHeight / ROW_HEIGHT / 2) * ROW_HEIGHT;
    }
    this.drawSoon();
  }
}

export { VirtualList };
