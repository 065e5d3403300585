/** Finds nodes by their names, IDs or numbers, and lists what was found. */
import * as Dom from "./dom.js";
import * as Signs from "./signs.js";
import * as Words from "./words.js";

const { html, byId } = Dom;
/** So many hits are listed at most. */
const LISTED = 100;

/** The uids of the nodes that this text may mean. */
function hitsOf(tree, text) {
  const sought = text.trim().toLowerCase();
  if (sought === "") return [];
  return tree.nodes.slice(1).filter(({ uid, name, id }) =>
    String(uid) === sought || [name, id].some((word) => word.toLowerCase().includes(sought))).map(({ uid }) => uid);
}

class Search {
  constructor(page) {
    this.page = page;
    this.hits = [];
    this.field = byId("search");
    this.list = byId("hits");
    this.field.addEventListener("input", () => this.look());
    this.field.addEventListener("focus", () => this.look());
    this.field.addEventListener("blur", () => this.show(false));
    this.field.addEventListener("keydown", (event) => this.pressed(event));
    this.list.addEventListener("pointerdown", (event) => event.preventDefault());
  }

  pressed(event) {
    const step = { Enter: event.shiftKey ? -1 : 1, ArrowDown: 1, ArrowUp: -1 }[event.key];
    if (step) {
      event.preventDefault();
      this.goOn(step);
    } else if (event.key === "Escape") {
      byId("tree").focus();
    }
  }

  look() {
    this.hits = this.page.run ? hitsOf(this.page.run.tree, this.field.value) : [];
    this.show(this.field.value.trim() !== "");
  }

  /** Chooses the hit after the chosen node, or before it. */
  goOn(step) {
    const { hits, page } = this;
    if (hits.length === 0) return;
    const at = step > 0 ? hits.findIndex((uid) => uid > page.selected) : hits.findLastIndex((uid) => uid < page.selected);
    page.select(hits[at >= 0 ? at : step > 0 ? 0 : hits.length - 1]);
    this.show(true);
  }

  show(isOpen) {
    const { hits, page } = this;
    this.list.hidden = !isOpen;
    this.field.setAttribute("aria-expanded", String(isOpen));
    if (!isOpen) return;
    const at = hits.indexOf(page.selected);
    const head = hits.length === 0 ? "No node has this name, ID or number."
      : `${at >= 0 ? `${Words.number(at + 1)} of ` : ""}${Words.count(hits.length, "hit")}`;
    this.list.replaceChildren(html("div", { class: "hits-head", role: "status" }, head),
      ...hits.slice(0, LISTED).map((uid) => this.rowOf(uid)),
      ...(hits.length > LISTED ? [html("div", { class: "hits-head" }, `and ${Words.number(hits.length - LISTED)} more`)] : []));
    this.list.querySelector(".chosen")?.scrollIntoView({ block: "nearest" });
  }

  rowOf(uid) {
    const { page } = this;
    const { tree } = page.run;
    const node = tree.node(uid);
    const above = tree.above(uid).filter((at) => at > 1).slice(-2).map((at) => tree.node(at).name);
    const status = Words.STATUSES[page.run.statusAfter(page.phase === "run" ? page.count : 0, page.runner, uid)];
    return html("button", {
      type: "button", tabindex: -1, class: `hit${uid === page.selected ? " chosen" : ""}`,
      onclick: () => { page.select(uid); this.show(true); },
    }, Signs.badgeImage(status), html("strong", {}, node.name), html("span", { class: "muted" }, `${uid}`),
    html("span", { class: "hit-within muted" }, above.join(" › ")));
  }
}

export { Search };
