/** What the buttons and keys of the page do. */
import * as Dom from "./dom.js";
import * as Files from "./files.js";

const { byId } = Dom;
const PAGE = 10;

function listen(page) {
  const { tree, timeline } = page;
  const choose = (change) => () => page.choose(change);
  const buttons = {
    "go-first": () => page.go(0), "go-before": () => page.goBy(-1), "go-next": () => page.goBy(1),
    "go-last": () => page.go(page.length), play: () => page.player.toggle(),
    "zoom-in": () => tree.zoom(1.25), "zoom-out": () => tree.zoom(0.8), "zoom-fit": () => tree.fit(),
    "fold-all": () => tree.foldAll(), "unfold-all": () => tree.unfoldAll(),
    "direction-down": choose(() => page.setDirection("down")), "direction-right": choose(() => page.setDirection("right")),
    "direction-rows": choose(() => page.setDirection("rows")),
    details: choose(() => tree.setDetails(!tree.withDetails)), follow: choose(() => { page.follow = !page.follow; }),
    "rows-leaves": choose(() => timeline.setNodes("leaves")), "rows-all": choose(() => timeline.setNodes("all")),
    "axis-time": choose(() => timeline.setMode("time")), "axis-steps": choose(() => timeline.setMode("steps")),
    "time-in": () => timeline.zoom(1.5), "time-out": () => timeline.zoom(1 / 1.5), "time-fit": () => timeline.zoomFit(),
    "node-before": () => page.goToChange(-1), "node-next": () => page.goToChange(1),
    "node-stop": () => page.toggleStop(), live: () => page.go(page.length),
    "next-failure": () => page.goToMark("FAILURE", 1), "next-halt": () => page.goToMark("halted", 1),
    "rows-visited": choose(() => timeline.chooseRows({ visited: !timeline.visited })),
    "calls-only": choose(() => page.events.setCallsOnly(!page.events.callsOnly)),
    "phase-plan": () => page.openPhase("plan", 0), "phase-run": () => page.openPhase("run", 0),
    "help-button": () => byId("help").showModal(), print: () => window.print(), "open-files": () => Files.showStart(page),
  };
  for (const [id, act] of Object.entries(buttons)) byId(id).addEventListener("click", act);
  byId("slider").addEventListener("input", () => page.go(Number(byId("slider").value)));
  byId("position").addEventListener("change", () => page.go(Number(byId("position").value) || 0));
  let undo = [];
  window.addEventListener("beforeprint", () => {
    Dom.setPrinting(true);
    if (byId("work").hidden) return;
    undo = [tree.drawWhole(), timeline.drawWhole(), page.events.list.drawMore(), page.values.list.drawMore()];
  });
  window.addEventListener("afterprint", () => {
    Dom.setPrinting(false);
    for (const act of undo) act();
    undo = [];
  });
  document.addEventListener("keydown", (event) => pressed(page, event));
  window.addEventListener("hashchange", () => page.run && page.goToAddress());
}

const isTyping = ({ tagName, type }) => (tagName === "INPUT" && type !== "range") || tagName === "SELECT";

function keysOf(page) {
  const { tree } = page;
  return {
    ArrowRight: () => page.goBy(1), ArrowLeft: () => page.goBy(-1),
    PageDown: () => page.go(page.count + PAGE), PageUp: () => page.go(page.count - PAGE),
    Home: () => page.go(0), End: () => page.go(page.length), " ": () => page.player.toggle(),
    n: () => page.goToChange(1), p: () => page.goToChange(-1),
    r: () => page.phase === "run" && page.setRunner((page.runner % page.run.runners) + 1),
    o: () => page.choose(() => page.setDirection({ down: "right", right: "rows", rows: "down" }[tree.direction])),
    d: () => page.choose(() => tree.setDetails(!tree.withDetails)),
    f: () => page.choose(() => { page.follow = !page.follow; }),
    "+": () => tree.zoom(1.25), "-": () => tree.zoom(0.8), 0: () => tree.fit(),
    x: () => page.goToMark("FAILURE", 1), X: () => page.goToMark("FAILURE", -1),
    h: () => page.goToMark("halted", 1), H: () => page.goToMark("halted", -1),
    b: () => page.toggleStop(), c: () => page.comparison?.goToPart(), l: () => page.live && page.go(page.length),
    "/": () => byId("search").focus(), "?": () => byId("help").showModal(),
    Enter: () => page.selected && tree.toggleFold(page.selected), Escape: () => page.select(0),
  };
}

function pressed(page, event) {
  if (byId("work").hidden || byId("help").open || isTyping(event.target)) return;
  if (event.ctrlKey || event.metaKey || event.altKey) return;
  const isButton = event.target.tagName === "BUTTON";
  if (isButton && (event.key === " " || event.key === "Enter")) return;
  if (event.target.id === "slider" && /^(Arrow|Home|End|Page)/.test(event.key)) return;
  if (event.shiftKey && event.key.startsWith("Arrow")) page.selectTowards(event.key);
  else if (keysOf(page)[event.key]) keysOf(page)[event.key]();
  else return;
  event.preventDefault();
}

export { listen };
