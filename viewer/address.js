/** The address tells the event, the node and the runner that are shown: `#event=17&node=4`. It can be kept and sent. */

/** Browsers let an address change only so often. */
const EVERY_MS = 250;
let timer = null;

/** What the address names, each a number or absent. */
function read() {
  const named = new URLSearchParams(window.location.hash.slice(1));
  const found = {};
  for (const name of ["step", "event", "runner", "node"]) {
    if (/^\d{1,9}$/.test(named.get(name) ?? "")) found[name] = Number(named.get(name));
  }
  return found;
}

function textOf({ phase, count, runner, selected }) {
  const named = new URLSearchParams([[phase === "plan" ? "step" : "event", count]]);
  if (runner > 1) named.set("runner", runner);
  if (selected !== 0) named.set("node", selected);
  return `#${named}`;
}

/** Writes what the page shows into the address, soon. */
function write(page) {
  timer ??= setTimeout(() => {
    timer = null;
    if (page.run && textOf(page) !== window.location.hash) window.history.replaceState(null, "", textOf(page));
  }, EVERY_MS);
}

export { read, write };
