/** The files that a reader chooses or drops on the page. */
import * as Dom from "./dom.js";

const { byId } = Dom;

function showStart(page) {
  page.chosen = {};
  byId("chosen").textContent = "";
  byId("show-chosen").disabled = true;
  byId("work").hidden = byId("message").hidden = byId("cut").hidden = true;
  byId("start").hidden = false;
  byId("result").hidden = true;
  document.body.classList.add("starting");
  byId("back").hidden = page.run === null;
}

/** Which file of a run this text is. */
function sortOf(text) {
  if (/^bt-world /.test(text)) return "world";
  if (/^(tick|halt|set|tell|finish) /.test(text)) return "trace";
  if (/^<!-- (expand|reached|no plan) /.test(text)) return "plan";
  return /^refused /.test(text) ? "refusal" : "tree";
}

async function take(page, files) {
  page.chosen ??= {};
  for (const file of files) page.chosen[sortOf(await file.text())] = { name: file.name, text: await file.text() };
  const { tree, trace, world, refusal, plan } = page.chosen;
  byId("chosen").textContent = Object.entries(page.chosen).map(([sort, { name }]) => `${sort}: ${name}`).join(" · ");
  byId("show-chosen").disabled = !tree && !refusal && !plan;
  if (tree && trace && (world || files.length === 1)) showChosen(page);
}

function showChosen(page) {
  const { tree, trace, world, refusal, plan } = page.chosen;
  const names = [(trace ?? tree ?? plan ?? refusal).name, world?.name];
  const data = { names, tree: tree?.text, trace: trace?.text, world: world?.text };
  if (plan) data.plan = plan.text;
  if (refusal && !tree) data.refusal = refusal.text;
  page.chosen = {};
  page.openData(data);
}

function listen(page) {
  for (const id of ["choose-tree", "choose-trace", "choose-world"]) {
    byId(id).addEventListener("change", (event) => take(page, event.target.files));
  }
  byId("show-chosen").addEventListener("click", () => showChosen(page));
  byId("back").addEventListener("click", () => page.openData(page.data));
  document.addEventListener("dragover", (event) => {
    event.preventDefault();
    document.body.classList.add("dropping");
  });
  document.addEventListener("dragleave", () => document.body.classList.remove("dropping"));
  document.addEventListener("drop", (event) => {
    event.preventDefault();
    document.body.classList.remove("dropping");
    if (byId("start").hidden) showStart(page);
    take(page, event.dataTransfer.files);
  });
}

export { listen, showStart };
