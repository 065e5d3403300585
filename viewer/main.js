/** Starts the page with what is embedded in it, or asks for files. */
import * as Dom from "./dom.js";
import * as Files from "./files.js";
import * as Keys from "./keys.js";
import * as Pages from "./page.js";
import * as Splitters from "./splitters.js";

const { byId } = Dom;
const page = new Pages.Page();
Keys.listen(page);
Files.listen(page);
Splitters.listen(byId("side-splitter"), document.querySelector(".side"), "--side-width", true);
Splitters.listen(byId("time-splitter"), document.querySelector(".time"), "--time-height", false);
const embedded = byId("run-data").textContent.trim();
if (embedded) page.openData(JSON.parse(embedded));
else Files.showStart(page);
window.page = page;
