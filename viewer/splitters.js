/** The two bars by which the panels get more or less room: by a drag, or by the arrows. */
import * as Dom from "./dom.js";

const { byId } = Dom;
const BY_KEY = 24;
const LEAST = 120;

/**
 * Makes a bar move the size that a variable of the style gives to a panel, which grows to the left and upwards.
 * `across` says whether it is the width.
 */
function listen(bar, panel, variable, across) {
  const work = byId("work");
  const size = () => (across ? panel.offsetWidth : panel.offsetHeight);
  const resize = (to) => {
    const most = (across ? work.clientWidth : work.clientHeight) - 2 * LEAST;
    work.style.setProperty(variable, `${Math.round(Math.min(most, Math.max(LEAST, to)))}px`);
    bar.setAttribute("aria-valuenow", size());
  };
  let begin = null;
  bar.addEventListener("pointerdown", (event) => {
    begin = { at: across ? event.clientX : event.clientY, size: size() };
    bar.setPointerCapture(event.pointerId);
  });
  bar.addEventListener("pointermove", (event) => {
    if (begin) resize(begin.size + begin.at - (across ? event.clientX : event.clientY));
  });
  bar.addEventListener("pointerup", () => { begin = null; });
  bar.addEventListener("keydown", (event) => {
    const grows = event.key === (across ? "ArrowLeft" : "ArrowUp");
    if (!grows && event.key !== (across ? "ArrowRight" : "ArrowDown")) return;
    resize(size() + (grows ? BY_KEY : -BY_KEY));
    event.stopPropagation();
    event.preventDefault();
  });
}

export { listen };
