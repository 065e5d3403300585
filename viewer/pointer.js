/** What the pointer does with a drawing: a drag moves it, the wheel zooms it, a click chooses. */

const CLICK = 4;

/** Listens for a drag, which calls `pan`, and for a click. */
function listenToDrags(host, { isOn, pan, click }) {
  let last = null;
  let travelled = 0;
  host.addEventListener("pointerdown", (event) => {
    if (!isOn() || event.button !== 0 || event.target.closest("button")) return;
    last = event;
    travelled = 0;
  });
  host.addEventListener("pointermove", (event) => {
    if (!last) return;
    travelled += Math.abs(event.clientX - last.clientX) + Math.abs(event.clientY - last.clientY);
    if (travelled > CLICK) {
      host.setPointerCapture(event.pointerId);
      host.classList.add("dragged");
      pan(event.clientX - last.clientX, event.clientY - last.clientY);
    }
    last = event;
  });
  const release = (event) => {
    if (last && travelled <= CLICK && event.type === "pointerup") click(event);
    last = null;
    host.classList.remove("dragged");
  };
  host.addEventListener("pointerup", release);
  host.addEventListener("pointercancel", release);
}

/** Listens to a view of a tree. */
function listen(view) {
  const { host } = view;
  host.addEventListener("wheel", (event) => {
    if (!view.run) return;
    event.preventDefault();
    if (event.shiftKey) return view.pan(-event.deltaY - event.deltaX, 0);
    const box = host.getBoundingClientRect();
    view.zoom(Math.exp(-event.deltaY * 0.0015), { x: event.clientX - box.left, y: event.clientY - box.top });
  }, { passive: false });
  listenToDrags(host, { isOn: () => view.run !== null, pan: (x, y) => view.pan(x, y), click: (event) => clicked(view, event) });
  host.addEventListener("dblclick", (event) => {
    const group = event.target.closest("[data-uid]");
    if (group && !event.target.closest(".fold")) view.toggleFold(Number(group.dataset.uid));
  });
}

function clicked(view, event) {
  const group = event.target.closest("[data-uid]");
  const box = view.host.getBoundingClientRect();
  const uid = group ? Number(group.dataset.uid) : view.dotAt({ x: event.clientX - box.left, y: event.clientY - box.top });
  if (uid === 0) return view.actions.select(0);
  if (event.target.closest(".fold")) view.toggleFold(uid);
  else view.actions.select(uid);
}

export { listen };
