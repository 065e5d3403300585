/** Nodes as dots of their statuses on a canvas, where so many are in view that elements would be slow. */
import * as Dom from "./dom.js";
import * as Words from "./words.js";

/** From so many nodes in view on, they are dots. */
const MOST_ELEMENTS = 1000;
const LEAST = 1.5;

/** Paints these nodes by their statuses, scaled and moved by `x` and `y`. What runs comes last, so that nothing hides it. */
function paint(context, view, uids, { scale, x, y }) {
  const colours = Dom.colours();
  const statuses = view.run.statusesAfter(view.count, view.runner);
  for (const status of [Words.IDLE, Words.SUCCESS, Words.FAILURE, Words.RUNNING]) {
    context.fillStyle = status === Words.IDLE ? colours.idle : colours[Words.STATUSES[status]];
    for (const uid of uids) {
      if (statuses[uid] !== status) continue;
      const place = view.arranged.places.get(uid);
      context.fillRect(x + place.x * scale, y + place.y * scale,
        Math.max(LEAST, place.width * scale), Math.max(LEAST, (place.height - view.strip) * scale));
    }
  }
}

/** Makes a canvas as large as this room, and answers what draws on it. */
function prepared(canvas, { width, height }) {
  const ratio = window.devicePixelRatio || 1;
  canvas.width = width * ratio;
  canvas.height = height * ratio;
  const context = canvas.getContext("2d");
  context.scale(ratio, ratio);
  return context;
}

/** The node whose dot is at this place of the drawing, or near it; or 0. */
function nodeAt(view, place, near) {
  let best = 0;
  let least = near;
  for (const uid of view.visible) {
    const { x, y, width, height } = view.arranged.places.get(uid);
    const far = Math.hypot(Math.max(x - place.x, 0, place.x - x - width), Math.max(y - place.y, 0, place.y - y - height));
    if (far < least) [best, least] = [uid, far];
  }
  return best;
}

export { MOST_ELEMENTS, paint, prepared, nodeAt };
