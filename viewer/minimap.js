/** A small picture of the whole drawing, where the window shows only a part of it; a click or a drag moves the window. */
import * as Dom from "./dom.js";
import * as Dots from "./dots.js";

const { html } = Dom;
const WIDTH = 168;
const HEIGHT = 104;
const EDGE = 4;

class Minimap {
  /** `moveTo` moves the middle of the window to a place of the drawing. */
  constructor(host, moveTo) {
    this.canvas = html("canvas", { class: "minimap", "aria-hidden": "true", hidden: true });
    host.append(this.canvas);
    const move = (event) => {
      const box = this.canvas.getBoundingClientRect();
      moveTo((event.clientX - box.left - this.left) / this.scale, (event.clientY - box.top - this.top) / this.scale);
    };
    this.canvas.addEventListener("pointerdown", (event) => {
      event.stopPropagation();
      this.canvas.setPointerCapture(event.pointerId);
      move(event);
    });
    this.canvas.addEventListener("pointermove", (event) => event.buttons === 1 && move(event));
  }

  /** Draws the shown nodes by their statuses, and the window; or hides where all is in the window. */
  draw(view, part) {
    const { arranged } = view;
    const { extent } = arranged;
    const isWhole = part.left <= 0 && part.top <= 0 && part.right >= extent.width && part.bottom >= extent.height;
    this.canvas.hidden = isWhole;
    if (isWhole) return;
    const context = Dots.prepared(this.canvas, { width: WIDTH, height: HEIGHT });
    this.scale = Math.min((WIDTH - 2 * EDGE) / extent.width, (HEIGHT - 2 * EDGE) / extent.height);
    this.left = (WIDTH - extent.width * this.scale) / 2;
    this.top = (HEIGHT - extent.height * this.scale) / 2;
    Dots.paint(context, view, arranged.shown, { scale: this.scale, x: this.left, y: this.top });
    this.drawWindow(context, part);
  }

  drawWindow(context, { left, right, top, bottom }) {
    const from = { x: Math.max(0.5, this.left + left * this.scale), y: Math.max(0.5, this.top + top * this.scale) };
    const to = { x: Math.min(WIDTH - 0.5, this.left + right * this.scale), y: Math.min(HEIGHT - 0.5, this.top + bottom * this.scale) };
    context.strokeStyle = Dom.colours().accent;
    context.lineWidth = 1.5;
    context.strokeRect(from.x, from.y, to.x - from.x, to.y - from.y);
  }
}

export { Minimap };
