/** Where the window stands on a drawing: `scale`, and how far the drawing is moved. */

const LARGEST = 2.5;
const SMALLEST = 0.2;
const MARGIN = 24;
/** What is revealed stands at least so far from the sides of the window. */
const REVEAL_ROOM = 24;
/** The legend takes so much at the bottom. */
const LEGEND = 28;
const MOST_FITTED = 1.25;

/** The room in a window of this size for a drawing that is shown whole. */
function roomIn({ width, height }) {
  return { width: Math.max(50, width - MARGIN), height: Math.max(50, height - MARGIN - LEGEND) };
}

/** The scale at which a drawing of this extent is whole in the window. */
function fittingScale(extent, room) {
  const inner = roomIn(room);
  return Math.min(inner.width / extent.width, inner.height / extent.height, MOST_FITTED);
}

/** How far a stretch has to move to lie between these bounds: not at all, to the middle, or as little as will do. */
function moveInto(from, to, least, most, toMiddle) {
  if (from >= least && to <= most) return 0;
  if (toMiddle || to - from > most - least) return (least + most) / 2 - (from + to) / 2;
  return from < least ? least - from : most - to;
}

/** The place at which a drawing that is larger than the window leaves no more than the margin empty; else this place. */
function within(place, size, room) {
  if (size + 2 * MARGIN <= room) return place;
  return Math.min(MARGIN, Math.max(room - MARGIN - size, place));
}

class Camera {
  constructor() {
    Object.assign(this, { scale: 1, x: 0, y: 0 });
    /** Whether the whole drawing is to be shown, also where the window's size changes. */
    this.isFitted = false;
  }

  /** Shows the whole drawing. */
  fit(extent, room) {
    this.scale = fittingScale(extent, room);
    this.x = (room.width - extent.width * this.scale) / 2;
    this.y = (room.height - LEGEND - extent.height * this.scale) / 2;
    this.isFitted = true;
  }

  /** Zooms at a place of the window. The whole drawing can always be shown. */
  zoom(factor, at, extent, room) {
    this.isFitted = false;
    const least = Math.min(SMALLEST, fittingScale(extent, room));
    const scale = Math.min(LARGEST, Math.max(least, this.scale * factor));
    const ratio = scale / this.scale;
    Object.assign(this, { scale, x: at.x - (at.x - this.x) * ratio, y: at.y - (at.y - this.y) * ratio });
  }

  pan(x, y) {
    this.isFitted = false;
    this.x += x;
    this.y += y;
  }

  /**
   * Moves so that this place of the drawing is in the window: not at all where it is; to the middle in the directions that
   * are asked for, and else as little as will do. Answers whether it moved.
   */
  reveal(place, extent, room, toMiddle) {
    if (this.isFitted) return false;
    const left = place.x * this.scale + this.x;
    const top = place.y * this.scale + this.y;
    const x = moveInto(left, left + place.width * this.scale, REVEAL_ROOM, room.width - REVEAL_ROOM, toMiddle.x);
    const y = moveInto(top, top + place.height * this.scale, REVEAL_ROOM, room.height - REVEAL_ROOM - LEGEND, toMiddle.y);
    if (x === 0 && y === 0) return false;
    this.pan(x, y);
    this.x = within(this.x, extent.width * this.scale, room.width);
    this.y = within(this.y, extent.height * this.scale, room.height - LEGEND);
    return true;
  }

  /**
   * The part of the drawing that the window shows.
   * @param {{width: number, height: number}} room
   */
  part(room) {
    const { scale, x, y } = this;
    return { left: -x / scale, right: (room.width - x) / scale, top: -y / scale, bottom: (room.height - y) / scale };
  }
}

export { Camera, fittingScale, roomIn };
