/** Which nodes are folded: those that the reader folded, but for those that are open while something runs below them. */

/** A group of more children than this is not opened by itself. */
const MOST_OPENED = 300;

class Folds {
  /** @param {Iterable<number>} own the nodes that are folded in the beginning */
  constructor(own) {
    this.own = new Set(own);
    this.opened = new Set();
    /** Those that the reader folded one by one, which stay so. */
    this.kept = new Set();
    /** Whether these are the folds that the page made by itself. */
    this.isUntouched = true;
  }

  /** @param {number} uid @returns {boolean} */
  has(uid) {
    return this.own.has(uid) && !this.opened.has(uid);
  }

  get size() {
    return this.own.size - this.opened.size;
  }

  toggle(uid) {
    this.isUntouched = false;
    const isFolded = this.has(uid);
    this.opened.delete(uid);
    const change = isFolded ? "delete" : "add";
    this.own[change](uid);
    this.kept[change](uid);
  }

  replace(own) {
    this.isUntouched = false;
    this.own = new Set(own);
    this.kept.clear();
    this.opened.clear();
  }

  /** Unfolds for good what hides this node. Answers the topmost node that was unfolded, or 0. */
  unfoldTo(tree, uid) {
    const hiding = tree.above(uid).filter((above) => this.has(above));
    if (hiding.length > 0) this.isUntouched = false;
    for (const above of hiding) {
      this.own.delete(above);
      this.kept.delete(above);
      this.opened.delete(above);
    }
    return hiding[0] ?? 0;
  }

  /**
   * Opens what hides these nodes, and shuts what was opened for others. What the reader folded stays, and so does what has
   * very many children. Answers whether anything changed.
   */
  openFor(tree, uids) {
    const opened = new Set();
    for (const uid of uids) {
      for (let at = tree.node(uid).parent; at !== 0 && !opened.has(at); at = tree.node(at).parent) {
        if (this.own.has(at) && !this.kept.has(at) && tree.node(at).children.length <= MOST_OPENED) opened.add(at);
      }
    }
    const isSame = opened.size === this.opened.size && [...opened].every((uid) => this.opened.has(uid));
    this.opened = opened;
    return !isSame;
  }
}

export { Folds };
