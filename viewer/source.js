/** Where the nodes of a tree stand in its file. */
import * as TreeFile from "./treefile.js";

/** The tree of this text, where it has the same nodes as the printed one: a file of another version may be read otherwise. */
function sameTree(text, tree) {
  try {
    const read = TreeFile.read(text);
    return read.size === tree.size && read.nodes.every((node, uid) => uid === 0 || node.id === tree.node(uid).id) ? read : null;
  } catch (fault) {
    if (fault instanceof TreeFile.TreeFault) return null;
    throw fault;
  }
}

/**
 * A function that gives the lines of a node's element: those of the tree file, or where the file is not there or is read
 * otherwise, those of the printed tree.
 */
function reader(tree, { source, printed, name }) {
  const own = source ? sameTree(source, tree) : null;
  const [from, text, file] = own ? [own, source, name ?? "the tree file"] : [tree, printed, "the printed tree"];
  return ({ uid }) => {
    const { begin, end } = from.node(uid);
    if (begin === undefined || !text) return null;
    const first = text.slice(0, begin).split("\n").length;
    const lineStart = text.lastIndexOf("\n", begin) + 1;
    const lines = text.slice(lineStart, end).split("\n");
    const indent = Math.min(...lines.filter((line) => line.trim() !== "").map((line) => line.search(/\S/)));
    return { file, first, last: first + lines.length - 1, lines: lines.map((line) => line.slice(indent)) };
  };
}

export { reader };
