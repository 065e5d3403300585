/**
 * Reads a tree as `bt check` prints it, and opens it: the nodes are numbered from 1 in pre-order, and each
 * SubTree node has the root of its tree as its one child.
 */
import * as Kinds from "./kinds.js";

/**
 * @typedef {{name: string, value: string}} Attribute
 * @typedef {object} Node
 * @property {number} uid its number, from 1
 * @property {number} parent the uid of its parent, or 0
 * @property {number[]} children
 * @property {number} depth of the root 1
 * @property {number} size how many nodes there are from it down
 * @property {number} scope the SubTree node in whose tree it stands, or 0
 * @property {string} id
 * @property {string} name
 * @property {string} family which kind of node it is: the name of a sign, or "leaf"
 * @property {Attribute[]} ports
 * @property {Attribute[]} guards
 * @property {string | null} code
 * @property {boolean} autoremap
 * @property {number} [begin] where its element begins in the text, and where it ends
 * @property {number} [end]
 */
const GUARDS = ["_failureIf", "_successIf", "_skipIf", "_while", "_onSuccess", "_onFailure", "_post", "_onHalted"];
const EXPLICIT = ["Action", "Condition", "Control", "Decorator"];
const REFERENCES = { lt: "<", gt: ">", amp: "&", quot: '"', apos: "'" };
const MOST_NODES = 4096;

/** What is wrong with a file that was to be a printed tree. */
class TreeFault extends Error {}

/** The text of an attribute's value, with its references resolved. */
function resolved(value) {
  return value.replace(/&(?:#x([0-9a-fA-F]+)|#([0-9]+)|(lt|gt|amp|quot|apos));/g, (whole, hex, decimal, name) => {
    if (name) return REFERENCES[name];
    const code = hex ? parseInt(hex, 16) : parseInt(decimal, 10);
    return code > 0 && code <= 0x10ffff ? String.fromCodePoint(code) : whole;
  });
}

function attributesOf(text) {
  const attributes = new Map();
  for (const [, name, double, single] of text.matchAll(/([^ \t\r\n=]+)[ \t\r\n]*=[ \t\r\n]*(?:"([^"]*)"|'([^']*)')/g)) {
    attributes.set(name, resolved(double ?? single));
  }
  return attributes;
}

/**
 * The elements of the file below one that stands for the file itself, each with where it begins and ends in the text.
 * Comments and instructions are left out.
 */
function elementsOf(text) {
  const marks = /<!--[^]*?-->|<\?[^]*?\?>|<\/([^ \t\r\n>]+)[ \t\r\n]*>|<([^ \t\r\n/>]+)((?:[ \t\r\n]+[^ \t\r\n=/>]+[ \t\r\n]*=[ \t\r\n]*(?:"[^"]*"|'[^']*'))*)[ \t\r\n]*(\/?)>/g;
  const file = { name: "", attributes: new Map(), children: [] };
  const open = [file];
  for (const { 0: mark, 1: ended, 2: name, 3: attributes, 4: empty, index } of text.matchAll(marks)) {
    const end = index + mark.length;
    if (ended !== undefined) {
      const element = open.pop();
      if (element.name !== ended || open.length === 0) throw new TreeFault(`</${ended}> ends no open element.`);
      element.end = end;
    } else if (name !== undefined) {
      const element = { name, attributes: attributesOf(attributes), children: [], begin: index, end };
      open[open.length - 1].children.push(element);
      if (!empty) open.push(element);
    }
  }
  if (open.length > 1) throw new TreeFault(`The element ${open[open.length - 1].name} is not ended.`);
  return file;
}

function idOf(element) {
  if (element.name === "SubTree" || EXPLICIT.includes(element.name)) return element.attributes.get("ID") ?? "";
  return element.name;
}

/** The node of an element, without its place in the tree. */
function nodeOf(element) {
  const id = idOf(element);
  const node = { id, name: element.attributes.get("name") ?? id, ports: [], guards: [], code: null, autoremap: false };
  Object.assign(node, { begin: element.begin, end: element.end });
  node.family = element.name === "SubTree" ? "subtree" : Kinds.SIGNS.get(id) ?? "leaf";
  for (const [name, value] of element.attributes) {
    if (GUARDS.includes(name)) node.guards.push({ name, value });
    else if (name === "code" && node.family === "script") node.code = value;
    else if (name === "_autoremap") node.autoremap = value === "true" || value === "1";
    else if (name !== "name" && name !== "ID" && !name.startsWith("_")) node.ports.push({ name, value });
  }
  return node;
}

/** An opened tree. `nodes[uid]` is the node of this uid; there is none at 0. */
class Tree {
  constructor(main) {
    this.main = main;
    this.nodes = [null];
  }

  get size() {
    return this.nodes.length - 1;
  }

  /**
   * The node with this uid, or undefined.
   * @param {number} uid
   * @returns {Node}
   */
  node(uid) {
    return this.nodes[uid] ?? undefined;
  }

  /**
   * The uids from the root down to this node's parent.
   * @param {number} uid
   * @returns {number[]}
   */
  above(uid) {
    const uids = [];
    for (let at = this.nodes[uid].parent; at !== 0; at = this.nodes[at].parent) uids.unshift(at);
    return uids;
  }

  /** What the board of a runner holds in the beginning: the literals that SubTree nodes give. */
  openingCells() {
    return this.nodes.slice(1).filter((node) => node.family === "subtree").flatMap((node) =>
      node.ports.filter(({ value }) => !/^\{.*\}$/s.test(value)).map(({ name, value }) => ({
        scope: node.uid,
        key: name,
        value: isNumber(value) ? value : quoted(value),
      })));
  }
}

/** Whether a literal is a number of 64 bits. */
function isNumber(text) {
  return /^(0|-?[1-9][0-9]*)$/.test(text) && BigInt.asIntN(64, BigInt(text)) === BigInt(text);
}

/** A text as the trace prints it. */
function quoted(text) {
  const escaped = text.replace(/[\\']/g, "\\$&").replace(/[\x00-\x1f]/g, (sign) =>
    sign === "\n" ? "\\n" : `\\x${sign.charCodeAt(0).toString(16).padStart(2, "0")}`);
  return `'${escaped}'`;
}

/** Adds the node of this element and all below it. `within` has the trees that are open here. */
function open(tree, trees, element, parent, within) {
  const uid = tree.nodes.length;
  if (uid > MOST_NODES) throw new TreeFault(`The tree has more than ${MOST_NODES} nodes.`);
  const above = tree.nodes[parent];
  const node = Object.assign(nodeOf(element), { uid, parent, children: [], depth: above ? above.depth + 1 : 1 });
  node.scope = !above ? 0 : above.family === "subtree" ? parent : above.scope;
  tree.nodes.push(node);
  if (above) above.children.push(uid);
  if (node.family === "subtree") {
    if (within.includes(node.id)) throw new TreeFault(`The tree ${node.id} opens itself.`);
    open(tree, trees, rootOf(trees, node.id), uid, [...within, node.id]);
  } else {
    for (const child of element.children) open(tree, trees, child, uid, within);
  }
  node.size = tree.nodes.length - uid;
}

function rootOf(trees, id) {
  const element = trees.get(id);
  if (!element) throw new TreeFault(`The file has no tree ${id}.`);
  if (element.children.length !== 1) throw new TreeFault(`The tree ${id} has not exactly one root.`);
  return element.children[0];
}

/**
 * The tree that this text prints, opened.
 * @param {string} text
 * @returns {Tree}
 */
function read(text) {
  const root = elementsOf(text).children[0];
  if (!root || root.name !== "root") throw new TreeFault("The file is no tree: it has no element root.");
  const trees = new Map();
  for (const element of root.children) {
    if (element.name === "BehaviorTree") trees.set(element.attributes.get("ID") ?? "", element);
  }
  const main = root.attributes.get("main_tree_to_execute") ?? (trees.size === 1 ? [...trees.keys()][0] : null);
  if (main === null) throw new TreeFault("The file names no main tree, and has not exactly one tree.");
  return opened(main, trees);
}

/** The tree of these elements, by ID, opened from the main one. */
function opened(main, trees) {
  const tree = new Tree(main);
  open(tree, trees, rootOf(trees, main), 0, [main]);
  return tree;
}

export { read, opened, Tree, TreeFault };
