/**
 * Reads the output of `bt plan`: its steps, how it ends, and the planned tree. The trees between the steps are
 * made anew by the steps, and the last one is held against the tree that is printed.
 */
import * as TreeFile from "./treefile.js";
import * as Words from "./words.js";

/** A plan that cannot be shown: the number of the line, what it says, and what is wrong with it. */
class PlanFault extends Error {
  constructor(line, text, reason) {
    super(reason);
    this.line = line;
    this.text = text;
  }
}

const STEP = /^<!-- expand (\d+) (\S+) (\S+) raises (\d+) -->$/;
const REACHED = /^<!-- reached tick (\d+) -->$/;
const NO_PLAN = /^<!-- no plan (\S+)(?: (.*))? -->$/;

function element(name, ...children) {
  return { name, attributes: new Map(), children };
}

/** The elements of a plan tree in pre-order, each with those above it. */
function inOrder(root, above = [], found = []) {
  found.push({ element: root, above });
  for (const child of root.children) inOrder(child, [...above, root], found);
  return found;
}

function copied(root) {
  return element(root.name, ...root.children.map(copied));
}

/** Moves the element to the left in the innermost ReactiveSequence above it where that can be done. */
function raise(root, raised) {
  const { above } = inOrder(root).find((found) => found.element === raised);
  const path = [...above, raised];
  for (let at = above.length - 1; at >= 0; at--) {
    const { name, children } = path[at];
    const place = children.indexOf(path[at + 1]);
    if (name !== "ReactiveSequence" || place === 0) continue;
    [children[place - 1], children[place]] = [children[place], children[place - 1]];
    return true;
  }
  return false;
}

/** The tree after a step, and the sequence that it adds; or the words that say why there is none. */
function expanded(before, step, world) {
  const root = copied(before);
  const found = inOrder(root)[step.uid - 1];
  if (!found || found.element.name !== step.condition) return `Node ${step.uid} of the tree before this step is not ${step.condition}.`;
  const row = world.rows.get(step.action);
  if (!row || row.sort === "condition") return `The world has no action ${step.action}.`;
  const added = element("ReactiveSequence", ...row.needs.map((need) => element(need)), element(step.action));
  const parent = found.above[found.above.length - 1];
  if (parent.name === "ReactiveFallback") parent.children.push(added);
  else parent.children[parent.children.indexOf(found.element)] = element("ReactiveFallback", found.element, added);
  for (let count = 0; count < step.raises; count++) if (!raise(root, added)) return "The new sequence can't be raised so often.";
  return { root, added };
}

/** The opened tree of a plan tree, and the uids of the elements that a step added. */
function openedStep(root, added) {
  const tree = TreeFile.opened("Plan", new Map([["Plan", element("BehaviorTree", root)]]));
  const elements = inOrder(root).map((found) => found.element);
  const first = added ? elements.indexOf(added) + 1 : 0;
  const uids = new Set(added ? Array.from({ length: tree.node(first).size }, (_, at) => first + at) : []);
  if (added && elements[first - 2]?.name !== undefined && tree.node(tree.node(first).parent).children.length === 2) {
    uids.add(tree.node(first).parent);
  }
  return { tree, added: uids };
}

function endOf(text) {
  const reached = REACHED.exec(text);
  if (reached) return { name: "Reached", tick: Number(reached[1]), rest: [] };
  const none = NO_PLAN.exec(text);
  return none ? { name: none[1], rest: (none[2] ?? "").split(" ") } : null;
}

/** The steps and the end of this output, the tree at the beginning and after each step, and the text of the planned tree. */
function read(text, world) {
  const lines = text.split("\n");
  let root = element("ReactiveSequence", ...world.goals.map((goal) => element(goal)));
  const plan = { steps: [], trees: [openedStep(root, null)], end: null, treeText: null };
  let at = 0;
  for (; STEP.test(lines[at] ?? ""); at++) {
    const [, uid, condition, action, raises] = STEP.exec(lines[at]);
    const step = { uid: Number(uid), condition, action, raises: Number(raises), text: lines[at] };
    const next = expanded(root, step, world);
    if (typeof next === "string") throw new PlanFault(at + 1, lines[at], next);
    root = next.root;
    plan.steps.push(step);
    plan.trees.push(openedStep(root, next.added));
  }
  plan.end = endOf(lines[at] ?? "");
  if (!plan.end) throw new PlanFault(at + 1, lines[at] ?? "", "The line is neither a step nor the end of a plan.");
  plan.end.text = lines[at];
  if (plan.end.name === "Reached") plan.treeText = plannedTree(plan, lines, at + 1);
  return plan;
}

/** The text of the tree that is printed, which must be the one that the steps make. */
function plannedTree(plan, lines, from) {
  const text = lines.slice(from).join("\n");
  const tree = TreeFile.read(text);
  const made = plan.trees[plan.trees.length - 1].tree;
  const other = tree.nodes.findIndex((node, uid) =>
    uid > 0 && (node.id !== made.node(uid)?.id || node.depth !== made.node(uid).depth));
  if (other > 0 || tree.size !== made.size) {
    throw new PlanFault(from + 1, lines[from] ?? "", "The tree that is printed is not the one that the steps make.");
  }
  return text;
}

/** How the plan ended, in words. */
function endWords({ name, tick, rest }) {
  const words = {
    Reached: () => `Each goal holds after tick ${tick} of the modelled run.`,
    NoTemplate: () => `No plan: no action is left that makes ${rest.join(" or ")} true.`,
    NoOrder: () => `No plan: ${rest[0]} makes ${rest[1]} false, and no order of the steps avoids it.`,
    Expansions: () => `No plan within ${rest[0]} expansions.`,
    StillRunning: () => `No plan: the run had not ended after ${Words.count(Number(rest[0]), "tick")}.`,
    Faulted: () => `No plan: the modelled run ends in a fault at node ${rest[0]}: ${Words.cause(rest.slice(1).join(" "))}.`,
  };
  return name in words ? words[name]() : `No plan: ${name} ${rest.join(" ")}`;
}

/** What a step did, in words. */
function stepWords({ uid, condition, action, raises }) {
  const times = raises === 1 ? "once" : `${raises} times`;
  return `The condition ${condition} (node ${uid} before this step) failed. ${action} makes it true, and was added with what ` +
    `it needs.${raises === 0 ? "" : ` It was raised ${times}, so that it does not undo what comes before it.`}`;
}

export { read, endWords, stepWords, PlanFault };
