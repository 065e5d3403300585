/** The values of facts and blackboards: their names, their order, and which cell a key of a node means. */

/** The name of a fact or a cell, and of a cell whose board and tree it is on. */
function titleOf(run, series) {
  if (typeof series.title === "string") return { name: series.title, where: "" };
  const { scope, key } = series.title;
  return { name: key, where: scope === 0 ? "board" : `board of ${run.tree.node(scope).name} (${scope})` };
}

/** The facts, and then the cells of this runner by scope and key. */
function seriesOf(run, runner) {
  const all = [...run.series.values()];
  const cells = all.filter(({ title }) => typeof title !== "string" && title.runner === runner);
  cells.sort((one, other) => one.title.scope - other.title.scope || (one.title.key < other.title.key ? -1 : 1));
  return [...all.filter(({ title }) => typeof title === "string"), ...cells];
}

/**
 * The cell that a key of this scope means: its own, or one of a scope above that a SubTree node maps it to.
 * @param {import("./treefile.js").Tree} tree
 * @param {number} scope
 * @param {string} key
 */
function cellOf(tree, scope, key) {
  let [at, name] = [scope, key];
  while (at !== 0) {
    const owner = tree.node(at);
    const port = owner.ports.find((given) => given.name === name);
    const mapped = port ? keyOf(port) : owner.autoremap && !name.startsWith("_") ? name : null;
    if (mapped === null) break;
    [at, name] = [owner.scope, mapped];
  }
  return { scope: at, key: name };
}

/** The key that the value of a port names, or null where it is a literal. */
function keyOf({ name, value }) {
  const named = /^\{(.*)\}$/s.exec(value);
  if (!named) return null;
  return named[1] === "=" ? name : named[1];
}

/** The series of the cell that a port of a node names, or undefined where it is a literal or has no value in the whole run. */
function seriesOfPort(run, runner, node, port) {
  const key = keyOf(port);
  if (key === null) return undefined;
  const cell = cellOf(run.tree, node.scope, key);
  return run.series.get(`board ${runner} ${cell.scope} ${cell.key}`);
}

export { titleOf, seriesOf, keyOf, seriesOfPort };
