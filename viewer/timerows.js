/** The rows of the time line: expectations, nodes, grouped by subtree, and the values of blackboards and facts. */
import * as Series from "./series.js";

/**
 * The rows of a run. A row has the `uid` of a node and its `runner`, or a `series`, or an `expectation`, or only a `title`. One of a SubTree
 * node is the head of a group, which may be shut; `level` says in how many groups a row is.
 *
 * `choice` has what is shown: `nodes`, "leaves" or "all"; the `selected` node, which has a row in any case; whether the
 * `visited` ones are all; and the groups that are `shut`.
 */
function rowsOf(run, choice) {
  const rows = [];
  const facts = Series.seriesOf(run, 0);
  const { expected = [] } = run;
  if (expected.length > 0) rows.push({ title: "Expectations" }, ...expected.map((expectation) => ({ expectation })));
  for (let runner = 1; runner <= run.runners; runner++) {
    if (run.runners > 1) rows.push({ title: `Runner ${runner}` });
    rows.push(...nodeRows(run, runner, choice));
    const cells = Series.seriesOf(run, runner).filter(({ title }) => typeof title !== "string");
    if (cells.length > 0) rows.push({ title: run.runners > 1 ? `Blackboard of runner ${runner}` : "Blackboard" });
    rows.push(...cells.map((series) => ({ series })));
  }
  if (facts.length > 0) rows.push({ title: "Facts" }, ...facts.map((series) => ({ series })));
  return rows;
}

function nodeRows(run, runner, { nodes, selected, visited, shut }) {
  const { tree } = run;
  const rows = [];
  const names = new Map();
  const levels = [0];
  for (let uid = 1; uid <= tree.size;) {
    const node = tree.node(uid);
    const isGroup = node.family === "subtree";
    const level = node.scope === 0 ? 0 : levels[node.scope] + 1;
    levels[uid] = level;
    const isShut = isGroup && shut.has(uid);
    const isShown = nodes === "all" || node.children.length === 0 || isGroup || uid === selected;
    if (isShown && (!visited || uid === selected || isVisited(run, runner, uid))) {
      rows.push({ uid, runner, level, isGroup, isShut });
      names.set(node.name, (names.get(node.name) ?? 0) + 1);
    }
    uid += isShut ? node.size : 1;
  }
  for (const row of rows) row.within = names.get(tree.node(row.uid).name) > 1 ? withinOf(tree, tree.node(row.uid)) : "";
  return rows;
}

/** Whether the trace has a line of this node. */
function isVisited(run, runner, uid) {
  const place = run.place(runner, uid);
  return run.changes.of(place).length > 0 || run.calls.of(place).length > 0;
}

/** The name of the group that tells a node from others of its name: its subtree, or else its parent. */
function withinOf(tree, node) {
  const above = node.scope !== 0 ? node.scope : node.parent;
  return above === 0 ? "" : tree.node(above).name;
}

export { rowsOf };
