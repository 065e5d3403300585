"use strict";

/**
 * Reads printed trees and world scripts by the readers of the page. Standard input has the `scripts` of the two readers, and
 * the `cases`, a list of `{tree, world}`, of which either may be null; standard output is a list of what was read of each: the
 * nodes of the tree as `[uid, id, name]`, and the world's facts, rows, goals and number of runners, or what a reader threw.
 */
const fs = require("fs");

const { scripts, cases } = JSON.parse(fs.readFileSync(0, "utf8"));
const TreeFile = new Function(scripts.treefile)();
const WorldFile = new Function(scripts.worldfile)();

function treeOf(text) {
  return TreeFile.read(text).nodes.slice(1).map(({ uid, id, name }) => [uid, id, name]);
}

function worldOf(text) {
  const { facts, rows, goals, runners } = WorldFile.read(text);
  return { facts: facts.map(({ name }) => name), rows: [...rows.keys()], goals, runners };
}

function told(read, text) {
  if (text === null) return null;
  try {
    return read(text);
  } catch (fault) {
    return String(fault);
  }
}

process.stdout.write(JSON.stringify(cases.map(({ tree, world }) => ({ tree: told(treeOf, tree), world: told(worldOf, world) }))));
