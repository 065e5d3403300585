"""The tellings of a world script: which of them find no leaf, or an output that its row has not."""

from typing import List, Optional

from .near import listed, meant
from .report import Note, Place, Report
from .trees import Node, TreeFile
from .worlds import Telling, World, Word


def leaf_of(file: TreeFile, world: World, uid: int) -> Optional[Node]:
    """The leaf of a uid, where its row is told; uids are counted from 1."""
    node = file.nodes[uid - 1] if 1 <= uid <= len(file.nodes) else None
    row = world.rows.get(node.id) if node is not None and node.kind == "Leaf" else None
    return node if row is not None and row.is_told() else None


def unknown_output(file: TreeFile, world: World, telling: Telling) -> Optional[Word]:
    """The first output of a telling that the row of its leaf has not."""
    node = file.nodes[telling.uid - 1]
    return next((out for out in telling.outs if out.text not in world.rows[node.id].outs), None)


def without_leaf(file: TreeFile, world: World, telling: Telling) -> Report:
    """That a telling names no leaf whose row is told."""
    node = file.nodes[telling.uid - 1] if 1 <= telling.uid <= len(file.nodes) else None
    told = [f"{other.uid} ({other.said()})" for other in file.nodes if leaf_of(file, world, other.uid) is not None]
    message = f"the tree has no node {telling.uid}: it has {len(file.nodes)}" if node is None else \
        f"{node.said()} can't be told what it answers: its row is not told" if node.kind == "Leaf" else f"{node.said()} is no leaf with a row"
    notes = [] if node is None else [Note(f"node {telling.uid}", Place(file.source, *node.element.span()))]
    helps = [f"leaves that are told: {listed(told)}" if told else
             "no leaf of the tree has a row `condition ROW told` or `action ROW told`"]
    return Report("error", message, Place(world.source, *telling.leaf.span()), "", helps, notes)


def without_output(file: TreeFile, world: World, telling: Telling, out: Word) -> Report:
    """That a row has no such output as one that is told."""
    row = world.rows[file.nodes[telling.uid - 1].id]
    if row.outs:
        helps = meant(out.text, row.outs) + [f"outputs of {row.id.text}: {listed(row.outs)}"]
    else:
        helps = [f"{row.id.text} has no line `out PORT`"]
    return Report("error", f"the row {row.id.text} has no output {out.text}", Place(world.source, *out.span()), "", helps,
                  [Note("the row", Place(world.source, *row.id.span()))])


def untold(file: TreeFile, world: World, words: str) -> List[str]:
    """The lines for the first telling that finds no leaf, or no output."""
    for telling in world.tellings:
        if leaf_of(file, world, telling.uid) is None:
            return without_leaf(file, world, telling).lines() if words == f"NoLeaf {telling.uid}" else []
        out = unknown_output(file, world, telling)
        if out is not None:
            return without_output(file, world, telling, out).lines() if words == f"NoOutput {telling.uid}" else []
    return []
