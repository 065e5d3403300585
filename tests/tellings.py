"""What a host tells, so that the trace of an example comes again: `told` rows in place of those of its world, and before each
tick what the modelled world answered in it."""

import re

from places.asking import opened
from places.source import Source
from places.values import is_key, key_of

HEADER = re.compile(r"((tick|halt|set|tell|finish) .*) at ([0-9]+)")
ENDED = re.compile(r"call ([0-9]+) (?:start|running) (SUCCESS|FAILURE)")
ENTRY = re.compile(r"board ([0-9]+) ([0-9]+) (\S+) (.*)")
# What stands in the world of a host as it stood: the facts, which it may still set, and the number of runners.
KEPT = ("bt-world", "fact", "runners")


def told_rows(world):
    """The rows of a world script as told ones, with the outputs of each ID."""
    rows, outs = [], {}
    for line in world.splitlines():
        words = line.split()
        if words[:1] and words[0] in KEPT:
            rows.append(line)
        elif words[:1] and words[0] in ("condition", "action"):
            row = words[1].split("(")[0]
            outs[row] = []
            rows.append(f"{re.match(r'[a-z]+ [^ (]+(?:[(][^)]*[)])?', line).group(0)} told")
        elif words[:1] == ["out"]:
            outs[row].append(words[1])
            rows.append(f"out {words[1]}")
    return rows, outs


def blocks_of(trace):
    """The header, the moment and the other lines of each event."""
    blocks = []
    for line in trace.splitlines():
        if header := HEADER.fullmatch(line):
            blocks.append((header.group(1), header.group(3), []))
        else:
            blocks[-1][2].append(line)
    return blocks


def outputs(file, outs, board, runner, uid):
    """The outputs of a leaf that has ended, as its entries have them after the tick."""
    node = file.nodes[uid - 1]
    ports = {it.name: it.value.text() for it in node.ports()}
    for name in outs[node.id]:
        text = ports.get(name, "")
        if is_key(text):
            yield f"{name}={board[runner, *file.cell(node.scope(), key_of(name, text))]}"


def told_events(file, outs, trace):
    """The events of a host that tells before each tick what the leaves are to answer in it."""
    board = {}
    for event, moment, lines in blocks_of(trace):
        for runner, scope, key, value in (it.groups() for line in lines if (it := ENTRY.fullmatch(line))):
            board[runner, int(scope), key] = value
        yield f"at {moment}"
        runner = event.split()[1]
        for uid, status in (it.groups() for line in lines if (it := ENDED.fullmatch(line))):
            values = outputs(file, outs, board, runner, int(uid)) if status == "SUCCESS" else ()
            yield " ".join(["tell", runner, uid, status, *values])
        if not event.startswith("finish"):
            yield event


def without_host(trace):
    """The lines of a trace that tell of the tree: no header of what a host says, and no fact."""
    return [line for line in trace.splitlines() if not re.match("tell |set |fact ", line)]


def world_and_lines(example):
    """The told rows of an example, the lines by which a host tells what its leaves answered, and its trace."""
    trace = example.with_suffix(".trace").read_text()
    file = opened(Source(example.name, example.read_bytes()), None)
    rows, outs = told_rows(example.with_suffix(".world").read_text())
    return rows, list(told_events(file, outs, trace)), trace
