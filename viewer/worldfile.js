/**
 * Reads of a world script what the page shows: the opening values of facts, the rows of leaves and the goals.
 * The program has read the script already, so its lines are taken as they are.
 */

/** A world that says nothing, where the page has no script. */
function none() {
  return { facts: [], rows: new Map(), goals: [], runners: 1 };
}

function rowOf(sort, words) {
  const [id] = words[1].split("(");
  return { id, sort: sort === "action" ? words[2] : "condition", rule: words.slice(2).join(" "), needs: [], effects: [] };
}

/** The lines that are read. A script may have 100,000 others, its events. A line feed alone ends a line. */
const LINES = /(?<=^|\n)[ \t]*(?:fact|condition|action|needs|sets|out|fails|goal|runners)[ \t][^\n]*/g;

function read(text) {
  const world = none();
  let last = null;
  for (const [line] of text.matchAll(LINES)) {
    const words = line.split(/[ \t\r]+/).filter((word) => word !== "");
    if (words.length < 2) continue;
    if (words[0] === "fact") world.facts.push({ name: words[1], opening: words[2] });
    else if (words[0] === "condition" || words[0] === "action") world.rows.set((last = rowOf(words[0], words)).id, last);
    else if (words[0] === "needs" && last) last.needs.push(words[1]);
    else if (["sets", "out", "fails"].includes(words[0]) && last) last.effects.push(words.join(" "));
    else if (words[0] === "goal") world.goals.push(words[1]);
    else if (words[0] === "runners") world.runners = Number(words[1]);
  }
  return world;
}

export { read, none };
