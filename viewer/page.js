/** The page: what is shown of a run. */
import * as Address from "./address.js";
import * as Compare from "./compare.js";
import * as Dom from "./dom.js";
import * as Drawing from "./drawing.js";
import * as Groups from "./groups.js";
import * as Lists from "./lists.js";
import * as Lives from "./live.js";
import * as Messages from "./messages.js";
import * as NodePanels from "./nodepanel.js";
import * as Panels from "./panels.js";
import * as Plan from "./plan.js";
import * as Playing from "./playing.js";
import * as Runs from "./run.js";
import * as Searching from "./search.js";
import * as Signs from "./signs.js";
import * as Source from "./source.js";
import * as Timeline from "./timeline.js";
import * as Trace from "./trace.js";
import * as TreeFile from "./treefile.js";
import * as Words from "./words.js";
import * as WorldFile from "./worldfile.js";

const { html, byId } = Dom;
/** A tree of more nodes gets more of the window. */
const LARGE = 60;

class Page {
  constructor() {
    this.run = null;
    this.plan = null;
    this.phase = "run";
    this.count = 0;
    this.runner = 1;
    this.selected = 0;
    this.follow = true;
    this.comparison = null;
    this.live = null;
    this.groups = null;
    this.player = new Playing.Player(this);
    const actions = {
      go: (count) => this.go(count),
      select: (uid, runner) => this.select(uid, runner),
      selected: () => this.selected,
      goToLine: (line) => this.goToLine(line),
      isStop: (uid) => this.player.stops.has(uid),
      sourceOf: (node) => this.sourceOf(node),
      moved: (view) => this.comparison?.view.moveLike(view),
    };
    this.tree = new Drawing.TreeView(byId("tree"), actions);
    this.timeline = new Timeline.TimelineView(actions);
    this.events = new Panels.EventPanel(actions);
    this.node = new NodePanels.NodePanel(actions);
    this.values = new Panels.ValuePanel();
    this.search = new Searching.Search(this);
    byId("next-failure").append(Signs.badgeImage("FAILURE"), "▸");
    byId("next-halt").append(Signs.badgeImage("halted"), "▸");
    byId("legend").append(...["IDLE", "RUNNING", "SUCCESS", "FAILURE", "SKIPPED", "halted", "fault"].map(Signs.status));
    byId("legend").append(html("span", { class: "status" }, html("span", { class: "dotted" }), "changed"));
  }

  // ---- What is opened

  /** Opens what the program gave: a refusal, a run, or a plan with the run of its tree. */
  openData(data) {
    this.close();
    this.data = data;
    this.showNames(data);
    if (data.refusal !== undefined) return Messages.refusal(data);
    const world = data.world ? WorldFile.read(data.world) : WorldFile.none();
    if (data.plan) world.runners = 1;
    try {
      this.readRuns(data, world);
    } catch (fault) {
      return this.misfit(fault, data);
    }
    this.showWork();
  }

  /** Ends what belongs to the run that was shown before. */
  close() {
    this.live?.close();
    this.comparison?.close();
    this.live = this.comparison = null;
  }

  readRuns(data, world) {
    this.plan = data.plan ? Plan.read(data.plan, world) : null;
    const treeText = this.plan ? this.plan.treeText : data.tree;
    const tree = treeText === null ? null : TreeFile.read(treeText);
    this.stages = this.plan ? this.plan.trees.map(({ tree: stage, added }) => ({ run: Trace.read(stage, world, ""), added })) : [];
    this.reader = null;
    if (data.live) ({ run: this.whole, reader: this.reader } = Trace.begin(tree, world));
    else this.whole = tree && Trace.read(tree, world, data.trace ?? "");
    if (this.whole) this.whole.expected = data.expected ?? [];
    this.other = data.other === undefined ? null : this.readOther(tree, world, data.other);
    this.source = null;
    this.groups = data.groups?.length > 0 && this.whole ? new Groups.Groups(this.whole, data.groups) : null;
  }

  readOther(tree, world, text) {
    try {
      return Trace.read(tree, world, text);
    } catch (fault) {
      fault.other = text;
      throw fault;
    }
  }

  /** The tree of another run, beside the first one. It is made once. */
  otherTree() {
    this.secondTree ??= new Drawing.TreeView(byId("tree-other"), {
      select: (uid) => this.select(uid), isStop: (uid) => this.player.stops.has(uid), moved: (view) => this.tree.moveLike(view),
    });
    return this.secondTree;
  }

  /** The list of another run's lines, with these rows. It is made once. */
  otherLines(makeRow) {
    this.secondLines ??= new Lists.VirtualList(byId("other-lines"), makeRow);
    this.secondLines.makeRow = makeRow;
    return this.secondLines;
  }

  /** The lines of the file in which a node of the shown run stands. */
  sourceOf(node) {
    if (this.phase === "plan") return null;
    const { source, tree, names } = this.data;
    this.source ??= Source.reader(this.whole.tree, { source, printed: this.plan ? this.plan.treeText : tree, name: names?.[0] });
    return this.source(node);
  }

  misfit(fault, data) {
    if (fault instanceof Trace.TraceFault) Messages.misfit(fault.other ? "other trace" : "trace", fault, fault.other ?? data.trace);
    else if (fault instanceof Plan.PlanFault) Messages.misfit("plan", fault, data.plan);
    else if (fault instanceof TreeFile.TreeFault) Messages.noTree(fault);
    else throw fault;
  }

  showNames({ names, exit }) {
    document.body.classList.remove("starting");
    const [tree, world] = names ?? [];
    byId("title").textContent = tree ?? "A run of a behavior tree";
    byId("subtitle").textContent = world ? `in ${world}` : "";
    if (tree) document.title = world ? `${tree} in ${world}` : tree;
    const result = byId("result");
    result.hidden = exit === undefined;
    if (exit === undefined) return;
    result.textContent = exit === 0 ? "Done" : `Status ${exit}: ${Words.EXITS[exit] ?? "stopped"}`;
    result.className = `result ${exit === 0 ? "done" : "bad"}`;
  }

  /** Says where the output was cut off, if it was. */
  showCut() {
    const cut = this.whole?.cut;
    byId("cut").hidden = cut === undefined;
    if (cut === undefined) return;
    const line = Words.number(this.whole.lines + 1);
    byId("cut").textContent = `The trace was cut off in line ${line}, after "${cut}". The run is shown up to that line.`;
  }

  showWork() {
    this.showCut();
    byId("message").hidden = true;
    byId("start").hidden = true;
    byId("work").hidden = false;
    byId("phases").hidden = this.plan === null;
    byId("phase-run").disabled = this.whole === null;
    if (this.other) this.comparison = new Compare.Comparison(this, this.whole, this.other, this.data.otherName);
    this.openPhase(this.plan ? "plan" : "run", 0);
    if (this.data.live) this.live = new Lives.Live(this, this.whole, this.reader);
    else this.goToAddress();
  }

  /** Goes to what the address names. */
  goToAddress() {
    const { step, event, runner, node } = Address.read();
    if (event !== undefined && this.whole && this.phase === "plan") this.openPhase("run", event);
    else if ((step ?? event) !== undefined) this.go(step ?? event);
    if (runner >= 1 && runner <= this.run.runners) this.setRunner(runner);
    if (node >= 1 && node <= this.run.tree.size) this.select(node);
  }

  /** Shows the steps of the plan, or the run. */
  openPhase(phase, count) {
    this.phase = phase;
    this.player.stop();
    for (const name of ["plan", "run"]) byId(`phase-${name}`).setAttribute("aria-pressed", String(phase === name));
    byId("position-noun").textContent = phase === "plan" ? "Step" : "Event";
    document.body.classList.toggle("planning", phase === "plan");
    if (phase === "run") {
      this.openRun(this.whole);
    } else {
      const last = this.stages[this.stages.length - 1];
      this.openRun(last.run);
      this.direction = this.tree.direction;
    }
    this.setLength(phase === "plan" ? this.plan.steps.length : this.whole.length);
    this.go(count);
  }

  setLength(length) {
    this.length = length;
    byId("slider").max = length;
    byId("position").max = length;
    byId("position-last").textContent = Words.number(length);
  }

  /** Shows that the run has more lines than before: all of them, or where the reader is elsewhere, how many events. */
  grown() {
    this.setLength(this.whole.length);
    if (byId("runners").childElementCount !== this.run.runners) this.showRunners();
    this.timeline.grow();
    this.showChoices();
    if (this.selected !== 0) this.node.readLines();
    if (this.live.isFollowing) this.go(this.length);
    else if (this.count === this.length - 1) this.go(this.count);
    byId("slider").value = this.count;
  }

  openRun(run, marked = new Set(), direction = undefined) {
    this.run = run;
    this.runner = 1;
    this.selected = 0;
    this.events.marked = -1;
    document.body.classList.toggle("large", run.tree.size > LARGE);
    this.tree.open(run, marked, direction);
    this.timeline.open(run);
    this.showRunners();
    this.showChoices();
    this.select(0);
  }

  showRunners() {
    const { runners } = this.run;
    byId("runners").hidden = runners === 1;
    byId("runners").replaceChildren(...Array.from({ length: runners }, (_, at) => html("button", {
      type: "button", "aria-pressed": String(at + 1 === this.runner), onclick: () => this.setRunner(at + 1),
    }, runners > 4 ? `${at + 1}` : `Runner ${at + 1}`)));
  }

  // ---- Steps

  /** Shows what stood after so many events, or steps of the plan. */
  go(count) {
    this.count = Math.min(this.length, Math.max(0, count));
    byId("slider").value = this.count;
    byId("position").value = this.count;
    byId("go-first").disabled = byId("go-before").disabled = this.count === 0 && (this.phase === "plan" || !this.plan);
    byId("go-next").disabled = byId("go-last").disabled = this.count === this.length && !(this.phase === "plan" && this.whole);
    this.live?.setFollowing(this.count === this.length);
    if (this.phase === "plan") this.showStage();
    else this.showEvent();
    Address.write(this);
  }

  /** Goes by so many; after the last step of a plan comes the run. */
  goBy(distance) {
    const next = this.count + distance;
    if (this.phase === "plan" && next > this.length && this.whole) this.openPhase("run", 0);
    else if (this.phase === "run" && next < 0 && this.plan) this.openPhase("plan", this.plan.steps.length);
    else this.go(next);
  }

  goToLine(line) {
    this.events.mark(line);
    this.go(this.run.eventOf(line) + 1);
  }

  showEvent() {
    const { run, count } = this;
    const line = count > 0 ? run.firstLine(count - 1) : -1;
    const runner = line >= 0 ? run.runner[line] : 0;
    if (this.follow && runner > 0 && runner !== this.runner) this.setRunner(runner, false);
    byId("event-words").hidden = true;
    if (this.follow && this.tree.folds.own.size > 0) this.tree.openFor(this.busyNodes(count));
    this.showClashes();
    this.tree.show(count, this.runner);
    this.comparison?.show(count, this.runner);
    this.events.show(run, count);
    this.values.show(run, count, this.runner);
    this.timeline.show(count, this.runner);
    this.node.follow(count);
    if (this.follow && count > 0) this.revealEvent(count - 1);
    this.announce(count);
  }

  /** Marks the leaves of a declared group that are held together. */
  showClashes() {
    if (this.groups && this.phase === "run") this.tree.clashes = this.groups.show(this.count, this.runner);
  }

  /** The leaves that run after so many events, and those that the last one called. */
  busyNodes(count) {
    const { run, runner } = this;
    const statuses = run.statusesAfter(count, runner);
    const busy = new Set();
    for (let line = run.firstLine(count) - 1; count > 0 && line >= run.firstLine(count - 1); line--) {
      if (Runs.isCall(run.kind[line]) && run.runner[line] === runner) busy.add(run.uid[line]);
    }
    for (let uid = 1; uid <= run.tree.size; uid++) {
      if (statuses[uid] === Words.RUNNING && run.tree.node(uid).children.length === 0) busy.add(uid);
    }
    return busy;
  }

  /** Moves the tree to the leaf that was called last in the event, or the chosen node where the event changes it. */
  revealEvent(event) {
    const { run, runner, selected } = this;
    const first = run.firstLine(event);
    if (selected && run.changesIn(event, runner, selected).length > 0) return this.tree.reveal(selected);
    let found = 0;
    for (let line = run.firstLine(event + 1) - 1; line >= first && found === 0; line--) {
      if (Runs.isCall(run.kind[line]) && run.kind[line] !== Runs.QUENCH) found = run.uid[line];
    }
    if (found) this.tree.reveal(found);
    if (found) this.timeline.revealRow(found, runner);
  }

  announce(count) {
    const { run } = this;
    const title = count > 0 ? `${run.title(count - 1)} at ${Words.moment(run.moments[count - 1])}` : "Before the first event";
    const root = Words.STATUSES[run.statusAfter(count, this.runner, 1)];
    byId("announcer").textContent = `${count} of ${run.length}. ${title}. Root ${root}.`;
  }

  announceNode(uid) {
    const { name } = this.run.tree.node(uid);
    const status = this.phase === "run" ? `, ${Words.STATUSES[this.run.statusAfter(this.count, this.runner, uid)]}` : "";
    byId("announcer").textContent = `${name}, node ${uid}${status}`;
  }

  /** Shows the tree after so many steps of the plan. */
  showStage() {
    const { run, added } = this.stages[this.count];
    const { steps, end } = this.plan;
    this.openRun(run, added, this.direction);
    if (this.follow && added.size > 0) this.tree.showAll(added);
    this.values.show(run, 0, 1);
    this.events.showPlan(this.plan, this.count === steps.length && steps.length === 0 ? 1 : this.count, (count) => this.go(count));
    const step = steps[this.count - 1];
    byId("event-title").textContent = step ? `${step.condition} by ${step.action}` : "The goals";
    const words = [step ? Plan.stepWords(step) : "The first tree asks for the goals, in their order."];
    if (this.count === steps.length) words.push(Plan.endWords(end));
    byId("event-words").textContent = words.join(" ");
    byId("event-words").hidden = false;
    byId("announcer").textContent = `Step ${this.count} of ${steps.length}. ${words.join(" ")}`;
  }

  /** Goes to the next event with a failure or a halt, or the one before. */
  goToMark(name, direction) {
    if (this.phase === "plan") return;
    const line = Playing.findMark(this.run, this.count, name, direction);
    if (line >= 0) this.goToLine(line);
    else byId("announcer").textContent = `There is none ${direction > 0 ? "after" : "before"} this event.`;
  }

  /** Makes playing stop at the lines of the chosen node, or no more. */
  toggleStop() {
    if (this.selected === 0 || this.phase === "plan") return;
    this.player.toggleStop(this.selected);
    this.node.showStop();
    this.tree.show(this.count, this.runner);
  }

  // ---- Nodes

  select(uid, runner = this.runner) {
    if (runner !== this.runner) this.setRunner(runner);
    this.selected = uid;
    this.tree.select(uid);
    if (uid !== 0) this.tree.reveal(uid);
    this.node.show(this.run, uid, this.runner);
    this.node.follow(this.count);
    this.timeline.select(uid);
    this.events.list.drawSoon();
    this.comparison?.view.select(uid);
    this.comparison?.list.drawSoon();
    if (uid !== 0) this.announceNode(uid);
    Address.write(this);
  }

  setRunner(runner, redraw = true) {
    this.runner = runner;
    this.showRunners();
    this.node.show(this.run, this.selected, runner);
    if (!redraw) return;
    this.showClashes();
    this.tree.show(this.count, runner);
    this.values.show(this.run, this.count, runner);
    this.timeline.show(this.count, runner);
  }

  /** Goes to the nearest event in this direction that has a line of the chosen node. */
  goToChange(direction) {
    if (this.selected === 0 || this.phase === "plan") return;
    const { lines } = this.node;
    const { run, count } = this;
    const before = Runs.countBelow(lines, count > 0 ? run.firstLine(count - 1) : 0) - 1;
    const line = direction > 0 ? lines[Runs.countBelow(lines, run.firstLine(count))] : lines[before];
    if (line !== undefined) this.goToLine(line);
  }

  /** Chooses the parent, the first child or a neighbour of the chosen node, by an arrow as the tree is drawn. */
  selectTowards(key) {
    if (this.selected === 0) return this.select(1);
    const { tree } = this.run;
    const node = tree.node(this.selected);
    const siblings = node.parent ? tree.node(node.parent).children : [node.uid];
    const beside = (distance) => siblings[siblings.indexOf(node.uid) + distance];
    const moves = this.tree.direction === "down"
      ? { ArrowUp: node.parent, ArrowDown: node.children[0], ArrowLeft: beside(-1), ArrowRight: beside(1) }
      : { ArrowLeft: node.parent, ArrowRight: node.children[0], ArrowUp: beside(-1), ArrowDown: beside(1) };
    if (moves[key]) this.select(moves[key]);
  }

  // ---- Choices

  showChoices() {
    const pressed = {
      "direction-down": this.tree.direction === "down", "direction-right": this.tree.direction === "right",
      "direction-rows": this.tree.direction === "rows",
      details: this.tree.withDetails, follow: this.follow,
      "rows-leaves": this.timeline.nodes === "leaves", "rows-all": this.timeline.nodes === "all",
      "rows-visited": this.timeline.visited, "calls-only": this.events.callsOnly,
      "axis-time": this.timeline.mode === "time", "axis-steps": this.timeline.mode === "steps",
    };
    for (const [id, is] of Object.entries(pressed)) byId(id).setAttribute("aria-pressed", String(is));
  }

  setDirection(direction) {
    this.direction = direction;
    this.tree.setDirection(direction);
  }

  choose(change) {
    change();
    this.showChoices();
  }
}

export { Page };
