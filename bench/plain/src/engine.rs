//! Runs of a tree over a world: visits, halts and events.
//!
//! A visit calls itself for the children, so its stack grows with the depth of the tree, which is 256 at most.

use crate::build::{rate, Given, Guards, Kind, Node, Tree};
use crate::elements::NONE;
use crate::output::{quoted, Exit, Refusal};
use crate::scan::{canonical, Canonical};
use crate::scripts::{Cause, Cells, Code, Setting, Stacks, Stop, Value};
use crate::world::{Event, Row, Sort, What, World, LATEST, PORTS};
use std::rc::Rc;

/// What a node keeps between visits.
#[derive(Clone, Copy, PartialEq)]
#[allow(missing_docs)]
pub enum Status {
    Idle,
    Running,
    Success,
    Failure,
}

/// What a visit answers. Each has the place of the status that it leaves.
#[derive(Clone, Copy, PartialEq)]
#[allow(missing_docs)]
pub enum Answer {
    Skipped,
    Running,
    Success,
    Failure,
}

impl Answer {
    fn status(self) -> Status {
        match self {
            Answer::Skipped => Status::Idle,
            Answer::Running => Status::Running,
            Answer::Success => Status::Success,
            Answer::Failure => Status::Failure,
        }
    }

    fn exchanged(self) -> Answer {
        match self {
            Answer::Success => Answer::Failure,
            Answer::Failure => Answer::Success,
            other => other,
        }
    }
}

/// Who is told what happens, in its order. Nodes are counted from 0.
#[allow(missing_docs, unused_variables)]
pub trait Notes {
    fn tick(&mut self, runner: u32, at: u64) {}
    fn halt(&mut self, runner: u32, at: u64) {}
    fn finish(&mut self, runner: u32, at: u64) {}
    fn change(&mut self, fact: u32, value: i64, at: u64) {}
    fn tell(&mut self, runner: u32, uid: u32, succeeds: bool, at: u64) {}
    fn changed(&mut self, node: u32, old: Status, new: Status) {}
    fn called(&mut self, node: u32, starts: bool, answer: Answer);
    fn halted(&mut self, node: u32);
    fn root(&mut self, runner: u32, answer: Answer);
    fn fault(&mut self, runner: u32, node: u32, cause: Cause) {}
    fn quenched(&mut self, runner: u32, node: u32) {}
    fn fact(&mut self, fact: u32, value: i64) {}
    fn entry(&mut self, runner: u32, slot: u32, value: &Value) {}
    fn has_failed(&self) -> bool {
        false
    }
}

/// What a leaf's input port is given.
#[derive(Clone, Copy)]
enum Input {
    Absent,
    Int(i64),
    Text,
    Slot(u32),
}

struct Leaf {
    node: u32,
    row: u32,
    /// Where its inputs begin.
    inputs: u32,
    /// Where the slots of its outputs begin.
    outputs: u32,
}

/// The leaves of a tree with their rows.
pub struct Leaves {
    leaves: Vec<Leaf>,
    inputs: Vec<Input>,
    /// The slot of each output, or `NONE` where it is dropped.
    outputs: Vec<u32>,
}

/// Finds the row of each leaf.
pub fn join(tree: &mut Tree, world: &World) -> Result<Leaves, Refusal> {
    let mut joined = Leaves { leaves: Vec::new(), inputs: Vec::new(), outputs: Vec::new() };
    for at in 0..tree.nodes.len() {
        let node = tree.nodes[at];
        if node.kind != Kind::Leaf {
            continue;
        }
        let spec = &tree.specs[node.spec as usize];
        let row = world.row_of.get(spec.id.as_bytes());
        let row = *row.ok_or_else(|| Refusal::world(format!("NoRow {}", quoted(spec.id.as_bytes()))))?;
        let ports = tree.ports(spec);
        let given = |name: &[u8]| ports.iter().find(|it| it.name.as_bytes() == name).map(|it| it.given);
        let slot = |name: u32| tree.slots[(node.base + name) as usize];
        let inputs = joined.inputs.len() as u32;
        let outputs = joined.outputs.len() as u32;
        for port in &world.rows[row as usize].ports {
            joined.inputs.push(match given(port) {
                None => Input::Absent,
                Some(Given::Int(number)) => Input::Int(number),
                Some(Given::Text(_)) => Input::Text,
                Some(Given::Key(_, name)) => Input::Slot(slot(name)),
            });
        }
        let told = match &world.rows[row as usize].sort {
            Sort::Told(outs) => &outs[..],
            _ => &[],
        };
        for port in world.rows[row as usize].outputs.iter().map(|it| &it.0).chain(told) {
            joined.outputs.push(match given(port) {
                Some(Given::Key(_, name)) => slot(name),
                _ => NONE,
            });
        }
        tree.nodes[at].detail = joined.leaves.len() as u32;
        joined.leaves.push(Leaf { node: at as u32, row, inputs, outputs });
    }
    for event in &world.events {
        if let What::Tell { uid, telling, .. } = event.what {
            find_told(tree, world, &joined, uid, telling)?;
        }
    }
    Ok(joined)
}

/// Whether there is a leaf that can be told this.
fn find_told(tree: &Tree, world: &World, joined: &Leaves, uid: u32, telling: u32) -> Result<(), Refusal> {
    let node = (uid as usize).checked_sub(1).and_then(|it| tree.nodes.get(it)).filter(|it| it.kind == Kind::Leaf);
    let row = node.map(|it| &world.rows[joined.leaves[it.detail as usize].row as usize].sort);
    let outs = match row {
        Some(Sort::Sensed) => &[],
        Some(Sort::Told(outs)) => &outs[..],
        _ => return Err(Refusal::world(format!("NoLeaf {uid}"))),
    };
    if world.tellings[telling as usize].outputs.iter().any(|it| !outs.contains(&it.0)) {
        return Err(Refusal::world(format!("NoOutput {uid}")));
    }
    Ok(())
}

/// What a node keeps beside its status. Only the index of a SequenceWithMemory, the mark of a RunOnce, the child at hand of a
/// RoundRobin and the pace of a RateController mean something while the node is not RUNNING, so only these are cleared.
#[derive(Clone, Copy, PartialEq)]
enum Memo {
    Nothing,
    Index { at: u32, seen: bool },
    Counts { need: u16, most: u16, skips: bool, successes: u16, failures: u16 },
    Chosen(u32),
    Recoveries { recovers: bool, done: u16, limit: u16 },
    Farthest(u32),
    AtHand { at: u32, passed: u16, skipped: u16 },
    Turns { done: i32, limit: i32 },
    Since { first: u64, length: u32 },
    Finished(Answer),
    Pace { moment: u64, thousandths: u32, is_new: bool },
}

/// What a leaf's driver keeps of a leaf.
#[derive(Clone, Copy, Default)]
#[allow(missing_docs)]
pub struct Instance {
    pub is_held: bool,
    pub since: u64,
    /// How long an action is held whose length is an expression.
    pub length: u64,
    pub completions: u8,
    /// The telling that it was told last, and whether it is of success.
    pub told: Option<(u32, bool)>,
}

/// Values that tell which of them changed since the last block.
struct Changing<T> {
    values: Vec<T>,
    /// For each value the block in which it was last written.
    written: Vec<u32>,
    block: u32,
    /// What was written in this block, and what it was before.
    old: Vec<(u32, T)>,
}

impl<T: PartialEq> Changing<T> {
    fn new(values: Vec<T>) -> Changing<T> {
        Changing { written: vec![0; values.len()], values, block: 1, old: Vec::new() }
    }

    #[inline]
    fn put(&mut self, place: u32, value: T) {
        let at = place as usize;
        let old = std::mem::replace(&mut self.values[at], value);
        if self.written[at] != self.block {
            self.written[at] = self.block;
            self.old.push((place, old));
        }
    }

    /// Tells what changed, in order, and begins the next block.
    fn end_block(&mut self, mut tell: impl FnMut(u32, &T)) {
        if self.old.is_empty() {
            return;
        }
        self.old.sort_unstable_by_key(|it| it.0);
        for (place, old) in self.old.drain(..) {
            let value = &self.values[place as usize];
            if *value != old {
                tell(place, value);
            }
        }
        self.block += 1;
    }
}

struct Runner {
    statuses: Vec<Status>,
    memos: Vec<Memo>,
    instances: Vec<Instance>,
    board: Changing<Value>,
}

impl Runner {
    fn new(tree: &Tree, leaves: &Leaves) -> Runner {
        let opening = tree.cells.iter().map(|it| match it.literal {
            Some(Given::Int(number)) => Value::Int(number),
            Some(Given::Text(text)) => Value::Text(Rc::new(text.as_bytes().into())),
            _ => Value::Absent,
        });
        Runner {
            statuses: vec![Status::Idle; tree.nodes.len()],
            memos: vec![Memo::Nothing; tree.nodes.len()],
            instances: vec![Instance::default(); leaves.leaves.len()],
            board: Changing::new(opening.collect()),
        }
    }
}

/// The names of a scope, over the board of a runner.
struct Scope<'s> {
    slots: &'s [u32],
    board: &'s mut Changing<Value>,
}

impl Cells for Scope<'_> {
    fn get(&self, name: u32) -> &Value {
        &self.board.values[self.slots[name as usize] as usize]
    }

    fn put(&mut self, name: u32, value: Value) {
        self.board.put(self.slots[name as usize], value);
    }

    fn missing(&self, name: u32) -> Cause {
        Cause::NoEntry(self.slots[name as usize])
    }
}

/// What is the same all through a run.
#[derive(Clone, Copy)]
struct Plan<'p> {
    tree: &'p Tree<'p>,
    world: &'p World<'p>,
    leaves: &'p Leaves,
}

/// A visit or a halt ended by a fault, which the turn knows.
struct Broken;

type Visited = Result<Answer, Broken>;

/// A turn of one runner.
struct Turn<'t, N> {
    plan: Plan<'t>,
    runner: &'t mut Runner,
    facts: &'t mut Changing<i64>,
    stacks: &'t mut Stacks,
    notes: &'t mut N,
    now: u64,
    fault: (u32, Cause),
}

impl<'t, N: Notes> Turn<'t, N> {
    fn node(&self, at: u32) -> &'t Node {
        &self.plan.tree.nodes[at as usize]
    }

    fn child(&self, node: &Node, number: u32) -> u32 {
        self.plan.tree.children[(node.children + number) as usize]
    }

    fn fail<T>(&mut self, at: u32, cause: Cause) -> Result<T, Broken> {
        self.fault = (at, cause);
        Err(Broken)
    }

    #[inline]
    fn become_(&mut self, at: u32, new: Status) {
        let old = std::mem::replace(&mut self.runner.statuses[at as usize], new);
        if old != new {
            self.notes.changed(at, old, new);
        }
        if new == Status::Idle && matches!(self.memo(at), Memo::Pace { .. }) {
            self.keep(at, Memo::Nothing);
        }
    }

    fn memo(&self, at: u32) -> Memo {
        self.runner.memos[at as usize]
    }

    fn keep(&mut self, at: u32, memo: Memo) {
        self.runner.memos[at as usize] = memo;
    }

    fn run(&mut self, at: u32, node: &Node, code: Code) -> Result<Option<i64>, Broken> {
        let slots = &self.plan.tree.slots[node.base as usize..];
        let mut scope = Scope { slots, board: &mut self.runner.board };
        match self.plan.tree.codes.run(code, &mut scope, self.stacks) {
            Ok(number) => Ok(number),
            Err(cause) => self.fail(at, cause),
        }
    }

    fn is_true(&mut self, at: u32, node: &Node, code: Code) -> Result<bool, Broken> {
        match self.run(at, node, code)? {
            Some(number) => Ok(number != 0),
            None => self.fail(at, Cause::Mixed),
        }
    }

    fn tick(&mut self, runner: u32) -> Result<(), Broken> {
        let answer = self.visit(0)?;
        self.notes.root(runner, answer);
        if self.runner.statuses[0] != Status::Running {
            self.become_(0, Status::Idle);
        }
        Ok(())
    }

    #[inline]
    fn reset(&mut self, at: u32) -> Result<(), Broken> {
        match self.runner.statuses[at as usize] {
            Status::Idle => Ok(()),
            Status::Running => self.halt(at),
            _ => {
                self.become_(at, Status::Idle);
                Ok(())
            }
        }
    }

    fn halt(&mut self, at: u32) -> Result<(), Broken> {
        let node = self.node(at);
        self.reset_from(node, 0)?;
        if node.kind == Kind::Leaf {
            let instance = &mut self.runner.instances[node.detail as usize];
            (instance.is_held, instance.told) = (false, None);
            self.notes.halted(at);
        }
        if matches!(node.kind, Kind::SequenceWithMemory | Kind::RoundRobin) {
            self.keep(at, Memo::Nothing);
        }
        self.become_(at, Status::Idle);
        if let Some(guards) = node.guards {
            if let Some(code) = self.guards(guards).codes[7] {
                self.run(at, node, code)?;
            }
        }
        Ok(())
    }

    fn reset_from(&mut self, node: &Node, first: u32) -> Result<(), Broken> {
        let children = &self.plan.tree.children[node.children as usize..(node.children + node.count) as usize];
        for &child in &children[first as usize..] {
            self.reset(child)?;
        }
        Ok(())
    }

    fn reset_others(&mut self, node: &Node, but: u32) -> Result<(), Broken> {
        for number in (0..node.count).filter(|&it| it != but) {
            self.reset(self.child(node, number))?;
        }
        Ok(())
    }

    /// Ends a node: all its children are reset, and it gives the answer.
    fn over(&mut self, node: &Node, answer: Answer) -> Visited {
        self.reset_from(node, 0)?;
        Ok(answer)
    }

    /// Gives the answer of the child that was visited last.
    fn pass(&mut self, node: &Node, answer: Answer) -> Visited {
        if answer == Answer::Running {
            Ok(answer)
        } else {
            self.over(node, answer)
        }
    }

    fn guards(&self, guards: u32) -> &'t Guards<'t> {
        &self.plan.tree.guards[guards as usize]
    }

    fn visit(&mut self, at: u32) -> Visited {
        let node = self.node(at);
        let starts = self.runner.statuses[at as usize] != Status::Running;
        let Some(guards) = node.guards else {
            let answer = self.rule(at, node, starts)?;
            self.become_(at, answer.status());
            return Ok(answer);
        };
        let codes = &self.guards(guards).codes;
        let answer = if starts {
            match self.guarded(at, node, codes)? {
                Some(answer) => answer,
                None => self.rule(at, node, starts)?,
            }
        } else {
            if let Some(code) = codes[3] {
                if !self.is_true(at, node, code)? {
                    self.halt(at)?;
                    return Ok(Answer::Skipped);
                }
            }
            self.rule(at, node, starts)?
        };
        let after = match answer {
            Answer::Success => [codes[4], codes[6]],
            Answer::Failure => [codes[5], codes[6]],
            _ => [None, None],
        };
        for code in after.into_iter().flatten() {
            self.run(at, node, code)?;
        }
        self.become_(at, answer.status());
        Ok(answer)
    }

    /// What the guards of a node that starts answer, if one does.
    fn guarded(&mut self, at: u32, node: &Node, codes: &[Option<Code>; 8]) -> Result<Option<Answer>, Broken> {
        const ANSWERS: [(bool, Answer); 4] =
            [(true, Answer::Failure), (true, Answer::Success), (true, Answer::Skipped), (false, Answer::Skipped)];
        for (code, (when, answer)) in codes.iter().zip(ANSWERS) {
            if let Some(code) = code {
                if self.is_true(at, node, *code)? == when {
                    return Ok(Some(answer));
                }
            }
        }
        Ok(None)
    }

    /// The rule of a node's kind, after its start where it starts.
    fn rule(&mut self, at: u32, node: &Node, starts: bool) -> Visited {
        match node.kind {
            Kind::Leaf => return self.leaf(at, node, starts),
            Kind::AlwaysSuccess => return Ok(Answer::Success),
            Kind::AlwaysFailure => return Ok(Answer::Failure),
            Kind::Script | Kind::ScriptCondition => return self.script(at, node),
            Kind::RunOnce => {
                if let Memo::Finished(mark) = self.memo(at) {
                    return Ok(if self.then_skips(at, node)? { Answer::Skipped } else { mark });
                }
            }
            _ => {}
        }
        if starts {
            self.become_(at, Status::Running);
        }
        match node.kind {
            Kind::Sequence => self.in_order(at, node, starts, Answer::Success),
            Kind::Fallback => self.in_order(at, node, starts, Answer::Failure),
            Kind::SequenceWithMemory => self.with_memory(at, node, starts),
            Kind::ReactiveSequence => self.reactive(node, Answer::Success),
            Kind::ReactiveFallback => self.reactive(node, Answer::Failure),
            Kind::Parallel => self.parallel(at, node, starts),
            Kind::Switch(cases) => self.switch(at, node, starts, u32::from(cases)),
            Kind::IfThenElse => self.if_then_else(at, node, starts),
            Kind::WhileDoElse => self.while_do_else(node),
            Kind::RecoveryNode => self.recovery(at, node, starts),
            Kind::PipelineSequence => self.pipeline(at, node, starts),
            Kind::RoundRobin => self.round_robin(at, node, starts),
            Kind::RateController => self.rated(at, node),
            Kind::Retry => self.again(at, node, starts, Answer::Failure, Setting::NumAttempts),
            Kind::Repeat => self.again(at, node, starts, Answer::Success, Setting::NumCycles),
            Kind::Timeout | Kind::Delay => self.timed(at, node, starts),
            _ => self.decorated(at, node),
        }
    }

    #[inline(never)]
    fn script(&mut self, at: u32, node: &Node) -> Visited {
        let Some(code) = node.code else {
            return Ok(Answer::Success);
        };
        if node.kind == Kind::Script {
            self.run(at, node, code)?;
            return Ok(Answer::Success);
        }
        Ok(if self.is_true(at, node, code)? { Answer::Success } else { Answer::Failure })
    }

    /// The children in order, from the index on.
    #[inline(never)]
    fn in_order(&mut self, at: u32, node: &Node, starts: bool, goes_on: Answer) -> Visited {
        let (first, mut seen) = match self.memo(at) {
            Memo::Index { at, seen } if !starts => (at, seen),
            _ => (0, false),
        };
        for number in first..node.count {
            match self.visit(self.child(node, number))? {
                Answer::Skipped => {}
                Answer::Running => {
                    self.keep(at, Memo::Index { at: number, seen: true });
                    return Ok(Answer::Running);
                }
                answer if answer == goes_on => seen = true,
                answer => return self.over(node, answer),
            }
        }
        self.over(node, if seen { goes_on } else { Answer::Skipped })
    }

    #[inline(never)]
    fn with_memory(&mut self, at: u32, node: &Node, starts: bool) -> Visited {
        let (first, mut seen) = match self.memo(at) {
            Memo::Index { at, seen } => (at, seen && !starts),
            _ => (0, false),
        };
        for number in first..node.count {
            match self.visit(self.child(node, number))? {
                Answer::Skipped => {}
                Answer::Success => seen = true,
                Answer::Running => {
                    self.keep(at, Memo::Index { at: number, seen: true });
                    return Ok(Answer::Running);
                }
                Answer::Failure => {
                    self.reset_from(node, number)?;
                    self.keep(at, Memo::Index { at: number, seen: false });
                    return Ok(Answer::Failure);
                }
            }
        }
        self.keep(at, Memo::Nothing);
        self.over(node, if seen { Answer::Success } else { Answer::Skipped })
    }

    #[inline(never)]
    fn reactive(&mut self, node: &Node, goes_on: Answer) -> Visited {
        let mut seen = false;
        for number in 0..node.count {
            match self.visit(self.child(node, number))? {
                Answer::Skipped => {}
                Answer::Running => {
                    self.reset_others(node, number)?;
                    return Ok(Answer::Running);
                }
                answer if answer == goes_on => seen = true,
                answer => return self.over(node, answer),
            }
        }
        self.over(node, if seen { goes_on } else { Answer::Skipped })
    }

    #[inline(never)]
    fn parallel(&mut self, at: u32, node: &Node, starts: bool) -> Visited {
        let memo = if starts { self.counts(at, node)? } else { self.memo(at) };
        let Memo::Counts { need, most, skips, mut successes, mut failures } = memo else {
            return Ok(Answer::Running);
        };
        let mut skipped = 0;
        let count = node.count as u16;
        for number in 0..node.count {
            let child = self.child(node, number);
            if !matches!(self.runner.statuses[child as usize], Status::Success | Status::Failure) {
                match self.visit(child)? {
                    Answer::Skipped => skipped += 1,
                    Answer::Running => {}
                    Answer::Success => successes += 1,
                    Answer::Failure => failures += 1,
                }
            }
            if successes >= need || (skips && successes + skipped >= need) {
                return self.over(node, Answer::Success);
            }
            if count - failures < need || failures >= most {
                return self.over(node, Answer::Failure);
            }
        }
        if skipped == count {
            return self.over(node, Answer::Skipped);
        }
        self.keep(at, Memo::Counts { need, most, skips, successes, failures });
        Ok(Answer::Running)
    }

    /// What a Parallel starts with.
    fn counts(&mut self, at: u32, node: &Node) -> Result<Memo, Broken> {
        let count = i64::from(node.count);
        let mut read = [(0, 0); 2];
        for (place, port) in [Setting::SuccessCount, Setting::FailureCount].into_iter().enumerate() {
            let written = self.setting(at, node, place, port, i64::MIN, i64::MAX)?;
            let number = if written < 0 { count + 1 + written } else { written };
            if !(1..=count).contains(&number) {
                return self.fail(at, Cause::BadPort(port));
            }
            read[place] = (written, number as u16);
        }
        Ok(Memo::Counts { need: read[0].1, most: read[1].1, skips: read[0].0 < 0, successes: 0, failures: 0 })
    }

    /// The number of a port, whose literal is known to fit.
    fn setting(&mut self, at: u32, node: &Node, place: usize, port: Setting, least: i64, greatest: i64) -> Result<i64, Broken> {
        match self.plan.tree.settings[node.detail as usize + place] {
            Given::Int(number) => Ok(number),
            Given::Key(_, name) => {
                let slot = self.plan.tree.slots[(node.base + name) as usize];
                match self.runner.board.values[slot as usize] {
                    Value::Int(number) if (least..=greatest).contains(&number) => Ok(number),
                    _ => self.fail(at, Cause::BadPort(port)),
                }
            }
            Given::Text(_) => self.fail(at, Cause::BadPort(port)),
        }
    }

    fn then_skips(&mut self, at: u32, node: &Node) -> Result<bool, Broken> {
        match self.plan.tree.settings[node.detail as usize] {
            Given::Text(text) => Ok(text == "true"),
            _ => Ok(self.setting(at, node, 0, Setting::ThenSkip, i64::MIN, i64::MAX)? != 0),
        }
    }

    #[inline(never)]
    fn switch(&mut self, at: u32, node: &Node, starts: bool, cases: u32) -> Visited {
        let picked = (0..cases).find(|&it| self.is_case(node, it)).unwrap_or(cases);
        if let (false, Memo::Chosen(chosen)) = (starts, self.memo(at)) {
            if chosen != picked {
                self.reset(self.child(node, chosen))?;
            }
        }
        let answer = self.visit(self.child(node, picked))?;
        self.keep(at, Memo::Chosen(picked));
        self.pass(node, answer)
    }

    /// Whether the text of the variable is that of a case.
    fn is_case(&self, node: &Node, case: u32) -> bool {
        let text = |place: u32| match self.plan.tree.settings[(node.detail + place) as usize] {
            Given::Int(number) => Shown::Number(number),
            Given::Text(text) => Shown::Text(text.as_bytes()),
            Given::Key(_, name) => {
                let slot = self.plan.tree.slots[(node.base + name) as usize];
                match &self.runner.board.values[slot as usize] {
                    Value::Absent => Shown::Nothing,
                    Value::Int(number) => Shown::Number(*number),
                    Value::Text(text) => Shown::Text(text),
                }
            }
        };
        match (text(0), text(case + 1)) {
            (Shown::Number(left), Shown::Number(right)) => left == right,
            (Shown::Text(left), Shown::Text(right)) => left == right,
            (Shown::Number(number), Shown::Text(text)) | (Shown::Text(text), Shown::Number(number)) => {
                canonical(text) == Some(Canonical::Fits(number))
            }
            _ => false,
        }
    }

    #[inline(never)]
    fn if_then_else(&mut self, at: u32, node: &Node, starts: bool) -> Visited {
        let chosen = match self.memo(at) {
            Memo::Chosen(branch) if !starts => branch,
            _ => match self.visit(self.child(node, 0))? {
                Answer::Success => 1,
                Answer::Failure if node.count == 3 => 2,
                Answer::Running => {
                    self.keep(at, Memo::Nothing);
                    return Ok(Answer::Running);
                }
                answer => return self.over(node, answer),
            },
        };
        let answer = self.visit(self.child(node, chosen))?;
        self.keep(at, Memo::Chosen(chosen));
        self.pass(node, answer)
    }

    #[inline(never)]
    fn while_do_else(&mut self, node: &Node) -> Visited {
        let branch = match self.visit(self.child(node, 0))? {
            Answer::Running => return Ok(Answer::Running),
            Answer::Success => 1,
            Answer::Failure if node.count == 3 => 2,
            answer => return self.over(node, answer),
        };
        self.reset_others(node, branch)?;
        let answer = self.visit(self.child(node, branch))?;
        self.pass(node, answer)
    }

    #[inline(never)]
    fn recovery(&mut self, at: u32, node: &Node, starts: bool) -> Visited {
        let (mut recovers, mut done, limit) = match self.memo(at) {
            Memo::Recoveries { recovers, done, limit } if !starts => (recovers, done, limit),
            _ => (false, 0, self.setting(at, node, 0, Setting::NumberOfRetries, 0, 1_000)? as u16),
        };
        loop {
            let child = self.child(node, u32::from(recovers));
            match (recovers, self.visit(child)?) {
                (_, Answer::Running) => {
                    self.keep(at, Memo::Recoveries { recovers, done, limit });
                    return Ok(Answer::Running);
                }
                (false, Answer::Failure) if done < limit => {}
                (true, Answer::Success) => done += 1,
                (true, _) => return self.over(node, Answer::Failure),
                (false, answer) => return self.over(node, answer),
            }
            self.reset(child)?;
            recovers = !recovers;
        }
    }

    #[inline(never)]
    fn pipeline(&mut self, at: u32, node: &Node, starts: bool) -> Visited {
        let farthest = match self.memo(at) {
            Memo::Farthest(number) if !starts => number,
            _ => 0,
        };
        let mut seen = false;
        for number in 0..node.count {
            match self.visit(self.child(node, number))? {
                Answer::Skipped => continue,
                Answer::Failure => return self.over(node, Answer::Failure),
                Answer::Running if number >= farthest => {
                    self.keep(at, Memo::Farthest(number));
                    return Ok(Answer::Running);
                }
                Answer::Running | Answer::Success => seen = true,
            }
        }
        self.over(node, if seen { Answer::Success } else { Answer::Skipped })
    }

    #[inline(never)]
    fn round_robin(&mut self, at: u32, node: &Node, starts: bool) -> Visited {
        let (mut hand, mut passed, mut skipped) = match self.memo(at) {
            Memo::AtHand { at, passed, skipped } if !starts => (at, passed, skipped),
            Memo::AtHand { at, .. } => (at, 0, 0),
            _ => (0, 0, 0),
        };
        while u32::from(passed) < node.count {
            let child = self.child(node, hand);
            let answer = self.visit(child)?;
            if answer == Answer::Running {
                self.keep(at, Memo::AtHand { at: hand, passed, skipped });
                return Ok(answer);
            }
            hand = (hand + 1) % node.count;
            if answer == Answer::Success {
                self.keep(at, Memo::AtHand { at: hand, passed: 0, skipped: 0 });
                return self.over(node, answer);
            }
            self.reset(child)?;
            passed += 1;
            skipped += u16::from(answer == Answer::Skipped);
        }
        self.keep(at, Memo::Nothing);
        self.over(node, if passed == skipped { Answer::Skipped } else { Answer::Failure })
    }

    /// RateController. Its memo is cleared as soon as it is IDLE, so one that is there tells the pace.
    #[inline(never)]
    fn rated(&mut self, at: u32, node: &Node) -> Visited {
        let (mut moment, thousandths, is_new) = match self.memo(at) {
            Memo::Pace { moment, thousandths, is_new } => (moment, thousandths, is_new),
            _ => (self.now, self.rate(at, node)?, true),
        };
        let child = self.child(node, 0);
        let is_running = self.runner.statuses[child as usize] == Status::Running;
        if !is_new && !is_running && (self.now - moment).saturating_mul(thousandths.into()) < 1_000_000 {
            return Ok(Answer::Running);
        }
        let answer = self.visit(child)?;
        if answer == Answer::Success {
            moment = self.now;
        }
        self.keep(at, Memo::Pace { moment, thousandths, is_new: false });
        self.pass(node, answer)
    }

    /// The thousandths of a hertz of a RateController.
    fn rate(&mut self, at: u32, node: &Node) -> Result<u32, Broken> {
        let literal = match self.plan.tree.settings[node.detail as usize] {
            Given::Text(text) => rate(text),
            _ => None,
        };
        match literal {
            Some(thousandths) => Ok(thousandths as u32),
            None => Ok(self.setting(at, node, 0, Setting::Hz, 1, 1_000)? as u32 * 1_000),
        }
    }

    /// RetryUntilSuccessful and Repeat, by the answer after which the child is visited again.
    #[inline(never)]
    fn again(&mut self, at: u32, node: &Node, starts: bool, on: Answer, port: Setting) -> Visited {
        let (mut done, limit) = match self.memo(at) {
            Memo::Turns { done, limit } if !starts => (done, limit),
            _ => (0, self.turns(at, node, port)?),
        };
        let child = self.child(node, 0);
        loop {
            let answer = self.visit(child)?;
            if answer == Answer::Running {
                self.keep(at, Memo::Turns { done, limit });
                return Ok(answer);
            }
            if answer != on {
                return self.over(node, answer);
            }
            self.reset(child)?;
            if limit == -1 {
                self.keep(at, Memo::Turns { done, limit });
                return Ok(Answer::Running);
            }
            done += 1;
            if done == limit {
                return Ok(on);
            }
        }
    }

    fn turns(&mut self, at: u32, node: &Node, port: Setting) -> Result<i32, Broken> {
        match self.setting(at, node, 0, port, -1, 1_000)? {
            0 => self.fail(at, Cause::BadPort(port)),
            turns => Ok(turns as i32),
        }
    }

    /// Timeout and Delay.
    #[inline(never)]
    fn timed(&mut self, at: u32, node: &Node, starts: bool) -> Visited {
        let is_delay = node.kind == Kind::Delay;
        let (first, length) = match self.memo(at) {
            Memo::Since { first, length } if !starts => (first, length),
            _ => {
                let port = if is_delay { Setting::DelayMsec } else { Setting::Msec };
                let length = self.setting(at, node, 0, port, 0, i64::from(u32::MAX))? as u32;
                self.keep(at, Memo::Since { first: self.now, length });
                (self.now, length)
            }
        };
        let is_over = self.now - first >= u64::from(length);
        if is_delay && !is_over {
            return Ok(Answer::Running);
        }
        if !is_delay && length != 0 && is_over {
            return self.over(node, Answer::Failure);
        }
        let answer = self.visit(self.child(node, 0))?;
        self.pass(node, answer)
    }

    /// The decorators that change an answer, and SubTree.
    #[inline(never)]
    fn decorated(&mut self, at: u32, node: &Node) -> Visited {
        let child = self.child(node, 0);
        let answer = self.visit(child)?;
        if answer == Answer::Running {
            return Ok(answer);
        }
        self.reset(child)?;
        Ok(match node.kind {
            Kind::Inverter => answer.exchanged(),
            Kind::ForceSuccess if answer == Answer::Failure => Answer::Success,
            Kind::ForceFailure if answer == Answer::Success => Answer::Failure,
            Kind::KeepRunningUntilFailure if answer == Answer::Success => Answer::Running,
            Kind::RunOnce if answer != Answer::Skipped => {
                self.keep(at, Memo::Finished(answer));
                answer
            }
            _ => answer,
        })
    }

    /// One call of a leaf's driver.
    #[inline(never)]
    fn leaf(&mut self, at: u32, node: &Node, starts: bool) -> Visited {
        let leaf = &self.plan.leaves.leaves[node.detail as usize];
        let row = &self.plan.world.rows[leaf.row as usize];
        if let Sort::Is { fact, comparison, value } = row.sort {
            let holds = comparison.holds(self.facts.values[fact as usize], value);
            let answer = if holds { Answer::Success } else { Answer::Failure };
            self.notes.called(at, starts, answer);
            return Ok(answer);
        }
        let mut instance = self.runner.instances[node.detail as usize];
        if starts {
            instance.since = self.now;
        }
        let mut outputs = [0; PORTS as usize];
        let told = instance.told;
        match self.call(leaf, row, &mut instance, &mut outputs) {
            Ok(answer) => {
                instance.is_held = answer == Answer::Running;
                self.runner.instances[node.detail as usize] = instance;
                self.notes.called(at, starts, answer);
                if answer == Answer::Success {
                    self.write_outputs(leaf, row, &outputs);
                    self.write_told(leaf, row, told);
                }
                Ok(answer)
            }
            Err(cause) => self.fail(at, cause),
        }
    }

    fn write_outputs(&mut self, leaf: &Leaf, row: &Row, outputs: &[i64; PORTS as usize]) {
        for (number, &value) in outputs.iter().enumerate().take(row.outputs.len()) {
            let slot = self.plan.leaves.outputs[leaf.outputs as usize + number];
            if slot != NONE {
                self.runner.board.put(slot, Value::Int(value));
            }
        }
    }

    /// Writes the values that an action was told with SUCCESS, in the order of its outputs.
    fn write_told(&mut self, leaf: &Leaf, row: &Row, told: Option<(u32, bool)>) {
        let (Sort::Told(outs), Some((telling, true))) = (&row.sort, told) else {
            return;
        };
        let values = &self.plan.world.tellings[telling as usize].outputs;
        for (number, port) in outs.iter().enumerate() {
            let slot = self.plan.leaves.outputs[leaf.outputs as usize + number];
            if let Some((_, value)) = values.iter().find(|it| it.0 == *port).filter(|_| slot != NONE) {
                self.runner.board.put(slot, value.clone());
            }
        }
    }

    fn number(&mut self, leaf: &Leaf, code: Code) -> Result<i64, Cause> {
        let inputs = &self.plan.leaves.inputs[leaf.inputs as usize..];
        let (facts, board) = (&self.facts.values, &self.runner.board.values);
        let load = |name: u32| {
            if name >= PORTS {
                return Ok(facts[(name - PORTS) as usize]);
            }
            let absent = Err(Stop::Fault(Cause::NoInput(name)));
            match inputs[name as usize] {
                Input::Absent => absent,
                Input::Int(number) => Ok(number),
                Input::Text => Err(Stop::Fault(Cause::Mixed)),
                Input::Slot(slot) => match &board[slot as usize] {
                    Value::Absent => absent,
                    Value::Int(number) => Ok(*number),
                    Value::Text(_) => Err(Stop::Fault(Cause::Mixed)),
                },
            }
        };
        self.plan.world.codes.number(code, load, self.stacks)
    }

    /// What the row answers. A fault leaves all as it is.
    fn call(&mut self, leaf: &Leaf, row: &Row, instance: &mut Instance, outputs: &mut [i64]) -> Result<Answer, Cause> {
        let answer = ask(row, instance, self.now, |code| self.number(leaf, code))?;
        if answer == Answer::Success {
            self.complete(leaf, row, outputs)?;
        }
        Ok(answer)
    }

    /// Works out all outputs and effects, and then lets the effects happen.
    fn complete(&mut self, leaf: &Leaf, row: &Row, outputs: &mut [i64]) -> Result<(), Cause> {
        for ((_, code), output) in row.outputs.iter().zip(outputs) {
            *output = self.number(leaf, *code)?;
        }
        let values = changed_facts(row, &self.facts.values)?;
        for (effect, &value) in row.effects.iter().zip(&values) {
            self.facts.put(effect.fact, value);
        }
        Ok(())
    }
}

/// What a row answers, before its completion. A condition that compares a fact is not asked so.
#[inline]
pub fn ask(row: &Row, instance: &mut Instance, now: u64, mut number: impl FnMut(Code) -> Result<i64, Cause>) -> Result<Answer, Cause> {
    Ok(match &row.sort {
        Sort::Is { .. } => Answer::Success,
        Sort::When(test) if number(*test)? != 0 => Answer::Success,
        Sort::When(_) => Answer::Failure,
        Sort::Timed { length, .. } | Sort::Replay { length, .. } if now - instance.since < *length => Answer::Running,
        Sort::TimedBy { length, .. } if now - instance.since < lasting(instance, *length, &mut number)? => Answer::Running,
        Sort::Timed { fails: Some(test), .. } | Sort::TimedBy { fails: Some(test), .. } if number(*test)? != 0 => Answer::Failure,
        Sort::Timed { .. } | Sort::TimedBy { .. } => Answer::Success,
        Sort::Replay { outcomes, .. } => {
            let letter = usize::from(instance.completions).min(outcomes.len() - 1);
            instance.completions = (instance.completions + 1).min(64);
            if outcomes[letter] == b'S' {
                Answer::Success
            } else {
                Answer::Failure
            }
        }
        Sort::Gate(test) if number(*test)? != 0 => Answer::Success,
        Sort::Gate(_) => Answer::Running,
        Sort::Sensed if instance.told.is_some_and(|it| it.1) => Answer::Success,
        Sort::Sensed => Answer::Failure,
        Sort::Told(_) => match instance.told.take() {
            None => Answer::Running,
            Some((_, true)) => Answer::Success,
            Some((_, false)) => Answer::Failure,
        },
    })
}

/// How long an action lasts whose length is an expression: what it gives where the action begins.
fn lasting(instance: &mut Instance, length: Code, number: &mut impl FnMut(Code) -> Result<i64, Cause>) -> Result<u64, Cause> {
    if !instance.is_held {
        let found = number(length)?;
        if !(0..=LATEST).contains(&found) {
            return Err(Cause::Range);
        }
        instance.length = found as u64;
    }
    Ok(instance.length)
}

/// What the effects of a row make of their facts.
#[inline]
pub fn changed_facts(row: &Row, facts: &[i64]) -> Result<[i64; 16], Cause> {
    let mut values = [0; 16];
    for (effect, value) in row.effects.iter().zip(&mut values) {
        let old = if effect.adds { facts[effect.fact as usize] } else { 0 };
        *value = effect.number.checked_add(old).ok_or(Cause::Overflow)?;
    }
    Ok(values)
}

/// A text to compare.
enum Shown<'v> {
    Nothing,
    Number(i64),
    Text(&'v [u8]),
}

/// A run of all runners.
struct Run<'r, N> {
    plan: Plan<'r>,
    runners: Vec<Runner>,
    facts: Changing<i64>,
    stacks: Stacks,
    notes: &'r mut N,
}

/// Runs the events and finishes all runners.
pub fn run<'r, N: Notes>(tree: &'r Tree<'r>, world: &'r World<'r>, leaves: &'r Leaves, notes: &'r mut N) -> Exit {
    let mut run = Run {
        plan: Plan { tree, world, leaves },
        runners: (0..world.runners).map(|_| Runner::new(tree, leaves)).collect(),
        facts: Changing::new(world.facts.iter().map(|it| it.opening).collect()),
        stacks: Stacks::new(),
        notes,
    };
    for event in &world.events {
        let ended = run.event(event);
        if run.notes.has_failed() {
            return Exit::Write;
        }
        if ended.is_err() {
            return Exit::Fault;
        }
    }
    let last = world.events.last().map_or(0, |it| it.at);
    for runner in 1..=world.runners {
        run.notes.finish(runner, last);
        if run.turn(runner, last, |turn| turn.reset(0)).is_err() {
            return Exit::Fault;
        }
    }
    Exit::Done
}

impl<N: Notes> Run<'_, N> {
    fn event(&mut self, event: &Event) -> Result<(), Broken> {
        match event.what {
            What::Tick(runner) => {
                self.notes.tick(runner, event.at);
                self.turn(runner, event.at, |turn| turn.tick(runner))
            }
            What::Halt(runner) => {
                self.notes.halt(runner, event.at);
                self.turn(runner, event.at, |turn| turn.reset(0))
            }
            What::Change { fact, value } => {
                self.notes.change(fact, value, event.at);
                self.facts.put(fact, value);
                self.tell_facts();
                Ok(())
            }
            What::Tell { runner, uid, telling } => {
                let succeeds = self.plan.world.tellings[telling as usize].succeeds;
                self.notes.tell(runner, uid, succeeds, event.at);
                let leaf = self.plan.tree.nodes[uid as usize - 1].detail as usize;
                self.runners[runner as usize - 1].instances[leaf].told = Some((telling, succeeds));
                Ok(())
            }
        }
    }

    /// Takes a turn of a runner and tells what it changed.
    fn turn(&mut self, runner: u32, now: u64, take: impl FnOnce(&mut Turn<N>) -> Result<(), Broken>) -> Result<(), Broken> {
        let mut turn = Turn {
            plan: self.plan,
            runner: &mut self.runners[runner as usize - 1],
            facts: &mut self.facts,
            stacks: &mut self.stacks,
            notes: &mut *self.notes,
            now,
            fault: (0, Cause::Overflow),
        };
        let ended = take(&mut turn);
        let (node, cause) = turn.fault;
        if ended.is_err() {
            self.notes.fault(runner, node, cause);
            self.quench();
        }
        self.tell_facts();
        let notes = &mut *self.notes;
        self.runners[runner as usize - 1].board.end_block(|slot, value| notes.entry(runner, slot, value));
        ended
    }

    fn tell_facts(&mut self) {
        let notes = &mut *self.notes;
        self.facts.end_block(|fact, value| notes.fact(fact, *value));
    }

    /// Halts whatever is still held. No event follows, so nothing else needs to be cleared.
    fn quench(&mut self) {
        for (runner, number) in self.runners.iter().zip(1..) {
            for (leaf, instance) in self.plan.leaves.leaves.iter().zip(&runner.instances) {
                if instance.is_held {
                    self.notes.quenched(number, leaf.node);
                }
            }
        }
    }
}
