//! Plans: the modelled runs of a plan tree, and the steps from one tree to the next.
//!
//! All nodes of a plan tree but its actions are reactive, and of an action only what is held counts. After a tick one is held
//! at most: each node that passes RUNNING on resets its other children. So a run keeps no status and no memo.

use crate::elements::NONE;
use crate::engine::{ask, changed_facts, Answer, Instance};
use crate::plan_tree::{Conflict, PlanTree, Sequence};
use crate::scripts::{Cause, Code, Stacks};
use crate::world::{World, PORTS};

/// What bounds a plan.
#[derive(Clone, Copy)]
pub struct Limits {
    /// The most sequences that are added.
    pub expand: u32,
    /// The most ticks of a run.
    pub ticks: u32,
    /// The milliseconds between two ticks.
    pub period: u64,
}

/// A step: an expansion with its raises.
pub struct Step {
    /// The number of the condition in the tree before.
    pub number: u32,
    /// The row of the condition.
    pub condition: u32,
    /// The row of the action.
    pub action: u32,
    /// How many raises there were.
    pub raises: u32,
}

/// How a plan ends.
pub enum End {
    /// All goals are true after this tick.
    Reached(u32),
    /// The rows of the conditions that failed, none of which has a template left.
    NoTemplate(Vec<u32>),
    /// No raise is left.
    NoOrder(Conflict),
    /// All sequences that are allowed were added.
    Expansions,
    /// All ticks that are allowed were made.
    StillRunning,
    /// A run faults at this node.
    Faulted(u32, Cause),
}

/// A plan.
pub struct Plan<'w> {
    /// The last tree.
    pub tree: PlanTree<'w>,
    /// The steps.
    pub steps: Vec<Step>,
    /// How it ends.
    pub end: End,
}

/// Plans for the goals of a world.
pub fn plan<'w>(world: &'w World<'w>, limits: Limits) -> Plan<'w> {
    let mut tree = PlanTree::new(world);
    let mut run = Run::new(world);
    let mut steps = Vec::new();
    let end = loop {
        if let Some(end) = run.end_of(&tree, limits) {
            break end;
        }
        let Some((condition, template)) = first_untried(&mut tree, &run.failed) else {
            run.failed.sort_by_key(|it| it.depth);
            break End::NoTemplate(run.failed.iter().map(|it| tree.conditions[it.condition as usize].row).collect());
        };
        if steps.len() as u32 == limits.expand {
            break End::Expansions;
        }
        let number = tree.number(condition);
        match tree.expand(condition, template) {
            Ok(raises) => steps.push(Step { number, condition: tree.conditions[condition as usize].row, action: template, raises }),
            Err(conflict) => break End::NoOrder(conflict),
        }
    };
    Plan { tree, steps, end }
}

/// The first condition by its depth that has an untried template, and that template.
fn first_untried(tree: &mut PlanTree, failed: &[Failed]) -> Option<(u32, u32)> {
    let mut first = None;
    let mut depth = u32::MAX;
    for it in failed {
        if it.depth < depth {
            if let Some(template) = tree.untried(it.condition) {
                first = Some((it.condition, template));
                depth = it.depth;
            }
        }
    }
    first
}

/// A condition that answered FAILURE, and how deep its node stands.
#[derive(Clone, Copy)]
struct Failed {
    condition: u32,
    depth: u32,
}

/// A visit ended by a fault, which the run knows.
struct Broken;

/// A modelled run.
struct Run<'w> {
    world: &'w World<'w>,
    opening: Vec<i64>,
    /// The facts, and a 0 behind them.
    facts: Vec<i64>,
    now: u64,
    /// The sequence whose action is held, and since when.
    held: u32,
    since: u64,
    /// How long it lasts where its length is an expression.
    length: u64,
    /// How often the action of each sequence has completed.
    completions: Vec<u8>,
    /// What failed in this tick, from left to right.
    failed: Vec<Failed>,
    /// The sequence whose action faulted, and why.
    fault: (u32, Cause),
    /// The goal that was not true when it was looked for last.
    missing: usize,
    stacks: Stacks,
}

impl<'w> Run<'w> {
    fn new(world: &'w World<'w>) -> Run<'w> {
        let mut opening: Vec<i64> = world.facts.iter().map(|it| it.opening).collect();
        opening.push(0);
        let facts = opening.clone();
        let (held, since, length, now, missing) = (NONE, 0, 0, 0, 0);
        let fault = (NONE, Cause::Overflow);
        let (completions, failed, stacks) = (Vec::new(), Vec::new(), Stacks::new());
        Run { world, opening, facts, now, held, since, length, completions, failed, fault, missing, stacks }
    }

    /// Runs a tree from the beginning: how the plan ends with it, or none where the tree failed.
    fn end_of(&mut self, tree: &PlanTree, limits: Limits) -> Option<End> {
        self.facts.copy_from_slice(&self.opening);
        self.completions.clear();
        self.completions.resize(tree.sequences.len(), 0);
        self.held = NONE;
        for tick in 1..=limits.ticks {
            self.now = u64::from(tick - 1) * limits.period;
            self.failed.clear();
            let Ok(answer) = self.visit(tree, 0, 1) else {
                return Some(End::Faulted(tree.number_of_action(self.fault.0), self.fault.1));
            };
            if answer != Answer::Running {
                self.held = NONE;
            }
            if self.is_reached(tree) {
                return Some(End::Reached(tick));
            }
            if answer == Answer::Failure {
                return None;
            }
        }
        Some(End::StillRunning)
    }

    /// Whether all goals are true.
    fn is_reached(&mut self, tree: &PlanTree) -> bool {
        let goals = tree.children(&tree.sequences[0]);
        if !goals[self.missing].holds(&self.facts) {
            return false;
        }
        match goals.iter().position(|it| !it.holds(&self.facts)) {
            None => true,
            Some(missing) => {
                self.missing = missing;
                false
            }
        }
    }

    /// Visits a sequence, whose node stands at this depth.
    fn visit(&mut self, tree: &PlanTree, at: u32, depth: u32) -> Result<Answer, Broken> {
        let sequence = &tree.sequences[at as usize];
        'children: for child in tree.children(sequence) {
            if child.holds(&self.facts) {
                continue;
            }
            let mut added = tree.conditions[child.condition as usize].first;
            self.failed.push(Failed { condition: child.condition, depth: depth + 1 + u32::from(added != NONE) });
            while added != NONE {
                match self.visit(tree, added, depth + 2)? {
                    Answer::Success => continue 'children,
                    Answer::Failure => added = tree.sequences[added as usize].next,
                    answer => return Ok(answer),
                }
            }
            return Ok(Answer::Failure);
        }
        if sequence.action == NONE {
            return Ok(Answer::Success);
        }
        self.call(sequence, at).map_err(|cause| {
            self.fault = (at, cause);
            Broken
        })
    }

    /// Calls the driver of a sequence's action. A fault leaves all as it is.
    #[inline(never)]
    fn call(&mut self, sequence: &Sequence, at: u32) -> Result<Answer, Cause> {
        let world = self.world;
        let row = &world.rows[sequence.action as usize];
        let is_held = self.held == at;
        let since = if is_held { self.since } else { self.now };
        let mut instance = Instance { is_held, since, length: self.length, completions: self.completions[at as usize], told: None };
        let mut number = |code: Code| {
            let fact = |name: u32| Ok(self.facts[(name - PORTS) as usize]);
            world.codes.number(code, fact, &mut self.stacks)
        };
        let answer = ask(row, &mut instance, self.now, &mut number)?;
        if answer == Answer::Success {
            for (_, code) in &row.outputs {
                number(*code)?;
            }
            let values = changed_facts(row, &self.facts)?;
            for (effect, &value) in row.effects.iter().zip(&values) {
                self.facts[effect.fact as usize] = value;
            }
        }
        if answer == Answer::Running {
            (self.held, self.since, self.length) = (at, since, instance.length);
        }
        self.completions[at as usize] = instance.completions;
        Ok(answer)
    }
}
