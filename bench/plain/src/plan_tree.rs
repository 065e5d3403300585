//! The plan tree: expansions, raises and conflicts.
//!
//! It is kept as sequences and conditions. The children of a sequence are conditions, which stand side by side in one list: each
//! alone, or as the head of a fallback over the sequences that were added for it, so that a fallback is no item of its own. An
//! expansion appends a sequence. All raises in one sequence are one turn of a part of its children, and what conflicts is only
//! looked for where it may be: before an expansion nothing does, so it is the new action with heads before it, or an action that
//! is passed by a raise with the head that passes it.

use crate::elements::NONE;
use crate::scripts::Comparison;
use crate::world::{Effect, Row, Sort, World};
use std::cmp::Reverse;

/// A child of a sequence as a run tests it: whether its fact is in a range.
#[derive(Clone, Copy)]
pub struct Child {
    first: i64,
    width: u64,
    fact: u32,
    /// Its condition.
    pub condition: u32,
}

impl Child {
    /// Whether the test holds. Behind the facts stands one that is 0, for tests that no number passes.
    #[inline]
    pub fn holds(&self, facts: &[i64]) -> bool {
        facts[self.fact as usize].wrapping_sub(self.first) as u64 <= self.width
    }
}

/// What a condition's row compares.
#[derive(Clone, Copy)]
struct Test {
    fact: u32,
    comparison: Comparison,
    value: i64,
}

impl Test {
    fn is_achieved_by(self, effect: &Effect) -> bool {
        if effect.adds {
            self.comparison.is_neared_by(effect.number)
        } else {
            self.comparison.holds(effect.number, self.value)
        }
    }

    fn is_threatened_by(self, effect: &Effect) -> bool {
        effect.fact == self.fact
            && if effect.adds { self.comparison.is_left_by(effect.number) } else { !self.comparison.holds(effect.number, self.value) }
    }
}

/// A condition.
pub struct Condition {
    /// Its row.
    pub row: u32,
    /// The first sequence that was added for it.
    pub first: u32,
    last: u32,
    /// The sequence in which it stands, and its place there.
    parent: u32,
    place: u32,
    /// How many nodes stand here, with the fallback and all below it.
    size: u32,
    /// How many of the effects on its fact have been looked at.
    looked: u32,
    /// The condition made before it that tests the same fact.
    before: u32,
}

/// A sequence.
#[derive(Clone, Copy)]
pub struct Sequence {
    /// Where its children begin.
    pub children: u32,
    /// How many they are.
    pub count: u32,
    /// The row of its action, which the root has not.
    pub action: u32,
    /// The next sequence that was added for the same condition.
    pub next: u32,
    /// The condition for which it was added.
    owner: u32,
    size: u32,
    /// Where it stands among the sequences above the one that was added last, if it is one of them.
    level: u32,
}

/// A pair of rows: an action, and a condition that it threatens.
pub type Conflict = (u32, u32);

/// A plan tree.
pub struct PlanTree<'w> {
    world: &'w World<'w>,
    children: Vec<Child>,
    /// The conditions.
    pub conditions: Vec<Condition>,
    /// The sequences, of which the first is the root.
    pub sequences: Vec<Sequence>,
    /// For each fact, the last condition that tests it.
    last_of: Vec<u32>,
    /// For each fact, the rows of the templates that have an effect on it, and its place among theirs.
    templates: Vec<Vec<(u32, u32)>>,
    /// The sequences above the one that was added last, from the inside, and the place of the child on the way.
    levels: Vec<(u32, u32)>,
}

impl<'w> PlanTree<'w> {
    /// The sequence of the goals.
    pub fn new(world: &'w World<'w>) -> PlanTree<'w> {
        let mut templates = vec![Vec::new(); world.facts.len()];
        for (row, number) in world.rows.iter().zip(0..).filter(|it| it.0.ports.is_empty()) {
            for (effect, place) in row.effects.iter().zip(0..) {
                templates[effect.fact as usize].push((number, place));
            }
        }
        let last_of = vec![NONE; world.facts.len()];
        let (children, conditions, sequences, levels) = Default::default();
        let mut tree = PlanTree { world, children, conditions, sequences, last_of, templates, levels };
        tree.add(&world.goals, NONE, NONE);
        tree
    }

    /// The children of a sequence.
    #[inline]
    pub fn children(&self, sequence: &Sequence) -> &[Child] {
        &self.children[sequence.children as usize..(sequence.children + sequence.count) as usize]
    }

    fn children_of(&mut self, sequence: u32) -> &mut [Child] {
        let Sequence { children, count, .. } = self.sequences[sequence as usize];
        &mut self.children[children as usize..(children + count) as usize]
    }

    fn row(&self, row: u32) -> &'w Row<'w> {
        &self.world.rows[row as usize]
    }

    fn test(&self, row: u32) -> Test {
        match self.row(row).sort {
            Sort::Is { fact, comparison, value } => Test { fact, comparison, value },
            // Goals and needs compare facts.
            _ => unreachable!(),
        }
    }

    /// Appends a sequence of tests and an action.
    fn add(&mut self, tests: &[u32], action: u32, owner: u32) {
        let (number, children) = (self.sequences.len() as u32, self.children.len() as u32);
        let no_fact = self.world.facts.len() as u32;
        for (&row, place) in tests.iter().zip(0..) {
            let Test { fact, comparison, value } = self.test(row);
            let condition = self.conditions.len() as u32;
            self.children.push(match comparison.range(value) {
                Some((first, width)) => Child { first, width, fact, condition },
                None => Child { first: 1, width: 0, fact: no_fact, condition },
            });
            let before = std::mem::replace(&mut self.last_of[fact as usize], condition);
            let (first, last, size, looked) = (NONE, NONE, 1, 0);
            self.conditions.push(Condition { row, first, last, parent: number, place, size, looked, before });
        }
        let count = tests.len() as u32;
        let size = 1 + count + u32::from(action != NONE);
        self.sequences.push(Sequence { children, count, action, owner, next: NONE, size, level: 0 });
    }

    /// The first untried template of a condition. The effects before its own need not be looked at again.
    pub fn untried(&mut self, condition: u32) -> Option<u32> {
        let at = condition as usize;
        let test = self.test(self.conditions[at].row);
        let templates = &self.templates[test.fact as usize];
        while let Some(&(row, place)) = templates.get(self.conditions[at].looked as usize) {
            if test.is_achieved_by(&self.world.rows[row as usize].effects[place as usize]) {
                return Some(row);
            }
            self.conditions[at].looked += 1;
        }
        None
    }

    /// Adds a sequence for a condition, by its first untried template, and raises it as long as there is a conflict: how often,
    /// or the first conflict after the last raise.
    pub fn expand(&mut self, condition: u32, template: u32) -> Result<u32, Conflict> {
        let (added, row) = (self.sequences.len() as u32, self.row(template));
        self.add(&row.needs, template, condition);
        self.hang(added, condition);
        let Some((outermost, place)) = self.last_conflict(row) else {
            return Ok(0);
        };
        let mut raises = 0;
        let mut undoes = false;
        for level in 0..=outermost {
            let to = if level == outermost { place } else { 0 };
            raises += self.levels[level as usize].1 - to;
            undoes |= self.raise(level, to);
        }
        if !undoes {
            return Ok(raises);
        }
        // What an action passed by threatens stays before it, however far the new sequence is raised.
        for level in outermost..self.levels.len() as u32 {
            self.raise(level, 0);
        }
        self.first_conflict(0, &mut Vec::new()).map_or(Ok(raises), Err)
    }

    /// Hangs a new sequence behind the others of its condition, and notes the sequences above it.
    fn hang(&mut self, added: u32, condition: u32) {
        let it = &mut self.conditions[condition as usize];
        it.looked += 1;
        let before = std::mem::replace(&mut it.last, added);
        let mut size = self.sequences[added as usize].size;
        if before == NONE {
            it.first = added;
            size += 1;
        } else {
            self.sequences[before as usize].next = added;
        }
        self.levels.clear();
        let mut at = condition;
        while at != NONE {
            let it = &mut self.conditions[at as usize];
            it.size += size;
            let above = &mut self.sequences[it.parent as usize];
            above.size += size;
            above.level = self.levels.len() as u32;
            self.levels.push((it.parent, it.place));
            at = above.owner;
        }
    }

    /// Of the heads before the new sequence that its action threatens the one that is passed last: the level of its sequence,
    /// and its place there.
    fn last_conflict(&self, row: &Row) -> Option<(u32, u32)> {
        let mut last = None;
        for effect in &row.effects {
            let mut at = self.last_of[effect.fact as usize];
            while at != NONE {
                let Condition { row, parent, place, before, .. } = self.conditions[at as usize];
                let level = self.sequences[parent as usize].level;
                let is_before = self.levels.get(level as usize).is_some_and(|&it| it.0 == parent && place < it.1);
                if is_before && self.test(row).is_threatened_by(effect) {
                    last = last.max(Some((level, Reverse(place))));
                }
                at = before;
            }
        }
        last.map(|(level, Reverse(place))| (level, place))
    }

    /// Moves the child on the way to the new sequence to an earlier place of a sequence above it: whether an action that it
    /// passes threatens its head.
    fn raise(&mut self, level: u32, to: u32) -> bool {
        let (sequence, from) = self.levels[level as usize];
        self.levels[level as usize].1 = to;
        self.children_of(sequence)[to as usize..=from as usize].rotate_right(1);
        let Sequence { children, .. } = self.sequences[sequence as usize];
        for place in to..=from {
            let condition = self.children[(children + place) as usize].condition;
            self.conditions[condition as usize].place = place;
        }
        let moved = &self.children[(children + to) as usize..=(children + from) as usize];
        let [head, passed @ ..] = moved else { return false };
        let test = self.test(self.conditions[head.condition as usize].row);
        passed.iter().any(|it| self.is_threatened_behind(test, it.condition))
    }

    /// The sequences that were added for a condition.
    pub fn added_for(&self, condition: u32) -> impl Iterator<Item = u32> + '_ {
        let mut next = self.conditions[condition as usize].first;
        std::iter::from_fn(move || {
            let added = next;
            next = self.sequences.get(added as usize)?.next;
            Some(added)
        })
    }

    /// Whether an action that was added for a condition, or for one below it, threatens a test.
    fn is_threatened_behind(&self, test: Test, condition: u32) -> bool {
        self.added_for(condition).any(|it| {
            let sequence = &self.sequences[it as usize];
            self.row(sequence.action).effects.iter().any(|it| test.is_threatened_by(it))
                || self.children(sequence).iter().any(|it| self.is_threatened_behind(test, it.condition))
        })
    }

    /// The first conflict of the actions in a sequence with heads outside of theirs, where the way down to it has these
    /// children on it, each by its sequence and its place.
    fn first_conflict(&self, sequence: u32, way: &mut Vec<(u32, u32)>) -> Option<Conflict> {
        let at = &self.sequences[sequence as usize];
        for (child, place) in self.children(at).iter().zip(0..) {
            way.push((sequence, place));
            let found = self.added_for(child.condition).find_map(|it| self.first_conflict(it, way));
            if found.is_some() {
                return found;
            }
            way.pop();
        }
        let action = (at.action != NONE).then(|| self.row(at.action))?;
        let heads = way.iter().flat_map(|&(above, place)| &self.children(&self.sequences[above as usize])[..place as usize]);
        let mut rows = heads.map(|it| self.conditions[it.condition as usize].row);
        let threatened = rows.find(|&it| action.effects.iter().any(|effect| self.test(it).is_threatened_by(effect)))?;
        Some((at.action, threatened))
    }

    /// The number of nodes before a child of a sequence.
    fn before(&self, condition: u32) -> u32 {
        let mut count = 0;
        let mut at = condition;
        loop {
            let Condition { parent, place, .. } = self.conditions[at as usize];
            let sequence = &self.sequences[parent as usize];
            count += 1 + self.before_in(sequence, place);
            if sequence.owner == NONE {
                return count;
            }
            at = sequence.owner;
            count += 2 + self.before_added(at, parent);
        }
    }

    /// The number of nodes in the children of a sequence before a place, which are counted from the nearer end.
    fn before_in(&self, sequence: &Sequence, place: u32) -> u32 {
        let (before, behind) = self.children(sequence).split_at(place as usize);
        let count = |children: &[Child]| children.iter().map(|it| self.conditions[it.condition as usize].size).sum::<u32>();
        if before.len() <= behind.len() {
            count(before)
        } else {
            sequence.size - 1 - u32::from(sequence.action != NONE) - count(behind)
        }
    }

    /// The number of nodes in the sequences that were added for a condition before this one.
    fn before_added(&self, condition: u32, sequence: u32) -> u32 {
        self.added_for(condition).take_while(|&it| it != sequence).map(|it| self.sequences[it as usize].size).sum()
    }

    /// The number of a condition's node, from 1 in pre-order.
    pub fn number(&self, condition: u32) -> u32 {
        let has_fallback = self.conditions[condition as usize].first != NONE;
        1 + self.before(condition) + u32::from(has_fallback)
    }

    /// The number of the node of a sequence's own action.
    pub fn number_of_action(&self, sequence: u32) -> u32 {
        let Sequence { owner, size, .. } = self.sequences[sequence as usize];
        self.before(owner) + 2 + self.before_added(owner, sequence) + size
    }
}
