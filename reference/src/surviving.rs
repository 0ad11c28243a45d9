//! Lists of steps, runs, loads, saves, restores and drops, and the line of steps
//! that survives in them.

use std::collections::BTreeMap;

use crate::shelf_cases::ShelfCall;
use crate::state::World;
use crate::step::Step;
use crate::syntax::Key;
use crate::table::MAX_KEYS;

#[derive(Clone, Debug, PartialEq, Eq)]
pub enum Element {
    Step(Step),
    /// A schedule of these steps, with room for so many answers.
    Run(Vec<Step>, usize),
    /// Of the same table.
    Load,
    /// With its name.
    Shelf(ShelfCall, u32),
}

/// The done steps that lead from load to the state, and to each saved state. Refused steps, which change nothing, are
/// left out here; the definitions keep them.
#[derive(Clone, Debug, Default, PartialEq, Eq)]
pub struct Lines {
    pub now: Vec<Step>,
    pub saved: BTreeMap<u32, Vec<Step>>,
}

impl Lines {
    /// An element was done; of a run, with the answers to its steps. (A refused one changes no line.)
    pub fn add(&mut self, done: &Element, answers: &[u8]) {
        match *done {
            Element::Step(step) => self.now.push(step),
            Element::Run(ref steps, _) => {
                let answered = steps.iter().zip(answers);
                let done = answered.filter(|(_, &answer)| answer == 0);
                self.now.extend(done.map(|(step, _)| step));
            }
            Element::Load => self.now.clear(),
            Element::Shelf(ShelfCall::Save, name) => {
                self.saved.insert(name, self.now.clone());
            }
            Element::Shelf(ShelfCall::Restore, name) => {
                self.now = self.saved[&name].clone();
            }
            Element::Shelf(ShelfCall::Drop, name) => {
                self.saved.remove(&name);
            }
        }
    }
}

/// How many stamps are lower in the second of two worlds.
pub fn fallen(before: &World, after: &World) -> usize {
    let agents = before.agents.iter().zip(&after.agents);
    let fallen = |key: Key| {
        let agents = agents.clone();
        agents.filter(move |(was, is)| is.stamp(key) < was.stamp(key))
    };
    (0..MAX_KEYS as Key).flat_map(fallen).count()
}
