//! States: reached from load, and well-formed ones that no load leads to.

use std::collections::BTreeMap;
use std::ops::Range;
use std::rc::Rc;

use crate::generate::fleets::value;
use crate::generate::schedules::mostly_enabled;
use crate::rng::Rng;
use crate::state::{Agent, Entry, World, MAX_CLOCK};
use crate::syntax::{Key, Process};
use crate::table::Fleet;
use crate::term::{Term, MAX_WORDS};

/// A world some steps after load.
pub fn reached(rng: &mut Rng, fleet: &Fleet, most_steps: usize) -> World {
    let mut world = World::start(fleet);
    let steps = rng.below(most_steps + 1);
    mostly_enabled(rng, fleet, &mut world, steps);
    world
}

/// A well-formed world that knows nothing of writes or of derivations.
pub fn invented(rng: &mut Rng, fleet: &Fleet) -> World {
    let clock = match rng.below(6) {
        0 => 0,
        1 => MAX_CLOCK,
        2 => MAX_CLOCK - 1,
        3 => rng.below(65_536) as u32,
        _ => rng.between(1, 6) as u32,
    };
    let processes = fleet.processes();
    let mut environment = BTreeMap::new();
    for key in keys(fleet.sizes.environment) {
        if rng.chance(60) {
            environment.insert(key, value(rng));
        }
    }
    let agents = (0..fleet.sizes.agents)
        .map(|_| agent(rng, fleet, &processes, clock))
        .collect();
    World {
        clock,
        environment,
        agents,
    }
}

fn keys(size: usize) -> Range<Key> {
    0..size as Key
}

fn agent(rng: &mut Rng, fleet: &Fleet, processes: &[Rc<Process>], clock: u32) -> Agent {
    let words = match rng.below(8) {
        0 => MAX_WORDS,
        1 => rng.between(1, MAX_WORDS),
        _ => rng.between(1, 7),
    };
    let mut agent = Agent::new(term(rng, processes, words));
    for key in keys(fleet.sizes.attributes) {
        if rng.chance(70) {
            agent.attributes.insert(key, value(rng));
        }
    }
    let pending = rng.chance(40);
    for key in keys(fleet.sizes.stigmergy) {
        if clock == 0 || rng.chance(30) {
            continue;
        }
        let stamp = if rng.chance(50) {
            clock - rng.below(clock.min(3) as usize) as u32
        } else {
            1 + rng.below(clock as usize) as u32
        };
        let entry = Entry::new(value(rng), stamp, rng.below(fleet.sizes.agents) as u16);
        agent.entries.insert(key, entry);
        if pending && rng.chance(50) {
            agent.to_confirm.insert(key);
        }
        if pending && rng.chance(50) {
            agent.to_propagate.insert(key);
        }
    }
    agent
}

/// A term of so many words, or of one fewer: the number of words is odd.
fn term(rng: &mut Rng, processes: &[Rc<Process>], words: usize) -> Term {
    let words = words - (words + 1) % 2;
    if words == 1 {
        return match rng.below(8) {
            0 => Term::Idle,
            1 | 2 => Term::Tick,
            _ => Term::Process(Rc::clone(rng.pick(processes))),
        };
    }
    let left = 1 + 2 * rng.below((words - 1) / 2);
    let p = term(rng, processes, left);
    let q = term(rng, processes, words - 1 - left);
    if rng.chance(60) {
        Term::sequence(p, q)
    } else {
        Term::parallel(p, q)
    }
}
