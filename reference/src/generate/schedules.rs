//! Schedules of mostly enabled steps.

use crate::derive::{any_over, count_term};
use crate::rng::Rng;
use crate::state::World;
use crate::step::Step;
use crate::table::Fleet;

/// How often a step that is likely to be done is looked for.
const TRIES: usize = 12;

/// At most so many steps from this world, most of which are done; the world
/// goes with them. Where nothing seems enabled any more the list ends, mostly.
pub fn mostly_enabled(rng: &mut Rng, fleet: &Fleet, world: &mut World, most: usize) -> Vec<Step> {
    let mut steps = Vec::new();
    while steps.len() < most {
        let step = match rng.below(16) {
            0 => any(rng, fleet),
            1 => likely(rng, fleet, world),
            _ => match enabled(rng, fleet, world) {
                Some(step) => step,
                None if rng.chance(40) => break,
                None => likely(rng, fleet, world),
            },
        };
        let _ = world.step(fleet, step);
        steps.push(step);
    }
    steps
}

/// A step that would be done, if a few tries find one.
pub fn enabled(rng: &mut Rng, fleet: &Fleet, world: &World) -> Option<Step> {
    (0..TRIES)
        .map(|_| likely(rng, fleet, world))
        .find(|&step| world.clone().step(fleet, step).is_ok())
}

/// A step of which it is known at least that its key or choice is there, if
/// the agent has any.
fn likely(rng: &mut Rng, fleet: &Fleet, world: &World) -> Step {
    let who = rng.below(world.agents.len());
    let agent = &world.agents[who];
    let who = who as u16;
    let confirm = agent.to_confirm.iter().map(|&key| Step::confirm(who, key));
    let propagate = agent
        .to_propagate
        .iter()
        .map(|&key| Step::propagate(who, key));
    let pending: Vec<Step> = confirm.chain(propagate).collect();
    if !pending.is_empty() {
        return *rng.pick(&pending);
    }
    if any_over(&agent.residual, fleet) {
        return Step::act(who, 0);
    }
    let choices = count_term(&agent.residual, fleet).total().max(1);
    Step::act(who, rng.below(choices as usize) as u16)
}

/// A step with little thought.
pub fn any(rng: &mut Rng, fleet: &Fleet) -> Step {
    if rng.chance(5) {
        return Step {
            kind: rng.word() as u8,
            agent: rng.word() as u16,
            number: rng.word() as u16,
        };
    }
    // One past the range, at times.
    let kinds = 3 + usize::from(rng.chance(10));
    let agents = fleet.sizes.agents + usize::from(rng.chance(10));
    Step {
        kind: rng.below(kinds) as u8,
        agent: rng.below(agents) as u16,
        number: rng.below(fleet.sizes.stigmergy + 1) as u16,
    }
}
