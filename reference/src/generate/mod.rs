//! Deterministic inputs for load, step and run: sound ones, sound ones damaged in
//! one place, ones at and past every limit, and plain random bytes. (Calls on a
//! shelf are in a file of their own.)

pub mod damage;
pub mod edges;
pub mod fleets;
pub mod schedules;
pub mod shelves;
pub mod worlds;

use crate::cases::{Call, Case, FILL};
use crate::rng::Rng;
use crate::schedule;
use crate::state::{World, STATE_WORDS};
use crate::step::Step;
use crate::table::{Fleet, MAX_NODES};
use fleets::Scale;

/// The case with this index under a seed. Small ones have at most 24 nodes
/// and short schedules.
pub fn case(seed: u64, index: u64, small: bool) -> Case {
    let rng = &mut Rng::for_index(seed, index);
    match rng.weighted(&[10, 6, 5, 1]) {
        0 => sound(rng, small),
        1 => {
            let mut case = sound(rng, small);
            damage::damage(rng, &mut case);
            case
        }
        2 => edges::edge(rng, small),
        _ => noise(rng),
    }
}

/// An accepted fleet with a well-formed state.
fn sound(rng: &mut Rng, small: bool) -> Case {
    let scale = match rng.below(8) {
        _ if small => Scale::Small,
        0 => Scale::Large,
        1..=3 => Scale::Small,
        _ => Scale::Middle,
    };
    let (table, fleet) = fleets::accepted(rng, scale);
    let scratch = (2 * fleet.sizes.nodes + rng.below(3)).min(2 * MAX_NODES);
    let (state, fill, call) = match rng.weighted(&[2, 4, 4]) {
        0 => (vec![FILL; STATE_WORDS], FILL, Call::Load),
        kind => {
            // Runs start early, while there is much to do.
            let most_steps = match (small, kind) {
                (true, 1) => 12,
                (true, _) => 3,
                (false, 1) => 60,
                (false, _) => 12,
            };
            let world = world(rng, &fleet, most_steps);
            let call = if kind == 1 {
                step(rng, &fleet, &world)
            } else {
                run(rng, &fleet, &world, small)
            };
            (world.words(), 0, call)
        }
    };
    Case {
        table,
        state,
        fill,
        scratch,
        call,
    }
}

fn world(rng: &mut Rng, fleet: &Fleet, most_steps: usize) -> World {
    if rng.chance(60) {
        worlds::reached(rng, fleet, most_steps)
    } else {
        worlds::invented(rng, fleet)
    }
}

fn step(rng: &mut Rng, fleet: &Fleet, world: &World) -> Call {
    if rng.chance(15) {
        return Call::Step(schedules::any(rng, fleet));
    }
    if rng.chance(10) {
        // Often too early, with keys pending.
        return Call::Step(Step::act(rng.below(fleet.sizes.agents) as u16, 0));
    }
    let enabled = schedules::enabled(rng, fleet, world);
    Call::Step(enabled.unwrap_or_else(|| schedules::any(rng, fleet)))
}

fn run(rng: &mut Rng, fleet: &Fleet, world: &World, small: bool) -> Call {
    let most = match rng.below(10) {
        0 => 1,
        1 if !small => 400,
        _ if small => 16,
        _ => 60,
    };
    let steps = rng.below(most);
    let steps = schedules::mostly_enabled(rng, fleet, &mut world.clone(), steps);
    Call::Run {
        answers: steps.len() + rng.below(3),
        schedule: schedule::write(&steps),
    }
}

/// Random bytes, at times under a header that fits them.
fn noise(rng: &mut Rng) -> Case {
    let mut table = bytes(rng, 120);
    if rng.chance(60) {
        let nodes = rng.between(1, 20);
        table = (0..12 + 5 * nodes).map(|_| rng.word() as u8).collect();
        let header = [nodes, rng.below(3), rng.between(1, 3), 4, rng.below(3), 4];
        for (i, field) in header.into_iter().enumerate() {
            table[2 * i] = field as u8;
            table[2 * i + 1] = 0;
        }
    }
    let mut state = vec![0; STATE_WORDS];
    for _ in 0..rng.below(20) {
        state[rng.below(STATE_WORDS)] = rng.word() as u32;
    }
    let call = match rng.below(3) {
        0 => Call::Load,
        1 => Call::Step(Step {
            kind: rng.word() as u8,
            agent: rng.word() as u16,
            number: rng.word() as u16,
        }),
        _ => Call::Run {
            schedule: bytes(rng, 60),
            answers: rng.below(20),
        },
    };
    Case {
        table,
        state,
        fill: 0,
        scratch: rng.below(2 * MAX_NODES + 1),
        call,
    }
}

fn bytes(rng: &mut Rng, most: usize) -> Vec<u8> {
    let length = rng.below(most + 1);
    (0..length).map(|_| rng.word() as u8).collect()
}
