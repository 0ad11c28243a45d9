//! Calls on shelves, sound and damaged; and lists of steps, runs, loads, saves,
//! restores and drops.

use std::collections::BTreeSet;

use crate::cases::{Call, FILL};
use crate::generate::damage::{damage_state, damage_writer};
use crate::generate::schedules::{any, enabled};
use crate::generate::worlds::{invented, reached};
use crate::machine::open;
use crate::rng::Rng;
use crate::shelf::{state_at, PLACES, SHELF_WORDS};
use crate::shelf_cases::{ShelfCase, SHELF_CALLS};
use crate::state::{World, STATE_WORDS};
use crate::step::Step;
use crate::surviving::Element;
use crate::table::{Fleet, Sizes};

/// Names at the edges, and words that are none.
pub const EDGE_NAMES: [u32; 9] = [0, 1, 255, 256, 257, 65_535, 65_536, 65_537, u32::MAX];

/// The call with this index under a seed: the table, the state and the length of
/// the scratch are those of the case that load, step and run have there.
pub fn case(seed: u64, index: u64, small: bool) -> ShelfCase {
    let lent = super::case(seed, index, small);
    let rng = &mut Rng::for_index(!seed, index);
    let fleet = open(&lent.table, STATE_WORDS, usize::MAX).ok();
    let (mut state, mut shelf) = (lent.state, empty(rng));
    if let Some(fleet) = &fleet {
        if lent.call == Call::Load && state.len() == STATE_WORDS {
            state = world(rng, fleet).words();
        }
        fill(rng, fleet, &mut shelf);
        if rng.chance(30) {
            damage_shelf(rng, &mut shelf, fleet.sizes);
        }
    }
    ShelfCase {
        call: *rng.pick(&SHELF_CALLS),
        name: name(rng, &shelf),
        table: lent.table,
        state,
        scratch: lent.scratch,
        shelf,
    }
}

/// A shelf of no names, whose states hold anything.
pub fn empty(rng: &mut Rng) -> Vec<u32> {
    let mut shelf = vec![0; SHELF_WORDS];
    for place in 0..PLACES {
        let word = *rng.pick(&[0, 1, FILL]);
        shelf[state_at(place)].fill(word);
    }
    shelf
}

fn world(rng: &mut Rng, fleet: &Fleet) -> World {
    if rng.chance(60) {
        reached(rng, fleet, 8)
    } else {
        invented(rng, fleet)
    }
}

/// Points at some places, at none or at all; a free place may keep a state.
fn fill(rng: &mut Rng, fleet: &Fleet, shelf: &mut [u32]) {
    let held = *rng.pick(&[0, 1, 3, 6, PLACES - 1, PLACES, PLACES]);
    let most = *rng.pick(&[10, 255]);
    let mut names = BTreeSet::new();
    while names.len() < held {
        names.insert(1 + rng.below(most) as u32);
    }
    let mut places: Vec<usize> = (0..PLACES).collect();
    for name in names {
        let place = places.swap_remove(rng.below(places.len()));
        shelf[place] = name;
        world(rng, fleet).encode(&mut shelf[state_at(place)]);
    }
    if let (Some(&place), true) = (places.first(), rng.chance(50)) {
        world(rng, fleet).encode(&mut shelf[state_at(place)]);
    }
}

/// Damage in one place, most of which is refused.
fn damage_shelf(rng: &mut Rng, shelf: &mut Vec<u32>, sizes: Sizes) {
    let (place, other) = (rng.below(PLACES), rng.below(PLACES));
    match rng.below(7) {
        0 => {
            let lengths = [0, 1, PLACES, STATE_WORDS, SHELF_WORDS - 1, SHELF_WORDS + 1];
            shelf.resize(*rng.pick(&lengths), 0);
        }
        // A point twice, name and state.
        1 => {
            shelf[other] = shelf[place];
            shelf.copy_within(state_at(place), state_at(other).start);
        }
        2 => shelf[place] = *rng.pick(&[256, 257, 65_536, 65_537, u32::MAX]),
        // A name, whatever the state is.
        3 => shelf[place] = 1 + rng.below(255) as u32,
        4 => damage_writer(rng, &mut shelf[state_at(place)], sizes),
        _ => damage_state(rng, &mut shelf[state_at(place)], sizes),
    }
}

/// Mostly a name that is held, or could be.
fn name(rng: &mut Rng, shelf: &[u32]) -> u32 {
    let names = shelf.iter().take(PLACES).copied();
    let held: Vec<u32> = names.filter(|&name| name > 0).collect();
    match rng.below(4) {
        0 => *rng.pick(&EDGE_NAMES),
        1 => 1 + rng.below(255) as u32,
        _ if held.is_empty() => 1,
        _ => *rng.pick(&held),
    }
}

/// How the elements of a list are drawn.
pub struct Elements {
    names: Vec<u32>,
    /// Of steps, runs, loads, saves, restores and drops.
    weights: [usize; 6],
}

impl Elements {
    /// Where drops are few and names are many, shelves become full.
    pub fn new(rng: &mut Rng) -> Elements {
        let names = *rng.pick(&[1, 3, 6, 12, 20]);
        Elements {
            names: (0..names).map(|_| 1 + rng.below(255) as u32).collect(),
            weights: [60, 8, 1, 24, 15, *rng.pick(&[3, 18])],
        }
    }

    /// An element after which the list may go on from this world.
    pub fn draw(&self, rng: &mut Rng, fleet: &Fleet, world: &World) -> Element {
        match rng.weighted(&self.weights) {
            0 => Element::Step(step(rng, fleet, world)),
            1 => run(rng, fleet, world),
            2 => Element::Load,
            call => Element::Shelf(SHELF_CALLS[call - 3], self.name(rng)),
        }
    }

    fn name(&self, rng: &mut Rng) -> u32 {
        if rng.chance(8) {
            *rng.pick(&EDGE_NAMES)
        } else {
            *rng.pick(&self.names)
        }
    }
}

fn step(rng: &mut Rng, fleet: &Fleet, world: &World) -> Step {
    match enabled(rng, fleet, world) {
        Some(step) if rng.chance(85) => step,
        _ => any(rng, fleet),
    }
}

/// A run from this world, at times without room for all answers.
fn run(rng: &mut Rng, fleet: &Fleet, world: &World) -> Element {
    let mut world = world.clone();
    let mut steps = Vec::new();
    for _ in 0..rng.below(6) {
        let next = step(rng, fleet, &world);
        let _ = world.step(fleet, next);
        steps.push(next);
    }
    let room = if rng.chance(15) {
        rng.below(steps.len() + 1)
    } else {
        steps.len()
    };
    Element::Run(steps, room)
}
