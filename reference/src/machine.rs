//! Load, step, preview and run. Each checks in the paper's order, and a refused
//! one changes nothing that is lent. Scratch is lent by its length alone: this
//! implementation has no use for the words. (The calls on a shelf are in another
//! file.)

use crate::refusal::{Answer, Counts, Reason, Totals};
use crate::schedule;
use crate::state::{World, STATE_WORDS};
use crate::step::Step;
use crate::table::{Fleet, Sizes};

/// Refusals 1, 2, 3, 8, 4, 5, 6, 7.
pub fn open(table: &[u8], state_words: usize, scratch_words: usize) -> Answer<Fleet> {
    open_where(table, state_words == STATE_WORDS, scratch_words)
}

/// The same, where it is told whether what is lent beside scratch has the right
/// lengths.
pub fn open_where(table: &[u8], fits: bool, scratch_words: usize) -> Answer<Fleet> {
    let sizes = Sizes::read(table)?;
    if !fits || scratch_words < 2 * sizes.nodes {
        return Err(Reason::BufferLength.into());
    }
    Fleet::read(table, sizes)
}

/// Refusal 9 of the state after these; it is told whether what is lent beside
/// state and scratch has the right length.
pub fn open_at(
    table: &[u8],
    state: &[u32],
    fits: bool,
    scratch_words: usize,
) -> Answer<(Fleet, World)> {
    let fits = fits && state.len() == STATE_WORDS;
    let fleet = open_where(table, fits, scratch_words)?;
    let world = World::decode(state, &fleet).ok_or(Reason::StateNotWellFormed)?;
    Ok((fleet, world))
}

/// Checks a table and writes its starting state.
pub fn load(table: &[u8], state: &mut [u32], scratch_words: usize) -> Answer<()> {
    let fleet = open(table, state.len(), scratch_words)?;
    World::start(&fleet).encode(state);
    Ok(())
}

/// The world after a step, and how many agents took the entry.
fn stepped(
    table: &[u8],
    state: &[u32],
    fits: bool,
    scratch_words: usize,
    step: Step,
) -> Answer<(World, Counts)> {
    let (fleet, mut world) = open_at(table, state, fits, scratch_words)?;
    let counts = world.step(&fleet, step)?;
    Ok((world, counts))
}

/// Does one step; reports how many agents took the entry.
pub fn step(
    table: &[u8],
    state: &mut [u32],
    scratch_words: usize,
    kind: u8,
    agent: u16,
    number: u16,
) -> Answer<Counts> {
    let step = Step {
        kind,
        agent,
        number,
    };
    let (world, counts) = stepped(table, state, true, scratch_words, step)?;
    world.encode(state);
    Ok(counts)
}

/// Says what a step would do: it is done on a copy, which is written to `next`,
/// whatever that held.
pub fn preview(
    table: &[u8],
    state: &[u32],
    scratch_words: usize,
    kind: u8,
    agent: u16,
    number: u16,
    next: &mut [u32],
) -> Answer<Counts> {
    let step = Step {
        kind,
        agent,
        number,
    };
    let fits = next.len() == STATE_WORDS;
    let (world, counts) = stepped(table, state, fits, scratch_words, step)?;
    world.encode(next);
    Ok(counts)
}

/// Does each step of a schedule in turn, past refused ones, and writes 0 or
/// the refusal of each to the answers.
pub fn run(
    table: &[u8],
    state: &mut [u32],
    scratch_words: usize,
    schedule: &[u8],
    answers: &mut [u8],
) -> Answer<Totals> {
    let (fleet, mut world) = open_at(table, state, true, scratch_words)?;
    let steps = schedule::read(schedule)?;
    if answers.len() < steps.len() {
        return Err(Reason::AnswersShort.into());
    }
    let mut totals = Totals::default();
    for (step, answer) in steps.into_iter().zip(answers) {
        match world.step(&fleet, step) {
            Ok(counts) => {
                totals.done += 1;
                totals.counts += counts;
                *answer = 0;
            }
            Err(refusal) => {
                totals.refused += 1;
                *answer = refusal.reason.number();
            }
        }
    }
    world.encode(state);
    Ok(totals)
}
