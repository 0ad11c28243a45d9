//! The four points of demand 3 along random lists of steps, against a history
//! that is made without the lent state, and the agreement that follows from them.

mod common;

use common::*;
use reference::chains::{agreeing, Agreed};
use reference::draft::Draft;
use reference::generate::edges;
use reference::generate::fleets::{accepted, Scale};
use reference::history::{Said, Watch, Write};
use reference::rng::Rng;
use reference::state::{Agent, Entry, World};
use reference::step::Step;

/// What lists of steps came to.
#[derive(Debug, Default)]
struct Seen {
    done: usize,
    refused: usize,
    taken: usize,
    writes: usize,
    said: Said,
    /// Entries after a step that neither their holder nor agent 0 wrote.
    others: usize,
}

impl Seen {
    fn is_over(&self, least: &Seen) -> bool {
        self.done > least.done
            && self.refused > least.refused
            && self.taken > least.taken
            && self.writes > least.writes
            && self.others > least.others
            && reaches(&self.said, &least.said)
    }
}

/// Does random steps on a lent state and watches them.
fn watch(rng: &mut Rng, table: &[u8], length: usize, seen: &mut Seen) {
    let mut watched = Watched::new(table);
    for _ in 0..length {
        let Some(answer) = watched.random_step(rng) else {
            break;
        };
        let writes = watched.watch.history.writes.len();
        assert_eq!(watched.world.clock as usize, writes);
        seen.others += others(&watched.world);
        match answer {
            Ok(counts) => {
                seen.done += 1;
                seen.taken += counts.taken() as usize;
            }
            Err(_) => seen.refused += 1,
        }
    }
    seen.writes += watched.watch.history.writes.len();
    seen.said += watched.watch.said;
}

/// How many entries neither their holder nor agent 0 wrote.
fn others(world: &World) -> usize {
    let agents = world.agents.iter().enumerate();
    let other = |(i, agent): (usize, &Agent)| {
        let writers = agent
            .entries
            .values()
            .map(|entry| usize::from(entry.writer));
        writers.filter(|&writer| writer != 0 && writer != i).count()
    };
    agents.map(other).sum()
}

/// Watches a list in each round, on a table and of a length that the round
/// gives; together they did more than the least.
fn holds(
    seed: u64,
    rounds: usize,
    least: Seen,
    mut list: impl FnMut(&mut Rng, usize) -> (Vec<u8>, usize),
) {
    let rng = &mut Rng::new(seed);
    let mut seen = Seen::default();
    for round in 0..rounds {
        let (table, length) = list(rng, round);
        watch(rng, &table, length, &mut seen);
    }
    assert!(seen.is_over(&least), "{seen:?}");
}

#[test]
fn holds_along_random_lists() {
    let least = Seen {
        done: 2_000,
        refused: 500,
        taken: 300,
        writes: 300,
        others: 300,
        said: Said {
            newer: 300,
            steady: Agreed::new(1_000, 1_000, 0),
            kept: Agreed::new(1_000, 1_000, 0),
            kept_alone: 100,
        },
    };
    holds(11, 400, least, |rng, round| {
        let scale = match round % 13 {
            0 => Scale::Large,
            1..=4 => Scale::Small,
            _ => Scale::Middle,
        };
        let (table, _) = accepted(rng, scale);
        (table, rng.below(80))
    });
}

/// Four agents write two keys for ever, each from what it reads; the links are
/// true, or lead to higher values of an attribute that changes too.
fn all_write() -> Draft {
    let mut draft = Draft::new(1, 1);
    let mut bodies = Vec::new();
    for key in 0..2 {
        let (read, one) = (draft.stigmergy(key, 0), draft.constant(1));
        let next = draft.binary(0, read, one);
        let add = draft.set_stigmergy(key, next);
        let seven = draft.constant(7);
        let first = draft.set_stigmergy(key, seven);
        bodies.push(draft.choice(add, first));
    }
    let read = draft.stigmergy(0, 0);
    bodies.push(draft.set_attribute(0, read));
    let mut all = bodies[0];
    for &body in &bodies[1..] {
        all = draft.choice(all, body);
    }
    let again = draft.call(0);
    let loop_of = draft.sequence(all, again);
    draft.define(loop_of);
    let truth = draft.truth();
    let (s, r) = (draft.attribute(0, 1), draft.attribute(0, 2));
    let higher = draft.less(s, r);
    let unlike = draft.not(higher);
    draft.link(truth);
    draft.link(unlike);
    draft.agents = vec![loop_of; 4];
    draft
}

#[test]
fn holds_where_all_write() {
    let least = Seen {
        done: 4_000,
        refused: 100,
        taken: 1_000,
        writes: 1_000,
        others: 3_000,
        said: Said {
            newer: 3_000,
            steady: Agreed::new(3_000, 2_000, 0),
            kept: Agreed::new(3_000, 2_000, 0),
            kept_alone: 100,
        },
    };
    let table = all_write().bytes();
    holds(12, 30, least, |_, _| (table.clone(), 200));
}

#[test]
fn the_empty_list_has_no_writes() {
    let table = edges::example().bytes();
    let mut watch = Watch::after_load(&table).unwrap();
    assert!(watch.history.writes.is_empty());
    assert_eq!(watch.after(&world(&table, &start(&table))), Ok(()));
}

/// The example after the first write, and its watch.
fn after_a_write() -> (World, Watch) {
    let table = edges::example().bytes();
    let (after, watch) = after_steps(&table, &[Step::act(1, 0), Step::act(0, 0)]);
    let wanted = Write {
        agent: 0,
        key: 0,
        value: 7,
        stamp: 1,
    };
    assert_eq!(watch.history.writes, [wanted]);
    (after, watch)
}

#[test]
fn each_point_can_fail() {
    let (sound, mut watch) = after_a_write();
    assert_eq!(watch.after(&sound), Ok(()));
    // (i) another value, a stamp that was never taken, or another writer.
    for wrong in UNLIKE {
        let (mut bad, watch) = after_a_write();
        bad.agents[0].entries.insert(0, wrong);
        assert!(watch.entries_are_writes(&bad).is_err());
    }
    // (ii) the other agent has another value or writer under the same stamp.
    let (mut bad, watch) = after_a_write();
    for wrong in [Entry::new(8, 1, 0), Entry::new(7, 1, 1)] {
        bad.agents[1].entries.insert(0, wrong);
        assert!(watch.equal_stamps_agree(&bad).is_err());
    }
    bad.agents[1].entries.insert(0, Entry::new(8, 2, 1));
    assert!(watch.equal_stamps_agree(&bad).is_ok());
    // (iii) the entry is lost.
    let (mut bad, mut watch) = after_a_write();
    bad.agents[0].entries.clear();
    assert!(watch.stamps_never_fall(&bad).is_err());
    // (iv) the newer entry no longer waits.
    let (mut bad, mut watch) = after_a_write();
    bad.agents[0].to_propagate.clear();
    assert!(watch.newer_waits(&bad).is_err());
    assert!(watch.after(&bad).is_err());
    // Both agents alike: then it need not wait.
    assert!(watch.silent_agree(&bad).is_err());
    assert!(agreeing(&bad, 0, &watch.steady[0]).is_err());
    for wrong in UNLIKE {
        bad.agents[1].entries.insert(0, wrong);
        assert!(watch.silent_agree(&bad).is_err());
    }
    assert_eq!(watch.said.steady.groups, 0);
    bad.agents[1].entries.insert(0, Entry::new(7, 1, 0));
    assert_eq!(watch.after(&bad), Ok(()));
    assert_eq!(watch.said.steady.groups, 1);
    // While it waits in one of the two, they may differ.
    bad.agents[1].to_propagate.insert(0);
    bad.agents[1].entries.insert(0, Entry::new(7, 1, 1));
    assert_eq!(watch.silent_agree(&bad), Ok(()));
    // A link that held before every step held before the propagates.
    watch.kept[0].clear();
    assert!(watch.silent_agree(&bad).is_err());
}

#[test]
fn a_link_that_did_not_always_hold_promises_nothing() {
    // Agent 0 writes key 0; the link is that the receiver has attribute 0.
    let mut draft = Draft::new(1, 0);
    let one = draft.constant(1);
    let write = draft.set_stigmergy(0, one);
    let two = draft.constant(2);
    let enter = draft.set_attribute(0, two);
    let (x, y) = (draft.attribute(0, 2), draft.attribute(0, 2));
    let there = draft.equal(x, y);
    draft.link(there);
    draft.agent(write);
    draft.agent(enter);
    let table = draft.bytes();
    let steps = [Step::act(0, 0), Step::propagate(0, 0), Step::act(1, 0)];
    let (after, watch) = after_steps(&table, &steps);
    // Agent 0 is newer, linked by now, and its key does not wait.
    assert!(after.linked(&fleet(&table), 0, 0, 1));
    assert!(after.agents[0].stamp(0) > after.agents[1].stamp(0));
    assert!(after.agents[0].to_propagate.is_empty());
    assert_eq!(watch.said, Said::default());
}
