//! Well-formed states (refusal 9), each clause at its edge.

mod common;

use common::*;
use reference::draft::Draft;
use reference::generate::edges;
use reference::machine::{run, step};
use reference::state::{
    entry_at, Entry, World, AGENTS_AT, AGENT_WORDS, CONFIRM_AT, ENTRIES_AT, ENTRY_WORDS,
    ENVIRONMENT_AT, LENGTH_AT, PROPAGATE_AT, RESIDUAL_AT, STATE_WORDS,
};
use reference::term::{Term, IDLE, PARALLEL, SEQUENCE, TICK};

/// Two agents; 2 attributes, 2 stigmergy keys, 2 environment keys. Nodes: 0
/// tick, 1 idle, 2 true, 3 constant, then roots 4 to 7.
fn table() -> Vec<u8> {
    let mut draft = Draft::new(2, 2);
    draft.tick();
    draft.idle();
    draft.truth();
    draft.constant(0);
    draft.link(2);
    draft.link(2);
    draft.agent(0);
    draft.agent(1);
    draft.bytes()
}

fn sound() -> World {
    let table = table();
    let fleet = fleet(&table);
    let mut world = World::start(&fleet);
    world.clock = 10;
    world.environment.insert(1, -1);
    world.agents[1].attributes.insert(0, 5);
    world.agents[1].entries.insert(1, Entry::new(0, 10, 1));
    world.agents[1].to_confirm.insert(1);
    world.agents[1].to_propagate.insert(1);
    world.agents[1].residual = Term::sequence(Term::Tick, node(&fleet, 1));
    world
}

/// Whether the sound state is well formed with these words changed.
fn with(changes: &[(usize, u32)]) -> bool {
    let mut state = sound().words();
    for &(at, word) in changes {
        state[at] = word;
    }
    let table = table();
    let before = state.clone();
    // Past 9, the step gives a 10 and the run is done.
    let (number, place) = brief(step(&table, &mut state, SCRATCH, 9, 0, 0));
    assert_eq!(place, 0);
    let ran = brief(run(&table, &mut state, SCRATCH, &[0, 0], &mut []));
    assert_eq!(state, before);
    match number {
        9 => assert_eq!(ran, (9, 0)),
        10 => assert_eq!(ran, (0, 0)),
        other => panic!("{other}"),
    }
    number == 10
}

const FIRST: usize = AGENTS_AT;
const SECOND: usize = AGENTS_AT + AGENT_WORDS;

#[test]
fn the_sound_state_is_well_formed() {
    assert!(with(&[]));
    let state = sound().words();
    let decoded = World::decode(&state, &fleet(&table())).unwrap();
    assert_eq!(decoded, sound());
    assert_eq!(state[0], 10);
    assert_eq!(state[1], 2);
    assert_eq!(state[4..6], [1, u32::MAX]);
    assert_eq!(state[180..182], [1, 5]);
    assert_eq!(state[180 + 35..180 + 38], [0, 10, 1]);
    assert_eq!(state[180 + 80..180 + 87], [2, 2, 3, SEQUENCE, TICK, 1, 0]);
    assert_eq!(entry_at(1, 1), 180 + 35);
    assert_eq!(state.len(), 34 + 32 * 146);
}

#[test]
fn clock_and_agents() {
    assert!(with(&[(0, 65_535)]));
    assert!(!with(&[(0, 65_536)]));
    assert!(!with(&[(0, u32::MAX)]));
    assert!(!with(&[(1, 1)]));
    assert!(!with(&[(1, 3)]));
    assert!(!with(&[(1, 0)]));
}

#[test]
fn pairs() {
    for at in [ENVIRONMENT_AT, FIRST] {
        assert!(with(&[(at, 1)]));
        assert!(with(&[(at, 1), (at + 1, 7)]));
        assert!(!with(&[(at, 2)]));
        assert!(!with(&[(at, 2), (at + 1, 7)]));
        assert!(!with(&[(at, 0), (at + 1, 7)]), "absent has value 0");
        // Key 1 is used, key 2 and those above are not.
        assert!(with(&[(at + 2, 1)]));
        for key in 2..16 {
            assert!(!with(&[(at + 2 * key, 1)]));
            assert!(!with(&[(at + 2 * key + 1, 1)]));
        }
    }
}

#[test]
fn entries() {
    let at = FIRST + ENTRIES_AT;
    assert!(with(&[(at + 1, 10)]));
    assert!(with(&[(at, 3), (at + 1, 1)]));
    assert!(!with(&[(at + 1, 11)]), "a stamp above the clock");
    assert!(with(&[(0, 11), (at + 1, 11)]));
    assert!(!with(&[(0, 9)]), "the clock under a stamp");
    assert!(!with(&[(at, 3)]), "no entry has value 0");
    for word in ENTRY_WORDS * 2..ENTRY_WORDS * 16 {
        assert!(!with(&[(at + word, 1)]));
    }
}

#[test]
fn writers() {
    let second = entry_at(1, 1);
    assert!(with(&[(second + 2, 0)]));
    for writer in [2, 3, 32, 65_536, 65_537, u32::MAX] {
        assert!(!with(&[(second + 2, writer)]), "{writer} is not below A");
    }
    let first = entry_at(0, 0);
    for writer in [1, 2, u32::MAX] {
        assert!(!with(&[(first + 2, writer)]), "no entry has writer 0");
    }
    assert!(!with(&[(first, 3), (first + 2, 1)]));
    assert!(with(&[(first + 1, 1), (first + 2, 1)]));
    assert!(!with(&[(first + 1, 1), (first + 2, 2)]));
    assert!(!with(&[(first + 1, 11), (first + 2, 1)]));
    // Past S and past A, also as a whole entry.
    for at in [entry_at(0, 2), entry_at(0, 15), entry_at(2, 0)] {
        assert!(!with(&[(at + 2, 1)]));
        assert!(!with(&[(at, 3), (at + 1, 1), (at + 2, 1)]));
    }
}

/// Whoever holds an entry, its writer may be any agent that there is.
#[test]
fn the_last_writer() {
    for agents in [1, 2, 7, 32] {
        let table = edges::crowd(agents).bytes();
        let mut state = start(&table);
        state[0] = 1;
        for holder in [0, agents - 1] {
            for writer in 0..40 {
                let mut state = state.clone();
                let at = entry_at(holder, 0);
                state[at..at + ENTRY_WORDS].copy_from_slice(&[0, 1, writer]);
                let ran = brief(run(&table, &mut state, SCRATCH, &[0, 0], &mut []));
                let below = writer < agents as u32;
                assert_eq!(ran, if below { (0, 0) } else { (9, 0) });
            }
        }
    }
}

#[test]
fn pending_keys_have_entries() {
    for set in [CONFIRM_AT, PROPAGATE_AT] {
        assert!(with(&[(SECOND + set, 0)]));
        assert!(!with(&[(SECOND + set, 1)]));
        assert!(!with(&[(SECOND + set, 3)]));
        assert!(with(&[(SECOND + set, 3), (SECOND + ENTRIES_AT + 1, 1)]));
        assert!(!with(&[(FIRST + set, 2)]));
        for bit in 2..32 {
            assert!(!with(&[(SECOND + set, 2 | 1 << bit)]));
        }
    }
}

/// Whether the first agent may have these residual words, with this length.
fn residual(length: u32, words: &[u32]) -> bool {
    let mut changes = vec![(FIRST + LENGTH_AT, length)];
    for (i, &word) in words.iter().enumerate() {
        changes.push((FIRST + RESIDUAL_AT + i, word));
    }
    with(&changes)
}

#[test]
fn residuals() {
    assert!(residual(1, &[0]));
    assert!(residual(1, &[1]));
    assert!(residual(1, &[TICK]));
    assert!(residual(1, &[IDLE]));
    for word in [
        2,
        3,
        4,
        5,
        6,
        7,
        8,
        4_095,
        65_531,
        65_536,
        65_536 + 1,
        u32::MAX,
    ] {
        assert!(!residual(1, &[word]), "{word} is no process node");
    }
    assert!(!residual(0, &[0]), "an empty residual is no term");
    assert!(!residual(1, &[SEQUENCE]));
    assert!(!residual(2, &[SEQUENCE, 0]));
    assert!(residual(3, &[SEQUENCE, 0, 1]));
    assert!(residual(3, &[PARALLEL, 0, 1]));
    assert!(!residual(3, &[0, 1, 1]), "more than one term");
    assert!(!residual(2, &[0, 0]));
    assert!(!residual(4, &[SEQUENCE, 0, 1, 0]));
    assert!(!residual(3, &[SEQUENCE, PARALLEL, 0]));
    assert!(residual(5, &[SEQUENCE, PARALLEL, 0, 1, TICK]));
    assert!(residual(5, &[SEQUENCE, TICK, PARALLEL, 0, 1]));
    assert!(!residual(1, &[0, 1]), "what is unused is 0");
    assert!(!residual(1, &[SEQUENCE, 0, 1]));
    // 63 words, and lengths past them.
    let mut words = vec![SEQUENCE; 31];
    words.extend([1; 32]);
    assert!(residual(63, &words));
    assert!(!residual(62, &words[..62]));
    for length in [64, 65, 66, 146, u32::MAX] {
        assert!(!residual(length, &words));
    }
}

#[test]
fn unused_agents_are_zero() {
    for agent in 2..32 {
        for word in 0..AGENT_WORDS {
            assert!(!with(&[(AGENTS_AT + agent * AGENT_WORDS + word, 1)]));
        }
    }
    assert!(!with(&[(STATE_WORDS - 1, 1)]));
}
