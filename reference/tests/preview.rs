//! A preview is the step on a copy. (Its order of refusals is in another file.)

mod common;

use common::*;
use reference::cases::Call;
use reference::generate::{case, edges};
use reference::on_deep_stack;
use reference::refusal::{Answer, Counts};
use reference::state::{entry_at, STATE_WORDS};
use reference::stats::Tally;
use reference::step::Step;

/// What the second buffer holds before a call; no state is like it.
const FILL: u32 = 0x1234_5678;

fn previews(table: &[u8], state: &[u32], s: Step, next: &mut [u32]) -> Answer<Counts> {
    reference::preview(table, state, SCRATCH, s.kind, s.agent, s.number, next)
}

#[test]
fn generated_steps() {
    on_deep_stack(|| {
        for (seed, small) in [(12, false), (13, true)] {
            let mut tally = Tally::default();
            for index in 0..4_000 {
                let case = case(seed, index, small);
                let before = vec![FILL; STATE_WORDS];
                let mut next = before.clone();
                let Some(packed) = case.preview(&mut next) else {
                    assert!(!matches!(case.call, Call::Step(_)));
                    continue;
                };
                // A step on a copy of the state, which a refused one leaves as it came.
                let outcome = case.outcome();
                assert_eq!(packed, outcome.packed);
                let refusal = usize::from(outcome.refusal());
                let after = if refusal == 0 { outcome.state } else { before };
                assert_eq!(next, after);
                tally[refusal] += 1;
            }
            assert!((0..=18).all(|answer| tally[answer] > 0), "{tally:?}");
        }
    });
}

/// Looks before every step of the paper's example.
#[test]
fn the_example() {
    let table = edges::example().bytes();
    let mut state = start(&table);
    let mut answers = Vec::new();
    for step in edges::example_steps() {
        let before = state.clone();
        let mut next = vec![FILL; STATE_WORDS];
        let seen = previews(&table, &state, step, &mut next);
        // As if it had not been asked.
        assert_eq!(state, before);
        assert_eq!(seen, do_step(&table, &mut state, step));
        match seen {
            Ok(_) => assert_eq!(next, state),
            Err(_) => assert!(next.iter().all(|&word| word == FILL)),
        }
        answers.push(match seen {
            Ok(counts) => (0, counts),
            Err(refusal) => (refusal.reason.number(), counts(0, 0)),
        });
    }
    let refused = |number| (number, counts(0, 0));
    let added = |count| (0, counts(count, 0));
    assert_eq!(
        answers,
        [
            refused(15),
            added(0),
            refused(11),
            added(1),
            added(0),
            added(0),
            added(0)
        ]
    );
}

/// Word by word: the example's first write.
#[test]
fn a_write_is_seen_before_it_is_done() {
    let table = edges::example().bytes();
    let state = start(&table);
    let mut next = vec![FILL; STATE_WORDS];
    let seen = previews(&table, &state, Step::act(0, 0), &mut next);
    assert_eq!(seen, Ok(counts(0, 0)));
    let at = entry_at(0, 0);
    assert_eq!((state[0], &state[at..at + 3]), (0, &[0, 0, 0][..]));
    assert_eq!((next[0], &next[at..at + 3]), (1, &[7, 1, 0][..]));
    // A propagate of it is possible in the second, and not in the first.
    let propagate = Step::propagate(0, 0);
    let mut after = vec![FILL; STATE_WORDS];
    let first = previews(&table, &state, propagate, &mut after);
    assert_eq!(brief(first), (18, 0));
    assert!(after.iter().all(|&word| word == FILL));
    let second = previews(&table, &next, propagate, &mut after);
    assert_eq!(second, Ok(counts(1, 0)));
}

/// Whatever the second buffer holds: no state, this one, or another one.
#[test]
fn what_the_second_buffer_holds_is_free() {
    let table = edges::example().bytes();
    let state = start(&table);
    let mut written = state.clone();
    let done = do_step(&table, &mut written, Step::act(0, 0));
    assert_eq!(done, Ok(counts(0, 0)));
    let mut ill_formed = state.clone();
    ill_formed[1] += 1;
    for before in [
        vec![0; STATE_WORDS],
        vec![u32::MAX; STATE_WORDS],
        ill_formed.clone(),
        state.clone(),
        written.clone(),
    ] {
        let mut next = before.clone();
        let done = previews(&table, &state, Step::act(0, 0), &mut next);
        assert_eq!(done, Ok(counts(0, 0)));
        assert_eq!(next, written);
        for (first, step, want) in [
            (&state, Step::act(1, 0), 15),
            (&written, Step::act(0, 0), 11),
            (&ill_formed, Step::act(0, 0), 9),
        ] {
            let mut next = before.clone();
            let refused = previews(&table, first, step, &mut next);
            assert_eq!(brief(refused), (want, 0));
            assert_eq!(next, before);
        }
    }
}
