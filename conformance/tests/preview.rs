//! labs_preview answers as labs_step does on a copy of the state, and as the second implementation does.

use conformance::loaded::{LOADED, SHALLOW_STACK};
use conformance::rehearsal::{self, SCRATCH_WORDS};
use conformance::residuals::long_residuals;
use conformance::{any_words, call, expected_preview, preview, Given, Previewed, LISTS};
use reference::cases::{Call, Case};
use reference::describe::describe;
use reference::faults::pairs;
use reference::generate::{case, edges};
use reference::on_deep_stack;
use reference::schedule;
use reference::state::STATE_WORDS;
use reference::stats::Tally;

/// Lengths of the second buffer that are wrong; another one is drawn for each case.
const WRONG: [usize; 4] = [0, 1, STATE_WORDS - 1, STATE_WORDS + 1];

/// How many steps of a run are previewed.
const FEW: usize = 3;

/// What the library's preview of a step refuses, or 0: with a second buffer of so many words, it answers as the second
/// implementation does, and as the library's own step on a copy.
fn agreed(case: &Case, copy: &Given, words: usize, which: &str) -> usize {
    let before = any_words(words, 0x0bad_cafe);
    let proved = preview(case, &before);
    let packed = match copy.refusal() {
        0 | 4.. if words != STATE_WORDS => (1 << 63) + 8,
        _ => copy.packed,
    };
    let next = match packed >> 63 {
        0 => copy.state.clone(),
        _ => before.clone(),
    };
    for (whose, wanted) in [
        ("the step on a copy", Previewed { packed, next }),
        ("the reference", expected_preview(case, &before)),
    ] {
        assert!(
            proved == wanted,
            "{which}, {words} words: answer {} and not {} as of {whose}; second buffer the same: {}\n{}",
            proved.packed,
            wanted.packed,
            proved.next == wanted.next,
            describe(case)
        );
    }
    proved.refusal()
}

/// Steps, and the first ones of runs.
#[test]
fn previews_of_generated_steps() {
    on_deep_stack(|| {
        for (seed, small, count) in LISTS {
            let (mut right, mut wrong) = (Tally::default(), Tally::default());
            for index in 0..count {
                let mut case = case(seed, index, small);
                let which = format!("seed {seed}, case {index}");
                match &case.call {
                    Call::Load => {}
                    Call::Step(_) => {
                        let copy = call(&case);
                        right[agreed(&case, &copy, STATE_WORDS, &which)] += 1;
                        for words in WRONG.into_iter().chain([index as usize % STATE_WORDS]) {
                            wrong[agreed(&case, &copy, words, &which)] += 1;
                        }
                    }
                    Call::Run { schedule, .. } => {
                        let steps = schedule::read(schedule).unwrap_or_default();
                        for step in steps.into_iter().take(FEW) {
                            case.call = Call::Step(step);
                            let copy = call(&case);
                            agreed(&case, &copy, STATE_WORDS, &which);
                            case.state = copy.state;
                        }
                    }
                }
            }
            let occurred = |tally: &Tally| -> Vec<usize> {
                (0..tally.len())
                    .filter(|&answer| tally[answer] > 0)
                    .collect()
            };
            assert!(occurred(&right).into_iter().eq(0..=18), "{right:?}");
            assert_eq!(occurred(&wrong), [1, 2, 3, 8], "{wrong:?}");
        }
    });
}

/// The order of the refusals.
#[test]
fn previews_of_steps_that_hold_two_faults() {
    let mut previewed = 0;
    for pair in pairs() {
        if let Call::Step(_) = pair.case.call {
            let copy = call(&pair.case);
            assert_eq!(copy.refusal(), usize::from(pair.faults[0]));
            for words in WRONG.into_iter().chain([STATE_WORDS]) {
                let which = format!("{:?} with {:?}", pair.asked, pair.faults);
                agreed(&pair.case, &copy, words, &which);
            }
            previewed += 1;
        }
    }
    // 17 refusals of an act, 11 of a propagate, 11 of a confirm.
    assert_eq!(previewed, 136 + 55 + 55);
}

/// Up to the limit of 17, where the second buffer stays.
#[test]
fn previews_of_acts_on_long_residuals() {
    for (i, case) in long_residuals().iter().enumerate() {
        let copy = call(case);
        agreed(case, &copy, STATE_WORDS, &format!("act {i}"));
    }
}

/// The first state is in memory that cannot be written, and the stack has no room for a state besides.
#[test]
fn a_preview_writes_no_state_but_the_second() {
    let table = edges::example().bytes();
    let (mut scratch, mut after) = (vec![0; SCRATCH_WORDS], vec![0; STATE_WORDS]);
    assert_eq!(rehearsal::load(&table, &mut after, &mut scratch), 0);
    assert!(after == LOADED);
    assert_eq!(
        rehearsal::step(&table, &mut after, &mut scratch, 0, 0, 0),
        0
    );
    let mut next = vec![7; STATE_WORDS];
    let look = || rehearsal::preview(&table, &LOADED, &mut scratch, 0, 0, 0, &mut next);
    let answer = std::thread::scope(|scope| {
        let thread = std::thread::Builder::new().stack_size(SHALLOW_STACK);
        thread.spawn_scoped(scope, look).unwrap().join().unwrap()
    });
    assert_eq!(answer, 0);
    assert!(next == after);
}
