//! The order of the refusals: an input with several faults gives the first.

mod common;

use common::*;
use reference::cases::{Case, Outcome, ANSWER_FILL};
use reference::draft::Draft;
use reference::faults::{answered, case, pairs, Asked, ASKED};
use reference::generate::edges;
use reference::machine::run;
use reference::schedule;
use reference::state::STATE_WORDS;
use reference::step::Step;

/// The subsets of these refusals, each in this order.
fn subsets(order: &[u8]) -> Vec<Vec<u8>> {
    (0..1usize << order.len())
        .map(|bits| {
            let member = |i: &usize| bits >> i & 1 == 1;
            (0..order.len()).filter(member).map(|i| order[i]).collect()
        })
        .collect()
}

/// A call with these faults, in the paper's order, answers the first of them:
/// 0 where there is none.
fn answers_the_first(asked: Asked, faults: &[u8]) {
    let case = case(asked, faults);
    let outcome = case.outcome();
    let first = faults.first().copied().unwrap_or(0);
    assert_eq!(answered(&outcome), first, "{asked:?} {faults:?}");
    // A refused call, and a refused step of a run, changes no state.
    assert_eq!(outcome.state == case.state, first != 0);
    if outcome.refusal() != 0 {
        assert!(outcome.answers.iter().all(|&byte| byte == ANSWER_FILL));
        // Only nodes and definitions are places.
        let place = outcome.packed >> 16 & 0xffff;
        assert!(place == 0 || [4, 5, 6, 7].contains(&first));
    }
    preview_answers_the_first(&case, &outcome);
}

/// The preview of a step answers as the step does, and with a second buffer of a
/// wrong length 8, unless that is 1, 2 or 3. A refused one writes nothing.
fn preview_answers_the_first(case: &Case, outcome: &Outcome) {
    for words in [0, 1, STATE_WORDS - 1, STATE_WORDS, STATE_WORDS + 1] {
        let before = vec![7; words];
        let mut next = before.clone();
        let Some(packed) = case.preview(&mut next) else {
            return;
        };
        let answer = match outcome.refusal() {
            0 | 4.. if words != STATE_WORDS => (1 << 63) + 8,
            _ => outcome.packed,
        };
        assert_eq!(packed, answer, "{words} words");
        let after = if answer >> 63 == 0 {
            &outcome.state
        } else {
            &before
        };
        assert_eq!(next, *after, "{words} words");
    }
}

#[test]
fn tables_and_room() {
    for faults in subsets(&[1, 2, 3, 8, 4, 5, 6, 7]) {
        answers_the_first(Asked::Load, &faults);
    }
    // Past 9, the step gives a 10 and the run a 19.
    for faults in subsets(&[1, 2, 3, 8, 4, 5, 6, 7, 9]) {
        answers_the_first(Asked::Act, &[&faults[..], &[10]].concat());
        answers_the_first(Asked::Run, &[&faults[..], &[19]].concat());
    }
}

#[test]
fn acts() {
    for faults in subsets(&[10, 11, 12, 13, 14, 15, 16, 17]) {
        answers_the_first(Asked::Act, &faults);
        answers_the_first(Asked::Run, &faults);
    }
}

#[test]
fn runs_check_before_any_step() {
    for faults in subsets(&[9, 19, 20, 10, 11, 14]) {
        answers_the_first(Asked::Run, &faults);
    }
    // n over 8,192 is a 19 although the buffer is short too.
    let table = edges::example().bytes();
    let long = schedule::write(&vec![Step::act(0, 0); 8_193]);
    assert_eq!(
        brief(run(&table, &mut start(&table), SCRATCH, &long, &mut [])),
        (19, 0)
    );
}

#[test]
fn propagate_and_confirm() {
    for faults in subsets(&[9, 10, 18]) {
        answers_the_first(Asked::Propagate, &faults);
        answers_the_first(Asked::Confirm, &faults);
    }
    // 10 for an agent or key, and only then 18.
    let table = edges::example().bytes();
    let mut state = start(&table);
    for kind in [1, 2] {
        for (agent, number, want) in [(2, 0, 10), (0, 1, 10), (2, 1, 10), (0, 0, 18)] {
            let step = Step {
                kind,
                agent,
                number,
            };
            assert_eq!(steps(&table, &mut state, step), want);
        }
    }
}

#[test]
fn every_pair() {
    for asked in ASKED {
        answers_the_first(asked, &[]);
        asked
            .order()
            .iter()
            .for_each(|&fault| answers_the_first(asked, &[fault]));
    }
    let all = pairs();
    // 8 refusals of load, 17 of an act, 11 of the others, 19 of a run.
    assert_eq!(all.len(), 28 + 136 + 55 + 55 + 171);
    for pair in all {
        answers_the_first(pair.asked, &pair.faults);
    }
}

#[test]
fn places_do_not_hide_the_order() {
    // A 5 at a low node and a 4 at a high one: the 4 comes first.
    let mut draft = Draft::new(1, 0);
    let read = draft.attribute(0, 1);
    let set = draft.set_attribute(0, read);
    draft.agent(set);
    assert_eq!(draft_loads(&draft), (5, 0));
    draft.node(1, 0, 1);
    assert_eq!(draft_loads(&draft), (4, 2));
}
