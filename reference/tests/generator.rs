//! The generator: what it reaches, and that calls keep what they must.

mod common;

use std::collections::BTreeSet;

use common::*;
use reference::cases::{Call, Case, Outcome, ANSWER_FILL, FILL};
use reference::generate::case;
use reference::generate::fleets::{accepted, random, Scale, SMALL_NODES};
use reference::generate::schedules::mostly_enabled;
use reference::generate::worlds::{invented, reached};
use reference::machine::open;
use reference::rng::Rng;
use reference::state::{wrong_writer, World, STATE_WORDS};
use reference::stats::{Stats, Tally};
use reference::step::Step;
use reference::syntax::{ExprForm, GuardForm, Party, ProcessForm};
use reference::table::Node;
use reference::{on_deep_stack, schedule, Totals};

const CASES: u64 = 3_000;

/// Every case of a seed with its outcome.
fn outcomes(seed: u64, small: bool) -> Vec<(Case, Outcome)> {
    on_deep_stack(move || {
        let all = (0..CASES).map(|index| case(seed, index, small));
        all.map(|case| (case.clone(), case.outcome())).collect()
    })
}

fn missing(tally: &Tally, wanted: impl Iterator<Item = usize>) -> Vec<usize> {
    wanted.filter(|&answer| tally[answer] == 0).collect()
}

#[test]
fn every_refusal_is_reached() {
    for (seed, small) in [(1, false), (2, true)] {
        let mut stats = Stats::default();
        stats = on_deep_stack(move || {
            for index in 0..CASES {
                stats.add(&case(seed, index, small));
            }
            stats
        });
        println!("{stats}");
        assert_eq!((0..=20).filter(|&a| stats.total(a) == 0).count(), 0);
        let none = Vec::<usize>::new();
        assert_eq!(missing(&stats.load, 0..=8), none);
        assert_eq!(missing(&stats.step, 0..=18), none);
        assert_eq!(missing(&stats.run, (0..=9).chain(19..=20)), none);
        assert_eq!(missing(&stats.inside, (0..=0).chain(10..=18)), none);
        // And nothing that the call does not have.
        assert!(stats.load[9..].iter().all(|&n| n == 0));
        assert!(stats.step[19..].iter().all(|&n| n == 0));
        assert!(stats.run[10..19].iter().all(|&n| n == 0));
        assert!(stats.inside[1..10]
            .iter()
            .chain(&stats.inside[19..])
            .all(|&n| n == 0));
        // Much is done, too.
        let total = |tally: &Tally| tally.iter().sum::<u64>();
        assert!(4 * stats.load[0] > total(&stats.load));
        assert!(5 * stats.step[0] > total(&stats.step));
        assert!(3 * stats.run[0] > total(&stats.run));
    }
}

#[test]
fn a_seed_gives_the_same_cases_again() {
    let some = |seed: u64| -> Vec<Case> { (0..60).map(|i| case(seed, i, true)).collect() };
    assert_eq!(some(4), some(4));
    assert_ne!(some(4), some(5));
}

#[test]
fn small_cases_have_few_nodes() {
    for (case, _) in outcomes(3, true) {
        if let Ok(fleet) = open(&case.table, STATE_WORDS, SCRATCH) {
            assert!(fleet.sizes.nodes <= SMALL_NODES);
        }
    }
}

#[test]
fn outcomes_say_the_answer() {
    let table = reference::generate::edges::example().bytes();
    let schedule = schedule::write(&reference::generate::edges::example_steps());
    let case = Case {
        state: start(&table),
        fill: 0,
        scratch: 16,
        table: table.clone(),
        call: Call::Run {
            schedule,
            answers: 8,
        },
    };
    let outcome = case.outcome();
    assert_eq!(outcome.answers, [15, 0, 11, 0, 0, 0, 0, ANSWER_FILL]);
    assert_eq!(outcome.said, "done 5 2 1 1 0");
    let load = Case {
        state: vec![FILL; 2],
        fill: FILL,
        call: Call::Load,
        ..case
    };
    assert_eq!(load.outcome().said, "refused 8 0");
}

#[test]
fn refused_calls_change_nothing() {
    let mut refused = 0;
    for (seed, small) in [(7, false), (8, true)] {
        for (case, outcome) in outcomes(seed, small) {
            if outcome.refusal() != 0 {
                refused += 1;
                assert_eq!(outcome.state, case.state);
                assert!(outcome.answers.iter().all(|&byte| byte == ANSWER_FILL));
            }
        }
    }
    assert!(refused > 1_000);
}

#[test]
fn done_calls_leave_well_formed_states() {
    on_deep_stack(|| {
        for (case, outcome) in outcomes(9, false) {
            if outcome.refusal() == 0 {
                let fleet = open(&case.table, STATE_WORDS, SCRATCH).unwrap();
                let world = World::decode(&outcome.state, &fleet).expect("well formed");
                assert_eq!(world.words(), outcome.state);
                if case.call == Call::Load {
                    assert_eq!(world, World::start(&fleet));
                }
            }
        }
    });
}

#[test]
fn a_run_is_its_steps_in_turn() {
    let mut compared = 0;
    for (case, outcome) in outcomes(10, true) {
        let Call::Run { schedule, answers } = &case.call else {
            continue;
        };
        if outcome.refusal() != 0 {
            continue;
        }
        let list = schedule::read(schedule).unwrap();
        let mut state = case.state.clone();
        let mut totals = Totals::default();
        for (i, step) in list.iter().enumerate() {
            match do_step(&case.table, &mut state, *step) {
                Ok(counts) => {
                    totals.done += 1;
                    totals.counts += counts;
                    assert_eq!(outcome.answers[i], 0);
                }
                Err(refusal) => {
                    totals.refused += 1;
                    assert_eq!(outcome.answers[i], refusal.reason.number());
                }
            }
        }
        assert_eq!(state, outcome.state);
        assert_eq!((totals.done + totals.refused) as usize, list.len());
        let mut written = [0; 4];
        assert_eq!(case.outcome_with(&mut written), outcome);
        assert_eq!((outcome.packed, written), (0, totals.numbers()));
        assert_eq!(outcome.answers.len(), *answers);
        assert!(outcome.answers[list.len()..]
            .iter()
            .all(|&b| b == ANSWER_FILL));
        compared += 1;
    }
    assert!(compared > 300);
}

#[test]
fn accepted_fleets_have_everything() {
    let rng = &mut Rng::new(20);
    let mut seen = BTreeSet::new();
    for _ in 0..400 {
        let (_, fleet) = accepted(rng, Scale::Middle);
        for node in &fleet.nodes {
            seen.insert(match node {
                Node::Process(p) => match &p.form {
                    ProcessForm::Idle => "idle",
                    ProcessForm::Tick => "tick",
                    ProcessForm::Set(_) => "set",
                    ProcessForm::Sequence(..) => "sequence",
                    ProcessForm::Choice(..) => "choice",
                    ProcessForm::Guarded(..) => "guarded",
                    ProcessForm::Parallel(..) => "parallel",
                    ProcessForm::Call(_) => "call",
                },
                Node::Guard(g) => match &g.form {
                    GuardForm::True => "true",
                    GuardForm::Compare(..) => "compare",
                    GuardForm::Not(_) => "not",
                    GuardForm::And(..) => "and",
                    GuardForm::Or(..) => "or",
                },
                Node::Expr(e) => match &e.form {
                    ExprForm::Constant(_) => "constant",
                    ExprForm::Attribute(_, Party::Own) => "attribute",
                    ExprForm::Attribute(_, Party::Sender) => "attribute of the sender",
                    ExprForm::Attribute(_, Party::Receiver) => "attribute of the receiver",
                    ExprForm::Stigmergy(_, Party::Own) => "key",
                    ExprForm::Stigmergy(_, Party::Sender) => "key of the sender",
                    ExprForm::Stigmergy(_, Party::Receiver) => "key of the receiver",
                    ExprForm::Environment(_) => "environment",
                    ExprForm::Binary(..) => "operator",
                },
                Node::Root => "root",
            });
        }
        // A definition that calls itself, further down.
        for (d, body) in fleet.definitions.iter().enumerate() {
            if let ProcessForm::Sequence(_, q) = &body.form {
                if matches!(q.form, ProcessForm::Call(c) if usize::from(c) == d) {
                    seen.insert("recursion");
                }
            }
        }
    }
    assert_eq!(seen.len(), 24, "{seen:?}");
}

#[test]
fn most_drafts_are_accepted() {
    let rng = &mut Rng::new(21);
    let fine = |draft: reference::draft::Draft| draft_loads(&draft) == (0, 0);
    let accepted = (0..300)
        .filter(|_| fine(random(rng, Scale::Middle)))
        .count();
    assert!(accepted > 250, "{accepted}");
}

#[test]
fn most_steps_of_schedules_are_done() {
    let rng = &mut Rng::new(22);
    let (mut done, mut all) = (0, 0);
    for _ in 0..200 {
        let (_, fleet) = accepted(rng, Scale::Middle);
        let mut world = World::start(&fleet);
        let list = mostly_enabled(rng, &fleet, &mut world.clone(), 60);
        all += list.len();
        done += list
            .iter()
            .filter(|&&s: &&Step| world.step(&fleet, s).is_ok())
            .count();
    }
    assert!(all > 2_000 && 10 * done > 7 * all, "{done} of {all}");
}

#[test]
fn states_are_well_formed_and_some_have_no_load() {
    let rng = &mut Rng::new(23);
    let mut unreachable = [0; 2];
    for _ in 0..300 {
        let (_, fleet) = accepted(rng, Scale::Middle);
        for world in [invented(rng, &fleet), reached(rng, &fleet, 40)] {
            let words = world.words();
            assert_eq!(World::decode(&words, &fleet).as_ref(), Some(&world));
        }
        // Two values, or two writers, under one stamp and key.
        let world = invented(rng, &fleet);
        let entries = world.agents.iter().flat_map(|agent| &agent.entries);
        let mut firsts = std::collections::BTreeMap::new();
        for (&key, entry) in entries {
            let first = *firsts.entry((key, entry.stamp)).or_insert(entry);
            unreachable[0] += usize::from(first.value != entry.value);
            unreachable[1] += usize::from(first.writer != entry.writer);
        }
    }
    assert!(unreachable.iter().all(|&n| n > 50), "{unreachable:?}");
}

#[test]
fn wrong_writers_are_reached() {
    for (seed, small) in [(1, false), (2, true)] {
        let mut faults = BTreeSet::new();
        let mut last = 0;
        for (case, outcome) in outcomes(seed, small) {
            if outcome.refusal() == 9 {
                faults.extend(wrong_writer(&case.state, &fleet(&case.table)));
            } else if outcome.refusal() == 0 && case.call != Call::Load {
                let world = world(&case.table, &case.state);
                let end = world.agents.len() as u16 - 1;
                let entries = world.agents.iter().flat_map(|agent| agent.entries.values());
                last += entries
                    .filter(|entry| end > 0 && entry.writer == end)
                    .count();
            }
        }
        assert_eq!(faults.len(), 5, "{faults:?}");
        assert!(last > 100, "{last}");
    }
}
