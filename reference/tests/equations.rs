//! The rehearsals that the proved repository computes: what they show.

use std::collections::BTreeSet;
use std::sync::OnceLock;

use reference::equations::{chosen, missing, required, shown, text, Equation, Feature};
use reference::generate::edges;
use reference::schedule;

/// They are chosen once for all tests.
fn all() -> &'static [Equation] {
    static ALL: OnceLock<Vec<Equation>> = OnceLock::new();
    ALL.get_or_init(|| chosen(1))
}

#[test]
fn the_stored_cases_are_made_here() {
    let stored = include_str!("../../crates/instances/specs/Cases.antt");
    assert_eq!(Ok(stored), text(all()).as_deref());
}

#[test]
fn together_they_show_all_that_is_required() {
    assert_eq!(missing(all()), BTreeSet::new());
    let kinds = (0..=255).filter(|kind| required().contains(&Feature::Kind(*kind)));
    assert!(kinds.eq((0..=9).chain(16..=22).chain(32..=40).chain([64])));
    assert!((10..=18).all(|refusal| required().contains(&Feature::Step(refusal))));
    let taken = [Feature::Added, Feature::Replaced].map(|of| [false, true].map(of));
    assert!(required().is_superset(&taken.concat().into_iter().collect()));
    let writers = [
        Feature::OtherWriter(false),
        Feature::OtherWriter(true),
        Feature::PassedOn,
        Feature::WrittenOver,
        Feature::WriterPast,
        Feature::WriterAlone,
    ];
    assert!(required().is_superset(&writers.into()));
}

#[test]
fn without_one_of_them_nothing_is_printed() {
    for i in 1..all().len() {
        let without = [&all()[..i], &all()[i + 1..]].concat();
        assert!(text(&without).is_err_and(|missing| !missing.is_empty()));
    }
    // The first is the paper's example, which stays whatever it shows.
    assert_eq!(all()[0].table, edges::example().bytes());
    let steps = schedule::write(&edges::example_steps());
    assert_eq!(all()[0].schedule, steps);
}

#[test]
fn what_the_example_shows() {
    let kinds = [2, 3, 16, 32, 34, 64].map(Feature::Kind);
    let mut wanted = BTreeSet::from(kinds);
    wanted.extend([
        Feature::Step(11),
        Feature::Step(15),
        Feature::Added(false),
        Feature::RefusedAmongDone,
    ]);
    assert_eq!(shown(&all()[0]), wanted);
}

#[test]
fn some_start_where_no_load_leads() {
    let patched = |equation: &&Equation| !equation.patches.is_empty();
    assert!(all().iter().filter(patched).count() > 5);
}
