//! Choosing a derivation by counting, against the list in full.

mod common;

use std::sync::mpsc;
use std::time::Duration;

use common::*;
use reference::count::{Count, OVER};
use reference::derive::{any_over, count_term, list, select, Derivation};
use reference::draft::Draft;
use reference::generate::edges;
use reference::generate::fleets::{accepted, Scale};
use reference::generate::worlds::invented;
use reference::rng::Rng;
use reference::schedule;
use reference::show::show;
use reference::state::World;
use reference::step::Step;
use reference::table::Fleet;
use reference::term::Term;

/// Store, key and expression of an action; guards; words of the residual.
type Told = (Option<(u8, u16, u16)>, Vec<u16>, Vec<u32>);

/// What tells two derivations apart.
fn key(d: &Derivation) -> Told {
    let action = d
        .action
        .as_ref()
        .map(|a| (a.store as u8, a.key, a.value.id));
    (
        action,
        d.guards.keys().copied().collect(),
        d.residual.words(),
    )
}

/// How much the comparisons have seen.
#[derive(Default)]
struct Seen {
    terms: usize,
    ticks: usize,
    guards: usize,
    longest: usize,
}

impl Seen {
    /// There were this many terms, ticks and guards, and a list this long.
    fn more_than(self, terms: usize, ticks: usize, guards: usize, longest: usize) {
        assert!(self.terms > terms && self.ticks > ticks);
        assert!(self.guards > guards && self.longest > longest);
    }
}

/// Compares selection and list on a term, unless its list is long.
fn compare(term: &Term, fleet: &Fleet, seen: &mut Seen) {
    if any_over(term, fleet) || count_term(term, fleet).total() > 400 {
        return;
    }
    let all = list(term, fleet);
    let count = count_term(term, fleet);
    let ticks = all.iter().filter(|d| d.action.is_none()).count();
    assert_eq!(count.total() as usize, all.len());
    assert_eq!(count.ticks as usize, ticks);
    for (c, wanted) in all.iter().enumerate() {
        let got = select(term, c as u32, fleet).expect("the choice is there");
        assert_eq!(key(&got), key(wanted));
        assert_eq!(got.nodes, wanted.nodes);
        seen.guards += usize::from(got.guards.len() > 1);
    }
    assert!(select(term, all.len() as u32, fleet).is_none());
    seen.terms += 1;
    seen.ticks += ticks;
    seen.longest = seen.longest.max(all.len());
}

#[test]
fn selection_agrees_with_the_list() {
    let rng = &mut Rng::new(5);
    let mut seen = Seen::default();
    for round in 0..1_500 {
        let scale = if round % 3 == 0 {
            Scale::Middle
        } else {
            Scale::Small
        };
        let (_, fleet) = accepted(rng, scale);
        for agent in invented(rng, &fleet).agents {
            compare(&agent.residual, &fleet, &mut seen);
        }
    }
    seen.more_than(1_000, 500, 500, 50);
}

/// A process of mostly guarded ticks, which calls lower definitions.
fn ticking(rng: &mut Rng, draft: &mut Draft, depth: usize, below: usize) -> u16 {
    let kind = if depth == 0 {
        rng.below(3)
    } else {
        rng.below(9)
    };
    match kind {
        0 if below > 0 => draft.call(rng.below(below) as u16),
        1 if rng.chance(30) => {
            let value = draft.constant(1);
            draft.set_attribute(0, value)
        }
        0..=2 => {
            let (guard, tick) = (draft.truth(), draft.tick());
            draft.guarded(guard, tick)
        }
        _ => {
            let p = ticking(rng, draft, depth - 1, below);
            let q = ticking(rng, draft, depth - 1, below);
            draft.node(*rng.pick(&[5, 5, 6, 8]), p, q)
        }
    }
}

#[test]
fn selection_agrees_where_ticks_abound() {
    let rng = &mut Rng::new(8);
    let mut seen = Seen::default();
    for _ in 0..800 {
        let mut draft = Draft::new(1, 0);
        for d in 0..3 {
            let body = ticking(rng, &mut draft, 2, d);
            draft.define(body);
        }
        let start = ticking(rng, &mut draft, 3, 3);
        draft.agent(start);
        let table = draft.bytes();
        if loads(&table) != (0, 0) {
            continue;
        }
        let fleet = fleet(&table);
        let top = node(&fleet, start);
        compare(&top, &fleet, &mut seen);
        compare(&Term::sequence(top.clone(), Term::Tick), &fleet, &mut seen);
        compare(&Term::parallel(Term::Tick, top.clone()), &fleet, &mut seen);
        compare(&Term::parallel(top.clone(), top), &fleet, &mut seen);
    }
    seen.more_than(1_000, 20_000, 20_000, 300);
}

#[test]
fn every_process_node_has_the_count_of_its_list() {
    let rng = &mut Rng::new(6);
    for _ in 0..300 {
        let (_, fleet) = accepted(rng, Scale::Middle);
        for process in fleet.processes() {
            let count = process.count.get().copied().expect("load has counted it");
            if count.total() < 500 {
                let all = list(&node(&fleet, process.id), &fleet);
                assert_eq!(all.len(), count.total() as usize);
            }
        }
    }
}

#[test]
fn the_order_of_a_list() {
    // (a + tick) | (b + tick), with a and b guarded.
    let mut draft = Draft::new(1, 0);
    let guards = [draft.truth(), draft.truth(), draft.truth()];
    let values = [draft.constant(1), draft.constant(2)];
    let (a, b) = (
        draft.set_attribute(0, values[0]),
        draft.set_attribute(0, values[1]),
    );
    let (ga, gb) = (draft.guarded(guards[0], a), draft.guarded(guards[1], b));
    let (t, u) = (draft.tick(), draft.tick());
    let gt = draft.guarded(guards[2], t);
    let (p, q) = (draft.choice(ga, gt), draft.choice(gb, u));
    let both = draft.parallel(p, q);
    let (p2, q2) = (u32::from(p), u32::from(q));
    draft.agent(both);
    let fleet = fleet(&draft.bytes());
    let all: Vec<_> = list(&node(&fleet, both), &fleet).iter().map(key).collect();
    let (set_a, set_b) = (Some((0, 0, values[0])), Some((0, 0, values[1])));
    let [of_a, of_b, of_t] = guards;
    let (par, tick, idle) = (65_534, 65_533, 65_532);
    let expected = vec![
        (set_a, vec![of_a], vec![par, tick, q2]),
        (set_b, vec![of_b], vec![par, p2, tick]),
        // The tick of P, then all of Q.
        (set_b, vec![of_b, of_t], vec![tick]),
        (None, vec![of_t], vec![idle]),
        // The tick of Q, then all of P.
        (set_a, vec![of_a], vec![tick]),
        (None, vec![of_t], vec![idle]),
    ];
    assert_eq!(all, expected);

    // p ; q of the same: the action of P, then the tick of P with all of Q.
    let mut draft2 = draft.clone();
    draft2.nodes[usize::from(both)].kind = 5;
    let fleet = common::fleet(&draft2.bytes());
    let all: Vec<_> = list(&node(&fleet, both), &fleet).iter().map(key).collect();
    let expected = vec![
        (set_a, vec![of_a], vec![65_535, tick, q2]),
        (set_b, vec![of_b, of_t], vec![tick]),
        (None, vec![of_t], vec![idle]),
    ];
    assert_eq!(all, expected);
}

/// Counts with no limit, as far as 2^127.
#[derive(Clone, Copy)]
struct Exact {
    actions: u128,
    ticks: u128,
}

fn held(n: u128) -> u32 {
    n.min(u128::from(OVER)) as u32
}

#[test]
fn counts_held_at_the_limit_are_exact_below_it() {
    let rng = &mut Rng::new(7);
    let (mut over, mut recovered) = (0, 0);
    for _ in 0..2_000 {
        let mut made: Vec<(Exact, Count)> = (0..4)
            .map(|_| {
                let (a, t) = (rng.below(40), rng.below(40) * rng.below(2));
                let exact = Exact {
                    actions: a as u128,
                    ticks: t as u128,
                };
                (
                    exact,
                    Count {
                        actions: a as u32,
                        ticks: t as u32,
                    },
                )
            })
            .collect();
        for _ in 0..8 {
            let (p, held_p) = *rng.pick(&made);
            let (q, held_q) = *rng.pick(&made);
            let joined = p.ticks.saturating_mul(q.actions);
            let back = q.ticks.saturating_mul(p.actions);
            let both = p.ticks.saturating_mul(q.ticks);
            let (exact, count) = match rng.below(3) {
                0 => (
                    Exact {
                        actions: p.actions.saturating_add(q.actions),
                        ticks: p.ticks.saturating_add(q.ticks),
                    },
                    Count::choice(held_p, held_q),
                ),
                1 => (
                    Exact {
                        actions: p.actions.saturating_add(joined),
                        ticks: both,
                    },
                    Count::sequence(held_p, held_q),
                ),
                _ => (
                    Exact {
                        actions: p
                            .actions
                            .saturating_add(q.actions)
                            .saturating_add(joined)
                            .saturating_add(back),
                        ticks: both.saturating_mul(2),
                    },
                    Count::parallel(held_p, held_q),
                ),
            };
            assert_eq!(count.actions, held(exact.actions));
            assert_eq!(count.ticks, held(exact.ticks));
            let total = exact.actions.saturating_add(exact.ticks);
            assert_eq!(count.total(), held(total));
            assert_eq!(count.is_over(), total > 65_535);
            over += usize::from(count.is_over());
            let parts_over = held_p.is_over() || held_q.is_over();
            recovered += usize::from(parts_over && !count.is_over());
            made.push((exact, count));
        }
    }
    assert!(over > 100 && recovered > 0, "{over} {recovered}");
}

/// Fails if the work takes long; a walk that doubles would take for ever.
fn quickly(work: impl FnOnce() + Send + 'static) {
    let (sender, receiver) = mpsc::channel();
    let worker = std::thread::spawn(move || {
        work();
        let _ = sender.send(());
    });
    match receiver.recv_timeout(Duration::from_secs(20)) {
        Ok(()) => {}
        Err(mpsc::RecvTimeoutError::Timeout) => panic!("this takes too long"),
        Err(mpsc::RecvTimeoutError::Disconnected) => {
            std::panic::resume_unwind(worker.join().expect_err("the worker has failed"))
        }
    }
}

#[test]
fn doubling_definitions_end_quickly() {
    quickly(|| {
        for holds in [true, false] {
            let table = edges::doubling(64, holds).bytes();
            let mut state = start(&table);
            let want = if holds { 0 } else { 14 };
            assert_eq!(steps(&table, &mut state.clone(), Step::act(0, 0)), want);
            assert_eq!(steps(&table, &mut state.clone(), Step::act(0, 1)), 13);
            let (totals, answers) = runs(&table, &mut state, &vec![Step::act(0, 0); 8_192]);
            assert_eq!(answers[0], want);
            assert_eq!(answers[1], if holds { 13 } else { 14 });
            assert_eq!(totals.unwrap().done, u32::from(holds));
        }
        let mut input = edges::doubling(64, true).bytes();
        input.extend(schedule::write(&[Step::act(0, 0)]));
        let done = "done 1 refused 0 taken 0 added 0 replaced 0\nclock 0\n";
        assert_eq!(show(&input), done);
    });
}

#[test]
fn other_doublings_end_quickly() {
    quickly(|| {
        // Actions at the bottom: one derivation, but a residual of 127 words.
        let mut draft = edges::doubling(64, true);
        draft.attributes = 1;
        let lowest = usize::from(draft.definitions[0]);
        let tick = usize::from(draft.nodes[lowest].q);
        let table = {
            let mut draft = draft.clone();
            // The tick becomes "attribute 0 := 0" with a constant below it.
            draft.nodes[tick] = reference::draft::Raw {
                kind: 32,
                p: 0,
                q: 0,
            };
            draft.nodes[lowest] = reference::draft::Raw {
                kind: 2,
                p: 0,
                q: tick as u16,
            };
            draft.bytes()
        };
        assert_eq!(steps(&table, &mut start(&table), Step::act(0, 0)), 17);
        // A parallel of ticks squares and doubles: 1, 2, 8, 128, 32,768.
        let parallel = |levels| {
            let mut draft = edges::doubling(levels, true);
            for node in &mut draft.nodes {
                if node.kind == 5 {
                    node.kind = 8;
                }
            }
            draft
        };
        assert_eq!(loads(&parallel(5).bytes()), (0, 0));
        assert_eq!(loads(&parallel(6).bytes()).0, 7);
        assert_eq!(loads(&parallel(64).bytes()).0, 7);
    });
}

#[test]
fn every_choice_of_a_full_node_is_quick() {
    quickly(|| {
        let draft = edges::full_node(false);
        let table = draft.bytes();
        let fleet = fleet(&table);
        let world = World::start(&fleet);
        let term = &world.agents[0].residual;
        assert_eq!(count_term(term, &fleet).total(), 65_535);
        for choice in 0..65_535 {
            let got = select(term, choice, &fleet).expect("the choice is there");
            assert!(got.action.is_none());
        }
        assert!(select(term, 65_535, &fleet).is_none());
    });
}
