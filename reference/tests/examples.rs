//! The paper's examples.

mod common;

use common::*;
use reference::derive::{list, select};
use reference::draft::Draft;
use reference::generate::edges;
use reference::machine::{load, run};
use reference::schedule;
use reference::show::show;
use reference::state::{Entry, World, STATE_WORDS};
use reference::step::Step;
use reference::syntax::Operator;
use reference::table::Fleet;
use reference::term::{PARALLEL, TICK};
use reference::{Counts, Totals};

/// Two agents that do nothing, one key with a true link.
fn pair() -> (Vec<u8>, Fleet) {
    let mut draft = Draft::new(0, 0);
    let idle = draft.idle();
    let link = draft.truth();
    draft.link(link);
    draft.agent(idle);
    draft.agent(idle);
    let table = draft.bytes();
    let fleet = fleet(&table);
    (table, fleet)
}

/// Agent 0 propagates or confirms its entry to agent 1; says what is counted,
/// and agents 0 and 1 afterwards.
fn exchange(kind: u8, own: Entry, other: Option<Entry>) -> (Counts, World) {
    let (table, fleet) = pair();
    let mut before = World::start(&fleet);
    before.clock = 9;
    before.agents[0].entries.insert(0, own);
    match kind {
        1 => before.agents[0].to_propagate.insert(0),
        _ => before.agents[0].to_confirm.insert(0),
    };
    if let Some(other) = other {
        before.agents[1].entries.insert(0, other);
        before.agents[1].to_confirm.insert(0);
    }
    let mut state = before.words();
    let step = Step {
        kind,
        agent: 0,
        number: 0,
    };
    let told = do_step(&table, &mut state, step).expect("the step is done");
    let after = world(&table, &state);
    assert_eq!(after.agents[0].entries[&0], own);
    assert!(after.agents[0].to_propagate.is_empty() && after.agents[0].to_confirm.is_empty());
    (told, after)
}

#[test]
fn a_equal_stamp_stays() {
    for kind in [1, 2] {
        let (told, after) = exchange(kind, Entry::new(9, 3, 1), Some(Entry::new(5, 3, 0)));
        assert_eq!(told, counts(0, 0));
        assert_eq!(after.agents[1].entries[&0], Entry::new(5, 3, 0));
        assert!(after.agents[1].to_propagate.is_empty());
        assert!(after.agents[1].to_confirm.contains(&0));
    }
}

#[test]
fn b_higher_stamp_replaces() {
    for kind in [1, 2] {
        let (told, after) = exchange(kind, Entry::new(9, 4, 1), Some(Entry::new(5, 3, 0)));
        assert_eq!(told, counts(0, 1));
        assert_eq!(after.agents[1].entries[&0], Entry::new(9, 4, 1));
        assert!(after.agents[1].to_propagate.contains(&0));
        assert!(after.agents[1].to_confirm.is_empty());
    }
}

#[test]
fn c_added_where_none_is_stored() {
    for kind in [1, 2] {
        let (told, after) = exchange(kind, Entry::new(5, 3, 0), None);
        assert_eq!(told, counts(1, 0));
        assert_eq!(after.agents[1].entries[&0], Entry::new(5, 3, 0));
        assert!(after.agents[1].to_propagate.contains(&0));
    }
}

#[test]
fn d_tick_beside_tick_has_two_choices() {
    let mut draft = Draft::new(0, 0);
    let (p, q) = (draft.tick(), draft.tick());
    let both = draft.parallel(p, q);
    draft.agent(both);
    let table = draft.bytes();
    let fleet = fleet(&table);
    let all = list(&node(&fleet, both), &fleet);
    assert_eq!(all.len(), 2);
    assert!(all
        .iter()
        .all(|d| d.action.is_none() && d.residual.words() == [65_532]));
    let mut state = start(&table);
    assert_eq!(steps(&table, &mut state, Step::act(0, 2)), 13);
    assert_eq!(steps(&table, &mut state.clone(), Step::act(0, 0)), 0);
    assert_eq!(steps(&table, &mut state, Step::act(0, 1)), 0);
}

#[test]
fn e_action_beside_tick_leaves_three_words_or_one() {
    let mut draft = Draft::new(1, 0);
    let one = draft.constant(1);
    let (a, tick) = (draft.set_attribute(0, one), draft.tick());
    let both = draft.parallel(a, tick);
    draft.agent(both);
    let fleet = fleet(&draft.bytes());
    let term = node(&fleet, both);
    let words = |c| select(&term, c, &fleet).map(|d| d.residual.words());
    assert_eq!(words(0), Some(vec![PARALLEL, TICK, u32::from(tick)]));
    assert_eq!(words(1), Some(vec![TICK]));
    assert_eq!(words(2), None);
    assert!((0..2).all(|c| select(&term, c, &fleet).unwrap().action.is_some()));
}

#[test]
fn f_sides_of_a_parallel_stay_in_place() {
    let mut draft = Draft::new(1, 0);
    let (one, two) = (draft.constant(1), draft.constant(2));
    let (a, b) = (draft.set_attribute(0, one), draft.set_attribute(0, two));
    let both = draft.parallel(a, b);
    draft.agent(both);
    let fleet = fleet(&draft.bytes());
    let term = node(&fleet, both);
    let words = |c| select(&term, c, &fleet).map(|d| d.residual.words());
    assert_eq!(words(0), Some(vec![PARALLEL, TICK, u32::from(b)]));
    assert_eq!(words(1), Some(vec![PARALLEL, u32::from(a), TICK]));
    assert_eq!(words(2), None);
}

/// Acts with a guard and says the answer.
fn act_under(guard: impl Fn(&mut Draft) -> u16) -> u8 {
    let mut draft = Draft::new(2, 0);
    let guard = guard(&mut draft);
    let tick = draft.tick();
    let start_at = draft.guarded(guard, tick);
    draft.agent(start_at);
    let table = draft.bytes();
    steps(&table, &mut start(&table), Step::act(0, 0))
}

fn attribute_is(draft: &mut Draft, value: i32) -> u16 {
    let (x, v) = (draft.attribute(0, 0), draft.constant(value));
    draft.equal(x, v)
}

#[test]
fn g_negation_of_an_absent_comparison_does_not_hold() {
    let not_one = |draft: &mut Draft| {
        let is_one = attribute_is(draft, 1);
        draft.not(is_one)
    };
    assert_eq!(act_under(not_one), 14);
    assert_eq!(
        act_under(|draft| {
            let (left, right) = (not_one(draft), draft.truth());
            draft.or(left, right)
        }),
        0
    );
    // Not (true or x = 1) is not well defined, although the or holds.
    assert_eq!(
        act_under(|draft| {
            let (left, right) = (draft.truth(), attribute_is(draft, 1));
            let either = draft.or(left, right);
            draft.not(either)
        }),
        14
    );
    assert_eq!(
        act_under(|draft| {
            let (left, right) = (draft.attribute(0, 0), draft.attribute(1, 0));
            draft.equal(left, right)
        }),
        14,
        "absent = absent does not hold"
    );
}

/// The value that an operator on two constants sets, if any.
fn reckon(operator: u8, a: i32, b: i32) -> Option<i32> {
    let mut draft = Draft::new(1, 0);
    let (a, b) = (draft.constant(a), draft.constant(b));
    let value = draft.binary(operator, a, b);
    let set = draft.set_attribute(0, value);
    draft.agent(set);
    let table = draft.bytes();
    let mut state = start(&table);
    match steps(&table, &mut state, Step::act(0, 0)) {
        0 => Some(world(&table, &state).agents[0].attributes[&0]),
        15 => None,
        other => panic!("{other}"),
    }
}

#[test]
fn h_i_reckoning() {
    let (most, least) = (i32::MAX, i32::MIN);
    assert_eq!(reckon(0, most, 1), None);
    assert_eq!(reckon(4, -7, 3), Some(2));
    assert_eq!(reckon(0, most, 0), Some(most));
    assert_eq!(reckon(1, least, 1), None);
    assert_eq!(reckon(1, least, -1), Some(least + 1));
    assert_eq!(reckon(2, 65_536, 32_768), None);
    assert_eq!(reckon(2, 65_536, -32_768), Some(least));
    assert_eq!(reckon(2, 65_536, 65_536), None);
}

/// Operands, their quotient and their remainder.
#[test]
fn the_quotient_is_truncated_and_the_remainder_floored() {
    let (most, least) = (i32::MAX, i32::MIN);
    let given = [
        (-1, 10, Some(0), Some(9)),
        (7, -3, Some(-2), Some(-2)),
        (-7, 3, Some(-2), Some(2)),
        (-7, -3, Some(2), Some(-1)),
        (6, -3, Some(-2), Some(0)),
        (-6, 3, Some(-2), Some(0)),
        (least, -1, None, Some(0)),
        (least, 10, Some(-214_748_364), Some(2)),
        (most, -10, Some(-214_748_364), Some(-3)),
        (least, most, Some(-1), Some(most - 1)),
        (most, least, Some(0), Some(-1)),
        (7, 0, None, None),
        (0, 0, None, None),
        (least, 0, None, None),
    ];
    for (x, y, quotient, remainder) in given {
        assert_eq!(reckon(3, x, y), quotient, "{x} by {y}");
        assert_eq!(reckon(4, x, y), remainder, "{x} by {y}");
    }
}

/// x less y times the greatest whole number that is at most x / y.
#[test]
fn small_remainders_by_searching_the_floor() {
    for x in -40..=40 {
        for y in (-12..=12).filter(|&y| y != 0) {
            // q is at most x / y where q times y is at most x, or at least x by a y below 0.
            let at_most = |&q: &i32| if y > 0 { q * y <= x } else { q * y >= x };
            let floor = (-40..=40).rev().find(at_most).expect("a floor");
            let remainder = Operator::Remainder.apply(x, y);
            assert_eq!(remainder, Some(x - y * floor), "{x} by {y}");
        }
    }
}

#[test]
fn j_a_confirm_leaves_newer_entries_alone() {
    let (told, after) = exchange(2, Entry::new(5, 3, 1), Some(Entry::new(9, 4, 0)));
    assert_eq!(told, counts(0, 0));
    assert_eq!(after.agents[1].entries[&0], Entry::new(9, 4, 0));
    assert!(after.agents[1].to_propagate.contains(&0));
    assert!(after.agents[1].to_confirm.contains(&0));
    // A propagate does nothing at all to a newer entry.
    let (told, after) = exchange(1, Entry::new(5, 3, 1), Some(Entry::new(9, 4, 0)));
    assert_eq!(told, counts(0, 0));
    assert!(after.agents[1].to_propagate.is_empty());
}

#[test]
fn a_load_writes_every_word() {
    let table = edges::example().bytes();
    let state = start(&table);
    assert_eq!(state.len(), STATE_WORDS);
    let set: Vec<(usize, u32)> = state
        .iter()
        .copied()
        .enumerate()
        .filter(|&(_, w)| w != 0)
        .collect();
    // A; for each agent length 1 and the node that its root names.
    assert_eq!(
        set,
        [
            (1, 2),
            (34 + 82, 1),
            (34 + 83, 1),
            (34 + 146 + 82, 1),
            (34 + 146 + 83, 3)
        ]
    );
}

const EXAMPLE_LINES: &str = "\
done 5 refused 2 taken 1 added 1 replaced 0
clock 1
s 0 0 7 1 0
a 1 0 7
s 1 0 7 1 0
";

#[test]
fn the_example_is_printed_as_in_the_paper_with_writers() {
    // The bytes, spelt out.
    let mut input: Vec<u8> = vec![8, 0, 0, 0, 2, 0, 1, 0, 1, 0, 0, 0];
    input.extend([32, 3, 34, 2, 16, 64, 64, 64]);
    let operands = [
        (7u16, 0u16),
        (0, 0),
        (0, 0),
        (0, 2),
        (0, 0),
        (4, 0),
        (1, 0),
        (3, 0),
    ];
    for (p, q) in operands {
        input.extend(p.to_le_bytes());
        input.extend(q.to_le_bytes());
    }
    assert_eq!(input, edges::example().bytes());
    let table = input.clone();
    input.extend([7, 0, 0, 0, 0, 1, 1, 0, 2]);
    for agent in [1, 0, 0, 0, 1, 1, 1] {
        input.extend([agent, 0, 0, 0]);
    }
    assert_eq!(
        input[table.len()..],
        schedule::write(&edges::example_steps())
    );
    assert_eq!(show(&input), EXAMPLE_LINES);

    let mut state = start(&table);
    let (totals, answers) = runs(&table, &mut state, &edges::example_steps());
    assert_eq!(
        totals,
        Ok(Totals {
            done: 5,
            refused: 2,
            counts: counts(1, 0)
        })
    );
    assert_eq!(answers, [15, 0, 11, 0, 0, 0, 0]);
}

#[test]
fn show_prints_every_kind_of_line_in_order() {
    // Agent 0: env 1 := -3; key 1 := 4; key 0 := 5; then reads both, and
    // writes key 1 again, so that keys wait in both sets.
    let mut draft = Draft::new(1, 2);
    let values = [-3, 4, 5].map(|v| draft.constant(v));
    let acts = [
        draft.set_environment(1, values[0]),
        draft.set_stigmergy(1, values[1]),
        draft.set_stigmergy(0, values[2]),
    ];
    let (x, y) = (draft.stigmergy(0, 0), draft.stigmergy(1, 0));
    let sum = draft.binary(0, x, y);
    let last = draft.set_stigmergy(1, sum);
    let mut process = acts[0];
    for next in [acts[1], acts[2], last] {
        process = draft.sequence(process, next);
    }
    let link = draft.truth();
    let never = draft.truth();
    let never = draft.not(never);
    draft.link(never);
    draft.link(link);
    let seven = draft.constant(7);
    let other = draft.set_attribute(0, seven);
    draft.agent(process);
    draft.agent(other);
    let mut input = draft.bytes();
    let list = [
        Step::act(0, 0),
        Step::act(0, 0),
        Step::propagate(0, 1),
        Step::act(0, 0),
        Step::propagate(0, 0),
        Step::act(1, 0),
        Step::propagate(1, 1),
        Step::act(1, 0),
        Step::act(0, 0),
    ];
    input.extend(schedule::write(&list));
    let expected = "\
done 8 refused 1 taken 1 added 1 replaced 0
clock 3
e 1 -3
s 0 0 5 2 0
s 0 1 9 3 0
c 0 0
c 0 1
p 0 1
a 1 0 7
s 1 1 4 1 0
";
    assert_eq!(show(&input), expected);
}

#[test]
fn show_splits_its_input() {
    let table = edges::example().bytes();
    let with = |tail: &[u8]| [&table[..], tail].concat();
    assert_eq!(show(&[]), "refused 1 0\n");
    assert_eq!(show(&table[..11]), "refused 1 0\n");
    assert_eq!(show(&table[..12]), "refused 3 0\n");
    assert_eq!(show(&[255; 40]), "refused 2 0\n");
    assert_eq!(show(&table[..table.len() - 1]), "refused 3 0\n");
    assert_eq!(show(&table), "refused 19 0\n");
    assert_eq!(show(&with(&[0])), "refused 19 0\n");
    let nothing = "done 0 refused 0 taken 0 added 0 replaced 0\nclock 0\n";
    assert_eq!(show(&with(&[0, 0])), nothing);
    assert_eq!(show(&with(&[0, 0, 0])), "refused 19 0\n");
    let mut bad = with(&[0, 0]);
    bad[12 + 4] = 23;
    assert_eq!(show(&bad), "refused 4 4\n");
}

#[test]
fn thirty_two_agents_pass() {
    assert_eq!(draft_loads(&edges::crowd(32)), (0, 0));
    assert_eq!(draft_loads(&edges::crowd(33)), (2, 0));
    let table = edges::crowd(32).bytes();
    let mut state = start(&table);
    assert_eq!(steps(&table, &mut state, Step::act(31, 0)), 0);
    let told = do_step(&table, &mut state, Step::propagate(31, 0));
    assert_eq!(told, Ok(counts(31, 0)));
    let agents = world(&table, &state).agents;
    assert!(agents.iter().all(|a| a.entries[&0] == Entry::new(1, 1, 31)));
}

#[test]
fn show_prints_the_writer() {
    // Agent 1 writes 7; agent 0 takes it and writes 8; agent 2 takes that.
    let mut draft = Draft::new(0, 0);
    let [seven, eight] = [7, 8].map(|value| draft.constant(value));
    let writes = [eight, seven].map(|value| draft.set_stigmergy(0, value));
    let (idle, link) = (draft.idle(), draft.truth());
    draft.link(link);
    for start in [writes[0], writes[1], idle] {
        draft.agent(start);
    }
    let list = [
        Step::act(1, 0),
        Step::propagate(1, 0),
        Step::propagate(0, 0),
        Step::act(0, 0),
    ];
    let shown = |list: &[Step]| show(&[draft.bytes(), schedule::write(list)].concat());
    let expected = "\
done 4 refused 0 taken 2 added 2 replaced 0
clock 2
s 0 0 8 2 0
p 0 0
s 1 0 7 1 1
s 2 0 7 1 1
p 2 0
";
    assert_eq!(shown(&list), expected);
}

#[test]
fn the_clock_ends_at_65535() {
    let table = edges::crowd(1).bytes();
    let mut state = start(&table);
    // The writer writes 65,535 times, in runs of 8,192 steps.
    let mut done = 0;
    while state[0] < 65_530 {
        let left = (65_530 - state[0]) as usize;
        let round = [Step::act(0, 0), Step::propagate(0, 0)];
        let list: Vec<Step> = round
            .into_iter()
            .cycle()
            .take((2 * left).min(8_192))
            .collect();
        let (totals, _) = runs(&table, &mut state, &list);
        done += totals.unwrap().done;
    }
    assert_eq!((state[0], done), (65_530, 2 * 65_530));
    for clock in 65_530..65_535 {
        assert_eq!(state[0], clock);
        assert_eq!(steps(&table, &mut state, Step::act(0, 0)), 0);
        assert_eq!(world(&table, &state).agents[0].stamp(0), clock + 1);
        assert_eq!(steps(&table, &mut state, Step::act(0, 0)), 11);
        assert_eq!(steps(&table, &mut state, Step::propagate(0, 0)), 0);
    }
    assert_eq!(state[0], 65_535);
    assert_eq!(steps(&table, &mut state, Step::act(0, 0)), 16);
}

#[test]
fn a_residual_may_have_63_words() {
    let table = edges::growing().bytes();
    let mut state = start(&table);
    for words in (3..=63).step_by(2) {
        assert_eq!(steps(&table, &mut state, Step::act(0, 0)), 0);
        assert_eq!(
            world(&table, &state).agents[0].residual.words().len(),
            words
        );
    }
    assert_eq!(steps(&table, &mut state, Step::act(0, 0)), 17);
}

#[test]
fn scratch_of_any_length_from_2n_gives_the_same() {
    let table = edges::example().bytes();
    let list = schedule::write(&edges::example_steps());
    for scratch in [16, 17, 8_192] {
        let mut state = vec![1; STATE_WORDS];
        let mut answers = [0; 7];
        assert_eq!(load(&table, &mut state, scratch), Ok(()));
        assert!(run(&table, &mut state, scratch, &list, &mut answers).is_ok());
        assert_eq!(answers, [15, 0, 11, 0, 0, 0, 0]);
    }
}
