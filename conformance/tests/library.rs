//! labs_load, labs_step and labs_run answer as the second implementation does. (labs_preview, and the calls on a shelf,
//! are in other files.)

use conformance::fleets::long_link;
use conformance::rehearsal::{word, Counts, TOTALS};
use conformance::residuals::long_residuals;
use conformance::stack::SMALL_STACK;
use conformance::{
    agreed, any_words, call, call_with, expected, expected_with, lent_totals, preview, Given, LISTS,
};
use reference::cases::{Call, Case, ANSWER_FILL};
use reference::draft::Draft;
use reference::faults::{pairs, Pair};
use reference::generate::case;
use reference::generate::edges::{accept, deep_chain, with_writer};
use reference::on_deep_stack;
use reference::rng::Rng;
use reference::schedule;
use reference::state::{Entry, World, STATE_WORDS};
use reference::stats::Tally;
use reference::step::Step;
use reference::table::MAX_NODES;
use reference::term::{IDLE, MAX_WORDS, TICK};

/// How often load, step and run answer done (0) and each refusal, and the bytes of runs that are done.
#[derive(Default)]
struct Seen {
    calls: [Tally; 3],
    inside: Tally,
}

/// How often some were added, some replaced, and both, with counts that differ.
#[derive(Debug, Default)]
struct Counted([u64; 3]);

impl Counted {
    fn add(&mut self, added: u32, replaced: u32) {
        let both = added > 0 && replaced > 0 && added != replaced;
        for (count, occurred) in self.0.iter_mut().zip([added > 0, replaced > 0, both]) {
            *count += u64::from(occurred);
        }
    }

    fn complete(&self) -> bool {
        !self.0.contains(&0)
    }
}

impl Seen {
    fn add(&mut self, case: &Case, given: &Given) {
        let refusal = given.refusal();
        let call = match &case.call {
            Call::Load => 0,
            Call::Step(_) => 1,
            Call::Run { .. } => 2,
        };
        self.calls[call][refusal] += 1;
        if let (Call::Run { schedule, .. }, 0) = (&case.call, refusal) {
            for &answer in &given.answers[..schedule.len() / 5] {
                self.inside[usize::from(answer)] += 1;
            }
        }
    }

    /// Every answer that a call can have occurred.
    fn complete(&self) -> bool {
        let [load, step, run] = &self.calls;
        let reached = |tally: &Tally, mut answers: Vec<usize>| {
            answers.retain(|&answer| tally[answer] == 0);
            answers.is_empty()
        };
        reached(load, (0..=8).collect())
            && reached(step, (0..=18).collect())
            && reached(run, (0..=9).chain(19..=20).collect())
            && reached(&self.inside, (0..=0).chain(10..=18).collect())
    }
}

#[test]
fn every_call_answers_as_the_reference_does() {
    on_deep_stack(|| {
        let (mut by_steps, mut by_runs) = (Counted::default(), Counted::default());
        for (seed, small, count) in LISTS {
            let mut seen = Seen::default();
            for index in 0..count {
                let case = case(seed, index, small);
                let given = agreed(&case, &format!("seed {seed}, case {index}"));
                if given.refusal() != 0 {
                    assert!(given.state == case.state, "a refused call wrote the state");
                    assert!(given.answers.iter().all(|&byte| byte == ANSWER_FILL));
                }
                seen.add(&case, &given);
                match case.call {
                    Call::Step(_) if given.refusal() == 0 => {
                        let Counts { added, replaced } = Counts::of(given.packed);
                        by_steps.add(added, replaced);
                    }
                    Call::Run { .. } => by_runs.add(given.totals[2], given.totals[3]),
                    _ => {}
                }
            }
            assert!(
                seen.complete(),
                "an answer never occurred under seed {seed}"
            );
        }
        assert!(by_steps.complete() && by_runs.complete());
    });
}

/// As many totals as there is room for, in the order of the header; 0 where the run is refused; no other word.
#[test]
fn runs_write_the_totals_that_there_is_room_for() {
    let (mut counted, mut refused) = (Counted::default(), 0);
    for index in 0..4_000 {
        let case = case(4, index, true);
        if !matches!(case.call, Call::Run { .. }) {
            continue;
        }
        let whole = call_with(&case, TOTALS);
        for room in 0..=TOTALS + 3 {
            let given = call_with(&case, room);
            assert!(given == expected_with(&case, room), "case {index}, {room}");
            let mut wanted = lent_totals(room);
            let first = room.min(TOTALS);
            wanted[..first].copy_from_slice(&whole.totals[..first]);
            assert_eq!(given.totals, wanted, "case {index}, {room}");
        }
        match whole.refusal() {
            0 => counted.add(whole.totals[2], whole.totals[3]),
            _ => {
                assert_eq!(whole.totals, [0; TOTALS]);
                refused += 1;
            }
        }
    }
    assert!(counted.complete() && refused > 100, "{counted:?} {refused}");
}

/// Agents of each sort: linked or not, and without an entry, with an older one, with one of the same stamp, with a
/// newer one. The counts of the library are those of the agents that were there.
#[test]
fn steps_count_what_agents_had() {
    let rng = &mut Rng::new(5);
    let mut counted = Counted::default();
    for others in 0..32usize {
        let mut draft = Draft::new(1, 0);
        let idle = draft.idle();
        draft.link_where_set(0);
        draft.agents = vec![idle; others + 1];
        let (table, fleet) = accept(&draft);
        let mut world = World::start(&fleet);
        world.clock = 9;
        world.agents[0].entries.insert(0, Entry::new(7, 5, 0));
        world.agents[0].to_propagate.insert(0);
        world.agents[0].to_confirm.insert(0);
        let mut wanted = Counts {
            added: 0,
            replaced: 0,
        };
        for agent in 1..=others {
            let (linked, stamp) = (rng.chance(70), *rng.pick(&[0, 4, 5, 6]));
            if linked {
                world.agents[agent].attributes.insert(0, 1);
            }
            if stamp > 0 {
                let entry = Entry::new(agent as i32, stamp, 0);
                world.agents[agent].entries.insert(0, entry);
            }
            match (linked, stamp) {
                (true, 0) => wanted.added += 1,
                (true, 4) => wanted.replaced += 1,
                _ => {}
            }
        }
        for step in [Step::propagate(0, 0), Step::confirm(0, 0)] {
            let case = Case {
                table: table.clone(),
                state: world.words(),
                fill: 0,
                scratch: 2 * MAX_NODES,
                call: Call::Step(step),
            };
            let given = agreed(&case, &format!("{others} others"));
            assert_eq!(Counts::of(given.packed), wanted, "{others} others");
            counted.add(wanted.added, wanted.replaced);
        }
    }
    assert!(counted.complete(), "{counted:?}");
}

/// The order of the refusals: of two faults that a call holds, the first is answered, by the step where a run is done.
#[test]
fn calls_that_hold_two_faults_answer_as_the_reference_does() {
    let pairs = pairs();
    // 8 refusals of a load, 17 of an act, 11 of a propagate and of a confirm, 19 of a run and its act.
    assert_eq!(pairs.len(), 28 + 136 + 55 + 55 + 171);
    for Pair {
        asked,
        faults,
        case,
    } in pairs
    {
        let which = format!("{asked:?} with {faults:?}");
        let given = agreed(&case, &which);
        let answer = match given.refusal() {
            0 => usize::from(given.answers[0]),
            refusal => refusal,
        };
        assert_eq!(answer, usize::from(faults[0]), "{which}");
        assert!(given.state == case.state, "a refused call wrote the state");
    }
}

/// Numbers of each sign, small ones and those at the ends.
const OPERANDS: [i32; 17] = [
    i32::MIN,
    i32::MIN + 1,
    -65_536,
    -10,
    -7,
    -3,
    -2,
    -1,
    0,
    1,
    2,
    3,
    7,
    10,
    65_536,
    i32::MAX - 1,
    i32::MAX,
];

/// Five agents, of which each sets an attribute by an operator of its own.
fn by_every_operator(x: i32, y: i32) -> Case {
    let mut draft = Draft::new(1, 0);
    for operator in 0..5 {
        let (x, y) = (draft.constant(x), draft.constant(y));
        let value = draft.binary(operator, x, y);
        let set = draft.set_attribute(0, value);
        draft.agent(set);
    }
    let (table, fleet) = accept(&draft);
    let acts = [0, 1, 2, 3, 4].map(|agent| Step::act(agent, 0));
    Case {
        table,
        state: World::start(&fleet).words(),
        fill: 0,
        scratch: 2 * MAX_NODES,
        call: Call::Run {
            schedule: schedule::write(&acts),
            answers: acts.len(),
        },
    }
}

#[test]
fn operators_answer_as_the_reference_does() {
    for x in OPERANDS {
        for y in OPERANDS {
            agreed(&by_every_operator(x, y), &format!("{x} and {y}"));
        }
    }
}

/// A writer below A is passed on, any other is refused, and so is one of no entry.
#[test]
fn writers_answer_as_the_reference_does() {
    for agents in [1, 2, 3, 31, 32] {
        let last = agents as u32 - 1;
        for writer in (0..40).chain([65_536, 65_536 + last, 1 << 31, u32::MAX]) {
            for held in [false, true] {
                let call = Call::Step(Step::propagate(last as u16, 0));
                let case = with_writer(agents, last as usize, held, writer, call);
                let which = format!("{agents} agents, entry {held}, writer {writer}");
                let given = agreed(&case, &which);
                let wanted = match held {
                    false if writer > 0 => 9,
                    false => 18,
                    true if writer > last => 9,
                    true => 0,
                };
                assert_eq!(given.refusal(), wanted, "{which}");
            }
        }
    }
}

/// The residual of the agent that acts in `long_residuals`.
fn residual(state: &[u32]) -> &[u32] {
    let length = word::residual_length(1);
    &state[length + 1..][..state[length] as usize]
}

/// What an act leaves fills a residual's words up to the last, or the act is refused and nothing is written.
#[test]
fn long_residuals_answer_as_the_reference_does() {
    let (mut seen, mut filled, mut joined) = (Tally::default(), 0, 0);
    for (i, case) in long_residuals().iter().enumerate() {
        let given = agreed(case, &format!("act {i}"));
        seen[given.refusal()] += 1;
        if given.refusal() > 0 {
            assert!(given.state == case.state, "a refused act wrote the state");
        }
        let (before, after) = (residual(&case.state), residual(&given.state));
        filled += u32::from(before.len() < MAX_WORDS && after.len() == MAX_WORDS);
        // A tick at the end joined: what stood before it moved, but for the operator of both.
        let ended = (before.last(), after.last()) == (Some(&TICK), Some(&IDLE));
        joined += u32::from(ended && after.len() > 50);
    }
    let refused = [12, 13, 17].into_iter().all(|answer| seen[answer] > 0);
    assert!(
        refused && filled > 0 && joined > 0,
        "{seen:?} {filled} {joined}"
    );
}

/// The library's call; of a step also its preview, which says the same.
fn call_and_preview(case: &Case) -> Given {
    let given = call(case);
    if let Call::Step(_) = case.call {
        let seen = preview(case, &any_words(STATE_WORDS, 0));
        assert_eq!(seen.packed, given.packed);
        assert!(seen.next == given.state, "the state after the step");
    }
    given
}

/// What load and then some steps give, on a stack of this size.
fn load_and_step(
    table: Vec<u8>,
    steps: Vec<Step>,
    stack: usize,
    make: fn(&Case) -> Given,
) -> Vec<Given> {
    let thread = std::thread::Builder::new().stack_size(stack);
    let work = move || {
        let mut case = Case {
            table,
            state: vec![0; STATE_WORDS],
            fill: 0,
            scratch: 2 * MAX_NODES,
            call: Call::Load,
        };
        let mut all = vec![make(&case)];
        for step in steps {
            case.state = all[all.len() - 1].state.clone();
            case.call = Call::Step(step);
            all.push(make(&case));
        }
        all
    };
    thread.spawn(work).unwrap().join().unwrap()
}

/// A chain that is an agent's process and the body of a definition too, which a second agent calls; both act by the
/// first choice.
fn deep_body(kind: usize) -> (Vec<u8>, Vec<Step>) {
    let mut draft = deep_chain(kind);
    draft.define(draft.agents[0]);
    let call = draft.call(0);
    draft.agent(call);
    (draft.bytes(), vec![Step::act(0, 0), Step::act(1, 0)])
}

#[test]
fn deep_tables_fit_a_small_stack() {
    let chains = (0..6).map(|kind| (deep_chain(kind).bytes(), vec![Step::act(0, 0)]));
    let bodies = (0..5).map(deep_body);
    let link = (
        long_link(true).table,
        vec![Step::act(0, 1), Step::propagate(0, 0)],
    );
    for (i, (table, steps)) in chains.chain(bodies).chain([link]).enumerate() {
        let wanted = load_and_step(table.clone(), steps.clone(), 64 << 20, expected);
        let proved = load_and_step(table, steps, SMALL_STACK, call_and_preview);
        assert!(proved == wanted, "deep table {i}");
        assert!(
            proved.iter().all(|given| given.packed >> 63 == 0),
            "the steps on deep table {i} are done"
        );
    }
}
