//! Inputs that hold several faults at once: which of them is answered shows
//! the order of the refusals.

use crate::cases::{Call, Case, Outcome};
use crate::draft::Draft;
use crate::generate::edges;
use crate::schedule;
use crate::state::{Agent, Entry, World, MAX_CLOCK, STATE_WORDS};
use crate::step::Step;
use crate::table::Fleet;
use crate::term::{Term, MAX_WORDS};

/// What a call is asked to do: a run has one step, an act.
#[derive(Clone, Copy, Debug, PartialEq, Eq)]
pub enum Asked {
    Load,
    Act,
    Propagate,
    Confirm,
    Run,
}

pub const ASKED: [Asked; 5] = [
    Asked::Load,
    Asked::Act,
    Asked::Propagate,
    Asked::Confirm,
    Asked::Run,
];

/// The refusals of a table and of what is lent, in the paper's order.
const TABLE: [u8; 8] = [1, 2, 3, 8, 4, 5, 6, 7];
const ACT: [u8; 8] = [10, 11, 12, 13, 14, 15, 16, 17];

impl Asked {
    /// The refusals that the call can have, in the paper's order; those of its
    /// step last.
    pub fn order(self) -> Vec<u8> {
        match self {
            Asked::Load => TABLE.to_vec(),
            Asked::Act => [&TABLE[..], &[9], &ACT].concat(),
            Asked::Propagate | Asked::Confirm => [&TABLE[..], &[9, 10, 18]].concat(),
            Asked::Run => [&TABLE[..], &[9, 19, 20], &ACT].concat(),
        }
    }
}

/// A call that holds two faults.
pub struct Pair {
    pub asked: Asked,
    /// In the paper's order.
    pub faults: [u8; 2],
    pub case: Case,
}

/// A call for every two refusals that it can have.
pub fn pairs() -> Vec<Pair> {
    let mut all = Vec::new();
    for asked in ASKED {
        let order = asked.order();
        for (i, &first) in order.iter().enumerate() {
            for &second in &order[i + 1..] {
                let faults = [first, second];
                let case = case(asked, &faults);
                all.push(Pair {
                    asked,
                    faults,
                    case,
                });
            }
        }
    }
    all
}

/// What is answered: the call's refusal, or that of the step of a run that is
/// not refused.
pub fn answered(outcome: &Outcome) -> u8 {
    match (outcome.refusal(), outcome.answers.first()) {
        (0, Some(&answer)) => answer,
        (refusal, _) => refusal,
    }
}

/// A call with these faults and no others.
pub fn case(asked: Asked, faults: &[u8]) -> Case {
    let has = |fault| faults.contains(&fault);
    let mut agent = faults.to_vec();
    // A key that is to be sent is pending, unless that is the fault.
    if matches!(asked, Asked::Propagate | Asked::Confirm) && !has(18) {
        agent.push(11);
    }
    let (table, world) = fleet(faults, &[&agent]);
    let mut state = world.words();
    if has(9) {
        state[STATE_WORDS - 1] = 1;
    }
    let nodes = usize::from(u16::from_le_bytes([table[0], table[1]]));
    Case {
        scratch: 2 * nodes - usize::from(has(8)),
        table,
        state,
        fill: 0,
        call: call(asked, faults),
    }
}

fn call(asked: Asked, faults: &[u8]) -> Call {
    let has = |fault| faults.contains(&fault);
    let agent = u16::from(has(10));
    let act = Step::act(agent, u16::from(has(13)));
    match asked {
        Asked::Load => Call::Load,
        Asked::Act => Call::Step(act),
        Asked::Propagate => Call::Step(Step::propagate(agent, 0)),
        Asked::Confirm => Call::Step(Step::confirm(agent, 0)),
        Asked::Run => {
            let mut schedule = schedule::write(&[act]);
            if has(19) {
                schedule.push(0);
            }
            let answers = usize::from(!has(20));
            Call::Run { schedule, answers }
        }
    }
}

/// A table with those of the faults that are a table's, and the state of its
/// sound form in which each agent has its set of faults among 11, 12, 14, 15,
/// 16 and 17. (The clock is everyone's: with a 16 it is at its end.)
pub fn fleet(faults: &[u8], agents: &[&[u8]]) -> (Vec<u8>, World) {
    let sound = Parts::new(&[], agents.len());
    let (_, fleet) = edges::accept(&sound.draft);
    let clock_ends = agents.iter().any(|faults| faults.contains(&16));
    let world = World {
        clock: MAX_CLOCK - u32::from(!clock_ends),
        agents: agents.iter().map(|set| sound.agent(&fleet, set)).collect(),
        ..World::start(&fleet)
    };
    let mut table = Parts::new(faults, agents.len()).draft.bytes();
    if faults.contains(&3) {
        table.push(0);
    }
    if faults.contains(&1) {
        table.truncate(11);
    }
    (table, world)
}

/// A draft whose nodes have the same numbers for all faults.
struct Parts {
    draft: Draft,
    /// 256 ticks.
    many: u16,
    /// Key 0 := value ; tick, where the value is present, or absent.
    writes: [u16; 2],
    /// The same, under a guard that does not hold.
    guarded: [u16; 2],
}

impl Parts {
    fn new(faults: &[u8], agents: usize) -> Parts {
        let has = |fault| faults.contains(&fault);
        let mut draft = edges::squares();
        draft.attributes = 1;
        draft.environment = if has(2) { 17 } else { 16 };
        let read = draft.attribute(0, u16::from(has(5)));
        draft.set_attribute(0, read);
        let many = draft.call(3);
        let more = draft.call(if has(7) { 3 } else { 2 });
        draft.sequence(many, more);
        let itself = draft.call(if has(6) { 4 } else { 3 });
        draft.define(itself);
        let link = draft.node(if has(4) { 23 } else { 16 }, 0, 0);
        draft.link(link);
        let values = [draft.constant(1), draft.attribute(0, 0)];
        let writes = values.map(|value| {
            let (write, tick) = (draft.set_stigmergy(0, value), draft.tick());
            draft.sequence(write, tick)
        });
        let guarded = writes.map(|write| {
            let truth = draft.truth();
            let never = draft.not(truth);
            draft.guarded(never, write)
        });
        draft.agents = vec![writes[0]; agents];
        Parts {
            draft,
            many,
            writes,
            guarded,
        }
    }

    /// An agent that starts with one of the writes and goes on with what no
    /// derivation reaches: over-full, or too long by one word, or neither.
    fn agent(&self, fleet: &Fleet, faults: &[u8]) -> Agent {
        let has = |fault| faults.contains(&fault);
        let node = |number| Term::Process(fleet.process(u32::from(number)).expect("a process"));
        let starts = if has(14) { self.guarded } else { self.writes };
        let first = node(starts[usize::from(has(15))]);
        let mut rest = node(self.many);
        if has(12) {
            rest = Term::sequence(rest, node(self.many));
        }
        while has(17) && rest.words().len() < MAX_WORDS - 2 {
            rest = Term::sequence(Term::Idle, rest);
        }
        let mut agent = Agent::new(Term::sequence(first, rest));
        if has(11) {
            let entry = Entry::new(2, 1, 0);
            agent.entries.insert(0, entry);
            agent.to_confirm.insert(0);
            agent.to_propagate.insert(0);
        }
        agent
    }
}
