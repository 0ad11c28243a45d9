//! Fleets for measuring: runs of whole length, tables of a given size, and inputs that take long.

use reference::cases::Call;
use reference::draft::Draft;
use reference::machine::open;
use reference::schedule::{self, MAX_STEPS};
use reference::state::{World, STATE_WORDS};
use reference::step::Step;
use reference::table::MAX_NODES;

/// A table, and a schedule of whole length.
pub struct Fleet {
    pub table: Vec<u8>,
    pub call: Call,
}

/// The steps that can be done, tried in turn until the schedule is full.
fn full_run(table: &[u8], tried: &[Step]) -> Call {
    let fleet = open(table, STATE_WORDS, usize::MAX).expect("an accepted table");
    let mut world = World::start(&fleet);
    let mut steps = Vec::new();
    for &step in tried.iter().cycle() {
        if steps.len() == MAX_STEPS {
            break;
        }
        if world.step(&fleet, step).is_ok() {
            steps.push(step);
        }
    }
    Call::Run {
        schedule: schedule::write(&steps),
        answers: MAX_STEPS,
    }
}

/// Each agent in turn writes, and then everyone propagates and confirms what waits.
fn rounds(agents: u16) -> Vec<Step> {
    let mut steps = Vec::new();
    for writer in 0..agents {
        steps.extend([
            Step::act(writer, 0),
            Step::act(writer, 1),
            Step::propagate(writer, 0),
        ]);
        steps.extend((0..agents).map(|other| Step::propagate(other, 0)));
        steps.extend((0..agents).map(|other| Step::confirm(other, 0)));
    }
    steps
}

/// The agents' processes: under a guard, a write of key 0 from its last value, or of 0, again and again.
fn writers(mut draft: Draft, link: u16, agents: u16) -> Fleet {
    let (own, one) = (draft.stigmergy(0, 0), draft.constant(1));
    let next = draft.binary(0, own, one);
    let limit = draft.constant(1_000);
    let value = draft.binary(4, next, limit);
    let write = draft.set_stigmergy(0, value);
    let zero = draft.constant(0);
    let begin = draft.set_stigmergy(0, zero);
    let either = draft.choice(write, begin);
    let guard = draft.truth();
    let guarded = draft.guarded(guard, either);
    let again = draft.call(0);
    let body = draft.sequence(guarded, again);
    draft.define(body);
    draft.link(link);
    let start = draft.call(0);
    for _ in 0..agents {
        draft.agent(start);
    }
    let table = draft.bytes();
    let call = full_run(&table, &rounds(agents));
    Fleet { table, call }
}

/// So many agents under a link of a few nodes that holds.
pub fn fleet(agents: u16) -> Fleet {
    let mut draft = Draft::new(1, 0);
    let (sender, least) = (draft.stigmergy(0, 1), draft.constant(-1));
    let above = draft.greater(sender, least);
    writers(draft, above, agents)
}

/// A table of so many nodes and definitions: each body is a chain of guarded ticks that ends in a call of the definition before.
pub fn table(nodes: usize, definitions: usize) -> Vec<u8> {
    let mut draft = Draft::new(1, 0);
    let bodies = definitions.max(1);
    let room = (nodes - definitions - 2) / bodies;
    for k in 0..bodies {
        let end = draft.nodes.len() + room;
        let mut top = if k == 0 {
            draft.tick()
        } else {
            draft.call(k as u16 - 1)
        };
        while draft.nodes.len() + 6 <= end {
            let (one, same) = (draft.constant(1), draft.constant(1));
            let guard = draft.equal(one, same);
            let tick = draft.tick();
            let joined = draft.sequence(tick, top);
            top = draft.guarded(guard, joined);
        }
        if definitions > 0 {
            draft.define(top);
        } else {
            draft.agent(top);
        }
    }
    if definitions > 0 {
        let start = draft.call(definitions as u16 - 1);
        draft.agent(start);
    }
    while draft.size() < nodes {
        draft.idle();
    }
    draft.bytes()
}

/// A link of about 4,000 nodes, in a fleet of 32 agents.
pub fn long_link(holds: bool) -> Fleet {
    let mut draft = Draft::new(1, 0);
    let mut link = draft.truth();
    for _ in 0..(MAX_NODES - 120) / 2 * 2 + usize::from(!holds) {
        link = draft.not(link);
    }
    writers(draft, link, 32)
}

/// A link of nested ands over comparisons.
pub fn nested_ands() -> Fleet {
    let mut draft = Draft::new(1, 0);
    let mut link = draft.truth();
    for _ in 0..(MAX_NODES - 120) / 4 {
        let (a, b) = (draft.constant(1), draft.constant(1));
        let equal = draft.equal(a, b);
        link = draft.and(link, equal);
    }
    writers(draft, link, 32)
}

/// One agent that acts by this process, again and again.
fn repeated(mut draft: Draft, process: u16) -> Fleet {
    let again = draft.call(0);
    let body = draft.sequence(process, again);
    draft.define(body);
    let start = draft.call(0);
    draft.agent(start);
    let table = draft.bytes();
    let call = full_run(&table, &[Step::act(0, 0)]);
    Fleet { table, call }
}

/// An act through 2,000 guards, again and again.
pub fn many_guards() -> Fleet {
    let mut draft = Draft::new(1, 0);
    let one = draft.constant(1);
    let mut top = draft.set_attribute(0, one);
    for _ in 0..2_000 {
        let guard = draft.truth();
        top = draft.guarded(guard, top);
    }
    repeated(draft, top)
}

/// Ticks that join over a large body: a chain of sequences of ticks before an action, again and again.
pub fn joined_ticks() -> Fleet {
    let mut draft = Draft::new(1, 0);
    let one = draft.constant(1);
    let mut top = draft.set_attribute(0, one);
    while draft.size() < MAX_NODES - 16 {
        let guard = draft.truth();
        let tick = draft.tick();
        let guarded = draft.guarded(guard, tick);
        top = draft.sequence(guarded, top);
    }
    repeated(draft, top)
}
