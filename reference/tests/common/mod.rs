//! What the tests share.
#![allow(dead_code)]

use reference::draft::Draft;
use reference::generate::schedules::{any, enabled};
use reference::history::{Said, Watch};
use reference::machine::open;
use reference::refusal::{Answer, Counts, Refusal};
use reference::rng::Rng;
use reference::state::{Entry, World, STATE_WORDS};
use reference::step::Step;
use reference::table::Fleet;
use reference::term::Term;
use reference::{load, run, step};

pub const SCRATCH: usize = 8_192;

/// Entries that differ from value 7, stamp 1, writer 0 in one of the three.
pub const UNLIKE: [Entry; 3] = [
    Entry::new(8, 1, 0),
    Entry::new(7, 2, 0),
    Entry::new(7, 1, 1),
];

pub fn fleet(table: &[u8]) -> Fleet {
    open(table, STATE_WORDS, SCRATCH).expect("the table is accepted")
}

pub fn start(table: &[u8]) -> Vec<u32> {
    let mut state = vec![7; STATE_WORDS];
    load(table, &mut state, SCRATCH).expect("the table is accepted");
    state
}

pub fn world(table: &[u8], state: &[u32]) -> World {
    World::decode(state, &fleet(table)).expect("the state is well formed")
}

pub fn node(fleet: &Fleet, number: u16) -> Term {
    Term::Process(fleet.process(number.into()).expect("a process node"))
}

/// What load answers: 0 and 0, or the refusal and its place.
pub fn loads(table: &[u8]) -> (u8, u16) {
    let mut state = vec![7; STATE_WORDS];
    let answer = load(table, &mut state, SCRATCH);
    if answer.is_err() {
        assert!(state.iter().all(|&word| word == 7), "a refused load wrote");
    }
    brief(answer)
}

pub fn draft_loads(draft: &Draft) -> (u8, u16) {
    loads(&draft.bytes())
}

pub fn brief<T>(answer: Answer<T>) -> (u8, u16) {
    match answer {
        Ok(_) => (0, 0),
        Err(Refusal { reason, place }) => (reason.number(), place),
    }
}

/// Steps and says the refusal, or 0.
pub fn steps(table: &[u8], state: &mut Vec<u32>, step: Step) -> u8 {
    let before = state.clone();
    let (number, place) = brief(do_step(table, state, step));
    assert_eq!(place, 0);
    if number != 0 {
        assert_eq!(before, *state, "a refused step wrote");
    }
    number
}

pub fn do_step(table: &[u8], state: &mut [u32], s: Step) -> Answer<Counts> {
    step(table, state, SCRATCH, s.kind, s.agent, s.number)
}

/// A lent state with its watch. Demand 3 holds after load and after each step.
pub struct Watched {
    table: Vec<u8>,
    pub fleet: Fleet,
    lent: Vec<u32>,
    /// What the lent state is.
    pub world: World,
    pub watch: Watch,
}

impl Watched {
    pub fn new(table: &[u8]) -> Watched {
        let (fleet, lent) = (fleet(table), start(table));
        let world = World::decode(&lent, &fleet).expect("the state is well formed");
        let mut watch = Watch::after_load(table).expect("the table is accepted");
        assert_eq!(watch.after(&world), Ok(()));
        Watched {
            table: table.to_vec(),
            fleet,
            lent,
            world,
            watch,
        }
    }

    pub fn step(&mut self, scratch: usize, s: Step) -> Answer<Counts> {
        let (table, lent) = (&self.table, &mut self.lent);
        let answer = step(table, lent, scratch, s.kind, s.agent, s.number);
        // The history says the same of the step, without the lent state.
        assert_eq!(self.watch.note(&self.world, scratch, s), answer);
        let after = World::decode(lent, &self.fleet).expect("the state is well formed");
        assert_eq!(self.watch.after(&after), Ok(()));
        assert!(
            answer.is_ok() || self.world == after,
            "a refused step wrote"
        );
        assert!(self.steady_is_all_or_none());
        self.world = after;
        answer
    }

    /// After load no agent has a value, and a link that holds there holds between
    /// all agents for ever. So no chain of steady links leads to an agent that
    /// the first one is not linked to.
    fn steady_is_all_or_none(&self) -> bool {
        let agents = self.fleet.sizes.agents;
        let mut lengths = self.watch.steady.iter().map(|links| links.len());
        lengths.all(|length| length == 0 || length == agents * (agents - 1))
    }

    /// Does a random step, mostly one that is done. Where none is found, the
    /// list ends at times.
    pub fn random_step(&mut self, rng: &mut Rng) -> Option<Answer<Counts>> {
        let next = match enabled(rng, &self.fleet, &self.world) {
            Some(step) if rng.chance(85) => step,
            None if rng.chance(30) => return None,
            _ => any(rng, &self.fleet),
        };
        let scratch = if rng.chance(5) {
            rng.below(2 * self.fleet.sizes.nodes)
        } else {
            SCRATCH
        };
        Some(self.step(scratch, next))
    }
}

/// The world after these steps from load, and its watch.
pub fn after_steps(table: &[u8], steps: &[Step]) -> (World, Watch) {
    let mut watched = Watched::new(table);
    for &next in steps {
        let _ = watched.step(SCRATCH, next);
    }
    (watched.world, watched.watch)
}

/// Whether no count is below its least. (No group of steady links is apart.)
pub fn reaches(said: &Said, least: &Said) -> bool {
    let counts = |said: &Said| {
        let (steady, kept) = (said.steady, said.kept);
        let of_steady = [said.newer, steady.groups, steady.longer];
        let of_kept = [kept.groups, kept.longer, kept.apart, said.kept_alone];
        of_steady.into_iter().chain(of_kept)
    };
    let mut pairs = counts(said).zip(counts(least));
    pairs.all(|(count, least)| count >= least) && said.steady.apart == 0
}

/// A link between agents whose attribute 0 is at most 1 apart.
pub fn link_near(draft: &mut Draft) {
    let near = [(1, 2), (2, 1)].map(|(low, high)| {
        let (low, one) = (draft.attribute(0, low), draft.constant(1));
        let (next, high) = (draft.binary(0, low, one), draft.attribute(0, high));
        let far = draft.less(next, high);
        draft.not(far)
    });
    let both = draft.and(near[0], near[1]);
    draft.link(both);
}

/// A link to agents whose attribute 0 is not lower.
pub fn link_up(draft: &mut Draft) {
    let (receiver, sender) = (draft.attribute(0, 2), draft.attribute(0, 1));
    let lower = draft.less(receiver, sender);
    let up = draft.not(lower);
    draft.link(up);
}

/// A link that always holds.
pub fn link_all(draft: &mut Draft) {
    let truth = draft.truth();
    draft.link(truth);
}

/// The places 0, 1, .. of 3 to 6 agents in a row, in a random order.
pub fn places(rng: &mut Rng) -> Vec<i32> {
    let mut left: Vec<i32> = (0..rng.between(3, 6) as i32).collect();
    let mut places = Vec::new();
    while !left.is_empty() {
        places.push(left.swap_remove(rng.below(left.len())));
    }
    places
}

/// Agents at these places of a row. Each sets attribute 0 to its place and then
/// for ever writes a key, reads one, or does nothing that others see. The links
/// of key 0 are near, those of key 1 lead up, those of key 2 always hold.
pub fn row(places: &[i32]) -> Vec<u8> {
    let mut draft = Draft::new(2, 0);
    let one = draft.constant(1);
    let mut all = draft.set_attribute(1, one);
    for key in 0..3 {
        let place = draft.attribute(0, 0);
        let write = draft.set_stigmergy(key, place);
        let held = draft.stigmergy(key, 0);
        let read = draft.set_attribute(1, held);
        let either = draft.choice(write, read);
        all = draft.choice(all, either);
    }
    let again = draft.call(0);
    let body = draft.sequence(all, again);
    draft.define(body);
    for &place in places {
        let (place, body) = (draft.constant(place), draft.call(0));
        let enter = draft.set_attribute(0, place);
        let start = draft.sequence(enter, body);
        draft.agent(start);
    }
    link_near(&mut draft);
    link_up(&mut draft);
    link_all(&mut draft);
    draft.bytes()
}

/// What a step counts.
pub fn counts(added: u32, replaced: u32) -> Counts {
    Counts { added, replaced }
}

/// Runs a schedule given as steps, with a buffer that is just long enough.
pub fn runs(
    table: &[u8],
    state: &mut [u32],
    steps: &[Step],
) -> (Answer<reference::Totals>, Vec<u8>) {
    let mut answers = vec![99; steps.len()];
    let schedule = reference::schedule::write(steps);
    let totals = run(table, state, SCRATCH, &schedule, &mut answers);
    (totals, answers)
}
