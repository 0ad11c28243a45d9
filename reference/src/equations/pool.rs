//! The rehearsals from which those to be computed are chosen.

use super::Equation;
use crate::derive::count_term;
use crate::draft::Draft;
use crate::faults;
use crate::generate::{edges, fleets, schedules, worlds};
use crate::machine::open;
use crate::rng::Rng;
use crate::schedule;
use crate::state::{entry_at, Entry, World, STATE_WORDS};
use crate::step::Step;
use crate::table::Fleet;
use crate::term::Term;

/// How many rehearsals are generated, and how large they may be: a checker has
/// to compute them.
const GENERATED: u64 = 60_000;
const NODES: usize = 18;
const STEPS: usize = 7;
const DERIVATIONS: u32 = 24;

/// Made rehearsals, for what hardly any generated one shows, and generated ones.
pub fn pool(seed: u64) -> Vec<Equation> {
    let mut all = vec![
        full(true),
        full(false),
        orders(),
        state_and_schedule(),
        passed_on(),
        unlike_signs(),
    ];
    let generators = (0..GENERATED).map(|index| Rng::for_index(seed, index));
    all.extend(generators.filter_map(|mut rng| generated(&mut rng)));
    all
}

/// The paper's.
pub fn example() -> Equation {
    let steps = schedule::write(&edges::example_steps());
    Equation::after_load(edges::example().bytes(), steps)
}

/// A node with as many derivations as it may have, or with one more.
fn full(over: bool) -> Equation {
    Equation::after_load(edges::full_node(over).bytes(), schedule::write(&[]))
}

/// Acts with several faults each.
fn orders() -> Equation {
    let agents: [&[u8]; 5] = [&[11, 12], &[12, 14], &[14, 15], &[15, 16], &[16, 17]];
    let (table, world) = faults::fleet(&[], &agents);
    let acts = [(0, 0), (1, 0), (1, 1), (2, 0), (3, 0), (4, 0)];
    let steps = acts.map(|(agent, choice)| Step::act(agent, choice));
    Equation::new(table, &world.words(), schedule::write(&steps))
}

/// A state whose one entry has a writer that is A, and a schedule with a byte
/// too many.
fn state_and_schedule() -> Equation {
    let (table, fleet) = edges::accept(&edges::example());
    let mut world = World::start(&fleet);
    world.clock = 1;
    let entry = Entry::new(7, 1, fleet.sizes.agents as u16);
    world.agents[0].entries.insert(0, entry);
    let state = world.words();
    let mut schedule = schedule::write(&edges::example_steps());
    schedule.push(0);
    Equation::new(table, &state, schedule)
}

/// A link reaches whoever has set its attribute. Agent 1 writes and reaches
/// agent 2, which reaches agent 0, which writes in turn.
fn passed_on() -> Equation {
    let mut draft = Draft::new(1, 0);
    let values = [1, 7, 9].map(|value| draft.constant(value));
    let enter = draft.set_attribute(0, values[0]);
    let [write, later] = [1, 2].map(|i| draft.set_stigmergy(0, values[i]));
    let both = draft.sequence(enter, later);
    draft.link_where_set(0);
    draft.agents = vec![both, write, enter];
    let steps = [
        Step::act(2, 0),
        Step::act(1, 0),
        Step::propagate(1, 0),
        Step::act(0, 0),
        Step::propagate(2, 0),
        Step::propagate(0, 0),
        Step::act(0, 0),
    ];
    Equation::after_load(draft.bytes(), schedule::write(&steps))
}

/// What operators give of numbers of unlike signs, each set by an agent of its
/// own.
fn unlike_signs() -> Equation {
    let mut draft = Draft::new(1, 0);
    for (x, y, operators) in [(8, -3, &[0, 1, 3, 4][..]), (-8, 3, &[3, 4])] {
        for &operator in operators {
            let (x, y) = (draft.constant(x), draft.constant(y));
            let value = draft.binary(operator, x, y);
            let set = draft.set_attribute(0, value);
            draft.agent(set);
        }
    }
    let acts = (0..draft.agents.len()).map(|agent| Step::act(agent as u16, 0));
    let schedule = schedule::write(&acts.collect::<Vec<_>>());
    Equation::after_load(draft.bytes(), schedule)
}

/// A table that is refused, or not, for one node.
fn edge(rng: &mut Rng) -> Equation {
    let make = rng.pick(&[
        edges::second_naming,
        edges::wrong_party,
        edges::exposed_call,
    ]);
    Equation::after_load(make(rng).table, schedule::write(&[]))
}

/// A small fleet, its state after load or an invented one, and steps of which
/// most are done; at times with a fault in the state or the schedule.
fn generated(rng: &mut Rng) -> Option<Equation> {
    if rng.chance(5) {
        return Some(edge(rng));
    }
    let draft = fleets::random(rng, fleets::Scale::Small);
    let table = draft.bytes();
    let fleet = open(&table, STATE_WORDS, usize::MAX).ok()?;
    let world = if rng.chance(40) {
        World::start(&fleet)
    } else {
        worlds::invented(rng, &fleet)
    };
    let most = rng.between(1, STEPS);
    let steps = schedules::mostly_enabled(rng, &fleet, &mut world.clone(), most);
    if draft.size() > NODES || !is_light(&fleet, world.clone(), &steps) {
        return None;
    }
    let (mut state, mut schedule) = (world.words(), schedule::write(&steps));
    match rng.below(20) {
        0 => state[rng.below(STATE_WORDS)] = rng.below(70_000) as u32,
        1 => schedule.push(0),
        2 if fleet.sizes.stigmergy > 0 => {
            let agents = fleet.sizes.agents;
            let at = entry_at(rng.below(agents), rng.below(fleet.sizes.stigmergy));
            state[at + 2] = rng.between(1, agents) as u32;
        }
        _ => {}
    }
    Some(Equation::new(table, &state, schedule))
}

/// Each residual on the way has few derivations, in every part of it.
fn is_light(fleet: &Fleet, mut world: World, steps: &[Step]) -> bool {
    let light = |world: &World| {
        let mut agents = world.agents.iter();
        agents.all(|agent| is_light_term(fleet, &agent.residual))
    };
    light(&world)
        && steps.iter().all(|&step| {
            let _ = world.step(fleet, step);
            light(&world)
        })
}

fn is_light_term(fleet: &Fleet, term: &Term) -> bool {
    let parts = match term {
        Term::Sequence(p, q) | Term::Parallel(p, q) => {
            is_light_term(fleet, p) && is_light_term(fleet, q)
        }
        _ => true,
    };
    parts && count_term(term, fleet).total() <= DERIVATIONS
}
