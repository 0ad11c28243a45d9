//! Inputs at and past every limit.

use crate::cases::{Call, Case, FILL};
use crate::draft::Draft;
use crate::generate::fleets::{self, Scale};
use crate::machine::open;
use crate::rng::Rng;
use crate::schedule::{self, MAX_STEPS};
use crate::state::{entry_at, Agent, Entry, World, MAX_CLOCK, STATE_WORDS};
use crate::step::Step;
use crate::table::{Fleet, MAX_AGENTS, MAX_DEFINITIONS, MAX_KEYS, MAX_NODES};
use crate::term::{Term, MAX_WORDS, SEQUENCE, TICK};

type Make = fn(&mut Rng) -> Case;

/// Edges that need few nodes.
const SMALL: [Make; 18] = [
    short_table,
    few_sizes,
    sizes_in_header,
    table_length,
    room,
    shallow_doubling,
    over_full_definition,
    over_full_residual,
    filling_residual,
    last_choice,
    clock_end,
    last_writer,
    long_residual,
    schedule_length,
    answers_length,
    exposed_call,
    wrong_party,
    second_naming,
];

/// Edges that need many.
const LARGE: [Make; 9] = [
    many_agents,
    many_writers,
    many_definitions,
    many_keys,
    many_nodes,
    full_derivations,
    full_residual,
    long_schedule,
    deep,
];

pub fn edge(rng: &mut Rng, small: bool) -> Case {
    let which = rng.below(if small {
        SMALL.len()
    } else {
        SMALL.len() + LARGE.len()
    });
    match SMALL.get(which) {
        Some(make) => make(rng),
        None => LARGE[which - SMALL.len()](rng),
    }
}

fn nodes_of(table: &[u8]) -> usize {
    usize::from(u16::from_le_bytes([table[0], table[1]]))
}

fn load_case(table: Vec<u8>) -> Case {
    Case {
        scratch: (2 * nodes_of(&table)).min(2 * MAX_NODES),
        table,
        state: vec![FILL; STATE_WORDS],
        fill: FILL,
        call: Call::Load,
    }
}

fn case_at(table: Vec<u8>, world: &World, call: Call) -> Case {
    Case {
        scratch: 2 * nodes_of(&table),
        table,
        state: world.words(),
        fill: 0,
        call,
    }
}

/// Loads, steps or runs, whichever comes, from the start of an accepted table.
fn any_call(rng: &mut Rng, table: Vec<u8>) -> Case {
    let Ok(fleet) = open(&table, STATE_WORDS, usize::MAX) else {
        let mut case = load_case(table);
        case.call = match rng.below(3) {
            0 => Call::Step(Step::act(0, 0)),
            1 => run_of(&[Step::act(0, 0)]),
            _ => Call::Load,
        };
        return case;
    };
    let world = World::start(&fleet);
    match rng.below(3) {
        0 => load_case(table),
        1 => case_at(table, &world, Call::Step(Step::act(0, 0))),
        _ => {
            let steps = [Step::act(0, 0), Step::act(0, 1), Step::propagate(0, 0)];
            case_at(table, &world, run_of(&steps))
        }
    }
}

fn run_of(steps: &[Step]) -> Call {
    Call::Run {
        schedule: schedule::write(steps),
        answers: steps.len(),
    }
}

/// The table of a sound draft, and the table read.
pub fn accept(draft: &Draft) -> (Vec<u8>, Fleet) {
    let table = draft.bytes();
    let fleet = open(&table, STATE_WORDS, usize::MAX).expect("the draft is sound");
    (table, fleet)
}

/// The table of the paper's example.
pub fn example() -> Draft {
    let mut draft = Draft::new(1, 0);
    let seven = draft.constant(7);
    let write = draft.set_stigmergy(0, seven);
    let read = draft.stigmergy(0, 0);
    let copy = draft.set_attribute(0, read);
    let link = draft.truth();
    draft.link(link);
    draft.agent(write);
    draft.agent(copy);
    draft
}

/// The steps of the paper's example.
pub fn example_steps() -> Vec<Step> {
    vec![
        Step::act(1, 0),
        Step::act(0, 0),
        Step::act(0, 0),
        Step::propagate(0, 0),
        Step::propagate(1, 0),
        Step::act(1, 0),
        Step::confirm(1, 0),
    ]
}

/// A fleet of one agent that writes key 0 for ever, its links true.
fn writer() -> Draft {
    let mut draft = Draft::new(0, 0);
    let one = draft.constant(1);
    let write = draft.set_stigmergy(0, one);
    let again = draft.call(0);
    let body = draft.sequence(write, again);
    let link = draft.truth();
    draft.define(body);
    draft.link(link);
    draft.agent(body);
    draft
}

/// So many agents with one process among them, the first of S keys linked.
pub fn crowd(agents: usize) -> Draft {
    let mut draft = writer();
    let start = draft.agents[0];
    draft.agents = vec![start; agents];
    draft
}

/// Definitions that double the walk at each level while they have one
/// derivation: "call k-1 ; call k-1", the lowest a guarded tick.
pub fn doubling(levels: usize, holds: bool) -> Draft {
    let mut draft = Draft::new(0, 0);
    let guard = draft.truth();
    let guard = if holds { guard } else { draft.not(guard) };
    let tick = draft.tick();
    let lowest = draft.guarded(guard, tick);
    draft.define(lowest);
    for k in 1..levels {
        let first = draft.call(k as u16 - 1);
        let second = draft.call(k as u16 - 1);
        let body = draft.sequence(first, second);
        draft.define(body);
    }
    let start = draft.call(levels as u16 - 1);
    draft.agent(start);
    draft
}

/// Definitions 0 to 3 with 2, 4, 16 and 256 ticks.
pub fn squares() -> Draft {
    let mut draft = Draft::new(0, 0);
    let (first, second) = (draft.tick(), draft.tick());
    let body = draft.choice(first, second);
    draft.define(body);
    for k in 1..4 {
        let (first, second) = (draft.call(k - 1), draft.call(k - 1));
        let body = draft.sequence(first, second);
        draft.define(body);
    }
    draft
}

/// Adds a node with 2, 4, 16 or 256 ticks, and one more.
pub fn one_more(draft: &mut Draft, definition: u16) -> u16 {
    let (call, tick) = (draft.call(definition), draft.tick());
    draft.choice(call, tick)
}

/// Adds a node with 3 x 5 x 17 = 255 ticks.
pub fn ticks_255(draft: &mut Draft) -> u16 {
    let three = one_more(draft, 0);
    let five = one_more(draft, 1);
    let seventeen = one_more(draft, 2);
    let fifteen = draft.sequence(three, five);
    draft.sequence(fifteen, seventeen)
}

fn short_table(rng: &mut Rng) -> Case {
    let mut table = example().bytes();
    table.truncate(*rng.pick(&[0, 1, 11, 11, 12]));
    let mut case = load_case(example().bytes());
    case.table = table;
    if rng.chance(30) {
        case.call = Call::Step(Step::act(0, 0));
    } else if rng.chance(30) {
        case.call = run_of(&[]);
    }
    case
}

/// N or A of 0; as many roots as nodes, or more.
fn few_sizes(rng: &mut Rng) -> Case {
    let (nodes, definitions, agents) =
        *rng.pick(&[(0, 0, 0), (1, 0, 0), (1, 0, 1), (1, 1, 1), (2, 2, 1)]);
    let mut table: Vec<u8> = vec![nodes, 0, definitions, 0, agents, 0, 0, 0, 0, 0, 0, 0];
    table.resize(12 + 5 * usize::from(nodes), 0);
    table[12..12 + usize::from(nodes)].fill(64);
    any_call(rng, table)
}

/// A header that says too much, whatever follows.
fn sizes_in_header(rng: &mut Rng) -> Case {
    let mut table = example().bytes();
    let field = rng.below(6);
    let limit = [
        MAX_NODES,
        MAX_DEFINITIONS,
        MAX_AGENTS,
        MAX_KEYS,
        MAX_KEYS,
        MAX_KEYS,
    ][field];
    let value = *rng.pick(&[limit, limit + 1, 65_535]) as u16;
    table[2 * field..2 * field + 2].copy_from_slice(&value.to_le_bytes());
    any_call(rng, table)
}

fn table_length(rng: &mut Rng) -> Case {
    let mut case = load_case(example().bytes());
    let length = case.table.len();
    case.table
        .resize(*rng.pick(&[length - 1, length, length + 1]), 0);
    case
}

/// State and scratch of one word more, enough, one fewer; the table has a
/// fault that comes later, at times.
fn room(rng: &mut Rng) -> Case {
    let mut draft = example();
    if rng.chance(30) {
        draft.nodes[4].kind = 23;
    }
    let table = draft.bytes();
    let mut case = any_call(rng, table);
    if rng.chance(50) {
        let words = *rng.pick(&[0, STATE_WORDS - 1, STATE_WORDS, STATE_WORDS + 1]);
        case.state.resize(words, case.fill);
    } else {
        case.scratch = *rng.pick(&[0, 15, 16, 17]);
    }
    case
}

fn shallow_doubling(rng: &mut Rng) -> Case {
    let holds = rng.chance(70);
    any_call(rng, doubling(5, holds).bytes())
}

/// 65,536 ticks in a definition.
fn over_full_definition(rng: &mut Rng) -> Case {
    let mut draft = squares();
    let (first, second) = (draft.call(3), draft.call(3));
    let full = draft.sequence(first, second);
    if rng.chance(50) {
        draft.define(full);
    }
    draft.agent(first);
    any_call(rng, draft.bytes())
}

/// 65,536 derivations in a residual whose nodes have 256, or twice 16,
/// reached by a derivation or not.
fn over_full_residual(rng: &mut Rng) -> Case {
    let mut draft = squares();
    let (full, few) = (draft.call(3), draft.call(2));
    draft.agent(full);
    let (table, fleet) = accept(&draft);
    let node = |number| Term::Process(fleet.process(u32::from(number)).expect("a process"));
    let other = if rng.chance(60) {
        node(full)
    } else {
        node(few)
    };
    let pair = Term::sequence(node(full), other);
    let residual = match rng.below(4) {
        0 => Term::sequence(Term::Idle, pair),
        1 => Term::parallel(node(few), node(full)),
        _ => pair,
    };
    let mut world = World::start(&fleet);
    world.agents[0].residual = residual;
    let choice = *rng.pick(&[0, 4_095, 4_096, 8_191, 8_192, 65_535]);
    case_at(table, &world, Call::Step(Step::act(0, choice)))
}

/// A process whose nodes have few derivations, but too many after one act:
/// (write ; 256 ticks) | 256 ticks.
pub fn filling() -> Draft {
    let mut draft = squares();
    draft.attributes = 1;
    let one = draft.constant(1);
    let write = draft.set_attribute(0, one);
    let later = draft.call(3);
    let left = draft.sequence(write, later);
    let right = draft.call(3);
    let both = draft.parallel(left, right);
    draft.agent(both);
    draft
}

fn filling_residual(rng: &mut Rng) -> Case {
    let (table, fleet) = accept(&filling());
    let choice = *rng.pick(&[0, 1, 256, 257]);
    let steps = [Step::act(0, choice), Step::act(0, 0), Step::act(0, 1)];
    case_at(table, &World::start(&fleet), run_of(&steps))
}

/// The last choice of a process, and the first that is not there.
fn last_choice(rng: &mut Rng) -> Case {
    let (table, fleet) = fleets::accepted(rng, Scale::Small);
    let world = World::start(&fleet);
    let choices = crate::derive::count_term(&world.agents[0].residual, &fleet).total() as u16;
    let choice = *rng.pick(&[0, choices.saturating_sub(1), choices, 65_535]);
    case_at(table, &world, Call::Step(Step::act(0, choice)))
}

/// A write when the clock is one before its end, and at its end.
fn clock_end(rng: &mut Rng) -> Case {
    let (table, fleet) = accept(&writer());
    let mut world = World::start(&fleet);
    world.clock = MAX_CLOCK - rng.below(2) as u32;
    let steps = [Step::act(0, 0), Step::propagate(0, 0), Step::act(0, 0)];
    let call = if rng.chance(50) {
        Call::Step(steps[0])
    } else {
        run_of(&steps)
    };
    case_at(table, &world, call)
}

/// So many agents, one of whom has an entry to propagate and to confirm, or has
/// none; the writer of that is this word.
pub fn with_writer(agents: usize, who: usize, held: bool, writer: u32, call: Call) -> Case {
    let (table, fleet) = accept(&crowd(agents));
    let mut world = World::start(&fleet);
    world.clock = 1;
    if held {
        let agent = &mut world.agents[who];
        agent.entries.insert(0, Entry::new(2, 1, 0));
        agent.to_propagate.insert(0);
        agent.to_confirm.insert(0);
    }
    let mut case = case_at(table, &world, call);
    case.state[entry_at(who, 0) + 2] = writer;
    case
}

/// An entry whose writer is the last of so many agents, or past it; or a writer
/// where there is no entry.
fn writer_of(rng: &mut Rng, agents: usize) -> Case {
    let (who, past) = (rng.below(agents), agents as u32);
    let mut writers = [past - 1, past - 1, past, past + 1];
    let held = rng.chance(70);
    if !held {
        writers[0] = 0;
    }
    let number = who as u16;
    let mut steps = [
        Step::propagate(number, 0),
        Step::confirm(number, 0),
        Step::act(number, 0),
    ];
    if rng.chance(50) {
        steps.swap(0, 1);
    }
    let call = if rng.chance(50) {
        Call::Step(steps[0])
    } else {
        run_of(&steps)
    };
    let writer = *rng.pick(&writers);
    with_writer(agents, who, held, writer, call)
}

fn last_writer(rng: &mut Rng) -> Case {
    let agents = *rng.pick(&[1, 2, 3, 16]);
    writer_of(rng, agents)
}

/// A process that leaves two words more at each act: write ; (call ; tick).
pub fn growing() -> Draft {
    let mut draft = Draft::new(1, 0);
    let one = draft.constant(1);
    let write = draft.set_attribute(0, one);
    let (again, tick) = (draft.call(0), draft.tick());
    let rest = draft.sequence(again, tick);
    let body = draft.sequence(write, rest);
    draft.define(body);
    draft.agent(body);
    draft
}

/// Acts up to a residual of 63 words, and past it.
fn long_residual(rng: &mut Rng) -> Case {
    let (table, fleet) = accept(&growing());
    let mut world = World::start(&fleet);
    if rng.chance(40) {
        let steps = vec![Step::act(0, 0); rng.between(30, 33)];
        return case_at(table, &world, run_of(&steps));
    }
    // tick ; (call ; tick) ; tick ; .., of 61 or 63 words.
    let words = MAX_WORDS - 2 * rng.below(2);
    let deep = (words - 3) / 2;
    let mut residual = vec![SEQUENCE; deep + 1];
    residual.extend([TICK, 4]);
    residual.extend(vec![3; deep]);
    let residual = Term::read(&residual, &fleet).expect("a whole term");
    world.agents[0] = Agent::new(residual);
    case_at(table, &world, Call::Step(Step::act(0, 0)))
}

fn schedule_length(rng: &mut Rng) -> Case {
    let (table, fleet) = accept(&example());
    let mut schedule = schedule::write(&example_steps());
    let length = schedule.len();
    match rng.below(3) {
        0 => schedule.resize(*rng.pick(&[0, 1, 2, length - 1, length + 1]), 0),
        1 => schedule = vec![0, 0],
        _ => {
            let n: u16 = *rng.pick(&[0, 6, 8, 8_192, 8_193, 65_535]);
            schedule[..2].copy_from_slice(&n.to_le_bytes());
        }
    }
    // A buffer that is too short as well, at times: 19 comes before 20.
    let answers = *rng.pick(&[0, 7]);
    case_at(
        table,
        &World::start(&fleet),
        Call::Run { schedule, answers },
    )
}

fn answers_length(rng: &mut Rng) -> Case {
    let (table, fleet) = accept(&example());
    let schedule = schedule::write(&example_steps());
    let answers = *rng.pick(&[0, 6, 7, 8]);
    case_at(
        table,
        &World::start(&fleet),
        Call::Run { schedule, answers },
    )
}

/// Definitions 0 and 1 where one exposes a call that is lower or not.
pub fn exposed_call(rng: &mut Rng) -> Case {
    let mut draft = Draft::new(1, 0);
    let tick = draft.tick();
    let left = match rng.below(4) {
        0 => {
            let one = draft.constant(1);
            draft.set_attribute(0, one)
        }
        1 => draft.idle(),
        2 => draft.call(rng.below(2) as u16),
        _ => draft.tick(),
    };
    let call = draft.call(rng.below(3) as u16);
    let body = match rng.below(3) {
        0 => draft.choice(left, call),
        1 => draft.parallel(left, call),
        _ => draft.sequence(left, call),
    };
    let (first, second) = if rng.chance(70) {
        (tick, body)
    } else {
        (body, tick)
    };
    draft.define(first);
    draft.define(second);
    draft.define(tick);
    draft.agent(tick);
    any_call(rng, draft.bytes())
}

/// A key read from a process, from a link, from both or from neither.
pub fn wrong_party(rng: &mut Rng) -> Case {
    let mut draft = Draft::new(1, 1);
    let read = match rng.below(3) {
        0 => draft.attribute(0, rng.below(4) as u16),
        1 => draft.stigmergy(0, rng.below(4) as u16),
        _ => draft.environment(0),
    };
    let one = draft.constant(1);
    let guard = draft.equal(read, one);
    let tick = draft.tick();
    let other = draft.truth();
    let from_process = rng.chance(40);
    let start = if from_process {
        draft.guarded(guard, tick)
    } else {
        tick
    };
    draft.link(if rng.chance(50) { guard } else { other });
    draft.agent(start);
    any_call(rng, draft.bytes())
}

/// A node that two nodes name, one node names twice, or roots name often.
pub fn second_naming(rng: &mut Rng) -> Case {
    let mut draft = Draft::new(0, 0);
    let (first, second, third) = (draft.tick(), draft.tick(), draft.tick());
    let pair = draft.sequence(first, *rng.pick(&[first, second, second]));
    let last = draft.choice(pair, *rng.pick(&[second, third, third, pair + 1]));
    draft.define(*rng.pick(&[first, pair, last, last + 1]));
    draft.agent(first);
    draft.agent(*rng.pick(&[first, pair, last]));
    any_call(rng, draft.bytes())
}

fn many_agents(rng: &mut Rng) -> Case {
    let agents = MAX_AGENTS + rng.below(2);
    any_call(rng, crowd(agents).bytes())
}

fn many_writers(rng: &mut Rng) -> Case {
    writer_of(rng, MAX_AGENTS)
}

fn many_definitions(rng: &mut Rng) -> Case {
    let holds = rng.chance(70);
    let levels = MAX_DEFINITIONS + usize::from(rng.chance(30));
    any_call(rng, doubling(levels, holds).bytes())
}

fn many_keys(rng: &mut Rng) -> Case {
    let mut draft = writer();
    let more = rng.below(2);
    match rng.below(3) {
        0 => draft.attributes = (MAX_KEYS + more) as u16,
        1 => draft.environment = (MAX_KEYS + more) as u16,
        _ => draft.links = vec![draft.links[0]; MAX_KEYS + more],
    }
    any_call(rng, draft.bytes())
}

fn many_nodes(rng: &mut Rng) -> Case {
    let mut draft = example();
    let size = MAX_NODES + rng.below(2);
    while draft.size() < size {
        draft.constant(0);
    }
    any_call(rng, draft.bytes())
}

/// A node with 65,535 derivations, and one with one more.
pub fn full_node(over: bool) -> Draft {
    let mut draft = squares();
    let full = if over {
        let (first, second) = (draft.call(3), draft.call(3));
        draft.sequence(first, second)
    } else {
        let left = ticks_255(&mut draft);
        let right = one_more(&mut draft, 3);
        draft.sequence(left, right)
    };
    draft.agent(full);
    draft
}

fn full_derivations(rng: &mut Rng) -> Case {
    let over = rng.chance(40);
    let table = full_node(over).bytes();
    let mut case = any_call(rng, table);
    if let Call::Step(step) = &mut case.call {
        step.number = *rng.pick(&[0, 1, 32_768, 65_534, 65_535]);
    }
    case
}

/// A residual with 65,535 derivations, and with one more; at its top, or where
/// no derivation leads.
fn full_residual(rng: &mut Rng) -> Case {
    let mut draft = squares();
    let left = ticks_255(&mut draft);
    let right = one_more(&mut draft, 3);
    let even = draft.call(3);
    draft.agent(even);
    let (table, fleet) = accept(&draft);
    let node = |number| Term::Process(fleet.process(u32::from(number)).expect("a process"));
    let pair = if rng.chance(50) {
        Term::sequence(node(left), node(right))
    } else {
        Term::sequence(node(even), node(even))
    };
    let residual = if rng.chance(50) {
        pair
    } else {
        Term::parallel(Term::sequence(Term::Idle, pair), Term::Tick)
    };
    let mut world = World::start(&fleet);
    world.agents[0].residual = residual;
    let choice = *rng.pick(&[0, 65_534, 65_535]);
    case_at(table, &world, Call::Step(Step::act(0, choice)))
}

fn long_schedule(rng: &mut Rng) -> Case {
    let (table, fleet) = accept(&crowd(3));
    let length = MAX_STEPS + rng.below(2);
    let round = [
        Step::act(0, 0),
        Step::propagate(0, 0),
        Step::propagate(1, 0),
        Step::propagate(2, 0),
        Step::confirm(2, 0),
    ];
    let steps: Vec<Step> = round.into_iter().cycle().take(length).collect();
    let mut call = run_of(&steps);
    if let Call::Run { answers, .. } = &mut call {
        *answers = *rng.pick(&[MAX_STEPS - 1, MAX_STEPS, MAX_STEPS]);
    }
    case_at(table, &World::start(&fleet), call)
}

/// A chain of about 4,000 nodes under one another: sequences, choices, a guard, an expression, ticks before an action, and those as a
/// definition's body.
pub fn deep_chain(kind: usize) -> Draft {
    let mut draft = Draft::new(1, 0);
    let room = MAX_NODES - 12;
    let start = match kind {
        0 | 1 => {
            let mut top = draft.tick();
            for _ in 0..room / 2 {
                let tick = draft.tick();
                top = draft.node(if kind == 0 { 5 } else { 6 }, top, tick);
            }
            top
        }
        2 => {
            let mut guard = draft.truth();
            for _ in 0..room / 2 * 2 {
                guard = draft.not(guard);
            }
            let tick = draft.tick();
            draft.guarded(guard, tick)
        }
        3 => {
            let mut value = draft.constant(0);
            for _ in 0..room / 2 {
                let one = draft.constant(1);
                value = draft.binary(0, value, one);
            }
            draft.set_attribute(0, value)
        }
        4 | 5 => {
            let one = draft.constant(1);
            let mut top = draft.set_attribute(0, one);
            for _ in 0..room / 2 {
                let tick = draft.tick();
                top = draft.sequence(tick, top);
            }
            top
        }
        _ => unreachable!("there is no chain of kind {kind}"),
    };
    if kind == 5 {
        draft.define(start);
        let call = draft.call(0);
        draft.agent(call);
    } else {
        draft.agent(start);
    }
    draft
}

fn deep(rng: &mut Rng) -> Case {
    let kind = rng.below(5);
    any_call(rng, deep_chain(kind).bytes())
}
