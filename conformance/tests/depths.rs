//! Where choices lie deep or are many: definitions that double, ticks that join, counts at their limit, and what nested
//! processes leave. The library answers at once, and as the second implementation does. (Chains of 4,000 nodes are in
//! library.rs.)

use std::sync::mpsc::{self, RecvTimeoutError};
use std::thread;
use std::time::Duration;

use conformance::rehearsal::{taken_apart, word, Refused, MAX_RESIDUAL};
use conformance::stack::SMALL_STACK;
use conformance::{agreed, any_words, call, expected_preview, preview, Given};
use reference::cases::{Call, Case, FILL};
use reference::draft::Draft;
use reference::generate::edges::{self, accept};
use reference::on_deep_stack;
use reference::state::{Agent, Entry, World, STATE_WORDS};
use reference::step::Step;
use reference::table::{Fleet, MAX_DEFINITIONS, MAX_KEYS, MAX_NODES};
use reference::term::Term;

/// Fails where the work takes long; a walk that doubles at each of 64 levels would take for ever.
fn quickly(work: impl FnOnce() + Send + 'static) {
    let (sender, receiver) = mpsc::channel();
    let worker = thread::spawn(move || {
        on_deep_stack(work);
        let _ = sender.send(());
    });
    match receiver.recv_timeout(Duration::from_secs(60)) {
        Ok(()) => {}
        Err(RecvTimeoutError::Timeout) => panic!("this takes too long"),
        Err(RecvTimeoutError::Disconnected) => {
            std::panic::resume_unwind(worker.join().expect_err("the worker has failed"))
        }
    }
}

fn case(table: &[u8], state: Vec<u32>, call: Call) -> Case {
    Case {
        table: table.to_vec(),
        state,
        fill: 0,
        scratch: 2 * MAX_NODES,
        call,
    }
}

/// What load says of a table: the refusal and its place, or that it is done.
fn loads(draft: &Draft) -> Result<u64, Refused> {
    let case = case(&draft.bytes(), vec![FILL; STATE_WORDS], Call::Load);
    taken_apart(agreed(&case, "load").packed)
}

/// What an act comes to. Its preview says the same, and what is refused changes nothing.
fn acts(table: &[u8], world: &World, agent: u16, choice: u16) -> Given {
    let call = Call::Step(Step::act(agent, choice));
    let case = case(table, world.words(), call);
    let given = agreed(&case, &format!("choice {choice}"));
    let next = any_words(STATE_WORDS, 0);
    let seen = preview(&case, &next);
    assert!(seen == expected_preview(&case, &next), "choice {choice}");
    assert_eq!(seen.packed, given.packed);
    assert!(given.refusal() == 0 || given.state == case.state);
    given
}

/// The refusal of agent 0's act, or 0.
fn answers(table: &[u8], world: &World, choice: u16) -> usize {
    acts(table, world, 0, choice).refusal()
}

fn node(fleet: &Fleet, number: u16) -> Term {
    Term::Process(fleet.process(number.into()).expect("a process"))
}

fn write(draft: &mut Draft) -> u16 {
    let one = draft.constant(1);
    draft.set_attribute(0, one)
}

/// Sixteen keys, with links that hold.
fn link_all(draft: &mut Draft) {
    let link = draft.truth();
    draft.links = vec![link; MAX_KEYS];
}

/// A guard that holds and reads a key, whether that has a value or not.
fn reads(draft: &mut Draft, key: u16) -> u16 {
    let (truth, read, zero) = (draft.truth(), draft.stigmergy(key, 0), draft.constant(0));
    let equal = draft.equal(read, zero);
    draft.or(truth, equal)
}

/// The fleet at its start, agent 0 with an entry for each of these keys, bit k for key k.
fn holding(fleet: &Fleet, keys: u32) -> World {
    let mut world = World::start(fleet);
    world.clock = MAX_KEYS as u32;
    for key in (0..MAX_KEYS as u16).filter(|key| keys >> key & 1 == 1) {
        let entry = Entry::new(3, 1 + u32::from(key), 0);
        world.agents[0].entries.insert(key, entry);
    }
    world
}

/// Zc of agent 0, which tells of the keys that have entries which were read.
fn confirms(given: &Given) -> u32 {
    given.state[word::zc(0)]
}

const ALL: u32 = (1 << MAX_KEYS) - 1;
const LEVELS: u16 = MAX_DEFINITIONS as u16;

/// Definitions that double, each under a guard of its own, before a write: the one choice has all the guards.
fn doubling(guard: impl Fn(&mut Draft, u16) -> u16) -> (Vec<u8>, Fleet) {
    let mut draft = Draft::new(1, 0);
    for level in 0..LEVELS {
        let body = if level == 0 {
            draft.tick()
        } else {
            let (first, second) = (draft.call(level - 1), draft.call(level - 1));
            draft.sequence(first, second)
        };
        let guard = guard(&mut draft, level);
        let guarded = draft.guarded(guard, body);
        draft.define(guarded);
    }
    let doubled = draft.call(LEVELS - 1);
    let write = write(&mut draft);
    let start = draft.sequence(doubled, write);
    draft.agent(start);
    link_all(&mut draft);
    accept(&draft)
}

/// Of sixteen levels at a time the guards read a key each: whichever keys have entries, Zc gains these and no others.
#[test]
fn doubling_definitions_collect_the_guard_of_every_level() {
    quickly(|| {
        let keys = MAX_KEYS as u16;
        for group in 0..LEVELS / keys {
            let (table, fleet) = doubling(|draft, level| {
                if level / keys == group {
                    reads(draft, level % keys)
                } else {
                    draft.truth()
                }
            });
            let alone = (0..keys).map(|key| 1 << key);
            let missing = (0..keys).map(|key| ALL - (1 << key));
            for held in alone.chain(missing).chain([0, ALL]) {
                let given = acts(&table, &holding(&fleet, held), 0, 0);
                assert_eq!((given.packed, confirms(&given)), (0, held), "{group}");
            }
            assert_eq!(answers(&table, &holding(&fleet, ALL), 1), 13);
        }
    });
}

/// A guard that does not hold, at any one level, is enough.
#[test]
fn doubling_definitions_judge_the_guard_of_every_level() {
    quickly(|| {
        for wrong in 0..LEVELS {
            let (table, fleet) = doubling(|draft, level| {
                let guard = draft.truth();
                if level == wrong {
                    draft.not(guard)
                } else {
                    guard
                }
            });
            assert_eq!(answers(&table, &World::start(&fleet), 0), 14, "{wrong}");
        }
    });
}

/// With a write at the bottom each level leaves a call behind; in parallel the ticks of each level are squared and
/// doubled.
#[test]
fn other_doublings_end_too() {
    quickly(|| {
        for levels in 1..=MAX_DEFINITIONS {
            let mut draft = edges::doubling(levels, true);
            draft.attributes = 1;
            let write = write(&mut draft);
            draft.definitions[0] = write;
            let (table, fleet) = accept(&draft);
            let given = acts(&table, &World::start(&fleet), 0, 0);
            let length = given.state[word::residual_length(0)] as usize;
            let left = 2 * levels - 1;
            let wanted = if left > MAX_RESIDUAL {
                (17, 1)
            } else {
                (0, left)
            };
            assert_eq!((given.refusal(), length), wanted);
        }
        // 1, 2, 8, 128, 32,768 ticks.
        for levels in [5, 6, 7, MAX_DEFINITIONS] {
            let mut draft = edges::doubling(levels, true);
            for node in draft.nodes.iter_mut().filter(|node| node.kind == 5) {
                node.kind = 8;
            }
            if levels > 5 {
                let place = u64::from(draft.definitions[5]);
                assert_eq!(loads(&draft), Err(Refused { refusal: 7, place }));
                continue;
            }
            let (table, fleet) = accept(&draft);
            let world = World::start(&fleet);
            let answers = [0, 32_767, 32_768].map(|choice| answers(&table, &world, choice));
            assert_eq!(answers, [0, 0, 13]);
        }
    });
}

/// Eight pairs of ticks, each tick under a guard that reads a key of its own.
fn pairs(draft: &mut Draft) -> Vec<u16> {
    let pair = |pair: u16| {
        let [first, second] = [2 * pair, 2 * pair + 1].map(|key| {
            let (guard, tick) = (reads(draft, key), draft.tick());
            draft.guarded(guard, tick)
        });
        draft.choice(first, second)
    };
    (0..8).map(pair).collect()
}

/// The keys that tick t of all eight in sequence reads: one of each pair, and the first pair counts most.
fn keys_of(t: u16) -> u32 {
    (0..8)
        .map(|pair| 1 << (2 * pair + (t >> (7 - pair) & 1)))
        .sum()
}

/// The parts in sequence, nested to the left or to the right.
fn in_sequence<P>(parts: Vec<P>, left: bool, mut join: impl FnMut(P, P) -> P) -> P {
    let joined = if left {
        parts.into_iter().reduce(join)
    } else {
        let from_last = parts.into_iter().rev();
        from_last.reduce(|later, part| join(part, later))
    };
    joined.expect("there are parts")
}

/// Acts by every choice, and by one that is not there: Zc gains what the guards of the choice's own tick read.
fn every_choice(
    table: &[u8],
    world: &World,
    choices: u16,
    tick: impl Fn(u16) -> Option<u16>,
    keys: fn(u16) -> u32,
) {
    for choice in 0..choices {
        let given = acts(table, world, 0, choice);
        let wanted = tick(choice).map_or(0, keys);
        assert_eq!((given.packed, confirms(&given)), (0, wanted), "{choice}");
    }
    assert_eq!(answers(table, world, choices), 13);
}

/// Ticks beside a write: the node of both, the number of its choices, and the tick that a choice has, if any.
type Shape = (
    fn(&mut Draft, ticks: u16, write: u16) -> u16,
    u16,
    fn(u16) -> Option<u16>,
);

const SHAPES: [Shape; 4] = [
    (Draft::sequence, 256, Some),
    (Draft::choice, 257, |c| (c < 256).then_some(c)),
    (Draft::parallel, 257, |c| c.checked_sub(1)),
    (
        |draft, ticks, write| draft.parallel(write, ticks),
        257,
        |c| c.checked_sub(1),
    ),
];

/// The same as parts of a residual, and two ticks in parallel, of which each may be the first.
type Parts = (fn(Term, Term) -> Term, u16, fn(u16) -> Option<u16>);

const PARTS: [Parts; 4] = [
    (Term::sequence, 256, Some),
    (Term::parallel, 257, |c| c.checked_sub(1)),
    (
        |ticks, write| Term::parallel(write, ticks),
        257,
        |c| c.checked_sub(1),
    ),
    (
        |ticks, _| Term::parallel(ticks, Term::Tick),
        512,
        |c| Some(c % 256),
    ),
];

#[test]
fn every_choice_collects_the_guards_of_its_own_ticks() {
    quickly(|| {
        for left in [true, false] {
            for (shape, choices, tick) in SHAPES {
                let mut draft = Draft::new(1, 0);
                let pairs = pairs(&mut draft);
                let ticks = in_sequence(pairs, left, |p, q| draft.sequence(p, q));
                let write = write(&mut draft);
                let start = shape(&mut draft, ticks, write);
                draft.agent(start);
                link_all(&mut draft);
                let (table, fleet) = accept(&draft);
                let world = holding(&fleet, ALL);
                every_choice(&table, &world, choices, tick, keys_of);
            }
            let mut draft = Draft::new(1, 0);
            let (pairs, write) = (pairs(&mut draft), write(&mut draft));
            draft.agent(write);
            link_all(&mut draft);
            let (table, fleet) = accept(&draft);
            for (parts, choices, tick) in PARTS {
                let pairs = pairs.iter().map(|&pair| node(&fleet, pair)).collect();
                let ticks = in_sequence(pairs, left, Term::sequence);
                let mut world = holding(&fleet, ALL);
                world.agents[0].residual = parts(ticks, node(&fleet, write));
                every_choice(&table, &world, choices, tick, keys_of);
            }
        }
    });
}

/// Through definitions all eight are the same pair: 2, 4, 16 and 256 ticks, each definition but the first under a guard
/// of its own.
#[test]
fn every_choice_collects_the_guards_of_definitions() {
    quickly(|| {
        let mut draft = Draft::new(1, 0);
        let [first, second] = [0, 1].map(|key| {
            let (guard, tick) = (reads(&mut draft, key), draft.tick());
            draft.guarded(guard, tick)
        });
        let pair = draft.choice(first, second);
        draft.define(pair);
        for level in 1..4 {
            let (first, second) = (draft.call(level - 1), draft.call(level - 1));
            let body = draft.sequence(first, second);
            let guard = reads(&mut draft, 1 + level);
            let guarded = draft.guarded(guard, body);
            draft.define(guarded);
        }
        let (ticks, write) = (draft.call(3), write(&mut draft));
        let start = draft.parallel(ticks, write);
        draft.agent(start);
        link_all(&mut draft);
        let (table, fleet) = accept(&draft);
        let keys = |t| match t {
            0 => 0b11101,
            255 => 0b11110,
            _ => 0b11111,
        };
        let world = holding(&fleet, ALL);
        every_choice(&table, &world, 257, |c| c.checked_sub(1), keys);
    });
}

/// A process of so many ticks.
fn ticks(draft: &mut Draft, count: u32) -> u16 {
    if count == 1 {
        return draft.tick();
    }
    let (first, second) = (draft.tick(), draft.tick());
    let two = draft.choice(first, second);
    let half = ticks(draft, count / 2);
    let even = draft.sequence(two, half);
    if count % 2 == 0 {
        return even;
    }
    let tick = draft.tick();
    draft.choice(even, tick)
}

/// Nodes of 65,535 choices, or of 65,536, whose parts have fewer.
const FULL: [fn(&mut Draft, u32) -> u16; 6] = [
    |draft, count| {
        let (most, tick) = (ticks(draft, count - 1), draft.tick());
        draft.choice(most, tick)
    },
    |draft, count| {
        let half = count / 2;
        let (first, second) = (ticks(draft, half), ticks(draft, count - half));
        draft.choice(first, second)
    },
    // 255 x 257, or 256 x 256.
    |draft, count| {
        let side = 256 - count % 2;
        let (first, second) = (ticks(draft, side), ticks(draft, count / side));
        draft.sequence(first, second)
    },
    // The write, and the one tick with every other.
    |draft, count| {
        let (write, tick) = (write(draft), draft.tick());
        let first = draft.choice(write, tick);
        let rest = ticks(draft, count - 1);
        draft.sequence(first, rest)
    },
    // The write, and every tick with it.
    |draft, count| {
        let (ticks, write) = (ticks(draft, count - 1), write(draft));
        draft.parallel(ticks, write)
    },
    |draft, count| {
        let (write, ticks) = (write(draft), ticks(draft, count - 1));
        draft.parallel(write, ticks)
    },
];

/// 65,535 choices are as many as a node may have, by its parts or by a call; the lowest node that has more is the place,
/// which may be a call below the body.
#[test]
fn choices_of_a_node_at_their_limit() {
    quickly(|| {
        for full in FULL {
            for called in [false, true] {
                let with = |count| {
                    let mut draft = Draft::new(1, 0);
                    let call = called.then(|| draft.call(0));
                    let body = full(&mut draft, count);
                    let guard = draft.truth();
                    draft.guarded(guard, body);
                    if called {
                        draft.define(body);
                    }
                    draft.agent(call.unwrap_or(body));
                    draft
                };
                let over = with(65_536);
                let place = u64::from(over.agents[0]);
                assert_eq!(loads(&over), Err(Refused { refusal: 7, place }));
                let full = with(65_535);
                assert_eq!(loads(&full), Ok(0));
                let (table, fleet) = accept(&full);
                let world = World::start(&fleet);
                let answers = [0, 1, 32_767, 65_534, 65_535].map(|c| answers(&table, &world, c));
                assert_eq!(answers, [0, 0, 0, 0, 13]);
            }
        }
    });
}

/// The same of residuals, whose parts are nodes that have few; 12 also where no choice leads.
#[test]
fn choices_of_a_residual_at_their_limit() {
    quickly(|| {
        let mut draft = Draft::new(1, 0);
        let nodes = [255, 256, 257, 65_534, 65_535].map(|count| ticks(&mut draft, count));
        let write = write(&mut draft);
        draft.agent(write);
        let (table, fleet) = accept(&draft);
        let [odd, even, next, most, all] = nodes.map(|number| node(&fleet, number));
        let write = node(&fleet, write);
        let answers = |residual: &Term, choices: [u16; 3]| {
            let mut world = World::start(&fleet);
            world.agents[0] = Agent::new(residual.clone());
            choices.map(|choice| answers(&table, &world, choice))
        };
        let ends = [0, 65_534, 65_535];
        for full in [
            Term::sequence(odd, next),
            Term::parallel(most.clone(), write.clone()),
            Term::parallel(write.clone(), most),
            Term::sequence(Term::Tick, all.clone()),
            Term::sequence(all.clone(), Term::Tick),
        ] {
            assert_eq!(answers(&full, ends), [0, 0, 13]);
            let later = Term::sequence(write.clone(), full.clone());
            assert_eq!(answers(&later, [0, 1, 65_535]), [0, 13, 13]);
            let never = Term::sequence(Term::Idle, full);
            assert_eq!(answers(&never, ends), [13; 3]);
        }
        for over in [
            Term::sequence(even.clone(), even),
            Term::parallel(all.clone(), write.clone()),
            Term::parallel(write.clone(), all.clone()),
            Term::parallel(Term::Tick, all.clone()),
            Term::sequence(all.clone(), all),
        ] {
            for residual in [
                over.clone(),
                Term::sequence(write.clone(), over.clone()),
                Term::parallel(write.clone(), over.clone()),
                Term::sequence(Term::Idle, over),
            ] {
                assert_eq!(answers(&residual, ends), [12; 3]);
            }
        }
    });
}

/// A write inside so many sequences and parallels: it leaves a word, and two for each of them.
fn nested(draft: &mut Draft, levels: usize) -> u16 {
    let write = write(draft);
    (0..levels).fold(write, |part, level| {
        let idle = draft.idle();
        match level % 3 {
            0 => draft.sequence(part, idle),
            1 => draft.parallel(part, idle),
            _ => draft.parallel(idle, part),
        }
    })
}

/// The same of a residual's part.
fn around(part: Term, levels: usize) -> Term {
    (0..levels).fold(part, |part, level| match level % 3 {
        0 => Term::sequence(part, Term::Idle),
        1 => Term::parallel(part, Term::Idle),
        _ => Term::parallel(Term::Idle, part),
    })
}

/// The act of an agent between two others whose residuals are full.
#[test]
fn nested_writes_leave_up_to_63_words() {
    quickly(|| {
        let most = MAX_RESIDUAL / 2;
        let mut draft = Draft::new(1, 0);
        let starts: Vec<u16> = (0..=most + 2)
            .map(|levels| nested(&mut draft, levels))
            .collect();
        draft.agents = vec![starts[0]; 3];
        let (table, fleet) = accept(&draft);
        let mut world = World::start(&fleet);
        let full = Agent::new(around(Term::Tick, most));
        (world.agents[0], world.agents[2]) = (full.clone(), full);
        for (inside, &start) in starts.iter().enumerate() {
            for outside in 0..=most {
                world.agents[1] = Agent::new(around(node(&fleet, start), outside));
                let given = acts(&table, &world, 1, 0);
                let left = 1 + 2 * (inside + outside);
                let length = given.state[word::residual_length(1)] as usize;
                let (answer, after) = if left > MAX_RESIDUAL {
                    (17, 1 + 2 * outside)
                } else {
                    (0, left)
                };
                assert_eq!((given.refusal(), length), (answer, after));
            }
        }
    });
}

/// As many levels as a table has room for, on a small stack too.
#[test]
fn deeply_nested_writes_leave_too_many_words() {
    quickly(|| {
        for levels in [500, (MAX_NODES - 4) / 2] {
            let mut draft = Draft::new(1, 0);
            let start = nested(&mut draft, levels);
            draft.agent(start);
            let (table, fleet) = accept(&draft);
            let world = World::start(&fleet);
            let given = acts(&table, &world, 0, 0);
            assert_eq!(given.refusal(), 17);
            let case = case(&table, world.words(), Call::Step(Step::act(0, 0)));
            let thread = thread::Builder::new().stack_size(SMALL_STACK);
            let again = thread.spawn(move || call(&case)).unwrap().join().unwrap();
            assert!(again == given);
        }
    });
}
