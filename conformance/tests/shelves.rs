//! labs_save, labs_restore and labs_drop answer as the second implementation does, with every word of state and shelf.

use std::collections::BTreeMap;

use conformance::loaded::{LOADED, NAME, SHALLOW_STACK, SHELF};
use conformance::rehearsal::{self, SCRATCH_WORDS};
use conformance::shelves::{agreed, call};
use conformance::stack::SMALL_STACK;
use conformance::{call as call_on_state, expected};
use reference::cases::{Call, Case, FILL};
use reference::generate::edges::{self, deep_chain};
use reference::generate::fleets::{accepted, Scale};
use reference::generate::shelves::{self, empty, Elements};
use reference::on_deep_stack;
use reference::rng::Rng;
use reference::schedule;
use reference::shelf::{state_at, PLACES, SHELF_WORDS};
use reference::shelf_cases::{ShelfCall, ShelfCase, ShelfOutcome, SHELF_CALLS};
use reference::shelf_faults::{ill_words, sets};
use reference::state::{World, STATE_WORDS};
use reference::stats::Tally;
use reference::step::Step;
use reference::surviving::{fallen, Element, Lines};
use reference::table::{Fleet, MAX_NODES};

/// How often each call answers done (0) and each refusal.
#[derive(Debug, Default)]
struct Seen([Tally; 3]);

impl Seen {
    fn add(&mut self, call: ShelfCall, outcome: &ShelfOutcome) {
        let refusal = usize::from(outcome.refusal());
        self.0[call as usize][refusal] += 1;
    }

    /// Each call had every answer that it can have, and no other.
    fn complete(&self) -> bool {
        SHELF_CALLS.into_iter().all(|call| {
            let tally = self.0[call as usize];
            let occurred = (0..tally.len()).filter(|&answer| tally[answer] > 0);
            let full = (call == ShelfCall::Save).then_some(22);
            occurred.eq((0..=9).chain([21]).chain(full))
        })
    }
}

/// What elements of lists come to: done, and refusals of calls on the shelf.
const COUNTED: [&str; 13] = [
    "step",
    "run",
    "load",
    "load with which stamps fall",
    "save under a new name",
    "save under a held name",
    "save on a full shelf",
    "restore",
    "restore with which stamps fall",
    "drop",
    "8",
    "21",
    "22",
];

type Counted = BTreeMap<&'static str, usize>;

/// What an element came to, on a shelf of these names.
fn counted(element: &Element, refusal: u8, names: &[u32], falls: bool) -> &'static str {
    match (element, refusal) {
        (Element::Step(_), 0) => "step",
        (Element::Step(_), _) => "refused step",
        (Element::Run(..), 0) => "run",
        (Element::Run(..), _) => "refused run",
        (Element::Load, 0) if falls => "load with which stamps fall",
        (Element::Load, 0) => "load",
        (Element::Load, _) => "refused load",
        (Element::Shelf(ShelfCall::Save, name), 0) if !names.contains(name) => {
            "save under a new name"
        }
        (Element::Shelf(ShelfCall::Save, _), 0) if names.contains(&0) => "save under a held name",
        (Element::Shelf(ShelfCall::Save, _), 0) => "save on a full shelf",
        (Element::Shelf(ShelfCall::Restore, _), 0) if falls => "restore with which stamps fall",
        (Element::Shelf(ShelfCall::Restore, _), 0) => "restore",
        (Element::Shelf(ShelfCall::Drop, _), 0) => "drop",
        (Element::Shelf(..), 8) => "8",
        (Element::Shelf(..), 21) => "21",
        (Element::Shelf(..), 22) => "22",
        (Element::Shelf(..), other) => panic!("{element:?}: {other}"),
    }
}

/// Lent state and shelf, and the lines that lead to what they hold.
struct List {
    table: Vec<u8>,
    fleet: Fleet,
    state: Vec<u32>,
    shelf: Vec<u32>,
    lines: Lines,
}

/// What the library's load writes.
fn loaded(table: &[u8]) -> Vec<u32> {
    let case = Case {
        table: table.to_vec(),
        state: vec![FILL; STATE_WORDS],
        fill: FILL,
        scratch: 2 * MAX_NODES,
        call: Call::Load,
    };
    let given = call_on_state(&case);
    assert_eq!(given.packed, 0, "the table is accepted");
    given.state
}

impl List {
    fn world(&self) -> World {
        World::decode(&self.state, &self.fleet).expect("the state is well formed")
    }

    /// The library's answer to an element: its refusal, or 0.
    fn perform(&mut self, element: &Element, scratch: usize, which: &str) -> u8 {
        let (table, state) = (self.table.clone(), self.state.clone());
        let mut answers = Vec::new();
        let mut on_state = |call: Call| {
            let case = Case {
                table: table.clone(),
                state: state.clone(),
                fill: 0,
                scratch,
                call,
            };
            let given = call_on_state(&case);
            assert!(given == expected(&case), "{which}: {element:?}");
            self.state = given.state.clone();
            answers = given.answers.clone();
            given.refusal() as u8
        };
        let refusal = match *element {
            Element::Step(step) => on_state(Call::Step(step)),
            Element::Run(ref steps, room) => on_state(Call::Run {
                schedule: schedule::write(steps),
                answers: room,
            }),
            Element::Load => on_state(Call::Load),
            Element::Shelf(call, name) => {
                let case = ShelfCase {
                    call,
                    name,
                    table,
                    state,
                    scratch,
                    shelf: self.shelf.clone(),
                };
                let outcome = agreed(&case, which);
                let refusal = outcome.refusal();
                (self.state, self.shelf) = (outcome.state, outcome.shelf);
                refusal
            }
        };
        if refusal == 0 {
            self.lines.add(element, &answers);
        }
        refusal
    }

    /// What the library's own load and run of these steps, which are all done, leave.
    fn along(&self, line: &[Step]) -> Vec<u32> {
        let case = Case {
            table: self.table.clone(),
            state: loaded(&self.table),
            fill: 0,
            scratch: 2 * MAX_NODES,
            call: Call::Run {
                schedule: schedule::write(line),
                answers: line.len(),
            },
        };
        let given = call_on_state(&case);
        assert!(given.packed == 0 && given.answers.iter().all(|&answer| answer == 0));
        given.state
    }

    /// State and saved states are those to which their lines lead from load.
    fn holds(&self) -> bool {
        let mut names: Vec<u32> = self.shelf[..PLACES].to_vec();
        names.retain(|&name| name > 0);
        self.state == self.along(&self.lines.now)
            && names.len() == self.lines.saved.len()
            && self.lines.saved.iter().all(|(name, line)| {
                let place = self.shelf[..PLACES].iter().position(|word| word == name);
                place.is_some_and(|place| self.shelf[state_at(place)] == self.along(line))
            })
    }
}

/// A list from load and a shelf of no names, compared after each call.
fn rehearse(index: u64, seen: &mut Counted) {
    let rng = &mut Rng::for_index(61, index);
    let scale = match index % 10 {
        0 => Scale::Large,
        1..=3 => Scale::Small,
        _ => Scale::Middle,
    };
    let (table, fleet) = accepted(rng, scale);
    let mut list = List {
        state: loaded(&table),
        shelf: empty(rng),
        lines: Lines::default(),
        table,
        fleet,
    };
    let elements = Elements::new(rng);
    for i in 0..rng.between(20, 100) {
        let before = list.world();
        let names: Vec<u32> = list.shelf[..PLACES].to_vec();
        let element = elements.draw(rng, &list.fleet, &before);
        let nodes = list.fleet.sizes.nodes;
        let scratch = if rng.chance(4) {
            rng.below(2 * nodes)
        } else {
            2 * nodes
        };
        let refusal = list.perform(&element, scratch, &format!("list {index}, element {i}"));
        let falls = fallen(&before, &list.world()) > 0;
        let restored = matches!(element, Element::Shelf(ShelfCall::Restore, _)) && refusal == 0;
        let loaded = matches!(element, Element::Load) && refusal == 0;
        assert!(
            restored || loaded || !falls,
            "a stamp fell in list {index} at {i}"
        );
        assert!(!restored || list.holds(), "list {index} at {i}");
        *seen
            .entry(counted(&element, refusal, &names, falls))
            .or_default() += 1;
    }
    assert!(list.holds(), "list {index}");
}

#[test]
fn lists_of_steps_runs_loads_saves_restores_and_drops() {
    let mut seen = Counted::default();
    for index in 0..240 {
        rehearse(index, &mut seen);
    }
    let often = |what: &&str| seen.get(what).is_some_and(|&count| count > 50);
    assert!(COUNTED.iter().all(often), "{seen:?}");
}

/// Sound and damaged tables, states and shelves, at the limits and past them.
#[test]
fn generated_calls() {
    on_deep_stack(|| {
        for (seed, small, count) in [(71, false, 8_000), (72, true, 8_000)] {
            let mut seen = Seen::default();
            for index in 0..count {
                let case = shelves::case(seed, index, small);
                let outcome = agreed(&case, &format!("seed {seed}, call {index}"));
                seen.add(case.call, &outcome);
            }
            assert!(seen.complete(), "{seen:?}");
        }
    });
}

/// The order of the refusals, and each way in which lengths, words and names can be wrong.
#[test]
fn calls_that_hold_several_faults() {
    let mut seen = Seen::default();
    for call in SHELF_CALLS {
        for held in sets(call) {
            let outcome = agreed(&held.case, &format!("{:?}", held.faults));
            let first = held.faults.first().copied().unwrap_or(0);
            assert_eq!(outcome.refusal(), first, "{call:?} {:?}", held.faults);
            seen.add(call, &outcome);
        }
    }
    assert!(seen.complete(), "{seen:?}");
}

/// The paper's example after load, and a shelf that holds later states under these names.
fn example(names: [u32; PLACES]) -> ShelfCase {
    let (table, fleet) = edges::accept(&edges::example());
    let mut world = World::start(&fleet);
    let mut shelf = names.to_vec();
    let mut steps = edges::example_steps().into_iter();
    for _ in names {
        if let Some(step) = steps.next() {
            let _ = world.step(&fleet, step);
        }
        shelf.extend(world.words());
    }
    ShelfCase {
        call: ShelfCall::Save,
        name: 1,
        table,
        state: World::start(&fleet).words(),
        scratch: 16,
        shelf,
    }
}

const NAMES: [u32; PLACES] = [255, 1, 128, 2, 254, 64, 200, 100];

/// Every name, and words that are none, on shelves of no names, of some, and on a full one.
#[test]
fn every_name() {
    let words = (0..=258).chain([
        511,
        512,
        65_535,
        65_536,
        65_537,
        65_791,
        1 << 24,
        1 << 31,
        u32::MAX,
    ]);
    for held in [0, 1, 7, 8] {
        let mut names = NAMES;
        names[held..].fill(0);
        let mut case = example(names);
        for name in words.clone() {
            case.name = name;
            let is_held = name > 0 && names.contains(&name);
            for call in SHELF_CALLS {
                case.call = call;
                let wanted = match call {
                    _ if !(1..=255).contains(&name) => 21,
                    ShelfCall::Save if held == PLACES && !is_held => 22,
                    ShelfCall::Restore | ShelfCall::Drop if !is_held => 21,
                    _ => 0,
                };
                let outcome = agreed(&case, &format!("{held} held"));
                assert_eq!(outcome.refusal(), wanted, "{call:?} {name}, {held} held");
            }
        }
    }
}

/// On every set of free places: a new name takes the lowest; a held one keeps its own, and is restored and dropped
/// there.
/// What the free places hold, which is no state, stays.
#[test]
fn every_set_of_free_places() {
    for free in 0..1u32 << PLACES {
        let mut case = example(NAMES);
        for place in (0..PLACES).filter(|place| free >> place & 1 == 1) {
            case.shelf[place] = 0;
            case.shelf[state_at(place)].fill(FILL);
        }
        case.name = 99;
        let outcome = agreed(&case, &format!("free {free:#b}"));
        let mut wanted = case.shelf.clone();
        let lowest = free.trailing_zeros() as usize;
        if lowest < PLACES {
            wanted[lowest] = 99;
            wanted[state_at(lowest)].copy_from_slice(&case.state);
        }
        assert_eq!(outcome.refusal(), if lowest < PLACES { 0 } else { 22 });
        assert!(outcome.shelf == wanted, "free {free:#b}");

        let place = (free as usize + 3) % PLACES;
        let is_held = free >> place & 1 == 0;
        case.name = NAMES[place];
        for call in SHELF_CALLS {
            case.call = call;
            let outcome = agreed(&case, &format!("free {free:#b}"));
            let (mut state, mut shelf) = (case.state.clone(), case.shelf.clone());
            match call {
                ShelfCall::Save if is_held => shelf[state_at(place)].copy_from_slice(&state),
                ShelfCall::Restore if is_held => state.copy_from_slice(&shelf[state_at(place)]),
                ShelfCall::Drop if is_held => shelf[place] = 0,
                ShelfCall::Save if lowest < PLACES => {
                    shelf[lowest] = case.name;
                    shelf[state_at(lowest)].copy_from_slice(&state);
                }
                _ => assert_eq!(outcome.refusal(), 21),
            }
            assert!(outcome.state == state && outcome.shelf == shelf, "{call:?}");
        }
    }
}

/// A name held twice, a name word over 255, and a saved state that is not well formed, each at every place.
#[test]
fn damaged_shelves() {
    let sound = reference::shelf_faults::case(ShelfCall::Save, &[22], 0);
    let mut damaged = 0;
    let mut holds = |change: &dyn Fn(&mut [u32]), place: usize, which: String| {
        let mut case = sound.clone();
        change(&mut case.shelf);
        for call in SHELF_CALLS {
            case.call = call;
            assert_eq!(agreed(&case, &which).refusal(), 9, "{which}");
        }
        // A free place may hold anything.
        case.shelf[place] = 0;
        for call in SHELF_CALLS {
            case.call = call;
            let wanted = match call {
                ShelfCall::Save => 0,
                _ => 21,
            };
            assert_eq!(agreed(&case, &which).refusal(), wanted, "{which}");
        }
        damaged += 1;
    };
    for place in 0..PLACES {
        for other in (0..PLACES).filter(|&other| other != place) {
            let change = |shelf: &mut [u32]| shelf[place] = shelf[other];
            holds(&change, place, format!("{place} has the name of {other}"));
        }
        for word in [256, 257, 511, 65_536, 65_537, 1 << 31, u32::MAX] {
            let change = |shelf: &mut [u32]| shelf[place] = word;
            holds(&change, place, format!("{place} has {word}"));
        }
        for (at, word) in ill_words() {
            let change = |shelf: &mut [u32]| shelf[state_at(place).start + at] = word;
            holds(&change, place, format!("word {at} of {place} is {word}"));
        }
        for word in [0, FILL, u32::MAX] {
            let change = |shelf: &mut [u32]| shelf[state_at(place)].fill(word);
            holds(&change, place, format!("all words of {place} are {word}"));
        }
    }
    assert_eq!(damaged, PLACES * (7 + 7 + ill_words().len() + 3));
}

/// Each lent length, right and wrong.
#[test]
fn lengths() {
    let right = example(NAMES);
    let (mut done, mut refused) = (0, 0);
    for call in SHELF_CALLS {
        for shelf in [
            0,
            1,
            PLACES,
            STATE_WORDS,
            SHELF_WORDS - 1,
            SHELF_WORDS,
            SHELF_WORDS + 1,
            4 * SHELF_WORDS,
        ] {
            for state in [0, 1, STATE_WORDS - 1, STATE_WORDS, STATE_WORDS + 1] {
                for scratch in [0, 15, 16, 17] {
                    let mut case = ShelfCase {
                        call,
                        scratch,
                        ..right.clone()
                    };
                    case.shelf.resize(shelf, 0);
                    case.state.resize(state, 0);
                    let fits = shelf == SHELF_WORDS
                        && scratch >= 16
                        && (state == STATE_WORDS || call == ShelfCall::Drop);
                    let outcome = agreed(&case, &format!("{shelf}, {state}, {scratch}"));
                    assert_eq!(outcome.refusal(), if fits { 0 } else { 8 });
                    done += usize::from(fits);
                    refused += usize::from(!fits);
                }
            }
        }
    }
    // With two lengths of scratch; a drop with five of a state that it is not lent.
    assert_eq!((done, refused), (2 + 2 + 10, 3 * 160 - 14));
}

/// The state that is saved and the shelf that is restored from are in memory that cannot be written, and the stack has
/// no room for a state besides.
#[test]
fn what_is_only_read_is_not_written() {
    let table = edges::example().bytes();
    let mut scratch = vec![0; SCRATCH_WORDS];
    let (mut state, mut shelf) = (LOADED.to_vec(), vec![0; SHELF_WORDS]);
    let work = || {
        [
            rehearsal::step(&table, &mut state, &mut scratch, 0, 0, 0),
            u64::from(state == LOADED),
            rehearsal::restore(&table, &mut state, &mut scratch, &SHELF, NAME),
            u64::from(state != LOADED),
            rehearsal::save(&table, &LOADED, &mut scratch, &mut shelf, 1),
            u64::from(shelf[state_at(0)] != LOADED),
            rehearsal::drop_name(&table, &mut scratch, &mut shelf, 1),
            u64::from(shelf[0]),
        ]
    };
    let answers = std::thread::scope(|scope| {
        let thread = std::thread::Builder::new().stack_size(SHALLOW_STACK);
        thread.spawn_scoped(scope, work).unwrap().join().unwrap()
    });
    assert_eq!(answers, [0; 8]);
}

/// The three calls on a loaded state, each on what the one before left.
fn one_by_one(
    table: Vec<u8>,
    stack: usize,
    make: fn(&ShelfCase) -> ShelfOutcome,
) -> [ShelfOutcome; 3] {
    let thread = std::thread::Builder::new().stack_size(stack);
    let work = move || {
        let mut case = ShelfCase {
            call: ShelfCall::Save,
            name: 3,
            state: loaded(&table),
            table,
            scratch: 2 * MAX_NODES,
            shelf: vec![0; SHELF_WORDS],
        };
        SHELF_CALLS.map(|call| {
            case.call = call;
            let outcome = make(&case);
            (case.state, case.shelf) = (outcome.state.clone(), outcome.shelf.clone());
            outcome
        })
    };
    thread.spawn(work).unwrap().join().unwrap()
}

#[test]
fn deep_tables_fit_a_small_stack() {
    for kind in 0..6 {
        let table = deep_chain(kind).bytes();
        let wanted = one_by_one(table.clone(), 64 << 20, ShelfCase::outcome);
        let proved = one_by_one(table, SMALL_STACK, call);
        assert!(proved == wanted, "deep table {kind}");
        assert!(proved.iter().all(|outcome| outcome.packed == 0));
    }
}
