//! Calls on a shelf that hold several faults at once, in all the ways in which
//! lengths, words and names can be wrong.

use crate::faults::{fleet, Asked};
use crate::shelf::{state_at, PLACES, SHELF_WORDS};
use crate::shelf_cases::{ShelfCall, ShelfCase};
use crate::state::{
    entry_at, AGENTS_AT, AGENT_WORDS, CONFIRM_AT, ENVIRONMENT_AT, LENGTH_AT, PROPAGATE_AT,
    RESIDUAL_AT, STATE_WORDS,
};

/// The length that is wrong, in a call with an 8.
#[derive(Clone, Copy, Debug, PartialEq, Eq)]
pub enum WrongLength {
    State(usize),
    /// So many words less than enough.
    Scratch(usize),
    Shelf(usize),
}

/// What is not well formed, in a call with a 9: a word of the state, or of a
/// saved one; or the names.
#[derive(Clone, Copy, Debug, PartialEq, Eq)]
pub enum IllFormed {
    State(usize, u32),
    Saved(usize, u32),
    NameTwice,
    NameOver(u32),
}

/// The refusals that a call can have, in the paper's order.
pub fn order(call: ShelfCall) -> Vec<u8> {
    let own: &[u8] = match call {
        ShelfCall::Save => &[9, 21, 22],
        ShelfCall::Restore | ShelfCall::Drop => &[9, 21],
    };
    [&Asked::Load.order(), own].concat()
}

/// The names of a shelf; the third place is free, unless the shelf is full.
const NAMES: [u32; PLACES] = [11, 12, 13, 14, 15, 16, 17, 18];
const FREE: usize = 2;
const HELD: u32 = NAMES[3];
const NEW: u32 = 99;

/// Names with which a call is refused by 21.
pub fn wrong_names(call: ShelfCall) -> Vec<u32> {
    let mut names = vec![0, 256, 256 + HELD, 65_536, 65_536 + HELD, u32::MAX];
    if call != ShelfCall::Save {
        names.push(NEW);
    }
    names
}

pub fn wrong_lengths(call: ShelfCall) -> Vec<WrongLength> {
    let mut lengths = vec![WrongLength::Scratch(1), WrongLength::Scratch(usize::MAX)];
    lengths.extend([0, PLACES, SHELF_WORDS - 1, SHELF_WORDS + 1].map(WrongLength::Shelf));
    if call != ShelfCall::Drop {
        lengths.extend([0, STATE_WORDS - 1, STATE_WORDS + 1].map(WrongLength::State));
    }
    lengths
}

/// Words of which each makes the state ill-formed: it has one agent, without an
/// entry, and one attribute, one stigmergy key and 16 environment keys.
pub fn ill_words() -> [(usize, u32); 18] {
    let (first, entry) = (AGENTS_AT, entry_at(0, 0));
    [
        // The clock, and A.
        (0, 65_536),
        (1, 0),
        (1, 2),
        // Values that are absent, or of no key.
        (ENVIRONMENT_AT, 2),
        (ENVIRONMENT_AT + 1, 1),
        (first + 1, 1),
        (first + 2, 1),
        // An entry above the clock; a value and a writer without an entry; of no key.
        (entry + 1, 65_535),
        (entry, 1),
        (entry + 2, 1),
        (entry_at(0, 1) + 1, 1),
        // Keys that wait without an entry.
        (first + CONFIRM_AT, 1),
        (first + PROPAGATE_AT, 1),
        // The residual.
        (first + LENGTH_AT, 0),
        (first + RESIDUAL_AT, u32::MAX),
        (first + AGENT_WORDS - 1, 1),
        // Of no agent.
        (first + AGENT_WORDS, 1),
        (STATE_WORDS - 1, 1),
    ]
}

pub fn ill_formed(call: ShelfCall) -> Vec<IllFormed> {
    let mut all = vec![IllFormed::NameTwice];
    all.extend([256, 257, 65_536, u32::MAX].map(IllFormed::NameOver));
    all.extend(ill_words().map(|(at, word)| IllFormed::Saved(at, word)));
    if call != ShelfCall::Drop {
        all.extend(ill_words().map(|(at, word)| IllFormed::State(at, word)));
    }
    all
}

/// A call that holds these faults and no others, in the paper's order.
#[derive(Clone, Debug)]
pub struct Held {
    pub faults: Vec<u8>,
    pub case: ShelfCase,
}

/// Calls with every set of faults. A set without a fault of the table comes in
/// every way in which it can, any other in one.
pub fn sets(call: ShelfCall) -> impl Iterator<Item = Held> {
    let order = order(call);
    (0..1usize << order.len()).flat_map(move |bits| {
        let member = |i: &usize| bits >> i & 1 == 1;
        let faults: Vec<u8> = (0..order.len()).filter(member).map(|i| order[i]).collect();
        let of_table = |&fault: &u8| fault < 8;
        let ways = if faults.iter().any(of_table) {
            bits..bits + 1
        } else {
            0..ways(call, &faults)
        };
        ways.map(move |way| Held {
            case: case(call, &faults, way),
            faults: faults.clone(),
        })
    })
}

/// In how many ways a call can come to have these faults.
fn ways(call: ShelfCall, faults: &[u8]) -> usize {
    let of = |fault, ways: usize| if faults.contains(&fault) { ways } else { 1 };
    let all = [
        of(8, wrong_lengths(call).len()),
        of(9, ill_formed(call).len()),
        of(21, wrong_names(call).len()),
    ];
    all.into_iter().max().unwrap_or(1)
}

fn nth<T: Copy>(all: &[T], way: usize) -> T {
    all[way % all.len()]
}

/// A call with these faults and no others, in one of the ways.
pub fn case(call: ShelfCall, faults: &[u8], way: usize) -> ShelfCase {
    let has = |fault| faults.contains(&fault);
    let (table, world) = fleet(faults, &[&[]]);
    let nodes = usize::from(u16::from_le_bytes([table[0], table[1]]));
    let state = world.words();
    let mut case = ShelfCase {
        call,
        name: HELD,
        table,
        scratch: 2 * nodes,
        shelf: shelf(&state, has(22)),
        state,
    };
    if has(22) {
        case.name = NEW;
    }
    if has(21) {
        case.name = nth(&wrong_names(call), way);
    }
    if has(9) {
        spoil_words(&mut case, nth(&ill_formed(call), way));
    }
    if has(8) {
        spoil_length(&mut case, nth(&wrong_lengths(call), way));
    }
    case
}

/// This state under every name; where a place is free, no state.
fn shelf(state: &[u32], full: bool) -> Vec<u32> {
    let mut shelf = NAMES.to_vec();
    for _ in NAMES {
        shelf.extend(state);
    }
    if !full {
        shelf[FREE] = 0;
        shelf[state_at(FREE)].fill(u32::MAX);
    }
    shelf
}

fn spoil_words(case: &mut ShelfCase, how: IllFormed) {
    match how {
        IllFormed::State(at, word) => case.state[at] = word,
        IllFormed::Saved(at, word) => case.shelf[state_at(5).start + at] = word,
        IllFormed::NameTwice => case.shelf[6] = HELD,
        IllFormed::NameOver(name) => case.shelf[4] = name,
    }
}

fn spoil_length(case: &mut ShelfCase, which: WrongLength) {
    match which {
        WrongLength::State(words) => case.state.resize(words, 0),
        WrongLength::Scratch(fewer) => case.scratch = case.scratch.saturating_sub(fewer),
        WrongLength::Shelf(words) => case.shelf.resize(words, 0),
    }
}
