//! Save, restore and drop, each word of state and shelf, and their refusals.
//! (Lists of steps with them are in another file.)

mod common;

use common::*;
use reference::cases::FILL;
use reference::draft::Draft;
use reference::generate::edges;
use reference::generate::shelves;
use reference::shelf::{state_at, PLACES, SHELF_WORDS};
use reference::shelf_cases::{ShelfCall, ShelfCase, ShelfOutcome, SHELF_CALLS};
use reference::shelf_faults::{ill_formed, order, sets, wrong_lengths, wrong_names, IllFormed};
use reference::state::STATE_WORDS;
use reference::stats::Tally;
use reference::step::Step;
use reference::{drop, on_deep_stack, restore, save};

/// Lent state and shelf of a fleet.
struct Lent {
    table: Vec<u8>,
    state: Vec<u32>,
    shelf: Vec<u32>,
}

impl Lent {
    /// The paper's example after load, and a shelf of no names, whose states
    /// hold what no state does.
    fn new() -> Lent {
        let table = edges::example().bytes();
        let mut shelf = vec![FILL; SHELF_WORDS];
        shelf[..PLACES].fill(0);
        Lent {
            state: start(&table),
            shelf,
            table,
        }
    }

    /// The refusal, or 0.
    fn call(&mut self, call: ShelfCall, name: u32) -> u8 {
        let Lent {
            table,
            state,
            shelf,
        } = self;
        let answer = match call {
            ShelfCall::Save => save(table, state, SCRATCH, shelf, name),
            ShelfCall::Restore => restore(table, state, SCRATCH, shelf, name),
            ShelfCall::Drop => drop(table, SCRATCH, shelf, name),
        };
        let (number, place) = brief(answer);
        assert_eq!(place, 0);
        number
    }

    fn save(&mut self, name: u32) -> u8 {
        self.call(ShelfCall::Save, name)
    }

    fn restore(&mut self, name: u32) -> u8 {
        self.call(ShelfCall::Restore, name)
    }

    fn drop(&mut self, name: u32) -> u8 {
        self.call(ShelfCall::Drop, name)
    }

    fn step(&mut self, step: Step) {
        assert_eq!(steps(&self.table, &mut self.state, step), 0);
    }

    fn names(&self) -> &[u32] {
        &self.shelf[..PLACES]
    }

    /// With the names 10 to 17 at the places in their order.
    fn full() -> Lent {
        let mut lent = Lent::new();
        for name in 10..18 {
            assert_eq!(lent.save(name), 0);
        }
        assert_eq!(lent.names(), [10, 11, 12, 13, 14, 15, 16, 17]);
        lent
    }
}

#[test]
fn the_layout() {
    assert_eq!(SHELF_WORDS, 37_656);
    assert_eq!(state_at(0), 8..4_714);
    assert_eq!(state_at(7).end, SHELF_WORDS);
}

/// Which words are names: before one is held, while it is, and after its drop.
#[test]
fn names() {
    for (word, is_name) in [
        (0, false),
        (1, true),
        (2, true),
        (254, true),
        (255, true),
        (256, false),
        (257, false),
        (511, false),
        (65_535, false),
        (65_536, false),
        (65_537, false),
        (1 << 31, false),
        (u32::MAX, false),
    ] {
        let mut lent = Lent::new();
        // Before it is held, and after.
        assert_eq!(lent.restore(word), 21, "{word}");
        assert_eq!(lent.drop(word), 21, "{word}");
        assert_eq!(lent.save(word), if is_name { 0 } else { 21 }, "{word}");
        assert_eq!(lent.names()[0], if is_name { word } else { 0 });
        for call in SHELF_CALLS {
            let answer = lent.call(call, word);
            assert_eq!(answer, if is_name { 0 } else { 21 }, "{call:?} {word}");
        }
        // After a drop it is no more.
        assert_eq!(lent.restore(word), 21, "{word}");
        assert_eq!(lent.drop(word), 21, "{word}");
        // Words that are a held name modulo 256, or 65,536.
        for name in [1, 255] {
            assert_eq!(lent.save(name), 0);
        }
        for call in SHELF_CALLS {
            let answer = lent.call(call, word);
            assert_eq!(answer, if is_name { 0 } else { 21 }, "{call:?} {word}");
        }
    }
}

/// Every word of the shelf after a save at each place.
#[test]
fn a_save_writes_a_name_and_a_state() {
    let mut lent = Lent::new();
    for place in 0..PLACES {
        let mut wanted = lent.shelf.clone();
        wanted[place] = 200 + place as u32;
        wanted[state_at(place)].copy_from_slice(&lent.state);
        let before = lent.state.clone();
        assert_eq!(lent.save(200 + place as u32), 0);
        assert_eq!(lent.shelf, wanted);
        assert_eq!(lent.state, before);
        if place == 3 {
            lent.step(Step::act(0, 0));
        }
    }
    assert_ne!(lent.shelf[state_at(0)], lent.shelf[state_at(7)]);
}

#[test]
fn a_new_name_takes_the_lowest_free_place() {
    let mut lent = Lent::full();
    for name in [15, 11, 17] {
        assert_eq!(lent.drop(name), 0);
    }
    assert_eq!(lent.names(), [10, 0, 12, 13, 14, 0, 16, 0]);
    for (name, place) in [(3, 1), (255, 5), (1, 7)] {
        assert_eq!(lent.save(name), 0);
        assert_eq!(lent.names()[place], name);
    }
    assert_eq!(lent.names(), [10, 3, 12, 13, 14, 255, 16, 1]);
    assert_eq!(lent.save(2), 22);
}

/// Also where a lower place is free.
#[test]
fn a_held_name_keeps_its_place() {
    let mut lent = Lent::full();
    assert_eq!(lent.drop(10), 0);
    lent.step(Step::act(0, 0));
    let mut wanted = lent.shelf.clone();
    wanted[state_at(6)].copy_from_slice(&lent.state);
    assert_ne!(lent.shelf, wanted);
    assert_eq!(lent.save(16), 0);
    assert_eq!(lent.shelf, wanted);
}

#[test]
fn a_ninth_name_is_refused() {
    let mut lent = Lent::full();
    let before = lent.shelf.clone();
    for new in [1, 9, 18, 255] {
        assert_eq!(lent.save(new), 22);
    }
    for none in [0, 256, 266, u32::MAX] {
        assert_eq!(lent.save(none), 21);
    }
    assert_eq!(lent.shelf, before);
    lent.step(Step::act(0, 0));
    for held in 10..18 {
        assert_eq!(lent.save(held), 0);
    }
    for place in 0..PLACES {
        assert_eq!(lent.shelf[state_at(place)], lent.state);
    }
}

/// Each point of the paper's example, from each other one.
#[test]
fn a_restore_gives_the_saved_words() {
    let mut lent = Lent::new();
    let mut states = Vec::new();
    for (name, step) in (1..).zip([
        Step::act(0, 0),
        Step::propagate(0, 0),
        Step::propagate(1, 0),
        Step::act(1, 0),
        Step::confirm(1, 0),
    ]) {
        lent.step(step);
        assert_eq!(lent.save(name), 0);
        states.push(lent.state.clone());
    }
    let shelf = lent.shelf.clone();
    for from in 0..states.len() {
        for (to, state) in states.iter().enumerate() {
            lent.state = states[from].clone();
            assert_eq!(lent.restore(to as u32 + 1), 0);
            assert_eq!(lent.state, *state);
            assert_eq!(lent.shelf, shelf);
            assert_eq!(from == to, states[from] == *state);
        }
    }
}

#[test]
fn a_drop_changes_one_word() {
    for place in 0..PLACES {
        let mut lent = Lent::full();
        let (mut wanted, state) = (lent.shelf.clone(), lent.state.clone());
        wanted[place] = 0;
        assert_eq!(lent.drop(10 + place as u32), 0);
        assert_eq!(lent.shelf, wanted);
        assert_eq!(lent.state, state);
    }
}

/// What a refused call gives.
fn refused(case: &ShelfCase) -> u8 {
    let ShelfOutcome { state, shelf, .. } = &case.outcome();
    assert_eq!((state, shelf), (&case.state, &case.shelf));
    case.outcome().refusal()
}

/// A call on a lent shelf, of whatever words.
fn case(lent: &Lent, call: ShelfCall, name: u32) -> ShelfCase {
    ShelfCase {
        call,
        name,
        table: lent.table.clone(),
        state: lent.state.clone(),
        scratch: 16,
        shelf: lent.shelf.clone(),
    }
}

#[test]
fn lengths() {
    let lent = Lent::full();
    for call in SHELF_CALLS {
        let right = case(&lent, call, 12);
        assert_eq!(right.outcome().packed, 0);
        for words in [
            0,
            1,
            8,
            STATE_WORDS,
            SHELF_WORDS - 1,
            SHELF_WORDS + 1,
            SHELF_WORDS + STATE_WORDS + 1,
        ] {
            let mut wrong = right.clone();
            wrong.shelf.resize(words, 0);
            assert_eq!(refused(&wrong), 8, "{call:?} with a shelf of {words}");
        }
        for words in [0, 15] {
            let wrong = ShelfCase {
                scratch: words,
                ..right.clone()
            };
            assert_eq!(refused(&wrong), 8, "{call:?} with scratch of {words}");
        }
        for words in [0, STATE_WORDS - 1, STATE_WORDS + 1] {
            let mut wrong = right.clone();
            wrong.state.resize(words, 0);
            let wanted = match call {
                ShelfCall::Drop => 0,
                _ => 8,
            };
            assert_eq!(wrong.outcome().refusal(), wanted, "{call:?} {words}");
        }
    }
}

/// Of the state that is saved, and of the one that is replaced; a drop has none.
#[test]
fn the_state_is_judged() {
    let mut lent = Lent::full();
    lent.state[1] = 3;
    for (call, wanted) in SHELF_CALLS.into_iter().zip([9, 9, 0]) {
        assert_eq!(lent.call(call, 12), wanted);
    }
}

/// Whatever call and name, a shelf that is not well formed is refused.
fn is_ill_formed(lent: &Lent, why: &str) {
    for call in SHELF_CALLS {
        for name in [0, 1, 10, 17, 256] {
            assert_eq!(refused(&case(lent, call, name)), 9, "{call:?}: {why}");
        }
    }
}

#[test]
fn a_name_held_twice() {
    for first in 0..PLACES {
        for second in first + 1..PLACES {
            let mut lent = Lent::full();
            lent.shelf[second] = lent.shelf[first];
            is_ill_formed(&lent, &format!("{first} and {second}"));
            // 0 twice is two free places.
            lent.shelf[first] = 0;
            lent.shelf[second] = 0;
            assert_eq!(lent.save(99), 0);
            assert_eq!(lent.names()[first], 99);
        }
    }
}

#[test]
fn a_name_word_over_255() {
    for place in 0..PLACES {
        for word in [256, 257, 65_536, 65_537, 1 << 31, u32::MAX] {
            let mut lent = Lent::full();
            lent.shelf[place] = word;
            is_ill_formed(&lent, &format!("{word} at {place}"));
        }
        let mut lent = Lent::full();
        lent.shelf[place] = 255;
        assert_eq!(lent.restore(255), 0);
    }
}

/// A fleet of other processes, whose states have as many agents.
fn other_state() -> Vec<u32> {
    let mut draft = Draft::new(0, 0);
    for _ in 0..9 {
        draft.tick();
    }
    draft.agents = vec![8; 2];
    start(&draft.bytes())
}

/// Under a name; a free place may have it.
#[test]
fn a_saved_state_that_is_not_well_formed() {
    let words = start(&Lent::new().table);
    let spoilt = |at: usize, word: u32| {
        let mut words = words.clone();
        assert_ne!(words[at], word);
        words[at] = word;
        words
    };
    let block = 34;
    for (i, state) in [
        vec![0; STATE_WORDS],
        vec![FILL; STATE_WORDS],
        other_state(),
        spoilt(0, 65_536),
        spoilt(1, 1),
        spoilt(1, 3),
        spoilt(2, 1),
        spoilt(block + 1, 7),
        spoilt(block + 2, 1),
        spoilt(block + 32, 7),
        spoilt(block + 33, 1),
        spoilt(block + 34, 1),
        spoilt(block + 80, 1),
        spoilt(block + 81, 1),
        spoilt(block + 82, 0),
        spoilt(block + 82, 2),
        spoilt(block + 83, 0),
        spoilt(block + 84, 1),
        spoilt(block + 2 * 146, 1),
        spoilt(STATE_WORDS - 1, 1),
    ]
    .into_iter()
    .enumerate()
    {
        for place in [0, 3, 7] {
            let mut lent = Lent::full();
            lent.shelf[state_at(place)].copy_from_slice(&state);
            is_ill_formed(&lent, &format!("state {i} at {place}"));
            lent.shelf[place] = 0;
            // As it came, until the place is used again.
            assert_eq!(lent.restore(11 + place as u32 % 7), 0);
            assert_eq!(lent.drop(11 + place as u32 % 7), 0);
            assert_eq!(lent.shelf[state_at(place)], state);
            assert_eq!(lent.save(99), 0);
            assert_eq!(lent.save(98), 0);
            assert_eq!(lent.shelf[state_at(place)], lent.state);
        }
    }
}

/// The order of the refusals: a call answers the first of its faults, or 0 where
/// there is none.
#[test]
fn every_set_of_faults() {
    for call in SHELF_CALLS {
        let (mut count, mut seen) = (0, Tally::default());
        for held in sets(call) {
            let first = held.faults.first().copied().unwrap_or(0);
            let outcome = held.case.outcome();
            assert_eq!(outcome.refusal(), first, "{call:?} {:?}", held.faults);
            let same = (
                outcome.state == held.case.state,
                outcome.shelf == held.case.shelf,
            );
            if first > 0 {
                assert_eq!(same, (true, true));
                // Only nodes and definitions are places.
                let place = outcome.packed >> 16 & 0xffff;
                assert!(place == 0 || [4, 5, 6, 7].contains(&first));
            }
            count += 1;
            seen[usize::from(first)] += 1;
        }
        let wanted = order(call);
        assert!(count > 1 << wanted.len());
        let seen = (0..seen.len()).filter(|&answer| seen[answer] > 0);
        let mut wanted: Vec<usize> = wanted.into_iter().map(usize::from).collect();
        wanted.push(0);
        wanted.sort_unstable();
        assert!(seen.eq(wanted), "{call:?}");
    }
}

/// Each way in which a call with one fault comes to it.
#[test]
fn every_way_is_among_the_sets() {
    for call in SHELF_CALLS {
        let one = |fault: u8| sets(call).filter(|held| held.faults == [fault]).count();
        assert_eq!(one(8), wrong_lengths(call).len());
        assert_eq!(one(9), ill_formed(call).len());
        assert_eq!(one(21), wrong_names(call).len());
        let states = ill_formed(call).into_iter();
        let states = states.filter(|how| matches!(how, IllFormed::State(..)));
        assert_eq!(states.count() > 0, call != ShelfCall::Drop);
    }
}

/// Generated calls: all answers occur, a refused call changes nothing, and a
/// done one leaves a shelf on which one can go on.
#[test]
fn generated_calls() {
    on_deep_stack(|| {
        for (seed, small) in [(21, false), (22, true)] {
            let mut tallies = [Tally::default(); 3];
            for index in 0..4_000 {
                let case = shelves::case(seed, index, small);
                let outcome = case.outcome();
                let refusal = outcome.refusal();
                let call = SHELF_CALLS.iter().position(|call| *call == case.call);
                tallies[call.unwrap()][usize::from(refusal)] += 1;
                if refusal > 0 {
                    assert_eq!((outcome.state, outcome.shelf), (case.state, case.shelf));
                    continue;
                }
                let again = ShelfCase {
                    call: ShelfCall::Restore,
                    state: start(&case.table),
                    shelf: outcome.shelf,
                    ..case
                };
                let back = again.outcome();
                match case.call {
                    ShelfCall::Save => assert_eq!(back.state, case.state),
                    ShelfCall::Restore => assert_eq!(back.state, outcome.state),
                    ShelfCall::Drop => assert_eq!(back.refusal(), 21),
                }
            }
            for (call, tally) in SHELF_CALLS.into_iter().zip(tallies) {
                let occurred = (0..tally.len()).filter(|&answer| tally[answer] > 0);
                let full = (call == ShelfCall::Save).then_some(22);
                let wanted = (0..=9).chain([21]).chain(full);
                assert!(occurred.eq(wanted), "{call:?} {tally:?}");
                assert!(5 * tally[0] > tally.iter().sum(), "{call:?} {tally:?}");
            }
        }
    });
}
