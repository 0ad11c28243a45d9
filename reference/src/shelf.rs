//! Points to come back to: a lent shelf as a map from names to saved worlds, the
//! 37,656 words that it is written in, and the calls on it (refusals 21, 22).

use std::collections::{BTreeMap, BTreeSet};
use std::num::NonZeroU8;
use std::ops::Range;

use crate::machine::{open_at, open_where};
use crate::refusal::{Answer, Reason};
use crate::state::{World, STATE_WORDS};
use crate::table::Fleet;

/// 1 to 255.
pub type Name = NonZeroU8;

pub const PLACES: usize = 8;
pub const SHELF_WORDS: usize = 37_656;

const _: () = assert!(PLACES * (1 + STATE_WORDS) == SHELF_WORDS);

/// Where the state of a place stands; the name words come before all states, in
/// the same order.
pub fn state_at(place: usize) -> Range<usize> {
    let at = PLACES + STATE_WORDS * place;
    at..at + STATE_WORDS
}

/// A saved world, and the place that it has.
#[derive(Debug)]
struct Point {
    place: usize,
    world: World,
}

#[derive(Debug, Default)]
struct Shelf {
    points: BTreeMap<Name, Point>,
    free: BTreeSet<usize>,
}

impl Shelf {
    /// The shelf that these words are, if they are well formed. No word of a
    /// free place's state is looked at.
    fn decode(words: &[u32], fleet: &Fleet) -> Option<Shelf> {
        let (names, states) = words.split_at(PLACES);
        let mut shelf = Shelf::default();
        for (place, (&word, state)) in names.iter().zip(states.chunks(STATE_WORDS)).enumerate() {
            if word == 0 {
                shelf.free.insert(place);
                continue;
            }
            let world = World::decode(state, fleet)?;
            let point = Point { place, world };
            let twice = shelf.points.insert(name(word)?, point);
            if twice.is_some() {
                return None;
            }
        }
        Some(shelf)
    }

    /// Refusal 9 of a shelf of the right length.
    fn read(words: &[u32], fleet: &Fleet) -> Answer<Shelf> {
        Shelf::decode(words, fleet).ok_or(Reason::StateNotWellFormed.into())
    }

    /// The point of a name, which is held (refusal 21).
    fn point(&self, word: u32) -> Answer<&Point> {
        let point = name(word).and_then(|name| self.points.get(&name));
        point.ok_or(Reason::NoSuchName.into())
    }

    /// Where a point of this name goes (refusals 21, 22).
    fn place(&self, word: u32) -> Answer<usize> {
        let name = name(word).ok_or(Reason::NoSuchName)?;
        let held = self.points.get(&name).map(|point| point.place);
        let place = held.or_else(|| self.free.first().copied());
        place.ok_or(Reason::ShelfFull.into())
    }
}

fn name(word: u32) -> Option<Name> {
    Name::new(u8::try_from(word).ok()?)
}

/// Saves the state under a name: over the point that has it, or at the lowest
/// free place.
pub fn save(
    table: &[u8],
    state: &[u32],
    scratch_words: usize,
    shelf: &mut [u32],
    name: u32,
) -> Answer<()> {
    let fits = shelf.len() == SHELF_WORDS;
    let (fleet, world) = open_at(table, state, fits, scratch_words)?;
    let place = Shelf::read(shelf, &fleet)?.place(name)?;
    shelf[place] = name;
    world.encode(&mut shelf[state_at(place)]);
    Ok(())
}

/// Comes back to the point of a name.
pub fn restore(
    table: &[u8],
    state: &mut [u32],
    scratch_words: usize,
    shelf: &[u32],
    name: u32,
) -> Answer<()> {
    let fits = shelf.len() == SHELF_WORDS;
    let (fleet, _) = open_at(table, state, fits, scratch_words)?;
    let shelf = Shelf::read(shelf, &fleet)?;
    shelf.point(name)?.world.encode(state);
    Ok(())
}

/// Frees the place of a name.
pub fn drop(table: &[u8], scratch_words: usize, shelf: &mut [u32], name: u32) -> Answer<()> {
    let fits = shelf.len() == SHELF_WORDS;
    let fleet = open_where(table, fits, scratch_words)?;
    let place = Shelf::read(shelf, &fleet)?.point(name)?.place;
    shelf[place] = 0;
    Ok(())
}
