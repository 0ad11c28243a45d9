//! The first state of the paper's example, and a shelf that holds it, in memory that cannot be written.

use crate::rehearsal::{shelf, word};

pub static LOADED: [u32; word::STATE_WORDS] = {
    let mut words = [0; word::STATE_WORDS];
    words[word::AGENTS] = 2;
    // Residuals of one word: nodes 1 and 3.
    let (first, second) = (word::residual_length(0), word::residual_length(1));
    (words[first], words[first + 1]) = (1, 1);
    (words[second], words[second + 1]) = (1, 3);
    words
};

/// The name that the shelf holds.
pub const NAME: u32 = 200;
const PLACE: usize = 5;

pub static SHELF: [u32; shelf::SHELF_WORDS] = {
    let mut words = [0; shelf::SHELF_WORDS];
    words[shelf::name(PLACE)] = NAME;
    let mut i = 0;
    while i < word::STATE_WORDS {
        words[shelf::state(PLACE) + i] = LOADED[i];
        i += 1;
    }
    words
};

/// A stack on which calls on this small table fit: a state's words would not fit it too.
pub const SHALLOW_STACK: usize = 20 << 10;
