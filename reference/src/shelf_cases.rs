//! Calls on a shelf, with all that is lent to them.

use crate::refusal::pack;
use crate::shelf;

#[derive(Clone, Copy, Debug, PartialEq, Eq)]
pub enum ShelfCall {
    Save,
    Restore,
    Drop,
}

pub const SHELF_CALLS: [ShelfCall; 3] = [ShelfCall::Save, ShelfCall::Restore, ShelfCall::Drop];

#[derive(Clone, Debug, PartialEq, Eq)]
pub struct ShelfCase {
    pub call: ShelfCall,
    pub name: u32,
    pub table: Vec<u8>,
    /// Not lent to a drop.
    pub state: Vec<u32>,
    pub scratch: usize,
    pub shelf: Vec<u32>,
}

/// What a call gives back; what is not lent to be written is as it came.
#[derive(Clone, Debug, PartialEq, Eq)]
pub struct ShelfOutcome {
    pub packed: u64,
    pub state: Vec<u32>,
    pub shelf: Vec<u32>,
}

impl ShelfOutcome {
    /// The refusal, or 0.
    pub fn refusal(&self) -> u8 {
        if self.packed >> 63 == 1 {
            self.packed as u8
        } else {
            0
        }
    }
}

impl ShelfCase {
    /// Makes the call.
    pub fn outcome(&self) -> ShelfOutcome {
        let (mut state, mut shelf) = (self.state.clone(), self.shelf.clone());
        let (table, scratch, name) = (&self.table, self.scratch, self.name);
        let answer = match self.call {
            ShelfCall::Save => shelf::save(table, &state, scratch, &mut shelf, name),
            ShelfCall::Restore => shelf::restore(table, &mut state, scratch, &shelf, name),
            ShelfCall::Drop => shelf::drop(table, scratch, &mut shelf, name),
        };
        ShelfOutcome {
            packed: pack(&answer),
            state,
            shelf,
        }
    }
}
