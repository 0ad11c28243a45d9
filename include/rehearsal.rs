//! The proved library, for Rust on x86-64 Linux: a module to include by its path. rehearsal.h beside it says what the
//! calls do, which stack they need, and what the numbers are; examples/rehearse.rs is a whole program.
//!
//! Slices of Rust are what the library asks of its caller: aligned, not null, valid, and apart where they are written.

/// The interface's version, and how many change requests have landed.
pub const VERSION: u32 = 1;
pub const REQUESTS: u32 = 7;

pub const MAX_NODES: usize = 4_096;
pub const MAX_DEFINITIONS: usize = 64;
pub const MAX_AGENTS: usize = 32;
pub const MAX_KEYS: usize = 16;
pub const MAX_STEPS: usize = 8_192;
pub const MAX_RESIDUAL: usize = 63;

/// Words of scratch that suffice for every table.
pub const SCRATCH_WORDS: usize = 2 * MAX_NODES;

/// The highest name of a saved state; the lowest is 1.
pub const NAME_LIMIT: u32 = 255;

/// Kinds of nodes.
pub mod node {
    pub const IDLE: u8 = 0;
    pub const TICK: u8 = 1;
    pub const SET_ATTRIBUTE: u8 = 2;
    pub const SET_STIGMERGY: u8 = 3;
    pub const SET_ENVIRONMENT: u8 = 4;
    pub const SEQUENCE: u8 = 5;
    pub const CHOICE: u8 = 6;
    pub const GUARDED: u8 = 7;
    pub const PARALLEL: u8 = 8;
    pub const CALL: u8 = 9;
    pub const TRUE: u8 = 16;
    pub const EQUAL: u8 = 17;
    pub const LESS: u8 = 18;
    pub const GREATER: u8 = 19;
    pub const NOT: u8 = 20;
    pub const AND: u8 = 21;
    pub const OR: u8 = 22;
    pub const CONSTANT: u8 = 32;
    pub const ATTRIBUTE: u8 = 33;
    pub const STIGMERGY: u8 = 34;
    pub const ENVIRONMENT: u8 = 35;
    pub const ADD: u8 = 36;
    pub const SUBTRACT: u8 = 37;
    pub const MULTIPLY: u8 = 38;
    pub const DIVIDE: u8 = 39;
    pub const REMAINDER: u8 = 40;
    pub const ROOT: u8 = 64;
}

/// Whose value an attribute or stigmergy key node reads.
pub mod party {
    pub const OWN: u16 = 0;
    pub const SENDER: u16 = 1;
    pub const RECEIVER: u16 = 2;
}

/// Kinds of steps.
pub mod kind {
    pub const ACT: u8 = 0;
    pub const PROPAGATE: u8 = 1;
    pub const CONFIRM: u8 = 2;
}

/// What the words of a residual are; any other word is a process node.
pub mod residual {
    pub const IDLE: u32 = 65_532;
    pub const TICK: u32 = 65_533;
    pub const PARALLEL: u32 = 65_534;
    pub const SEQUENCE: u32 = 65_535;
}

/// Why a call was refused; of a step inside a run, its answer byte.
pub mod refusal {
    /// The table has fewer than 12 bytes.
    pub const TABLE_SHORT: u16 = 1;
    /// A size is outside its limits, or D + S + A is over N.
    pub const SIZE_OUTSIDE_LIMITS: u16 = 2;
    /// The table has not 12 + 5N bytes.
    pub const TABLE_LENGTH: u16 = 3;
    /// A kind or an operand is bad; place: the lowest such node.
    pub const BAD_NODE: u16 = 4;
    /// A wrong party, or an environment key in a link; place: the lowest such key node.
    pub const WRONG_PARTY: u16 = 5;
    /// An exposed call that is not lower; place: the lowest such definition.
    pub const EXPOSED_CALL: u16 = 6;
    /// Over 65,535 choices; place: the lowest such process node.
    pub const NODE_DERIVATIONS: u16 = 7;
    /// State, next, scratch or shelf has a wrong length.
    pub const BUFFER_LENGTH: u16 = 8;
    /// The state, or the shelf, is not well formed for the table.
    pub const STATE_NOT_WELL_FORMED: u16 = 9;
    /// No such kind of step, agent or key.
    pub const STEP_OUT_OF_RANGE: u16 = 10;
    /// An act while keys are to be confirmed or propagated.
    pub const KEYS_PENDING: u16 = 11;
    /// A part of what is left of the process has over 65,535 choices.
    pub const RESIDUAL_DERIVATIONS: u16 = 12;
    /// The agent has no such choice.
    pub const NO_SUCH_CHOICE: u16 = 13;
    /// A guard of the choice does not hold.
    pub const GUARD_FAILS: u16 = 14;
    /// The choice's expression is absent.
    pub const EXPRESSION_ABSENT: u16 = 15;
    /// A mark would be written at clock 65,535.
    pub const CLOCK_AT_END: u16 = 16;
    /// The choice leaves over 63 words.
    pub const RESIDUAL_TOO_LONG: u16 = 17;
    /// The key is not one to propagate, or to confirm.
    pub const KEY_NOT_IN_SET: u16 = 18;
    /// The schedule has not 2 + 5n bytes, or n is over 8,192.
    pub const SCHEDULE_LENGTH: u16 = 19;
    /// Fewer answer bytes than steps.
    pub const ANSWERS_SHORT: u16 = 20;
    /// The name is 0 or over 255, or not held on a restore or drop.
    pub const NO_SUCH_NAME: u16 = 21;
    /// A new name, and all eight places are held.
    pub const SHELF_FULL: u16 = 22;
}

/// The words of a state, by their index.
pub mod word {
    use super::{MAX_AGENTS, MAX_KEYS, MAX_RESIDUAL};

    pub const CLOCK: usize = 0;
    pub const AGENTS: usize = 1;
    const PAIR_WORDS: usize = 2;
    const ENTRY_WORDS: usize = 3;
    const BLOCK_WORDS: usize = (PAIR_WORDS + ENTRY_WORDS) * MAX_KEYS + 3 + MAX_RESIDUAL;

    /// A value's two words: whether it is present, and its two's complement word.
    pub const fn environment(key: usize) -> usize {
        AGENTS + 1 + PAIR_WORDS * key
    }

    const fn block(agent: usize) -> usize {
        environment(MAX_KEYS) + BLOCK_WORDS * agent
    }

    /// As of the environment.
    pub const fn attribute(agent: usize, key: usize) -> usize {
        block(agent) + PAIR_WORDS * key
    }

    /// The value of an entry, its stamp, and its writer; all three are 0 where there is no entry.
    pub const fn entry_value(agent: usize, key: usize) -> usize {
        attribute(agent, MAX_KEYS) + ENTRY_WORDS * key
    }

    pub const fn entry_stamp(agent: usize, key: usize) -> usize {
        entry_value(agent, key) + 1
    }

    /// The number of the agent that wrote the entry.
    pub const fn entry_writer(agent: usize, key: usize) -> usize {
        entry_value(agent, key) + 2
    }

    /// The keys to confirm, bit k for key k.
    pub const fn zc(agent: usize) -> usize {
        entry_value(agent, MAX_KEYS)
    }

    /// The keys to propagate.
    pub const fn zp(agent: usize) -> usize {
        zc(agent) + 1
    }

    /// How many words the residual has; they follow.
    pub const fn residual_length(agent: usize) -> usize {
        zp(agent) + 1
    }

    /// How many words a state has.
    pub const STATE_WORDS: usize = block(MAX_AGENTS);
}

/// The words of a shelf, by their index.
pub mod shelf {
    use super::word::STATE_WORDS;

    pub const PLACES: usize = 8;

    /// The name that a place holds, or 0 where the place is free.
    pub const fn name(place: usize) -> usize {
        place
    }

    /// Where the state of a place begins.
    pub const fn state(place: usize) -> usize {
        PLACES + STATE_WORDS * place
    }

    /// How many words a shelf has.
    pub const SHELF_WORDS: usize = state(PLACES);
}

/// A refused call: why, and where (a node, a definition, or 0).
#[derive(Clone, Copy, Debug, PartialEq, Eq)]
pub struct Refused {
    pub refusal: u16,
    pub place: u64,
}

/// What an answer says: a report, or why the call was refused.
pub fn taken_apart(answer: u64) -> Result<u64, Refused> {
    if answer >> 63 == 0 {
        return Ok(answer);
    }
    Err(Refused {
        refusal: answer as u16,
        place: answer << 1 >> 17,
    })
}

/// How many agents took an entry: those that had none for its key before the step, and those that had an older one.
#[derive(Clone, Copy, Debug, PartialEq, Eq)]
pub struct Counts {
    pub added: u32,
    pub replaced: u32,
}

impl Counts {
    /// Of the report of a step, or of its preview, that `taken_apart` says is no refusal.
    pub fn of(report: u64) -> Counts {
        Counts {
            added: u32::from(report as u16),
            replaced: u32::from((report >> 16) as u16),
        }
    }

    pub fn taken(self) -> u32 {
        self.added + self.replaced
    }
}

/// How many totals a run has.
pub const TOTALS: usize = 4;

/// How many steps of a run were done, how many were refused, and how often an entry was taken.
#[derive(Clone, Copy, Debug, PartialEq, Eq)]
pub struct Totals {
    pub done: u32,
    pub refused: u32,
    pub counts: Counts,
}

impl Totals {
    /// Of the words that a run has written.
    pub fn of([done, refused, added, replaced]: [u32; TOTALS]) -> Totals {
        Totals {
            done,
            refused,
            counts: Counts { added, replaced },
        }
    }
}

/// labs_load.
pub fn load(table: &[u8], state: &mut [u32], scratch: &mut [u32]) -> u64 {
    unsafe {
        labs_load(
            table.as_ptr(),
            table.len(),
            state.as_mut_ptr(),
            state.len(),
            scratch.as_mut_ptr(),
            scratch.len(),
        )
    }
}

/// labs_step.
pub fn step(
    table: &[u8],
    state: &mut [u32],
    scratch: &mut [u32],
    kind: u8,
    agent: u16,
    number: u16,
) -> u64 {
    unsafe {
        labs_step(
            table.as_ptr(),
            table.len(),
            state.as_mut_ptr(),
            state.len(),
            scratch.as_mut_ptr(),
            scratch.len(),
            kind,
            agent,
            number,
        )
    }
}

/// labs_preview.
pub fn preview(
    table: &[u8],
    state: &[u32],
    scratch: &mut [u32],
    kind: u8,
    agent: u16,
    number: u16,
    next: &mut [u32],
) -> u64 {
    unsafe {
        labs_preview(
            table.as_ptr(),
            table.len(),
            state.as_ptr(),
            state.len(),
            scratch.as_mut_ptr(),
            scratch.len(),
            kind,
            agent,
            number,
            next.as_mut_ptr(),
            next.len(),
        )
    }
}

/// labs_run.
pub fn run(
    table: &[u8],
    state: &mut [u32],
    scratch: &mut [u32],
    schedule: &[u8],
    answers: &mut [u8],
    totals: &mut [u32],
) -> u64 {
    unsafe {
        labs_run(
            table.as_ptr(),
            table.len(),
            state.as_mut_ptr(),
            state.len(),
            scratch.as_mut_ptr(),
            scratch.len(),
            schedule.as_ptr(),
            schedule.len(),
            answers.as_mut_ptr(),
            answers.len(),
            totals.as_mut_ptr(),
            totals.len(),
        )
    }
}

/// labs_save.
pub fn save(table: &[u8], state: &[u32], scratch: &mut [u32], shelf: &mut [u32], name: u32) -> u64 {
    unsafe {
        labs_save(
            table.as_ptr(),
            table.len(),
            state.as_ptr(),
            state.len(),
            scratch.as_mut_ptr(),
            scratch.len(),
            shelf.as_mut_ptr(),
            shelf.len(),
            name,
        )
    }
}

/// labs_restore.
pub fn restore(
    table: &[u8],
    state: &mut [u32],
    scratch: &mut [u32],
    shelf: &[u32],
    name: u32,
) -> u64 {
    unsafe {
        labs_restore(
            table.as_ptr(),
            table.len(),
            state.as_mut_ptr(),
            state.len(),
            scratch.as_mut_ptr(),
            scratch.len(),
            shelf.as_ptr(),
            shelf.len(),
            name,
        )
    }
}

/// labs_drop.
pub fn drop_name(table: &[u8], scratch: &mut [u32], shelf: &mut [u32], name: u32) -> u64 {
    unsafe {
        labs_drop(
            table.as_ptr(),
            table.len(),
            scratch.as_mut_ptr(),
            scratch.len(),
            shelf.as_mut_ptr(),
            shelf.len(),
            name,
        )
    }
}

unsafe extern "C" {
    fn labs_load(
        table: *const u8,
        table_len: usize,
        state: *mut u32,
        state_len: usize,
        scratch: *mut u32,
        scratch_len: usize,
    ) -> u64;

    fn labs_step(
        table: *const u8,
        table_len: usize,
        state: *mut u32,
        state_len: usize,
        scratch: *mut u32,
        scratch_len: usize,
        kind: u8,
        agent: u16,
        number: u16,
    ) -> u64;

    fn labs_preview(
        table: *const u8,
        table_len: usize,
        state: *const u32,
        state_len: usize,
        scratch: *mut u32,
        scratch_len: usize,
        kind: u8,
        agent: u16,
        number: u16,
        next: *mut u32,
        next_len: usize,
    ) -> u64;

    fn labs_run(
        table: *const u8,
        table_len: usize,
        state: *mut u32,
        state_len: usize,
        scratch: *mut u32,
        scratch_len: usize,
        schedule: *const u8,
        schedule_len: usize,
        answers: *mut u8,
        answers_len: usize,
        totals: *mut u32,
        totals_len: usize,
    ) -> u64;

    fn labs_save(
        table: *const u8,
        table_len: usize,
        state: *const u32,
        state_len: usize,
        scratch: *mut u32,
        scratch_len: usize,
        shelf: *mut u32,
        shelf_len: usize,
        name: u32,
    ) -> u64;

    fn labs_restore(
        table: *const u8,
        table_len: usize,
        state: *mut u32,
        state_len: usize,
        scratch: *mut u32,
        scratch_len: usize,
        shelf: *const u32,
        shelf_len: usize,
        name: u32,
    ) -> u64;

    fn labs_drop(
        table: *const u8,
        table_len: usize,
        scratch: *mut u32,
        scratch_len: usize,
        shelf: *mut u32,
        shelf_len: usize,
        name: u32,
    ) -> u64;
}
