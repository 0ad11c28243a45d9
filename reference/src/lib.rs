//! A second implementation of the LAbS rehearsal machine, to test the first
//! against. It reads tables into owned trees and states into maps and sets.

pub mod cases;
pub mod chains;
pub mod count;
pub mod derive;
pub mod describe;
pub mod draft;
pub mod equations;
pub mod expose;
pub mod faults;
pub mod generate;
pub mod history;
pub mod machine;
pub mod reach;
pub mod refusal;
pub mod rng;
pub mod schedule;
pub mod shelf;
pub mod shelf_cases;
pub mod shelf_faults;
pub mod show;
pub mod state;
pub mod stats;
pub mod step;
pub mod surviving;
pub mod syntax;
pub mod table;
pub mod term;
pub mod value;

pub use machine::{load, preview, run, step};
pub use refusal::{pack, Answer, Counts, Reason, Refusal, Totals};
pub use shelf::{drop, restore, save};

/// Runs on a stack that is deep enough for the deepest trees that a table can
/// hold: 4,096 nodes under one another.
pub fn on_deep_stack<T: Send + 'static>(work: impl FnOnce() -> T + Send + 'static) -> T {
    let thread = std::thread::Builder::new().stack_size(64 << 20).spawn(work);
    match thread.expect("a thread can be started").join() {
        Ok(result) => result,
        Err(panic) => std::panic::resume_unwind(panic),
    }
}
