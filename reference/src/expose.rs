//! Exposed calls (refusal 6).

use std::rc::Rc;

use crate::refusal::{Answer, Reason, Refusal};
use crate::syntax::{Process, ProcessForm};

/// Walks what a body of definition number `below.len()` exposes and says
/// whether it can tick; None if an exposed call is not lower. `below` says the
/// same of the lower definitions.
fn can_tick(process: &Process, below: &[bool]) -> Option<bool> {
    match &process.form {
        ProcessForm::Idle | ProcessForm::Set(_) => Some(false),
        ProcessForm::Tick => Some(true),
        ProcessForm::Choice(p, q) => {
            let (p, q) = (can_tick(p, below)?, can_tick(q, below)?);
            Some(p || q)
        }
        ProcessForm::Parallel(p, q) => {
            let (p, q) = (can_tick(p, below)?, can_tick(q, below)?);
            Some(p && q)
        }
        ProcessForm::Guarded(_, p) => can_tick(p, below),
        ProcessForm::Sequence(p, q) => {
            if can_tick(p, below)? {
                can_tick(q, below)
            } else {
                Some(false)
            }
        }
        ProcessForm::Call(d) => below.get(usize::from(*d)).copied(),
    }
}

/// Refusal 6, at the lowest definition that exposes a call that is not lower.
pub fn check_exposed(definitions: &[Rc<Process>]) -> Answer<()> {
    let mut below = Vec::new();
    for body in definitions {
        match can_tick(body, &below) {
            Some(ticks) => below.push(ticks),
            None => return Err(Refusal::at(Reason::ExposedCall, below.len() as u16)),
        }
    }
    Ok(())
}
