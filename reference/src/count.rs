//! How many derivations a process has (refusal 7).

use std::rc::Rc;

use crate::refusal::{Answer, Reason, Refusal};
use crate::syntax::{Process, ProcessForm};

/// The first number that is over the limit. Counts are held here: the smaller
/// of a number and this one goes through sums and products unchanged.
pub const OVER: u32 = 65_536;

/// The derivations of a process, actions and ticks apart.
#[derive(Clone, Copy, Debug, Default, PartialEq, Eq)]
pub struct Count {
    pub actions: u32,
    pub ticks: u32,
}

fn plus(a: u32, b: u32) -> u32 {
    (a + b).min(OVER)
}

fn times(a: u32, b: u32) -> u32 {
    (u64::from(a) * u64::from(b)).min(u64::from(OVER)) as u32
}

impl Count {
    pub const NONE: Count = Count {
        actions: 0,
        ticks: 0,
    };
    pub const TICK: Count = Count {
        actions: 0,
        ticks: 1,
    };
    pub const ACTION: Count = Count {
        actions: 1,
        ticks: 0,
    };

    pub fn total(self) -> u32 {
        plus(self.actions, self.ticks)
    }

    pub fn is_over(self) -> bool {
        self.total() >= OVER
    }

    pub fn choice(p: Count, q: Count) -> Count {
        Count {
            actions: plus(p.actions, q.actions),
            ticks: plus(p.ticks, q.ticks),
        }
    }

    pub fn sequence(p: Count, q: Count) -> Count {
        Count {
            actions: plus(p.actions, times(p.ticks, q.actions)),
            ticks: times(p.ticks, q.ticks),
        }
    }

    pub fn parallel(p: Count, q: Count) -> Count {
        let alone = plus(p.actions, q.actions);
        let joined = plus(times(p.ticks, q.actions), times(q.ticks, p.actions));
        Count {
            actions: plus(alone, joined),
            ticks: times(2, times(p.ticks, q.ticks)),
        }
    }
}

/// Counts a process and remembers it in the tree. Exposed calls go down in the
/// definitions (refusal 6 is checked first), so this ends; the right of a
/// sequence is looked at only where a tick leads to it.
pub fn count(process: &Process, definitions: &[Rc<Process>]) -> Count {
    if let Some(known) = process.count.get() {
        return *known;
    }
    let found = match &process.form {
        ProcessForm::Idle => Count::NONE,
        ProcessForm::Tick => Count::TICK,
        ProcessForm::Set(_) => Count::ACTION,
        ProcessForm::Choice(p, q) => Count::choice(count(p, definitions), count(q, definitions)),
        ProcessForm::Guarded(_, p) => count(p, definitions),
        ProcessForm::Call(d) => count(&definitions[usize::from(*d)], definitions),
        ProcessForm::Parallel(p, q) => {
            Count::parallel(count(p, definitions), count(q, definitions))
        }
        ProcessForm::Sequence(p, q) => {
            let left = count(p, definitions);
            if left.ticks == 0 {
                left
            } else {
                Count::sequence(left, count(q, definitions))
            }
        }
    };
    *process.count.get_or_init(|| found)
}

/// Refusal 7, at the lowest process node that is over. The processes come in
/// the order of their numbers.
pub fn check_counts(processes: &[Rc<Process>], definitions: &[Rc<Process>]) -> Answer<()> {
    for process in processes {
        if count(process, definitions).is_over() {
            return Err(Refusal::at(Reason::NodeDerivations, process.id));
        }
    }
    Ok(())
}
