//! How often each answer occurs over generated cases.

use std::fmt;

use crate::cases::{Call, Case};
use crate::refusal::REASONS;

/// Counts of done (0) and of each refusal.
pub type Tally = [u64; REASONS + 1];

#[derive(Clone, Debug, Default, PartialEq, Eq)]
pub struct Stats {
    pub load: Tally,
    pub step: Tally,
    pub run: Tally,
    /// The answer bytes of runs that were not refused.
    pub inside: Tally,
}

impl Stats {
    pub fn add(&mut self, case: &Case) {
        let outcome = case.outcome();
        let refusal = usize::from(outcome.refusal());
        match &case.call {
            Call::Load => self.load[refusal] += 1,
            Call::Step(_) => self.step[refusal] += 1,
            Call::Run { schedule, .. } => {
                self.run[refusal] += 1;
                if refusal == 0 {
                    let steps = schedule.len() / 5;
                    for &answer in &outcome.answers[..steps] {
                        self.inside[usize::from(answer)] += 1;
                    }
                }
            }
        }
    }

    /// How often an answer occurs in any call.
    pub fn total(&self, answer: usize) -> u64 {
        self.load[answer] + self.step[answer] + self.run[answer] + self.inside[answer]
    }
}

impl fmt::Display for Stats {
    fn fmt(&self, out: &mut fmt::Formatter) -> fmt::Result {
        writeln!(out, "answer      load      step       run    in run")?;
        for answer in 0..=REASONS {
            let name = if answer == 0 {
                "done".to_string()
            } else {
                answer.to_string()
            };
            writeln!(
                out,
                "{name:<6} {:>9} {:>9} {:>9} {:>9}",
                self.load[answer], self.step[answer], self.run[answer], self.inside[answer]
            )?;
        }
        Ok(())
    }
}
