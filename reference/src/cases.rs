//! Calls with all that is lent to them, and what they give back.

use crate::machine;
use crate::refusal::{pack, say, write_totals, Answer, Report};
use crate::step::Step;

/// The word that fills a state that is not zero.
pub const FILL: u32 = 0xa5a5_a5a5;
/// What the answer buffer holds before a call.
pub const ANSWER_FILL: u8 = 238;

#[derive(Clone, Debug, PartialEq, Eq)]
pub enum Call {
    Load,
    Step(Step),
    Run { schedule: Vec<u8>, answers: usize },
}

/// A call with all that is lent to it.
#[derive(Clone, Debug, PartialEq, Eq)]
pub struct Case {
    pub table: Vec<u8>,
    pub state: Vec<u32>,
    /// The word that most of the state holds.
    pub fill: u32,
    pub scratch: usize,
    pub call: Call,
}

/// What a call gives back.
#[derive(Clone, Debug, PartialEq, Eq)]
pub struct Outcome {
    pub packed: u64,
    /// The answer in words.
    pub said: String,
    pub state: Vec<u32>,
    pub answers: Vec<u8>,
}

impl Outcome {
    /// The refusal, or 0.
    pub fn refusal(&self) -> u8 {
        if self.packed >> 63 == 1 {
            self.packed as u8
        } else {
            0
        }
    }
}

fn told<T: Report>(answer: &Answer<T>) -> (u64, String) {
    (pack(answer), say(answer))
}

impl Case {
    /// Makes the call.
    pub fn outcome(&self) -> Outcome {
        self.outcome_with(&mut [])
    }

    /// Makes the call, with words that are lent for the totals of a run.
    pub fn outcome_with(&self, totals: &mut [u32]) -> Outcome {
        let mut state = self.state.clone();
        let mut answers = Vec::new();
        let (packed, said) = match &self.call {
            Call::Load => told(&machine::load(&self.table, &mut state, self.scratch)),
            Call::Step(Step {
                kind,
                agent,
                number,
            }) => told(&machine::step(
                &self.table,
                &mut state,
                self.scratch,
                *kind,
                *agent,
                *number,
            )),
            Call::Run {
                schedule,
                answers: length,
            } => {
                answers = vec![ANSWER_FILL; *length];
                let answer = machine::run(
                    &self.table,
                    &mut state,
                    self.scratch,
                    schedule,
                    &mut answers,
                );
                write_totals(&answer, totals);
                told(&answer)
            }
        };
        Outcome {
            packed,
            said,
            state,
            answers,
        }
    }

    /// Previews the step, where the call is one, and packs the answer.
    pub fn preview(&self, next: &mut [u32]) -> Option<u64> {
        let Call::Step(step) = &self.call else {
            return None;
        };
        let answer = machine::preview(
            &self.table,
            &self.state,
            self.scratch,
            step.kind,
            step.agent,
            step.number,
            next,
        );
        Some(pack(&answer))
    }
}
