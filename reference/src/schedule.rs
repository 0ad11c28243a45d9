//! Schedules as bytes (refusal 19).

use crate::refusal::{Answer, Reason};
use crate::step::Step;

pub const MAX_STEPS: usize = 8_192;

/// The steps of a schedule.
pub fn read(bytes: &[u8]) -> Answer<Vec<Step>> {
    steps(bytes).ok_or(Reason::ScheduleLength.into())
}

fn steps(bytes: &[u8]) -> Option<Vec<Step>> {
    let size = u16::from_le_bytes([*bytes.first()?, *bytes.get(1)?]);
    let n = usize::from(size);
    if n > MAX_STEPS || bytes.len() != 2 + 5 * n {
        return None;
    }
    let (kinds, operands) = bytes[2..].split_at(n);
    let step = |(&kind, operand): (&u8, &[u8])| Step {
        kind,
        agent: u16::from_le_bytes([operand[0], operand[1]]),
        number: u16::from_le_bytes([operand[2], operand[3]]),
    };
    Some(kinds.iter().zip(operands.chunks(4)).map(step).collect())
}

/// The bytes of these steps; also for more steps than a schedule may have.
pub fn write(steps: &[Step]) -> Vec<u8> {
    let mut bytes = (steps.len() as u16).to_le_bytes().to_vec();
    bytes.extend(steps.iter().map(|step| step.kind));
    for step in steps {
        bytes.extend(step.agent.to_le_bytes());
        bytes.extend(step.number.to_le_bytes());
    }
    bytes
}
