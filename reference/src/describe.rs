//! A case in words, for the one who looks into a difference.

use std::fmt::Write;

use crate::cases::{Call, Case};
use crate::schedule;
use crate::state::{AGENTS_AT, AGENT_WORDS, STATE_WORDS};
use crate::table::{Sizes, HEADER_BYTES};

pub fn describe(case: &Case) -> String {
    let mut text = String::new();
    describe_to(case, &mut text).expect("a string takes all");
    text
}

fn describe_to(case: &Case, out: &mut String) -> std::fmt::Result {
    let Case {
        table,
        state,
        fill,
        scratch,
        call,
    } = case;
    writeln!(
        out,
        "table of {} bytes: {:?}",
        table.len(),
        Sizes::of_header(table)
    )?;
    nodes(table, out)?;
    writeln!(out, "state of {} words, {fill} but for", state.len())?;
    for (index, word) in state.iter().enumerate().filter(|(_, word)| *word != fill) {
        match index.checked_sub(AGENTS_AT) {
            Some(at) if index < STATE_WORDS => {
                let (agent, word_at) = (at / AGENT_WORDS, at % AGENT_WORDS);
                writeln!(out, "  {index} (agent {agent} word {word_at}): {word}")?;
            }
            _ => writeln!(out, "  {index}: {word}")?,
        }
    }
    writeln!(out, "scratch of {scratch} words")?;
    match call {
        Call::Load => writeln!(out, "load")?,
        Call::Step(step) => writeln!(out, "{step:?}")?,
        Call::Run {
            schedule: bytes,
            answers,
        } => {
            writeln!(out, "run of {} bytes, {answers} answers", bytes.len())?;
            for step in schedule::read(bytes).unwrap_or_default() {
                writeln!(out, "  {step:?}")?;
            }
        }
    }
    let outcome = case.outcome();
    writeln!(
        out,
        "refusal {}, answers {:?}",
        outcome.refusal(),
        outcome.answers
    )?;
    writeln!(out, "{}", outcome.said)
}

/// The nodes, as far as the table goes.
fn nodes(table: &[u8], out: &mut String) -> std::fmt::Result {
    let Some(sizes) = Sizes::of_header(table) else {
        return Ok(());
    };
    for id in 0..sizes.nodes {
        let at = HEADER_BYTES + sizes.nodes + 4 * id;
        let Some(operand) = table.get(at..at + 4) else {
            break;
        };
        let kind = table[HEADER_BYTES + id];
        let p = u16::from_le_bytes([operand[0], operand[1]]);
        let q = u16::from_le_bytes([operand[2], operand[3]]);
        writeln!(out, "  {id}: {kind} ({p}, {q})")?;
    }
    Ok(())
}
