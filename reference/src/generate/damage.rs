//! Damage in one place of an input.

use crate::cases::{Call, Case};
use crate::rng::Rng;
use crate::state::{
    entry_at, AGENTS_AT, AGENT_WORDS, CONFIRM_AT, ENTRY_WORDS, ENVIRONMENT_AT, LENGTH_AT,
    PROPAGATE_AT, RESIDUAL_AT, STATE_WORDS,
};
use crate::table::{Sizes, HEADER_BYTES, MAX_AGENTS, MAX_KEYS};
use crate::term::{IDLE, MAX_WORDS, PARALLEL, SEQUENCE, TICK};

/// Damages a case whose table load accepts.
pub fn damage(rng: &mut Rng, case: &mut Case) {
    let sizes = Sizes::of_header(&case.table).expect("an accepted table has a header");
    let on_state = usize::from(!matches!(case.call, Call::Load));
    let on_run = usize::from(matches!(case.call, Call::Run { .. }));
    match rng.weighted(&[8, 1, 1, 6 * on_state, 2 * on_state, 3 * on_run, on_run]) {
        0 => damage_table(rng, &mut case.table, sizes),
        1 => case.scratch = *rng.pick(&[0, 1, sizes.nodes, 2 * sizes.nodes - 1]),
        2 => {
            let length = *rng.pick(&[0, 1, STATE_WORDS - 1, STATE_WORDS + 1]);
            case.state.resize(length, case.fill);
        }
        3 => damage_state(rng, &mut case.state, sizes),
        4 => damage_writer(rng, &mut case.state, sizes),
        5 => damage_schedule(rng, case),
        _ => {
            if let Call::Run { schedule, answers } = &mut case.call {
                *answers = (schedule.len() / 5).saturating_sub(1);
            }
        }
    }
}

fn set_u16(bytes: &mut [u8], at: usize, value: usize) {
    bytes[at..at + 2].copy_from_slice(&(value as u16).to_le_bytes());
}

fn damage_table(rng: &mut Rng, table: &mut Vec<u8>, sizes: Sizes) {
    let node = rng.below(sizes.nodes);
    let operand = HEADER_BYTES + sizes.nodes + 4 * node;
    match rng.weighted(&[2, 1, 2, 3, 8]) {
        0 => {
            let at = rng.below(table.len());
            table[at] = if rng.chance(50) {
                rng.word() as u8
            } else {
                table[at].wrapping_add(1)
            };
        }
        1 => {
            let length = if rng.chance(50) {
                rng.below(table.len())
            } else {
                *rng.pick(&[table.len() - 1, table.len() + 1])
            };
            table.resize(length, 0);
        }
        2 => {
            let field = rng.below(6);
            let value = *rng.pick(&[0, 1, 2, 16, 17, 32, 33, 64, 65, 4_097]);
            set_u16(table, 2 * field, value);
        }
        3 => {
            let kinds = [
                0, 1, 2, 3, 4, 5, 6, 7, 8, 9, 10, 16, 17, 20, 22, 23, 32, 33, 34, 35, 36, 40, 41,
                64, 255,
            ];
            table[HEADER_BYTES + node] = *rng.pick(&kinds);
        }
        _ => {
            let field = operand + 2 * rng.below(2);
            let other = rng.below(sizes.nodes);
            let value = *rng.pick(&[0, 1, 2, 3, node, other, other, sizes.nodes]);
            set_u16(table, field, value);
        }
    }
}

pub fn damage_state(rng: &mut Rng, state: &mut [u32], sizes: Sizes) {
    let key = rng.below(MAX_KEYS);
    let pair = 2 * key + rng.below(2);
    let agent = if rng.chance(85) {
        rng.below(sizes.agents)
    } else {
        rng.below(MAX_AGENTS)
    };
    let block = AGENTS_AT + agent * AGENT_WORDS;
    let residual = (state[block + LENGTH_AT] as usize).clamp(1, MAX_WORDS);
    let at = match rng.below(9) {
        0 => rng.below(2),
        1 => ENVIRONMENT_AT + pair,
        2 => block + pair,
        3 => entry_at(agent, key) + rng.below(ENTRY_WORDS),
        4 => block + *rng.pick(&[CONFIRM_AT, PROPAGATE_AT]),
        5 => block + LENGTH_AT,
        6 | 7 => block + RESIDUAL_AT + rng.below(residual),
        _ => block + RESIDUAL_AT + rng.below(MAX_WORDS),
    };
    let word = state[at];
    let node = rng.below(sizes.nodes) as u32;
    let values = [
        0,
        1,
        2,
        word.wrapping_add(1),
        word.wrapping_sub(1),
        1 << key,
        1 << rng.below(32),
        node,
        sizes.nodes as u32,
        SEQUENCE,
        PARALLEL,
        TICK,
        IDLE,
        IDLE - 1,
        65_536,
        rng.word() as u32,
    ];
    state[at] = *rng.pick(&values);
}

/// A writer below A or not, where the stamp is above 0 or not, at times past
/// the keys or the agents.
pub fn damage_writer(rng: &mut Rng, state: &mut [u32], sizes: Sizes) {
    let keys = if rng.chance(80) {
        sizes.stigmergy.max(1)
    } else {
        MAX_KEYS
    };
    let agents = if rng.chance(80) {
        sizes.agents
    } else {
        MAX_AGENTS
    };
    let at = entry_at(rng.below(agents), rng.below(keys));
    let past = sizes.agents as u32;
    let writers = [0, 1, past - 1, past, past, past + 1, 65_536, u32::MAX];
    state[at + 2] = *rng.pick(&writers);
}

fn damage_schedule(rng: &mut Rng, case: &mut Case) {
    let Call::Run { schedule, .. } = &mut case.call else {
        return;
    };
    match rng.below(4) {
        0 => {
            let length = rng.below(schedule.len() + 4);
            schedule.resize(length, 0);
        }
        1 => {
            let n = schedule.len() / 5;
            let sizes = [0, n + 1, n.saturating_sub(1), 8_192, 8_193, 65_535];
            set_u16(schedule, 0, *rng.pick(&sizes));
        }
        _ => {
            let at = rng.below(schedule.len());
            schedule[at] = rng.word() as u8;
        }
    }
}
