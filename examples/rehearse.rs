//! Rehearses the fleet in a file, a table and after it a schedule, as labs_show does, and says what labs_show does not:
//! which steps were refused, and why, and how many agents would take an entry that waits to be sent, as their first one
//! or over an older one. docs/FORMATS.md has the formats.
//! Status: 0 done, 1 a call refused, 2 no such file.

#[allow(dead_code)]
#[path = "../include/rehearsal.rs"]
mod rehearsal;

use rehearsal::{
    load, preview, run, taken_apart, word, Counts, Refused, Totals, MAX_KEYS, MAX_STEPS,
    SCRATCH_WORDS, TOTALS,
};
use std::process::exit;

fn u16_at(bytes: &[u8], at: usize) -> u16 {
    u16::from_le_bytes([bytes[at], bytes[at + 1]])
}

/// What an answer reports; or the refusal is printed, and the program ends.
fn report(call: &str, answer: u64) -> u64 {
    taken_apart(answer).unwrap_or_else(|Refused { refusal, place }| {
        println!("{call}: refusal {refusal} at {place}");
        exit(1)
    })
}

fn main() {
    let arguments: Vec<String> = std::env::args().collect();
    let Some(Ok(input)) = arguments.get(1).map(std::fs::read) else {
        eprintln!(
            "usage: {} FILE, with a table and a schedule that can be read",
            arguments[0]
        );
        exit(2)
    };

    // The table is as long as its header says; the rest is the schedule.
    let nodes = if input.len() < 12 {
        0
    } else {
        u16_at(&input, 0)
    };
    let (table, schedule) = input.split_at(input.len().min(12 + 5 * usize::from(nodes)));

    let mut state = vec![0; word::STATE_WORDS];
    let mut scratch = vec![0; SCRATCH_WORDS];
    let mut answers = vec![0; MAX_STEPS];
    report("load", load(table, &mut state, &mut scratch));
    let mut totals = [0; TOTALS];
    report(
        "run",
        run(
            table,
            &mut state,
            &mut scratch,
            schedule,
            &mut answers,
            &mut totals,
        ),
    );
    let Totals {
        done,
        refused,
        counts,
    } = Totals::of(totals);
    let (taken, Counts { added, replaced }) = (counts.taken(), counts);
    println!("done {done} refused {refused} taken {taken} added {added} replaced {replaced}");

    let steps = usize::from(u16_at(schedule, 0));
    for (i, &answer) in answers[..steps].iter().enumerate() {
        let kind = ["act", "propagate", "confirm"]
            .get(usize::from(schedule[2 + i]))
            .unwrap_or(&"no kind");
        let operand = 2 + steps + 4 * i;
        let (agent, number) = (u16_at(schedule, operand), u16_at(schedule, operand + 2));
        if answer != 0 {
            println!("step {i} ({kind}, agent {agent}, number {number}): refusal {answer}");
        }
    }
    let mut next = vec![0; word::STATE_WORDS];
    for agent in 0..state[word::AGENTS] as usize {
        for key in 0..MAX_KEYS {
            let value = state[word::entry_value(agent, key)] as i32;
            let stamp = state[word::entry_stamp(agent, key)];
            let writer = state[word::entry_writer(agent, key)];
            if stamp == 0 {
                continue;
            }
            print!("agent {agent} key {key}: value {value} stamp {stamp} writer {writer}");
            let (confirm, propagate) = (state[word::zc(agent)], state[word::zp(agent)]);
            for (what, kind, set) in [("confirm", 2, confirm), ("propagate", 1, propagate)] {
                if set >> key & 1 == 1 {
                    // By a preview of the step that sends it; next is the state after that.
                    let (agent, key) = (agent as u16, key as u16);
                    let answer = preview(table, &state, &mut scratch, kind, agent, key, &mut next);
                    let Counts { added, replaced } = Counts::of(report("preview", answer));
                    print!(", to {what} (would add {added} replace {replaced})");
                }
            }
            println!();
        }
    }
}
