//! What labs_show prints for an input.

use crate::machine::{load, open, run};
use crate::refusal::{Answer, Totals};
use crate::schedule::MAX_STEPS;
use crate::state::{Entry, World, STATE_WORDS};
use crate::table::{Sizes, HEADER_BYTES, MAX_NODES};

/// Splits an input into table and schedule, loads and runs.
pub fn show(input: &[u8]) -> String {
    match rehearse(input) {
        Ok(lines) => lines,
        Err(refusal) => format!("refused {} {}\n", refusal.reason.number(), refusal.place),
    }
}

/// The table is the first 12 + 5N bytes, or all if fewer.
fn split(input: &[u8]) -> (&[u8], &[u8]) {
    let wanted = Sizes::of_header(input).map_or(HEADER_BYTES, |sizes| sizes.table_bytes());
    input.split_at(wanted.min(input.len()))
}

fn rehearse(input: &[u8]) -> Answer<String> {
    let (table, schedule) = split(input);
    let mut state = vec![0; STATE_WORDS];
    let scratch = 2 * MAX_NODES;
    let mut answers = vec![0; MAX_STEPS];
    load(table, &mut state, scratch)?;
    let totals = run(table, &mut state, scratch, schedule, &mut answers)?;
    let fleet = open(table, STATE_WORDS, scratch)?;
    let world = World::decode(&state, &fleet).expect("run leaves a well-formed state");
    Ok(lines(totals, &world))
}

fn lines(totals: Totals, world: &World) -> String {
    let [done, refused, added, replaced] = totals.numbers();
    let taken = totals.counts.taken();
    let mut lines = vec![
        format!("done {done} refused {refused} taken {taken} added {added} replaced {replaced}"),
        format!("clock {}", world.clock),
    ];
    for (key, value) in &world.environment {
        lines.push(format!("e {key} {value}"));
    }
    for (i, agent) in world.agents.iter().enumerate() {
        for (key, value) in &agent.attributes {
            lines.push(format!("a {i} {key} {value}"));
        }
        for (key, entry) in &agent.entries {
            let Entry {
                value,
                stamp,
                writer,
            } = entry;
            lines.push(format!("s {i} {key} {value} {stamp} {writer}"));
        }
        lines.extend(agent.to_confirm.iter().map(|key| format!("c {i} {key}")));
        lines.extend(agent.to_propagate.iter().map(|key| format!("p {i} {key}")));
    }
    lines.push(String::new());
    lines.join("\n")
}
