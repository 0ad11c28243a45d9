//! Times the proved library beside the second implementation, in one process: for each input the least and the median of several rounds.

use std::time::{Duration, Instant};

use conformance::call_on;
use conformance::fleets::{fleet, joined_ticks, long_link, many_guards, nested_ands, table, Fleet};
use conformance::rehearsal::{self, TOTALS};
use reference::cases::Call;
use reference::on_deep_stack;
use reference::shelf::{PLACES, SHELF_WORDS};
use reference::shelf_cases::{ShelfCall, SHELF_CALLS};
use reference::state::STATE_WORDS;
use reference::step::Step;
use reference::table::MAX_NODES;

/// Rounds go on until there are so many, or until they have taken so long.
const ROUNDS: usize = 31;
const PATIENCE: Duration = Duration::from_secs(3);

/// Least and median.
#[derive(Clone, Copy)]
struct Times {
    least: Duration,
    median: Duration,
}

fn timed(mut round: impl FnMut() -> Duration) -> Times {
    let begin = Instant::now();
    let mut times = Vec::new();
    while times.len() < ROUNDS && (times.len() < 3 || begin.elapsed() < PATIENCE) {
        times.push(round());
    }
    times.sort();
    Times {
        least: times[0],
        median: times[times.len() / 2],
    }
}

fn loaded(table: &[u8], scratch: &mut [u32]) -> Vec<u32> {
    let mut state = vec![0; STATE_WORDS];
    let packed = rehearsal::load(table, &mut state, scratch);
    assert_eq!(packed, 0, "the table is accepted");
    state
}

/// A call on a full shelf, all of whose states are the loaded one: the library's time, and the second implementation's.
fn measure_on_shelf(table: &[u8], call: ShelfCall) -> [Times; 2] {
    let mut scratch = vec![0; 2 * MAX_NODES];
    let (loaded, mut full) = (loaded(table, &mut scratch), vec![0; SHELF_WORDS]);
    for name in 1..=PLACES as u32 {
        let packed = rehearsal::save(table, &loaded, &mut scratch, &mut full, name);
        assert_eq!(packed, 0, "there is a place");
    }
    let name = PLACES as u32;
    let library = timed(|| {
        let (mut state, mut shelf) = (loaded.clone(), full.clone());
        let begin = Instant::now();
        let packed = match call {
            ShelfCall::Save => rehearsal::save(table, &state, &mut scratch, &mut shelf, name),
            ShelfCall::Restore => rehearsal::restore(table, &mut state, &mut scratch, &shelf, name),
            ShelfCall::Drop => rehearsal::drop_name(table, &mut scratch, &mut shelf, name),
        };
        let time = begin.elapsed();
        assert_eq!(packed, 0, "the call is done");
        time
    });
    let second = timed(|| {
        let (mut state, mut shelf) = (loaded.clone(), full.clone());
        let begin = Instant::now();
        let answer = match call {
            ShelfCall::Save => reference::save(table, &state, usize::MAX, &mut shelf, name),
            ShelfCall::Restore => reference::restore(table, &mut state, usize::MAX, &shelf, name),
            ShelfCall::Drop => reference::drop(table, usize::MAX, &mut shelf, name),
        };
        let time = begin.elapsed();
        assert!(answer.is_ok(), "the call is done");
        time
    });
    [library, second]
}

/// A call on a loaded state: the library's time, and the second implementation's.
fn measure(table: &[u8], call: &Call) -> [Times; 2] {
    let mut scratch = vec![0; 2 * MAX_NODES];
    let loaded = loaded(table, &mut scratch);
    let room = match call {
        Call::Run { answers, .. } => *answers,
        _ => 0,
    };
    let library = timed(|| {
        let (mut state, mut answers) = (loaded.clone(), vec![0; room]);
        let mut totals = [0; TOTALS];
        let begin = Instant::now();
        let packed = call_on(
            table,
            &mut state,
            &mut scratch,
            call,
            &mut answers,
            &mut totals,
        );
        let time = begin.elapsed();
        assert_eq!(packed >> 63, 0, "the call is done");
        time
    });
    let second = timed(|| {
        let (mut state, mut answers) = (loaded.clone(), vec![0; room]);
        let begin = Instant::now();
        let done = match call {
            Call::Load => reference::load(table, &mut state, usize::MAX).is_ok(),
            Call::Step(s) => {
                reference::step(table, &mut state, usize::MAX, s.kind, s.agent, s.number).is_ok()
            }
            Call::Run { schedule, .. } => {
                reference::run(table, &mut state, usize::MAX, schedule, &mut answers).is_ok()
            }
        };
        let time = begin.elapsed();
        assert!(done, "the call is done");
        time
    });
    [library, second]
}

fn micros(time: Duration) -> f64 {
    time.as_secs_f64() * 1e6
}

fn report(name: &str, table: &[u8], call: &Call) -> Times {
    print(name, measure(table, call))
}

/// A line; the library's time again.
fn print(name: &str, [library, second]: [Times; 2]) -> Times {
    println!(
        "{name:<38} {:>12.1} {:>12.1} {:>12.1} {:>12.1} {:>8.2}",
        micros(library.least),
        micros(library.median),
        micros(second.least),
        micros(second.median),
        second.least.as_secs_f64() / library.least.as_secs_f64()
    );
    library
}

fn main() {
    on_deep_stack(|| {
        println!("microseconds                                library       median       second       median    ratio");
        for agents in [2, 8, 32] {
            let Fleet { table, call } = fleet(agents);
            report(
                &format!("run of 8,192 steps, {agents} agents"),
                &table,
                &call,
            );
        }
        for definitions in [0, 64] {
            let load = |nodes: usize| {
                let name = format!("load, {nodes} nodes, {definitions} definitions");
                report(&name, &table(nodes, definitions), &Call::Load)
            };
            load(1_024);
            let (half, whole) = (load(2_048), load(4_096));
            println!(
                "growth from 2,048 to 4,096 nodes: {:.2}",
                whole.least.as_secs_f64() / half.least.as_secs_f64()
            );
        }
        for nodes in [100, 4_096] {
            let name = format!("one step, {nodes} nodes");
            report(&name, &table(nodes, 0), &Call::Step(Step::act(0, 0)));
        }
        for agents in [2, 32] {
            let Fleet { table, .. } = fleet(agents);
            for call in SHELF_CALLS {
                let name = format!("{call:?}, full shelf, {agents} agents").to_lowercase();
                print(&name, measure_on_shelf(&table, call));
            }
        }
        let slow: [(&str, Fleet); 5] = [
            ("link of 4,000 nodes that holds", long_link(true)),
            ("link of 4,000 nodes that does not", long_link(false)),
            ("link of nested ands", nested_ands()),
            ("acts through 2,000 guards", many_guards()),
            ("joined ticks over a large body", joined_ticks()),
        ];
        for (name, Fleet { table, call }) in &slow {
            report(name, table, call);
        }
    });
}
