//! The programs `show`, `example`, `describe`, `stats` and `equations`.

use std::io::{self, Read, Write};
use std::process::ExitCode;

use reference::describe::describe;
use reference::equations::equations;
use reference::generate::{case, edges};
use reference::show::show;
use reference::stats::Stats;
use reference::{on_deep_stack, schedule};

const USAGE: &str = "\
usage: reference show                      table and schedule on standard input
       reference example                   writes the input of the paper's example
       reference describe SEED INDEX       one case in words
       reference stats SEED COUNT          how often each answer occurs
       reference equations SEED            small rehearsals, as definitions to compute
--small, with describe and stats: at most 24 nodes";

fn main() -> ExitCode {
    let arguments: Vec<String> = std::env::args().skip(1).collect();
    on_deep_stack(move || match command(arguments) {
        Ok(()) => ExitCode::SUCCESS,
        Err(error) if error.kind() == io::ErrorKind::BrokenPipe => ExitCode::SUCCESS,
        Err(error) => {
            eprintln!("{error}");
            ExitCode::FAILURE
        }
    })
}

fn command(mut arguments: Vec<String>) -> io::Result<()> {
    let given = arguments.len();
    arguments.retain(|argument| argument != "--small");
    let small = arguments.len() < given;
    let words: Vec<&str> = arguments.iter().map(String::as_str).collect();
    match words[..] {
        ["show"] => print(show(&input()?).as_bytes()),
        ["example"] => {
            let mut bytes = edges::example().bytes();
            bytes.extend(schedule::write(&edges::example_steps()));
            print(&bytes)
        }
        ["describe", seed, index] => {
            let case = case(number(seed)?, number(index)?, small);
            print(describe(&case).as_bytes())
        }
        ["stats", seed, count] => {
            let (seed, count) = (number(seed)?, number(count)?);
            let mut stats = Stats::default();
            for index in 0..count {
                stats.add(&case(seed, index, small));
            }
            print(stats.to_string().as_bytes())
        }
        ["equations", seed] => match equations(number(seed)?) {
            Ok(text) => print(text.as_bytes()),
            Err(missing) => {
                let missing: Vec<String> = missing.iter().map(ToString::to_string).collect();
                Err(fault(&format!("not shown: {}", missing.join(", "))))
            }
        },
        _ => Err(fault(USAGE)),
    }
}

fn fault(message: &str) -> io::Error {
    io::Error::other(message)
}

fn number(word: &str) -> io::Result<u64> {
    word.parse().map_err(|_| fault(USAGE))
}

fn input() -> io::Result<Vec<u8>> {
    let mut bytes = Vec::new();
    io::stdin().lock().read_to_end(&mut bytes)?;
    Ok(bytes)
}

fn print(bytes: &[u8]) -> io::Result<()> {
    let mut out = io::stdout().lock();
    out.write_all(bytes)?;
    out.flush()
}
