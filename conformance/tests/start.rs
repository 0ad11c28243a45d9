//! What README has a new user type works as typed; the examples say what the second implementation does; lines of documents
//! are short.

use std::fmt::Write;
use std::fs;
use std::io::{BufRead, BufReader};
use std::os::unix::fs::{symlink, PermissionsExt};
use std::path::{Path, PathBuf};
use std::process::{Command, Output, Stdio};

use conformance::page::{apart, block, bytes, commands, root, text};
use conformance::program::labs_show;
use reference::generate::edges;
use reference::generate::fleets::{accepted, Scale};
use reference::generate::schedules::mostly_enabled;
use reference::refusal::{say, Answer, Report};
use reference::rng::Rng;
use reference::schedule::{self, MAX_STEPS};
use reference::show::show;
use reference::state::{World, STATE_WORDS};
use reference::step::Step;
use reference::table::{Sizes, MAX_NODES};
use reference::{load, machine, run, Counts};

/// The example that README rehearses.
const STORED: &str = "crates/labs_show/stdin";

fn shell(command: &str) -> Output {
    Command::new("bash")
        .args(["-c", command])
        .current_dir(root())
        .output()
        .expect("bash runs")
}

/// What an example is to print, and its status, by the second implementation.
fn told(input: &[u8]) -> (String, i32) {
    let nodes = Sizes::of_header(input).map_or(12, |sizes| sizes.table_bytes());
    let (table, schedule) = input.split_at(nodes.min(input.len()));
    let (mut state, scratch) = (vec![0; STATE_WORDS], 2 * MAX_NODES);
    let mut answers = vec![0; MAX_STEPS];
    let loaded = load(table, &mut state, scratch);
    if let Some(line) = refused("load", &loaded) {
        return (line, 1);
    }
    let totals = run(table, &mut state, scratch, schedule, &mut answers);
    if let Some(line) = refused("run", &totals) {
        return (line, 1);
    }
    let totals = totals.unwrap();
    let mut lines = String::new();
    let [done, refused, added, replaced] = totals.numbers();
    let taken = totals.counts.taken();
    write!(lines, "done {done} refused {refused} taken {taken} ").unwrap();
    writeln!(lines, "added {added} replaced {replaced}").unwrap();
    for (i, step) in schedule::read(schedule).unwrap().iter().enumerate() {
        let kind = match step.kind {
            0 => "act",
            1 => "propagate",
            2 => "confirm",
            _ => "no kind",
        };
        let (agent, number, answer) = (step.agent, step.number, answers[i]);
        if answer != 0 {
            let place = format!("step {i} ({kind}, agent {agent}, number {number})");
            writeln!(lines, "{place}: refusal {answer}").unwrap();
        }
    }
    let fleet = machine::open(table, STATE_WORDS, scratch).unwrap();
    let world = World::decode(&state, &fleet).unwrap();
    for (i, agent) in world.agents.iter().enumerate() {
        for (key, entry) in &agent.entries {
            let (value, stamp, writer) = (entry.value, entry.stamp, entry.writer);
            write!(lines, "agent {i} key {key}: value {value} ").unwrap();
            write!(lines, "stamp {stamp} writer {writer}").unwrap();
            let sends = |step| {
                let Counts { added, replaced } = world.clone().step(&fleet, step).unwrap();
                format!("(would add {added} replace {replaced})")
            };
            if agent.to_confirm.contains(key) {
                let sends = sends(Step::confirm(i as u16, *key));
                write!(lines, ", to confirm {sends}").unwrap();
            }
            if agent.to_propagate.contains(key) {
                let sends = sends(Step::propagate(i as u16, *key));
                write!(lines, ", to propagate {sends}").unwrap();
            }
            lines.push('\n');
        }
    }
    (lines, 0)
}

fn refused<T: Report>(call: &str, answer: &Answer<T>) -> Option<String> {
    let said = say(answer);
    let (number, place) = said.strip_prefix("refused ")?.split_once(' ')?;
    Some(format!("{call}: refusal {number} at {place}\n"))
}

/// The stored example, the one of docs/FORMATS.md, accepted fleets, and inputs that are refused.
fn inputs() -> Vec<Vec<u8>> {
    let stored = fs::read(root().join(STORED)).unwrap();
    let page = bytes(&block(&text("docs/FORMATS.md"), "hex"));
    let mut inputs = vec![
        stored.clone(),
        page.clone(),
        Vec::new(),
        page[..60].to_vec(),
        page[..page.len() - 1].to_vec(),
        edges::doubling(64, true).bytes(),
        vec![255; 100_000],
        [page, vec![0; 70_000]].concat(),
    ];
    for index in 0..40 {
        let rng = &mut Rng::for_index(6, index);
        let (mut input, fleet) = accepted(rng, Scale::Middle);
        let steps = mostly_enabled(rng, &fleet, &mut World::start(&fleet), 60);
        input.extend(schedule::write(&steps));
        inputs.push(input);
    }
    inputs
}

#[test]
fn readme_s_commands_work_as_typed() {
    let readme = text("README.md");
    let words = ["cc", "target/rehearse_c", "rustc", "target/rehearse_rs"];
    let typed = commands(&readme, &words);
    assert_eq!(typed.len(), words.len());
    for command in typed {
        let output = shell(&command);
        let said = String::from_utf8_lossy(&output.stderr);
        assert!(
            output.status.success() && said.is_empty(),
            "{command}: {said}"
        );
        let expected = if command.starts_with("target/") {
            block(&readme, "output")
        } else {
            String::new()
        };
        assert_eq!(
            String::from_utf8_lossy(&output.stdout),
            expected,
            "{command}"
        );
    }
    let stored = fs::read(root().join(STORED)).unwrap();
    assert_eq!(block(&readme, "output"), told(&stored).0);
    assert_eq!(block(&readme, "lines"), show(&stored));
    let page = text("docs/FORMATS.md");
    let halls = bytes(&block(&page, "hex"));
    assert_eq!(block(&page, "refused"), told(&halls).0);

    // The programs that were just compiled, on other inputs.
    let file = Path::new(env!("CARGO_TARGET_TMPDIR")).join("input");
    for (index, input) in inputs().iter().enumerate() {
        fs::write(&file, input).unwrap();
        for program in ["target/rehearse_c", "target/rehearse_rs"] {
            let output = Command::new(root().join(program))
                .arg(&file)
                .output()
                .unwrap();
            let printed = String::from_utf8_lossy(&output.stdout).to_string();
            let given = (printed, output.status.code().unwrap());
            assert_eq!(given, told(input), "{program}, input {index}");
        }
    }
    for program in ["target/rehearse_c", "target/rehearse_rs"] {
        for arguments in [&["no such file"][..], &[]] {
            let mut command = Command::new(root().join(program));
            let output = command.args(arguments).output().unwrap();
            assert_eq!((output.stdout.len(), output.status.code()), (0, Some(2)));
        }
    }
}

/// What rt lib writes.
const ARCHIVE: &str = "crates/rehearsal_c/out/librehearsal_c.a";

/// A folder with the tools that ./rehearse uses besides rt, and rt where it is given as a script.
fn tools(name: &str, rt: Option<&str>) -> PathBuf {
    let folder = apart(name);
    for tool in [
        "awk", "bash", "cp", "dirname", "mkdir", "sleep", "tee", "uname",
    ] {
        let found = shell(&format!("command -v {tool}")).stdout;
        let found = String::from_utf8(found).unwrap();
        symlink(found.trim(), folder.join(tool)).unwrap();
    }
    if let Some(script) = rt {
        let file = folder.join("rt");
        fs::write(&file, script).unwrap();
        fs::set_permissions(&file, fs::Permissions::from_mode(0o755)).unwrap();
    }
    folder
}

/// What ./rehearse prints, in a copy of what it reads and with these tools alone, which are removed then; and what it asked
/// rt. Once it has said that the first crate is proved, the file `seen` is there.
fn rehearse(tools: &Path) -> (Output, String) {
    let folder = tools.join("repository");
    for part in ["crates/labs_show/out", "crates/rehearsal_c/out"] {
        fs::create_dir_all(folder.join(part)).unwrap();
    }
    for file in ["rehearse", "crates.txt", STORED] {
        fs::copy(root().join(file), folder.join(file)).unwrap();
    }
    if let Some(program) = labs_show() {
        fs::copy(program, folder.join("crates/labs_show/out/labs_show")).unwrap();
    }
    fs::write(folder.join(ARCHIVE), ARCHIVE).unwrap();
    let mut child = Command::new("bash")
        .arg(folder.join("rehearse"))
        .env("PATH", tools)
        .stdout(Stdio::piped())
        .stderr(Stdio::piped())
        .spawn()
        .expect("bash runs");
    let mut stdout = Vec::new();
    for line in BufReader::new(child.stdout.take().unwrap()).lines() {
        let line = line.unwrap();
        if line.starts_with("1 of ") {
            fs::write(folder.join("seen"), "").unwrap();
        }
        stdout.extend(format!("{line}\n").into_bytes());
    }
    let rest = child.wait_with_output().unwrap();
    if rest.status.success() {
        let put = fs::read_to_string(folder.join("target/staticlib/librehearsal.a"));
        assert_eq!(put.unwrap(), ARCHIVE);
    }
    let asked = fs::read_to_string(folder.join("asked")).unwrap_or_default();
    fs::remove_dir_all(tools).unwrap();
    (Output { stdout, ..rest }, asked)
}

#[test]
fn a_missing_tool_is_one_clear_line() {
    let (output, _) = rehearse(&tools("without_rt", None));
    assert_eq!((output.stdout.len(), output.status.code()), (0, Some(1)));
    let said = String::from_utf8(output.stderr).unwrap();
    assert_eq!(said.lines().count(), 1, "{said}");
    assert!(said.contains("rt") && said.contains("Rattle"), "{said}");
}

/// A toolchain that says of three crates what rt says, and keeps what it was asked. It goes on to the second crate once the
/// first has been seen.
const SAYS: &str = r#"#!/usr/bin/env bash
cd ../..
echo "$*" >>asked
if [ "$1" = lib ]; then
    echo "crate shelf: modules loaded=20 checked=30"
    echo "logic=proved functions=9 sum=0"
    exit 0
fi
echo "rt: chose --jobs 2 for basis"
echo "fn basis::lowest: proved"
echo "crate basis: modules loaded=0 checked=10"
echo "logic=proved functions=12 sum=0"
for ((i = 0; i < 100; i++)); do [ -e seen ] || sleep 0.1; done
[ -e seen ] || exit 1
echo "crate value: modules loaded=0 checked=10" >&2
echo "SECOND
"#;

#[test]
fn rehearse_says_where_it_is() {
    if labs_show().is_none() {
        return;
    }
    let proved = SAYS.replace("SECOND", "logic=proved functions=7 sum=0\" >&2");
    let (output, asked) = rehearse(&tools("with_rt", Some(&proved)));
    let said = String::from_utf8(output.stdout).unwrap();
    assert!(output.status.success(), "{said}");
    let count = needed().to_string();
    let lines: Vec<&str> = said.lines().collect();
    let first = format!("proving up to {count} crates");
    assert!(lines[0].starts_with(&first), "{said}");
    for (line, name) in lines[1..].iter().zip(["basis", "value", "shelf"]) {
        let at = lines.iter().position(|other| other == line).unwrap();
        let wanted = format!("{at} of {count}: {name} proved (");
        assert!(line.starts_with(&wanted), "{said}");
    }
    assert!(
        said.ends_with(&block(&text("README.md"), "lines")),
        "{said}"
    );
    assert_eq!(asked, "run\nlib\n");

    let fails = SAYS.replace("SECOND", "logic=not-proved\"\nexit 1");
    let (output, _) = rehearse(&tools("with_failing_rt", Some(&fails)));
    assert_eq!(output.status.code(), Some(1));
    let said = String::from_utf8(output.stdout).unwrap();
    assert!(said.ends_with("value NOT PROVED\n"), "{said}");
}

/// How many crates labs_show and the library need.
fn needed() -> usize {
    let list = text("crates.txt");
    let needs = |name: &str| {
        let line = list
            .lines()
            .find(|line| line.split([' ', ':']).next() == Some(name))?;
        Some(line.split_once(':')?.1.split_whitespace())
    };
    let mut found: Vec<&str> = vec!["labs_show", "rehearsal_c"];
    let mut next = 0;
    while let Some(name) = found.get(next) {
        // Libraries of the toolchain have no line.
        let more: Vec<&str> = needs(name).into_iter().flatten().collect();
        for name in more {
            if !found.contains(&name) && needs(name).is_some() {
                found.push(name);
            }
        }
        next += 1;
    }
    found.len()
}

#[test]
fn lines_of_documents_are_short() {
    let mut files = vec!["README.md".to_string(), "reference/README.md".to_string()];
    for entry in fs::read_dir(root().join("docs")).unwrap() {
        let name = entry.unwrap().file_name().into_string().unwrap();
        files.push(format!("docs/{name}"));
    }
    for file in files {
        for (i, line) in text(&file).lines().enumerate() {
            let long = line.chars().count() > 120 && !line.starts_with('|');
            assert!(!long, "{file}, line {}: {line}", i + 1);
        }
    }
}
