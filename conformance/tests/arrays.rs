//! What the functions that an act runs keep and write, held to the list in act_functions.md beside this file: none of
//! them keeps words of a residual in an array of its own.

use std::collections::{BTreeMap, BTreeSet};
use std::fs;
use std::process::Command;
use std::sync::LazyLock;

use conformance::mir::{functions, reached, Function, Functions};
use conformance::page::{apart, root, rows, text};

/// The calls that do acts.
const CALLS: [&str; 3] = [
    "rehearsal::labs_step",
    "rehearsal::labs_preview",
    "rehearsal::labs_run",
];

/// The head of the list.
const HEAD: &str = "| Module | Functions | Array that one keeps | What they write |";

/// The head of the list of the toolchain's functions.
const LIBRARY_HEAD: &str =
    "| Module of the toolchain | Functions | Array that one keeps | What they are lent to write |";

/// What is listed of a function: its arrays, the functions that may write them, and whether it writes itself.
#[derive(Default)]
struct Listed {
    arrays: Vec<String>,
    writers: BTreeSet<String>,
    writes: bool,
}

type List = BTreeMap<String, Listed>;

/// The words of a cell that stand between backticks.
fn quoted(cell: &str) -> Vec<&str> {
    cell.split('`').skip(1).step_by(2).collect()
}

/// A row is a module, its functions, what one of them keeps (its name, the types of its arrays, the functions that may
/// write these), and those of them that write.
fn listed(page: &str, head: &str) -> List {
    let mut list = List::new();
    for row in rows(page, head) {
        let [module, names, kept, writers] = &row[..] else {
            panic!("a row of four cells: {row:?}");
        };
        let path = |name: &str| format!("{module}::{name}");
        for name in quoted(names) {
            let double = list.insert(path(name), Listed::default());
            assert!(double.is_none(), "{} is listed twice", path(name));
        }
        if let Some((name, kept)) = quoted(kept).split_first() {
            let listed = list.get_mut(&path(name)).expect("a function of the row");
            for word in kept.iter().map(ToString::to_string) {
                if word.starts_with('[') {
                    listed.arrays.push(word);
                } else {
                    listed.writers.insert(word);
                }
            }
            listed.arrays.sort();
        }
        for name in quoted(writers) {
            let listed = list.get_mut(&path(name)).expect("a function of the row");
            listed.writes = true;
        }
    }
    list
}

/// Where the functions that calls run differ from the list, a line for each difference.
fn differences(all: &Functions, calls: &[&str], list: &List) -> Vec<String> {
    let run = reached(all, calls);
    let mut lines = Vec::new();
    for name in list.keys().filter(|name| !run.contains(name.as_str())) {
        lines.push(format!("{name} is listed, and no act runs it"));
    }
    for name in run {
        let listed = list.get(name);
        if listed.is_none() {
            lines.push(format!("{name} is run by an act, and not listed"));
        }
        compare(all, name, listed.unwrap_or(&Listed::default()), &mut lines);
    }
    lines
}

fn compare(all: &Functions, name: &str, listed: &Listed, lines: &mut Vec<String>) {
    let arrays = &all[name].arrays;
    if *arrays != listed.arrays {
        let (kept, listed) = (arrays.join(", "), listed.arrays.join(", "));
        lines.push(format!(
            "{name} keeps arrays ({kept}), listed are ({listed})"
        ));
    }
    let writes = is_writer(all, name);
    if writes != listed.writes {
        lines.push(format!(
            "{name} writes: {writes}, listed: {}",
            listed.writes
        ));
    }
    if !arrays.is_empty() {
        compare_writers(all, name, listed, lines);
    }
}

/// Whether a function is listed as writing: it writes, or is the toolchain's and is lent something to write.
fn is_writer(all: &Functions, name: &str) -> bool {
    let Function {
        own, lent, writes, ..
    } = all[name];
    let lends = |by: &Function| by.calls.get(name) == Some(&true);
    writes || !own && (lent > 0 || all.values().any(lends))
}

/// A function's arrays may be written by itself, and by those that it runs and that store behind a pointer.
fn compare_writers(all: &Functions, name: &str, listed: &Listed, lines: &mut Vec<String>) {
    let mut writers = reached(all, &[name]);
    writers.retain(|run| all[*run].stores || *run == name && all[name].writes);
    if !writers.iter().eq(&listed.writers) {
        let writers = Vec::from_iter(writers).join(", ");
        lines.push(format!("arrays of {name} may be written by {writers}"));
    }
}

/// The library's functions.
static LIBRARY: LazyLock<Functions> =
    LazyLock::new(|| functions(&root(), CALLS.map(String::from).into()));

#[test]
fn an_act_keeps_no_residual_in_an_array() {
    let page = text("conformance/tests/act_functions.md");
    let mut list = listed(&page, HEAD);
    list.extend(listed(&page, LIBRARY_HEAD));
    let lines = differences(&LIBRARY, &CALLS, &list);
    assert!(
        lines.is_empty(),
        "No function that an act runs keeps words of a residual in an array of its own. act_functions.md lists the \
         functions with their arrays, and what each array holds.\n{}",
        lines.join("\n")
    );
}

#[test]
fn the_toolchains_functions_are_listed() {
    let list = listed(&text("conformance/tests/act_functions.md"), LIBRARY_HEAD);
    let mut run = reached(&LIBRARY, &CALLS);
    run.retain(|name| !LIBRARY[*name].own);
    assert!(run.iter().eq(list.keys()), "these are run: {run:?}");
}

/// Once a table is accepted and a state is well formed, these two do a step: the first is lent nothing to write, and the
/// second the state alone.
const STEP: [(&str, usize); 2] = [
    ("machine::checking::judge_step", 0),
    ("machine::stepping::finish", 1),
];

#[test]
fn an_act_is_lent_nothing_to_write_but_the_state() {
    for (name, lent) in STEP {
        assert_eq!(LIBRARY[name].lent, lent, "{name}");
    }
    for by in [
        "machine::stepping::step_in",
        "machine::stepping::preview_in",
    ] {
        let calls = &LIBRARY[by].calls;
        assert!(
            STEP.iter().all(|(name, _)| calls.contains_key(*name)),
            "{by}"
        );
    }
}

/// Functions that keep words in many ways, beside some that keep none.
const SOURCE: &str = "// Functions that keep words.
#![tactic(auto)]

ghost use Rattle.std.specs.Prelude.{◌<◌, ◌≤◌, length};

#[derive(Clone, Copy)]
pub struct Spare {
    words: [u32; 63],
    length: usize,
}

#[derive(Clone, Copy)]
pub struct Marked(u32, Spare);

#[derive(Clone, Copy)]
pub enum Kept {
    Nothing,
    Spare(Spare),
}

impl Spare {
    pub fn first(self) -> u32 {
        self.words[0]
    }
}

fn copy(from: &[u32], to: &mut [u32])
    requires { (63 ≤ length from.now) × (63 ≤ length to.old) }
{
    let mut i = 0;
    while i < 63 {
        to[i] = from[i];
        i += 1;
    }
}

pub fn leave(state: &mut [u32])
    requires { 63 ≤ length state.old }
{
    let mut spare = [0u32; 63];
    copy(state, &mut spare);
    state[0] = spare[62];
}

pub fn marks(n: usize) -> u32
    requires { n < 128 }
{
    let marks = [0u32; 128];
    marks[n]
}

pub fn two(n: usize) -> u32
    requires { n < 128 }
{
    let marks = [0u32; 128];
    let spare = [1u32; 128];
    marks[n] | spare[n]
}

pub fn repeated(word: u32) -> u32 {
    let words = [word; 63];
    words[1]
}

pub fn of_elements(word: u32) -> u32 {
    let words = [word, 2, 3];
    words[1]
}

pub fn assigned(word: u32) -> u32 {
    let mut words = [1u32, 2, 3];
    if words[1] == word {
        words = [word, 5, 6];
    }
    words[1]
}

pub fn nested() -> bool {
    let words = [[false; 3]; 21];
    words[0][0]
}

pub fn lent(words: &[u32; 63]) -> u32 {
    words[0]
}

pub fn passed(words: [u64; 63]) -> [u64; 63] {
    words
}

pub fn passed_on(word: u32) -> u32 {
    lent(&[word; 63])
}

pub fn in_a_struct(length: usize) -> usize {
    let spare = Spare {
        words: [0; 63],
        length,
    };
    spare.length
}

pub fn in_structs(marked: Marked) -> u32 {
    marked.0
}

pub fn in_an_enum(kept: Kept) -> bool {
    match kept {
        Kept::Nothing => false,
        Kept::Spare(spare) => spare.length == 0,
    }
}

pub fn filled(word: u32) -> u32 {
    let mut words = [0u32; 63];
    words.fill(word);
    words[1]
}

pub fn copied(state: &[u32]) -> u32
    requires { 63 ≤ length state.now }
{
    let mut words = [0u32; 63];
    words.copy_from_slice(&state[..63]);
    words[1]
}

pub fn in_an_option(word: Option<[u32; 3]>) -> bool {
    word.is_some()
}

pub fn in_a_closure(word: Option<u32>) -> u32 {
    word.map_or(0, |word| {
        let words = [word; 3];
        words[1]
    })
}

pub fn by_name(word: Option<u32>) -> u32 {
    word.map_or(0, repeated)
}

pub fn of_any_type<T: Copy>(value: T, count: usize) -> (T, usize) {
    (value, count)
}

pub fn chosen(count: usize) -> usize {
    of_any_type([0u32; 63], count).1
}

pub fn turned(word: u32) -> u32 {
    word.swap_bytes()
}

pub fn turned_by_name(word: Option<u32>) -> u32 {
    word.map_or(0, u32::swap_bytes)
}

pub fn act(state: &mut [u32])
    requires { 63 ≤ length state.old }
{
    let word = state[1];
    leave(state);
    state[1] = word;
}
";

/// What the proof of its loop needs.
const COPY: &str = "use Rattle.std.proofs.Common.{◌-◌, ◌≡◌, ◌≤◌, length}
use Rattle.kept.proofs.copy.Given as goal

abbrev pub invariant-loop-i : goal.invariant-loop-i
invariant-loop-i l = (l.i ≤ 63) × (length l.to ≡ length l.initial.to)

abbrev pub decreases-loop-i : goal.decreases-loop-i
decreases-loop-i l = 63 - l.i
";

/// These functions, proved and built in a repository of their own.
static KEPT: LazyLock<Functions> = LazyLock::new(|| {
    let folder = apart("arrays");
    let kept = folder.join("crates/kept");
    let files = [
        (folder.join("crates.txt"), "kept:\n"),
        (kept.join("src/lib.rt"), SOURCE),
        (kept.join("proofs/copy/Invariants.antt"), COPY),
    ];
    for (file, text) in files {
        fs::create_dir_all(file.parent().unwrap()).expect("a folder");
        fs::write(file, text).expect("a file");
    }
    let output = Command::new("rt").arg("lib").current_dir(&kept).output();
    let output = output.expect("rt runs");
    let said = String::from_utf8_lossy(&output.stdout);
    assert!(output.status.success(), "rt lib: {said}");
    // All but `copy`, which `leave` calls, and `of_any_type`, for which `chosen` chooses the type.
    let run = SOURCE
        .lines()
        .filter_map(|line| line.strip_prefix("pub fn ")?.split_once('('));
    let run = run
        .map(|(name, _)| name)
        .filter(|name| !name.contains('<'))
        .chain(["Spare::first"]);
    let found = functions(&folder, run.map(|name| format!("kept::{name}")).collect());
    let _ = fs::remove_dir_all(&folder);
    found
});

/// What the check is made of finds all of them, and tells apart whether they are made of constants.
#[test]
fn arrays_are_found_wherever_they_are_kept() {
    let wanted = [
        ("Spare::first", "[u32; 63], [u32; 63]", true),
        ("act", "", true),
        ("assigned", "[u32; 3]", true),
        ("by_name", "", false),
        ("chosen", "[u32; 63], [u32; 63]", true),
        ("copied", "[u32; 63]", true),
        ("copy", "", true),
        ("filled", "[u32; 63]", true),
        ("in_a_closure", "[u32; 3]", true),
        ("in_a_struct", "[u32; 63], [u32; 63]", true),
        ("in_an_enum", "[u32; 63], [u32; 63]", true),
        ("in_an_option", "[u32; 3], [u32; 3]", true),
        ("in_structs", "[u32; 63]", false),
        ("leave", "[u32; 63]", true),
        ("lent", "", false),
        ("marks", "[u32; 128]", false),
        ("nested", "[[bool; 3]; 21], [bool; 3]", true),
        ("of_any_type", "", false),
        ("of_elements", "[u32; 3]", true),
        ("passed", "[u64; 63], [u64; 63]", true),
        ("passed_on", "[u32; 63]", true),
        ("repeated", "[u32; 63]", true),
        ("turned", "", false),
        ("turned_by_name", "", false),
        ("two", "[u32; 128], [u32; 128]", false),
    ];
    for (name, arrays, writes) in wanted {
        let found = &KEPT[&format!("kept::{name}")];
        let seen = (found.arrays.join(", "), found.writes);
        assert_eq!(seen, (arrays.to_string(), writes), "{name}");
    }
    let lent = |name: &str| KEPT[&format!("kept::{name}")].lent;
    assert_eq!(["act", "copy", "lent", "two"].map(lent), [1, 1, 0, 0]);
    let names = KEPT.keys().filter(|name| name.starts_with("kept::"));
    assert_eq!(names.count(), wanted.len());
    let calls = |name: &str| KEPT[&format!("kept::{name}")].calls.keys();
    let map_or = "core::option::Option::map_or";
    assert!(calls("act").eq(["kept::leave"]));
    assert!(calls("by_name").eq([map_or, "kept::repeated"]));
    assert!(KEPT["kept::filled"].calls["core::slice::edits::slice+T::fill"]);
}

/// An array that only a function of the toolchain keeps is found too.
#[test]
fn arrays_are_found_in_the_toolchain() {
    for name in ["kept::turned", "kept::turned_by_name"] {
        let lines = differences(&KEPT, &[name], &List::new());
        for line in [
            "core::int::u32::swap_bytes is run by an act, and not listed",
            "core::int::u32::swap_bytes keeps arrays ([u8; 4]), listed are ()",
        ] {
            assert!(lines.iter().any(|found| found == line), "{name}: {lines:?}");
        }
    }
}

/// The check itself: of `act`, with the lists below.
#[test]
fn a_spare_residual_is_refused() {
    let lines = |kept: &str, writers: &str| {
        let row = format!("| kept | `act`, `leave`, `copy` | {kept} | {writers} |");
        let page = format!("\n{HEAD}\n|---|---|---|---|\n{row}\n");
        differences(&KEPT, &["kept::act"], &listed(&page, HEAD))
    };
    let writers = "`act`, `leave`, `copy`";
    let by = "arrays of kept::leave may be written by kept::copy, kept::leave";
    let kept = "kept::leave keeps arrays ([u32; 63]), listed are ()";
    assert_eq!(lines("", writers), [kept, by]);
    assert_eq!(lines("`leave` keeps `[u32; 63]`", writers), [by]);
    let twice = "kept::leave keeps arrays ([u32; 63]), listed are ([u32; 63], [u32; 63])";
    let both = "by `kept::copy` and `kept::leave`";
    assert_eq!(
        lines(
            &format!("`leave` keeps `[u32; 63]` and `[u32; 63]`, {both}"),
            writers
        ),
        [twice]
    );
    assert_eq!(
        lines(
            &format!("`leave` keeps `[u32; 63]`, {both}"),
            "`act`, `leave`"
        ),
        ["kept::copy writes: true, listed: false"]
    );
    assert!(lines(&format!("`leave` keeps `[u32; 63]`, {both}"), writers).is_empty());
}
