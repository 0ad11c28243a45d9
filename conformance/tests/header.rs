//! include/rehearsal.h compiles as C and C++ without a warning, and every number in it is the second implementation's;
//! so are those of include/rehearsal.rs.

use std::collections::BTreeSet;
use std::fmt::Write;
use std::fs;
use std::path::{Path, PathBuf};
use std::process::{Command, Stdio};

use conformance::numbers::{self, Named};
use conformance::rehearsal::{
    self, shelf, taken_apart, word, Counts, Refused, Totals, MAX_AGENTS, MAX_DEFINITIONS, MAX_KEYS,
    MAX_NODES, MAX_RESIDUAL, MAX_STEPS, NAME_LIMIT, REQUESTS, SCRATCH_WORDS, TOTALS, VERSION,
};
use reference::refusal::{pack, write_totals, Refusal};
use reference::Reason;

/// Compilers with the language that each is to take the header as.
const LANGUAGES: [(&str, &str, &str); 5] = [
    ("cc", "c", "c99"),
    ("cc", "c", "c17"),
    ("c++", "c++", "c++11"),
    ("c++", "c++", "c++17"),
    ("c++", "c++", "c++20"),
];
const STRICT: [&str; 4] = ["-Wall", "-Wextra", "-Werror", "-pedantic"];

fn include() -> PathBuf {
    Path::new(env!("CARGO_MANIFEST_DIR")).join("../include")
}

/// A program that prints each number on a line, and calls the library so that its declarations are linked too.
fn program(all: &[Named]) -> String {
    let mut text = String::from(
        "#include \"rehearsal.h\"\n#include <inttypes.h>\n#include <stdio.h>\n\
         static const uint64_t numbers[] = {\n",
    );
    for (name, _) in all {
        writeln!(text, "(uint64_t)({name}),").unwrap();
    }
    text.push_str(
        "0};\nstatic uint32_t state[LABS_STATE_WORDS], scratch[LABS_SCRATCH_WORDS], next[LABS_STATE_WORDS],\n\
         totals[LABS_TOTALS], shelf[LABS_SHELF_WORDS];\n\
         static const uint32_t *const seen = state;\n\
         static const uint32_t *const held = shelf;\n\
         int main(void)\n{\n\
         uint8_t none[1] = {0};\n\
         for (size_t i = 0; i + 1 < sizeof numbers / sizeof *numbers; i++)\n\
         printf(\"%\" PRIu64 \"\\n\", numbers[i]);\n\
         uint64_t answer = labs_load(none, 0, state, LABS_STATE_WORDS, scratch, LABS_SCRATCH_WORDS);\n\
         answer |= labs_step(none, 0, state, LABS_STATE_WORDS, scratch, LABS_SCRATCH_WORDS, LABS_ACT, 0, 0);\n\
         answer |= labs_preview(none, 0, seen, LABS_STATE_WORDS, scratch, LABS_SCRATCH_WORDS, LABS_ACT, 0, 0,\n\
         next, LABS_STATE_WORDS);\n\
         answer |= labs_run(none, 0, state, LABS_STATE_WORDS, scratch, LABS_SCRATCH_WORDS, none, 0, none, 0,\n\
         totals, LABS_TOTALS);\n\
         answer |= labs_save(none, 0, seen, LABS_STATE_WORDS, scratch, LABS_SCRATCH_WORDS, shelf, LABS_SHELF_WORDS, 1);\n\
         answer |= labs_restore(none, 0, state, LABS_STATE_WORDS, scratch, LABS_SCRATCH_WORDS,\n\
         held, LABS_SHELF_WORDS, 1);\n\
         answer |= labs_drop(none, 0, scratch, LABS_SCRATCH_WORDS, shelf, LABS_SHELF_WORDS, 1);\n\
         return LABS_REFUSAL(answer) == LABS_REFUSAL_TABLE_SHORT ? 0 : 1;\n}\n",
    );
    text
}

/// What the program prints when it is compiled as this language.
fn printed(source: &Path, (compiler, language, standard): (&str, &str, &str)) -> Vec<u64> {
    let program = source.with_extension(standard);
    let status = Command::new(compiler)
        .args(STRICT)
        .arg(format!("-std={standard}"))
        .arg("-I")
        .arg(include())
        .args(["-x", language])
        .arg(source)
        .args(["-x", "none"])
        .arg(include().join("../target/staticlib/librehearsal.a"))
        .arg("-o")
        .arg(&program)
        .status()
        .unwrap_or_else(|_| panic!("a compiler, {compiler}, can be run"));
    assert!(
        status.success(),
        "the header does not compile as {standard}"
    );
    let output = Command::new(&program).output().expect("it runs");
    assert!(
        output.status.success(),
        "the calls of {standard} are linked"
    );
    let text = String::from_utf8(output.stdout).unwrap();
    text.lines().map(|line| line.parse().unwrap()).collect()
}

#[test]
fn every_number_of_the_header_is_the_references() {
    let all = numbers::all();
    let source = Path::new(env!("CARGO_TARGET_TMPDIR")).join("numbers.c");
    fs::write(&source, program(&all)).unwrap();
    for language in LANGUAGES {
        let printed = printed(&source, language);
        assert_eq!(printed.len(), all.len());
        for ((name, expected), number) in all.iter().zip(printed) {
            assert_eq!(number, *expected, "{name} as {}", language.2);
        }
    }
}

#[test]
fn the_example_in_c_has_no_warning() {
    for (compiler, language, standard) in LANGUAGES {
        if language == "c" {
            let status = Command::new(compiler)
                .args(STRICT)
                .args([&format!("-std={standard}"), "-O2", "-S", "-o", "-"])
                .arg("-I")
                .arg(include())
                .arg(include().join("../examples/rehearse.c"))
                .stdout(Stdio::null())
                .status()
                .unwrap_or_else(|_| panic!("a compiler, {compiler}, can be run"));
            assert!(status.success(), "the example as {standard}");
        }
    }
}

/// The names that the header defines.
fn defined() -> BTreeSet<String> {
    let text = fs::read_to_string(include().join("rehearsal.h")).unwrap();
    let name = |rest: &str| -> String {
        let letter = |c: &char| c.is_ascii_uppercase() || *c == '_';
        rest.chars().take_while(letter).collect()
    };
    let mut names = BTreeSet::new();
    for line in text.lines() {
        if let Some(rest) = line.strip_prefix("#define ") {
            names.insert(name(rest));
        } else if line.contains(" = ") && !line.trim_start().starts_with('*') {
            let items = line.split([',', '{']).map(str::trim_start);
            names.extend(items.filter(|item| item.starts_with("LABS_")).map(name));
        }
    }
    assert!(names.remove("REHEARSAL_H"));
    names
}

#[test]
fn no_name_of_the_header_is_left_out() {
    let held: BTreeSet<String> = numbers::all()
        .iter()
        .map(|(name, _)| name.split('(').next().unwrap().to_string())
        .collect();
    assert_eq!(defined(), held);
}

#[test]
fn every_word_of_a_state_has_one_name() {
    let mut indices: Vec<u64> = numbers::words().iter().map(|(_, index)| *index).collect();
    indices.sort_unstable();
    assert!(indices.into_iter().eq(0..word::STATE_WORDS as u64));
}

/// The same numbers for Rust.
#[test]
fn every_number_of_the_module_is_the_references() {
    let all = numbers::all();
    let number = |name: &str| {
        let found = all.iter().find(|(other, _)| other == name);
        found.expect("a number of this name").1 as usize
    };
    assert_eq!(VERSION as usize, number("LABS_VERSION"));
    assert_eq!(REQUESTS as usize, number("LABS_REQUESTS"));
    assert_eq!(MAX_NODES, number("LABS_MAX_NODES"));
    assert_eq!(MAX_DEFINITIONS, number("LABS_MAX_DEFINITIONS"));
    assert_eq!(MAX_AGENTS, number("LABS_MAX_AGENTS"));
    assert_eq!(MAX_KEYS, number("LABS_MAX_KEYS"));
    assert_eq!(MAX_STEPS, number("LABS_MAX_STEPS"));
    assert_eq!(MAX_RESIDUAL, number("LABS_MAX_RESIDUAL"));
    assert_eq!(SCRATCH_WORDS, number("LABS_SCRATCH_WORDS"));
    assert_eq!(word::STATE_WORDS, number("LABS_STATE_WORDS"));
    assert_eq!(word::CLOCK, number("LABS_CLOCK"));
    assert_eq!(word::AGENTS, number("LABS_AGENTS"));
    for k in 0..MAX_KEYS {
        let name = format!("LABS_ENVIRONMENT({k})");
        assert_eq!(word::environment(k), number(&name));
    }
    for a in 0..MAX_AGENTS {
        for k in 0..MAX_KEYS {
            let at = |name: &str| number(&format!("LABS_{name}({a}, {k})"));
            assert_eq!(word::attribute(a, k), at("ATTRIBUTE"));
            assert_eq!(word::entry_value(a, k), at("ENTRY_VALUE"));
            assert_eq!(word::entry_stamp(a, k), at("ENTRY_STAMP"));
            assert_eq!(word::entry_writer(a, k), at("ENTRY_WRITER"));
        }
        let at = |name: &str| number(&format!("LABS_{name}({a})"));
        assert_eq!(word::zc(a), at("ZC"));
        assert_eq!(word::zp(a), at("ZP"));
        assert_eq!(word::residual_length(a), at("RESIDUAL_LENGTH"));
    }
    assert_eq!(shelf::PLACES, number("LABS_SHELF_PLACES"));
    assert_eq!(shelf::SHELF_WORDS, number("LABS_SHELF_WORDS"));
    assert_eq!(NAME_LIMIT as usize, number("LABS_NAME_LIMIT"));
    for i in 0..shelf::PLACES {
        assert_eq!(shelf::name(i), number(&format!("LABS_SHELF_NAME({i})")));
        assert_eq!(shelf::state(i), number(&format!("LABS_SHELF_STATE({i})")));
    }

    for place in [0, 4_095] {
        let answer = pack::<()>(&Err(Refusal::at(Reason::BadNode, place)));
        let refused = Refused {
            refusal: u16::from(Reason::BadNode.number()),
            place: u64::from(place),
        };
        assert_eq!(taken_apart(answer), Err(refused));
    }
    for (added, replaced) in [(0, 0), (31, 0), (0, 31), (11, 20)] {
        let answer = pack(&Ok(reference::Counts { added, replaced }));
        let counts = taken_apart(answer).map(Counts::of);
        assert_eq!(counts, Ok(Counts { added, replaced }));
        assert_eq!(Counts { added, replaced }.taken(), added + replaced);
        let answer = Ok(reference::Totals {
            done: 8_191,
            refused: 1,
            counts: reference::Counts { added, replaced },
        });
        let mut words = [99; TOTALS];
        write_totals(&answer, &mut words);
        let totals = Totals {
            done: 8_191,
            refused: 1,
            counts: Counts { added, replaced },
        };
        assert_eq!(Totals::of(words), totals);
    }
}

/// The constants of a module of rehearsal.rs, by its text.
fn constants(module: &str) -> BTreeSet<(String, u64)> {
    let text = fs::read_to_string(include().join("rehearsal.rs")).unwrap();
    let (_, rest) = text
        .split_once(&format!("pub mod {module} {{"))
        .expect("a module");
    let (inside, _) = rest.split_once("\n}\n").expect("its end");
    let constant = |line: &str| {
        let (name, rest) = line
            .trim_start()
            .strip_prefix("pub const ")?
            .split_once(':')?;
        let number = rest.split_once("= ")?.1.trim_end_matches(';');
        Some((name.to_string(), number.replace('_', "").parse().ok()?))
    };
    inside.lines().filter_map(constant).collect()
}

/// The names of nodes, parties, steps, residual words and refusals are the header's, each with its number.
#[test]
fn every_name_of_the_header_is_the_modules() {
    for (module, prefix, all) in [
        ("node", "LABS_NODE_", numbers::node_kinds()),
        ("party", "LABS_PARTY_", numbers::parties()),
        ("kind", "LABS_", numbers::step_kinds()),
        ("residual", "LABS_RESIDUAL_", numbers::residual_words()),
        ("refusal", "LABS_REFUSAL_", numbers::refusals()),
    ] {
        let short = |(name, number): &Named| (name[prefix.len()..].to_string(), *number);
        let expected: BTreeSet<_> = all.iter().map(short).collect();
        assert_eq!(constants(module), expected, "{module}");
    }
}

#[test]
fn the_module_compiles_in_both_editions() {
    for edition in ["2021", "2024"] {
        let status = Command::new("rustc")
            .args(["--edition", edition, "--crate-type", "lib"])
            .args(["--emit", "metadata", "-D", "warnings", "--out-dir"])
            .arg(env!("CARGO_TARGET_TMPDIR"))
            .arg(include().join("rehearsal.rs"))
            .status()
            .expect("rustc can be run");
        assert!(status.success(), "edition {edition}");
    }
}

/// Every refusal of the header has its meaning beside it.
#[test]
fn every_refusal_of_the_header_is_explained() {
    let text = fs::read_to_string(include().join("rehearsal.h")).unwrap();
    for (name, number) in numbers::refusals() {
        let line = text
            .lines()
            .find(|line| line.contains(&format!("{name} = {number}")));
        assert!(line.is_some_and(|line| line.ends_with("*/")), "{name}");
    }
}

/// What the library has a caller bring.
#[test]
fn the_library_needs_memset_alone() {
    let archive = include().join("../target/staticlib/librehearsal.a");
    let output = Command::new("nm").arg("-u").arg(archive).output();
    let output = output.expect("nm, which comes with cc, can be run");
    assert!(output.status.success());
    let text = String::from_utf8(output.stdout).unwrap();
    let names = text
        .lines()
        .filter_map(|line| line.trim().strip_prefix("U "));
    assert!(names.eq(["memset"]), "{text}");
}

/// Threads that share a table, a state that they preview and save, and a shelf that they restore it from, each with
/// other buffers of its own.
#[test]
fn calls_may_run_in_several_threads() {
    let table = &conformance::fleets::table(2_000, 64);
    let load = || {
        let mut state = vec![0; word::STATE_WORDS];
        let mut scratch = vec![0; SCRATCH_WORDS];
        let answer = rehearsal::load(table, &mut state, &mut scratch);
        (answer, state)
    };
    let (_, loaded) = &load();
    let mut held = vec![0; shelf::SHELF_WORDS];
    let mut scratch = vec![0; SCRATCH_WORDS];
    let saved = rehearsal::save(table, loaded, &mut scratch, &mut held, 7);
    assert_eq!(saved, 0);
    let held = &held;
    let call = || {
        let mut next = vec![0; word::STATE_WORDS];
        let mut scratch = vec![0; SCRATCH_WORDS];
        let answer = rehearsal::preview(table, loaded, &mut scratch, 0, 0, 0, &mut next);
        assert!(answer == 0 && next != *loaded, "the step can be done");
        let mut mine = vec![0; shelf::SHELF_WORDS];
        let saved = rehearsal::save(table, loaded, &mut scratch, &mut mine, 1);
        let mut back = next.clone();
        let restored = rehearsal::restore(table, &mut back, &mut scratch, held, 7);
        assert!((saved, restored) == (0, 0) && back == *loaded);
        (load(), answer, next, mine)
    };
    let alone = call();
    let together = || (0..200).all(|_| call() == alone);
    std::thread::scope(|scope| {
        let threads: Vec<_> = (0..4).map(|_| scope.spawn(together)).collect();
        for thread in threads {
            assert!(thread.join().unwrap());
        }
    });
}
