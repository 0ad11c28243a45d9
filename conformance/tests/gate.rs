//! What .ci/run says last, and its status, with commands that do nothing but what they are told.

use std::fs;
use std::os::unix::fs::PermissionsExt;
use std::path::{Path, PathBuf};
use std::process::Command;

use conformance::page::root;

const COMMANDS: [&str; 5] = ["rt", "cargo", "rustc", "cc", "c++"];

/// Every command of these: it notes what it is asked, and in which folder, and ends with the status that it is told.
const TOLD: &str = r#"#!BASH
asked="${0##*/} ${1-} ${PWD##*/}"
echo "$asked" >>"$ASKED"
case $asked in
"cargo test reference") exit "${REFERENCE-0}" ;;
"rt ci "*)
    printf 'rt: basis proved\n\n%s' "${SAYS-"7 passed, 0 failed"}"
    exit "${CI-0}"
    ;;
"rt lib rehearsal_c") exit "${LIBRARY-0}" ;;
"cargo test conformance") exit "${CONFORMANCE-0}" ;;
esac
"#;

/// What rt leaves, and where the gate puts it.
const BUILT: [&str; 2] = [
    "crates/rehearsal_c/out/librehearsal_c.a",
    "crates/labs_show/out/labs_show",
];
const PUT: [&str; 2] = ["target/staticlib/librehearsal.a", "target/bin/labs_show"];

/// Where a command of this machine is.
fn found(command: &str) -> String {
    let output = Command::new("bash")
        .args(["-c", &format!("command -v {command}")])
        .output()
        .expect("bash runs");
    String::from_utf8(output.stdout).unwrap().trim().to_string()
}

/// A copy of the gate between folders that are empty, beside a folder of such commands but one.
fn repository(without: &str) -> PathBuf {
    let folder = Path::new(env!("CARGO_TARGET_TMPDIR")).join(format!("gate_without_{without}"));
    let _ = fs::remove_dir_all(&folder);
    for part in [".ci", "reference", "conformance", "commands"] {
        fs::create_dir_all(folder.join(part)).unwrap();
    }
    for built in BUILT {
        let file = folder.join(built);
        fs::create_dir_all(file.parent().unwrap()).unwrap();
        fs::write(file, built).unwrap();
    }
    fs::copy(root().join(".ci/run"), folder.join(".ci/run")).unwrap();
    let bash = found("bash");
    let put = |command: &str, script: &str| {
        let file = folder.join("commands").join(command);
        fs::write(&file, script).unwrap();
        fs::set_permissions(&file, fs::Permissions::from_mode(0o755)).unwrap();
    };
    let told = TOLD.replace("BASH", &bash);
    for command in COMMANDS.into_iter().filter(|command| *command != without) {
        put(command, &told);
    }
    // No links, since rt ci takes none in a checkout, and what is written here stays.
    for tool in ["dirname", "mkdir", "cp"] {
        put(tool, &format!("#!{bash}\nexec {} \"$@\"\n", found(tool)));
    }
    folder
}

/// What the gate comes to: its last line, its status, and whether conformance was asked.
fn gate(folder: &Path, told: &[(&str, &str)]) -> (String, i32, bool) {
    let asked = folder.join("asked");
    fs::write(&asked, "").unwrap();
    let output = Command::new(found("bash"))
        .arg(folder.join(".ci/run"))
        .env_clear()
        .env("PATH", folder.join("commands"))
        .env("ASKED", &asked)
        .envs(told.iter().copied())
        .output()
        .expect("bash runs");
    assert_eq!(String::from_utf8_lossy(&output.stderr), "");
    let said = String::from_utf8(output.stdout).unwrap();
    let last = said.lines().last().unwrap_or_default().to_string();
    let asked = fs::read_to_string(asked).unwrap();
    let conformance = asked.contains("cargo test conformance\n");
    (last, output.status.code().unwrap(), conformance)
}

const PASSED: &str = "7 passed, 0 failed";

#[test]
fn the_gate_says_last_whether_it_passed() {
    let folder = repository("nothing");
    assert_eq!(gate(&folder, &[]), (PASSED.to_string(), 0, true));
    let whole = format!("{PASSED}\n");
    assert_eq!(
        gate(&folder, &[("SAYS", &whole)]),
        (PASSED.to_string(), 0, true)
    );
    for (built, put) in BUILT.iter().zip(PUT) {
        assert_eq!(fs::read_to_string(folder.join(put)).unwrap(), *built);
    }

    // Edits that are refused only by a limit count; bad ones do not.
    for (edits, passes) in [
        ("213 refused", true),
        ("213 refused, 3 of them only by a limit", true),
        ("213 refused, 2 bad", false),
        ("213 refused, 3 of them only by a limit, 12 bad", false),
    ] {
        let line = format!("rt: ok; handles allowed: none; must-fail edits: {edits}; every proof");
        let (last, status, asked) = gate(&folder, &[("SAYS", &format!("{line}\n{PASSED}"))]);
        assert_eq!((status, asked), (i32::from(!passes), passes), "{edits}");
        let wanted = if passes { PASSED } else { "the gate failed: " };
        assert!(last.starts_with(wanted), "{edits}: {last}");
    }

    // rt ci counts what failed.
    let count = "12 passed, 10 failed";
    let told = [("CI", "1"), ("SAYS", count)];
    assert_eq!(gate(&folder, &told), (count.to_string(), 1, false));

    // All else is said by the gate.
    for (told, conformance) in [
        (&[("REFERENCE", "101")][..], false),
        (&[("CI", "2"), ("SAYS", "rt: no crates.txt")], false),
        (&[("CI", "1"), ("SAYS", PASSED)], false),
        (&[("CI", "137"), ("SAYS", "")], false),
        (&[("LIBRARY", "1")], false),
        (&[("CONFORMANCE", "101")], true),
    ] {
        let (last, status, asked) = gate(&folder, told);
        assert!(last.starts_with("the gate failed: "), "{told:?}: {last}");
        assert_eq!((status, asked), (1, conformance), "{told:?}");
    }

    // So it does where something that it needs is missing.
    for built in BUILT {
        let folder = repository("a_file");
        fs::remove_file(folder.join(built)).unwrap();
        assert_eq!(gate(&folder, &[]).1, 1, "{built}");
    }
    for command in COMMANDS {
        let given = gate(&repository(command), &[]);
        let last = format!("the gate failed: it needs the command {command}, which is not on PATH");
        assert_eq!(given, (last, 1, false));
    }
}
