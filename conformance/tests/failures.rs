//! A read that fails is not the end of labs_show's input, and a write that fails is not silence.

use std::path::Path;
use std::process::{Command, Output};

use conformance::program::{fed, labs_show};
use reference::generate::edges;
use reference::schedule;

const READ: &str = "labs_show: cannot read standard input\n";
const WRITE: &str = "labs_show: cannot write\n";

/// What a shell command comes to in which `"$0"` is the program and standard input the example's.
fn run(program: &Path, command: &str) -> Output {
    let mut input = edges::example().bytes();
    input.extend(schedule::write(&edges::example_steps()));
    fed(
        Command::new("sh").args(["-c", command]).arg(program),
        &input,
    )
}

/// Nothing on standard output, and exactly this on standard error.
fn says(command: &str, message: &str) {
    let Some(program) = labs_show() else { return };
    let output = run(&program, command);
    assert_eq!(output.stdout, b"", "{command}");
    assert_eq!(
        String::from_utf8_lossy(&output.stderr),
        message,
        "{command}"
    );
}

#[test]
fn a_directory_cannot_be_read() {
    says(r#"exec "$0" </"#, READ);
}

#[test]
fn a_closed_input_cannot_be_read() {
    says(r#"exec "$0" <&-"#, READ);
}

/// An empty pipe as file 3 that is never at its end, since the shell holds both sides of it; dd makes reads not wait.
const PIPE: &str = r#"f=$(mktemp -u) && mkfifo "$f" && exec 3<>"$f" && rm "$f" && dd iflag=nonblock count=0 <&3 2>&-;"#;

#[test]
fn a_pipe_that_is_empty_for_a_while_is_not_at_its_end() {
    says(&format!(r#"{PIPE} exec timeout 60 "$0" <&3"#), READ);
}

#[test]
fn what_was_read_before_a_failure_prints_nothing() {
    says(
        &format!(r#"{PIPE} head -c 40 >&3; exec timeout 60 "$0" <&3"#),
        READ,
    );
    says(
        &format!(r#"{PIPE} cat >&3; exec timeout 60 "$0" <&3"#),
        READ,
    );
}

#[test]
fn a_full_device_cannot_be_written() {
    says(r#"exec "$0" >/dev/full"#, WRITE);
}

#[test]
fn a_closed_output_cannot_be_written() {
    says(r#"exec "$0" >&-"#, WRITE);
}

/// The same example, with an input and an output that do not fail.
#[test]
fn the_example_is_printed_otherwise() {
    let Some(program) = labs_show() else { return };
    let output = run(&program, r#"exec "$0""#);
    let first = b"done 5 refused 2 taken 1 added 1 replaced 0\n";
    assert!(output.stdout.starts_with(first));
    assert_eq!(output.stderr, b"");
}
