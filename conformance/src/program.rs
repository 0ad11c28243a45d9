//! The program labs_show, where target/bin has it.

use std::io::{stderr, Write};
use std::path::{Path, PathBuf};
use std::process::{Command, Output, Stdio};
use std::sync::Once;

use crate::page::root;

/// The built program; where there is none, says once that what needs it is skipped.
pub fn labs_show() -> Option<PathBuf> {
    static SAID: Once = Once::new();
    let path = root().join("target/bin/labs_show");
    if path.exists() {
        return Some(path);
    }
    // Past the capture of tests, so that it is seen.
    SAID.call_once(|| {
        let _ = writeln!(stderr(), "skipped: target/bin/labs_show is not built");
    });
    None
}

/// What a command comes to on this input, of which it need not read all.
pub fn fed(command: &mut Command, input: &[u8]) -> Output {
    let mut child = command
        .stdin(Stdio::piped())
        .stdout(Stdio::piped())
        .stderr(Stdio::piped())
        .spawn()
        .expect("the program starts");
    let mut stdin = child.stdin.take().expect("it has an input");
    let _ = stdin.write_all(input);
    drop(stdin);
    child.wait_with_output().expect("the program ends")
}

/// What labs_show prints; its status is 0, and standard error is empty.
pub fn printed(program: &Path, input: &[u8]) -> String {
    let output = fed(&mut Command::new(program), input);
    assert!(output.status.success(), "labs_show: {}", output.status);
    assert_eq!(output.stderr, b"");
    String::from_utf8(output.stdout).expect("lines of ASCII")
}
