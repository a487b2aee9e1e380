//! Programs that are run, and what they print; and the lines for the shell that README has.

use crate::program::program;
use std::env;
use std::fs;
use std::io::Write as _;
use std::path::Path;
use std::process::{Command, Stdio};

/// What a program prints, given its input in pieces of so many bytes.
pub fn output(mut command: Command, input: &[u8], piece: usize) -> String {
    let mut child = command.stdin(Stdio::piped()).stdout(Stdio::piped()).stderr(Stdio::piped()).spawn().unwrap();
    let mut pipe = child.stdin.take().unwrap();
    for bytes in input.chunks(piece) {
        // It may end before it has read all.
        if pipe.write_all(bytes).is_err() {
            break;
        }
    }
    drop(pipe);
    let output = child.wait_with_output().unwrap();
    assert_eq!(String::from_utf8_lossy(&output.stderr), "");
    assert!(output.status.success());
    String::from_utf8(output.stdout).unwrap()
}

/// What a line prints that is run by the shell in a folder, with the programs on its path.
pub fn shell(line: &str, folder: &Path) -> String {
    let mut command = Command::new("sh");
    let path = format!("{}:{}", program("").display(), env::var("PATH").unwrap());
    command.args(["-c", line]).current_dir(folder).env("PATH", path);
    output(command, &[], 1)
}

pub fn readme() -> String {
    fs::read_to_string(Path::new(env!("CARGO_MANIFEST_DIR")).join("../../README.md")).unwrap()
}

/// The first line of README for the shell that is meant, without the words behind it.
pub fn readme_line(is_meant: impl Fn(&str) -> bool) -> String {
    let readme = readme();
    let line = readme.lines().map(str::trim).find(|line| is_meant(line)).unwrap();
    line.split("      ").next().unwrap().replace("target/bin/", "")
}
