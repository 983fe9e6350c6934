//! Sheets that the program prints: good and damaged files on its standard input, in two pieces.

use std::io::{ErrorKind, Result, Write};
use std::process::{Command, Stdio};
use std::sync::OnceLock;

use bench::damage::damage;
use bench::model::sheet::sheet;
use bench::random::Random;

use crate::{agree, sheets, Verdict};

/// The program that the command line names, with its arguments.
pub static PROGRAM: OnceLock<Vec<String>> = OnceLock::new();

pub fn all(random: &mut Random) -> Verdict {
    let program = PROGRAM.get().expect("a program is named");
    let mut file = sheets::good_file(random);
    if random.one_in(2) {
        damage(random, &mut file);
    }
    let (first, second) = file.split_at(random.index(file.len() + 1));
    let printed =
        run(program, [first, second]).map_err(|error| format!("{}: {error}", program.join(" ")))?;
    Ok(vec![agree::printed(&printed, &sheet(&file))?])
}

/// What the program prints, given its input in pieces.
fn run(program: &[String], pieces: [&[u8]; 2]) -> Result<Vec<u8>> {
    let mut child = Command::new(&program[0])
        .args(&program[1..])
        .stdin(Stdio::piped())
        .stdout(Stdio::piped())
        .spawn()?;
    let mut input = child.stdin.take().expect("standard input is a pipe");
    for piece in pieces {
        match input.write_all(piece) {
            // It need not read on once it has more than it may.
            Err(error) if error.kind() == ErrorKind::BrokenPipe => {}
            written => written?,
        }
    }
    drop(input);
    let output = child.wait_with_output()?;
    assert!(output.status.success(), "the program failed");
    Ok(output.stdout)
}
