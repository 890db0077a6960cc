//! Runs a program on an input of bytes.

use std::io::{Error, ErrorKind, Result, Write};
use std::process::{ChildStdin, Command, Output, Stdio};
use std::thread;

/// What the program prints. A program that cannot be run, or that does not end normally, is an
/// error.
pub fn run(program: &str, input: &[u8]) -> Result<Vec<u8>> {
    run_with(program, &[], input)
}

/// The same with arguments.
pub fn run_with(program: &str, arguments: &[&str], input: &[u8]) -> Result<Vec<u8>> {
    let output = feed(program, arguments, input)?;
    if !output.status.success() {
        return Err(Error::other(output.status.to_string()));
    }
    Ok(output.stdout)
}

/// The input is written by a thread of its own, so that neither pipe can fill up and block.
fn feed(program: &str, arguments: &[&str], input: &[u8]) -> Result<Output> {
    let mut child = Command::new(program)
        .args(arguments)
        .stdin(Stdio::piped())
        .stdout(Stdio::piped())
        .spawn()?;
    let stdin = child.stdin.take();
    thread::scope(|scope| {
        let writer = scope.spawn(move || stdin.map_or(Ok(()), |stdin| write(stdin, input)));
        let output = child.wait_with_output()?;
        writer.join().expect("the writing thread does not panic")?;
        Ok(output)
    })
}

/// Writes the input and closes the pipe. A program may end before it has read everything.
fn write(mut stdin: ChildStdin, input: &[u8]) -> Result<()> {
    match stdin.write_all(input) {
        Err(error) if error.kind() == ErrorKind::BrokenPipe => Ok(()),
        written => written,
    }
}
