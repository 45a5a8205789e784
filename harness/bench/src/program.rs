//! Runs the program `section`: started, given a file, read to its end.

use std::fs;
use std::io::{Error, Write};
use std::process::{Child, Command, Stdio};
use std::thread;
use std::time::Duration;

const PROGRAM: &str = concat!(env!("CARGO_MANIFEST_DIR"), "/../../crates/section/out/section");

/// The program's answer to a text.
pub fn answer(text: &[u8]) -> Vec<u8> {
    let started = start(&mut Command::new(PROGRAM), text);
    let answer = started.and_then(answer_of);
    answer.expect("first build it: `rt run` in crates/section")
}

/// Its answer under a stack limit in KiB, without an environment, which would take from the stack.
pub fn answer_within(limit: usize, text: &[u8]) -> Result<Vec<u8>, Error> {
    let mut shell = shell(r#"ulimit -c 0; ulimit -s "$1" && exec "$0""#);
    shell.arg(limit.to_string()).env_clear();
    answer_of(start(shell.stderr(Stdio::null()), text)?)
}

/// The most memory, in KiB, that a run has resident at once: it is looked at while it waits to
/// write its answer, since the shell has filled the pipe.
pub fn most_resident(text: &[u8]) -> Result<usize, Error> {
    let mut shell = shell(r#"head -c 65536 /dev/zero; exec "$0""#);
    let program = start(&mut shell, text)?;
    let memory = resident_when_waiting(program.id());
    answer_of(program)?;
    memory
}

/// A shell that runs a script in which `$0` is the program.
fn shell(script: &str) -> Command {
    let mut shell = Command::new("/bin/sh");
    shell.args(["-c", script, PROGRAM]);
    shell
}

fn start(command: &mut Command, text: &[u8]) -> Result<Child, Error> {
    let command = command.stdin(Stdio::piped()).stdout(Stdio::piped());
    let mut program = command.spawn()?;
    if let Some(mut input) = program.stdin.take() {
        // One that ends before it has read everything is told by its answer.
        input.write_all(text).ok();
    }
    Ok(program)
}

fn answer_of(program: Child) -> Result<Vec<u8>, Error> {
    let output = program.wait_with_output()?;
    if output.status.success() {
        Ok(output.stdout)
    } else {
        Err(Error::other(output.status.to_string()))
    }
}

/// Looks at the program, whose input is complete, until it sleeps: then it waits to write.
fn resident_when_waiting(process: u32) -> Result<usize, Error> {
    for _ in 0..1_000 {
        let status = fs::read_to_string(format!("/proc/{process}/status"))?;
        if field(&status, "Name") == Some("section") && field(&status, "State") == Some("S") {
            let memory = field(&status, "VmHWM").and_then(|kib| kib.parse().ok());
            return memory.ok_or(Error::other("the system tells no memory"));
        }
        thread::sleep(Duration::from_millis(1));
    }
    Err(Error::other("the program did not wait"))
}

/// The first word that a process's status has under a name.
fn field<'a>(status: &'a str, name: &str) -> Option<&'a str> {
    let mut lines = status.lines();
    let words = lines.find_map(|line| line.strip_prefix(name)?.strip_prefix(':'))?;
    words.split_whitespace().next()
}
