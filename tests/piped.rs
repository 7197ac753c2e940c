//! A program fed by a pipe, and what it prints.

use std::io::{Read, Write};
use std::process::{Command, Stdio};

/// How many bytes a pipe holds without a reader, and some to spare.
const PIPE: usize = 32_000;

/// Sends an input in two pieces, so that a reader meets frames and lines cut by a short read; that a program stops
/// early is no error.
fn send(mut to: impl Write, input: &[u8]) {
    let (first, second) = input.split_at(input.len() / 3);
    let _ = to.write_all(first).and_then(|()| to.write_all(second));
}

/// What a program, named with its arguments, prints for an input, and whether it ended well.
pub fn printed(program: &str, input: &[u8]) -> (Vec<u8>, bool) {
    let mut words = program.split(' ');
    let mut command = Command::new(words.next().unwrap());
    let mut child =
        command.args(words).stdin(Stdio::piped()).stdout(Stdio::piped()).spawn().expect("the program starts");
    let to = child.stdin.take().unwrap();
    let mut output = child.stdout.take().unwrap();
    let mut print = Vec::new();
    std::thread::scope(|scope| {
        if input.len() > PIPE {
            scope.spawn(move || send(to, input));
        } else {
            send(to, input);
        }
        output.read_to_end(&mut print).expect("the program's output is read");
    });
    (print, child.wait().expect("the program ends").success())
}
