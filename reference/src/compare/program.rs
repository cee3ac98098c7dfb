//! The compared program and how it is run.

use std::ffi::OsString;
use std::io::{self, Write};
use std::process::{Command, Output, Stdio};
use std::thread;

/// The program that is compared, and how to call it.
pub struct Program {
    pub path: OsString,
    pub arguments: Vec<OsString>,
}

impl Program {
    /// Runs the program on the input and waits for its end; its standard error goes where the
    /// caller says. A thread of its own writes the input, since the program may answer before
    /// it has read all of it.
    pub fn run(&self, input: &[u8], standard_error: Stdio) -> io::Result<Output> {
        let mut child = Command::new(&self.path)
            .args(&self.arguments)
            .stdin(Stdio::piped())
            .stdout(Stdio::piped())
            .stderr(standard_error)
            .spawn()?;
        let mut stdin = child.stdin.take().expect("standard input is piped");
        thread::scope(|scope| {
            // A program that stops reading makes the writing fail. It may do so if the rest does
            // not matter; if the rest matters, missing answers show it.
            scope.spawn(move || stdin.write_all(input));
            child.wait_with_output()
        })
    }
}
