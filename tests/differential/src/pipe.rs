//! The pipe to a driver, as tests/driver/PROTOCOL.md describes it. A thread writes the requests while the caller reads the
//! answers, so neither side can wait for the other for ever.

use std::io::{BufReader, BufWriter, Read, Write};
use std::process::{Child, ChildStdout, Command, Stdio};
use std::thread;

/// A question: the kind of its request, and the request's bytes.
pub trait Question {
    fn request(&self) -> (u8, Vec<u8>);
}

/// No answer is longer; a longer one is a driver that has lost its place.
const LONGEST_ANSWER: usize = 1 << 24;

pub struct Driver {
    child: Child,
    answers: BufReader<ChildStdout>,
}

/// Starts the driver and the thread that asks it all these questions.
pub fn ask<Q: Question>(
    command: &[&str],
    questions: impl Iterator<Item = Q> + Send + 'static,
) -> Result<Driver, String> {
    let mut child = Command::new(command[0])
        .args(&command[1..])
        .stdin(Stdio::piped())
        .stdout(Stdio::piped())
        .spawn()
        .map_err(|why| format!("{}: {why}", command[0]))?;
    let requests = child.stdin.take().expect("stdin is a pipe");
    let answers = BufReader::new(child.stdout.take().expect("stdout is a pipe"));
    thread::spawn(move || {
        let mut requests = BufWriter::with_capacity(1 << 16, requests);
        for question in questions {
            let (kind, bytes) = question.request();
            let mut head = vec![kind];
            head.extend((bytes.len() as u32).to_le_bytes());
            // A driver that has ended takes no more: the reader sees that its answers end early.
            if requests.write_all(&head).and_then(|()| requests.write_all(&bytes)).is_err() {
                return;
            }
        }
        let _ = requests.flush();
    });
    Ok(Driver { child, answers })
}

impl Driver {
    pub fn answer(&mut self) -> Result<Vec<u8>, String> {
        let mut length = [0; 4];
        self.read(&mut length)?;
        let length = u32::from_le_bytes(length) as usize;
        if length > LONGEST_ANSWER {
            return Err(format!("the driver announces an answer of {length} bytes"));
        }
        let mut bytes = vec![0; length];
        self.read(&mut bytes)?;
        Ok(bytes)
    }

    fn read(&mut self, bytes: &mut [u8]) -> Result<(), String> {
        self.answers.read_exact(bytes).map_err(|why| format!("the driver's answers end early: {why}"))
    }

    /// After the last answer: nothing may follow, and the driver ends well.
    pub fn finish(mut self) -> Result<(), String> {
        let mut rest = Vec::new();
        self.answers.read_to_end(&mut rest).map_err(|why| why.to_string())?;
        let status = self.child.wait().map_err(|why| why.to_string())?;
        if !rest.is_empty() || !status.success() {
            return Err(format!("the driver left {} bytes unasked and ended with {status}", rest.len()));
        }
        Ok(())
    }
}
