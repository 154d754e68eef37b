//! The program `replay` at the other end of two pipes.
use std::io::{Read, Write};
use std::process::{Child, ChildStdout, Command, Stdio};
use std::sync::mpsc::{sync_channel, SyncSender};
use std::thread::JoinHandle;

pub struct Replay {
    child: Child,
    input: Option<SyncSender<Vec<u8>>>,
    writer: Option<JoinHandle<()>>,
    output: ChildStdout,
}

impl Replay {
    pub fn start(path: &str) -> Result<Replay, String> {
        let mut child = Command::new(path).stdin(Stdio::piped()).stdout(Stdio::piped()).spawn().map_err(|e| format!("{path}: {e}"))?;
        let mut stdin = child.stdin.take().expect("its input is a pipe");
        let output = child.stdout.take().expect("its output is a pipe");
        let (input, batches) = sync_channel::<Vec<u8>>(1);
        // A thread of its own writes: the program answers before it has read a whole batch. A failure shows as a missing answer.
        let writer = std::thread::spawn(move || {
            for batch in batches {
                if stdin.write_all(&batch).is_err() {
                    return;
                }
            }
        });
        Ok(Replay { child, input: Some(input), writer: Some(writer), output })
    }

    /// Hands over cases and reads `length` bytes of answers; fewer if the program ends.
    pub fn answers(&mut self, cases: Vec<u8>, length: usize) -> Result<Vec<u8>, String> {
        let input = self.input.as_ref().expect("it is open until the end");
        // If the writer is gone, the program has ended, and the answers show it.
        let _ = input.send(cases);
        let mut answers = Vec::with_capacity(length);
        let output = Read::by_ref(&mut self.output);
        output.take(length as u64).read_to_end(&mut answers).map_err(|e| e.to_string())?;
        Ok(answers)
    }

    /// Hands over the last cases and closes its input: all answers that were not read yet. It has to end well.
    pub fn last_answers(mut self, cases: Vec<u8>) -> Result<Vec<u8>, String> {
        if let Some(input) = self.input.take() {
            let _ = input.send(cases);
        }
        let mut answers = Vec::new();
        self.output.read_to_end(&mut answers).map_err(|e| e.to_string())?;
        if let Some(writer) = self.writer.take() {
            writer.join().map_err(|_| "the writer failed".to_string())?;
        }
        let status = self.child.wait().map_err(|e| e.to_string())?;
        if !status.success() {
            return Err(format!("replay ended with {status}"));
        }
        Ok(answers)
    }
}
