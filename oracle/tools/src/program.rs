//! Another program, asked for the output of runs.

use crate::framing;
use std::io::{BufReader, BufWriter, Read, Write};
use std::process::{Child, ChildStdout, Command, Stdio};
use std::sync::mpsc::{channel, Sender};

/// A program that answers many runs in one process, or one process for each run.
pub enum Program {
    Batch { child: Child, runs: Option<Sender<Vec<u8>>>, outputs: BufReader<ChildStdout> },
    Single { command: Vec<String>, waiting: std::collections::VecDeque<Vec<u8>> },
}

impl Program {
    /// `command` is the program's path and its arguments.
    pub fn start(command: &[String], batch: bool) -> std::io::Result<Program> {
        if !batch {
            return Ok(Program::Single { command: command.to_vec(), waiting: Default::default() });
        }
        let mut child = Command::new(&command[0])
            .args(&command[1..])
            .stdin(Stdio::piped())
            .stdout(Stdio::piped())
            .spawn()?;
        let mut input = BufWriter::with_capacity(1 << 16, child.stdin.take().expect("piped"));
        let outputs = BufReader::with_capacity(1 << 16, child.stdout.take().expect("piped"));
        let (runs, waiting) = channel::<Vec<u8>>();
        // Runs are written by a thread, so that neither side waits for the other.
        std::thread::spawn(move || -> std::io::Result<()> {
            while let Ok(run) = waiting.recv() {
                framing::write(&mut input, &run)?;
                while let Ok(run) = waiting.try_recv() {
                    framing::write(&mut input, &run)?;
                }
                input.flush()?;
            }
            Ok(())
        });
        Ok(Program::Batch { child, runs: Some(runs), outputs })
    }

    /// Hand a run over. Its output comes in turn.
    pub fn send(&mut self, run: &[u8]) {
        match self {
            Program::Batch { runs, .. } => {
                let _ = runs.as_ref().expect("not ended").send(run.to_vec());
            }
            Program::Single { waiting, .. } => waiting.push_back(run.to_vec()),
        }
    }

    /// The output of the run that was handed over first.
    pub fn receive(&mut self) -> std::io::Result<Vec<u8>> {
        match self {
            Program::Batch { outputs, .. } => {
                let output = framing::read(outputs)?;
                Ok(output.unwrap_or_else(|| b"! the program ended\n".to_vec()))
            }
            Program::Single { command, waiting } => one_process(command, waiting.pop_front().expect("a run")),
        }
    }

    pub fn ask(&mut self, run: &[u8]) -> std::io::Result<Vec<u8>> {
        self.send(run);
        self.receive()
    }

    pub fn end(self) {
        if let Program::Batch { mut child, runs, .. } = self {
            drop(runs);
            let _ = child.wait();
        }
    }
}

fn one_process(command: &[String], run: Vec<u8>) -> std::io::Result<Vec<u8>> {
    let mut child =
        Command::new(&command[0]).args(&command[1..]).stdin(Stdio::piped()).stdout(Stdio::piped()).spawn()?;
    let mut input = child.stdin.take().expect("piped");
    // A program that stops at a refusal may leave the rest of its input unread.
    let writer = std::thread::spawn(move || drop(input.write_all(&run)));
    let mut output = Vec::new();
    child.stdout.take().expect("piped").read_to_end(&mut output)?;
    let _ = writer.join();
    child.wait()?;
    Ok(output)
}
