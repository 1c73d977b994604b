//! The product behind its driver: one call at a time over a pipe, every lent slice with guard bytes around it.

use crate::case::{Case, Outcome, Product};
use crate::random::Random;
use std::io::{BufReader, Read, Write};
use std::process::{Child, ChildStdin, ChildStdout, Command, Stdio};

/// A running driver and its two pipes.
struct Running {
    child: Child,
    to: ChildStdin,
    from: BufReader<ChildStdout>,
}

pub struct Driver {
    command: Vec<String>,
    running: Option<Running>,
    guards: Random,
}

/// A slice as the driver is to lay it: guard bytes, the slice, guard bytes.
struct Block {
    before: usize,
    bytes: Vec<u8>,
    after: usize,
}

impl Block {
    /// Guards of changing lengths, so that slices begin at every address, and of changing bytes.
    fn new(random: &mut Random, slice: &[u8]) -> Block {
        let (before, after) = (16 + random.below(16), 16 + random.below(16));
        let bytes = [&random.bytes(before), slice, &random.bytes(after)].concat();
        Block { before, bytes, after }
    }

    fn slice(&self) -> std::ops::Range<usize> {
        self.before..self.bytes.len() - self.after
    }

    /// The slice out of what came back, if the guards did not change.
    fn unguarded(&self, back: &[u8]) -> Option<Vec<u8>> {
        let slice = self.slice();
        let intact = back[..slice.start] == self.bytes[..slice.start] && back[slice.end..] == self.bytes[slice.end..];
        intact.then(|| back[slice].to_vec())
    }
}

impl Driver {
    /// The driver that this command starts, its words separated by blanks.
    pub fn new(command: &str) -> Result<Driver, String> {
        let command = command.split_whitespace().map(str::to_string).collect();
        let mut driver = Driver { command, running: None, guards: Random::new(1) };
        driver.running = Some(driver.start()?);
        Ok(driver)
    }

    fn start(&self) -> Result<Running, String> {
        let (program, words) = self.command.split_first().ok_or("no command for the driver")?;
        let mut command = Command::new(program);
        command.args(words).stdin(Stdio::piped()).stdout(Stdio::piped());
        let mut child = command.spawn().map_err(|error| format!("cannot start the driver {program}: {error}"))?;
        let (to, from) = (child.stdin.take(), child.stdout.take());
        let (to, from) = (to.ok_or("no pipe to the driver")?, from.ok_or("no pipe from the driver")?);
        Ok(Running { child, to, from: BufReader::with_capacity(1 << 16, from) })
    }
}

impl Product for Driver {
    fn perform(&mut self, case: &Case) -> Result<Outcome, String> {
        let mut running = match self.running.take() {
            Some(running) => running,
            None => self.start()?,
        };
        let blocks: Vec<Block> = case.slices.iter().map(|slice| Block::new(&mut self.guards, slice)).collect();
        match running.exchange(case, &blocks) {
            Ok((answer, back)) => {
                self.running = Some(running);
                unguarded(case, &blocks, answer, &back)
            }
            Err(error) => Err(format!("the driver broke off ({error}): {}", running.end())),
        }
    }
}

fn unguarded(case: &Case, blocks: &[Block], answer: u32, back: &[Vec<u8>]) -> Result<Outcome, String> {
    let named = case.call.lent().iter().zip(blocks.iter().zip(back));
    let slice = |(name, (block, back)): (&&str, (&Block, &Vec<u8>))| {
        block.unguarded(back).ok_or(format!("bytes around {name} were written"))
    };
    Ok(Outcome { answer, slices: named.map(slice).collect::<Result<_, _>>()? })
}

impl Running {
    /// Sends the call and reads back the answer and every block.
    fn exchange(&mut self, case: &Case, blocks: &[Block]) -> std::io::Result<(u32, Vec<Vec<u8>>)> {
        let mut frame = vec![case.call as u8, blocks.len() as u8];
        for block in blocks {
            frame.extend((block.before as u32).to_be_bytes());
            frame.extend((block.slice().len() as u32).to_be_bytes());
            frame.extend((block.after as u32).to_be_bytes());
            frame.extend(&block.bytes);
        }
        self.to.write_all(&frame)?;
        self.to.flush()?;
        let answer = self.read(4)?.iter().fold(0, |number, &byte| number << 8 | u32::from(byte));
        let back = blocks.iter().map(|block| self.read(block.bytes.len())).collect::<Result<_, _>>()?;
        Ok((answer, back))
    }

    fn read(&mut self, length: usize) -> std::io::Result<Vec<u8>> {
        let mut bytes = vec![0; length];
        self.from.read_exact(&mut bytes)?;
        Ok(bytes)
    }

    /// Ends a driver that broke off and says how it ended.
    fn end(mut self) -> String {
        drop(self.to);
        match self.child.wait() {
            Ok(status) => status.to_string(),
            Err(error) => error.to_string(),
        }
    }
}

impl Drop for Driver {
    fn drop(&mut self) {
        if let Some(running) = self.running.take() {
            running.end();
        }
    }
}
