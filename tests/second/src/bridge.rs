// The bridge to the proved library: a program started here, asked over pipes in the form that bridge.c describes.

use crate::call::{Call, Outcome, Stepped};
use crate::pool::Pool;
use crate::session::{Session, PLACES};
use std::io::{BufReader, BufWriter, Read, Write};
use std::process::{Child, ChildStdin, ChildStdout, Command, Stdio};

pub struct Bridge {
    child: Child,
    input: BufWriter<ChildStdin>,
    output: BufReader<ChildStdout>,
}

impl Bridge {
    /// Starts the command, whose first word is the program.
    pub fn start(command: &[String]) -> Result<Bridge, String> {
        let (program, arguments) = command.split_first().ok_or("no bridge is named")?;
        let mut child = Command::new(program)
            .args(arguments)
            .stdin(Stdio::piped())
            .stdout(Stdio::piped())
            .spawn()
            .map_err(|error| format!("the bridge {} cannot be started: {}", program, error))?;
        let input = child.stdin.take().ok_or("the bridge has no input")?;
        let output = child.stdout.take().ok_or("the bridge has no output")?;
        Ok(Bridge {
            child,
            input: BufWriter::with_capacity(1 << 16, input),
            output: BufReader::with_capacity(1 << 16, output),
        })
    }

    /// Sends a call; its outcome is then to be received.
    pub fn send(&mut self, call: &Call) -> Result<(), String> {
        let sent = self
            .input
            .write_all(&encoded(call))
            .and_then(|()| self.input.flush());
        sent.map_err(|error| self.died(&error.to_string()))
    }

    pub fn receive(&mut self, call: &Call) -> Result<Outcome, String> {
        let what = self.number(1)?;
        if what != call.what as u64 {
            return Err(format!("the bridge answered {} to another call", what));
        }
        Ok(Outcome {
            touched: self.number(1)? as u8,
            status: self.number(1)? as u8,
            kind: self.number(1)? as u8,
            value: self.number(8)?,
            session: self.session()?,
            taken: self.number(8)?,
            wrote: self.number(8)?,
            pool: Pool {
                shadow: self.buffer()?,
                table: self.table()?,
            },
            piece: self.buffer()?,
            room: self.buffer()?,
            steps: self.steps()?,
        })
    }

    fn died(&mut self, why: &str) -> String {
        match self.child.wait() {
            Ok(status) => format!("the bridge died ({}; {})", why, status),
            Err(error) => format!("the bridge died ({}; {})", why, error),
        }
    }

    fn bytes(&mut self, length: usize) -> Result<Vec<u8>, String> {
        let mut bytes = vec![0; length];
        let read = self.output.read_exact(&mut bytes);
        read.map_err(|error| self.died(&error.to_string()))?;
        Ok(bytes)
    }

    fn number(&mut self, length: usize) -> Result<u64, String> {
        let mut bytes = [0; 8];
        let read = self.output.read_exact(&mut bytes[..length]);
        read.map_err(|error| self.died(&error.to_string()))?;
        Ok(u64::from_le_bytes(bytes))
    }

    fn buffer(&mut self) -> Result<Vec<u8>, String> {
        let length = self.number(4)?;
        self.bytes(length as usize)
    }

    fn table(&mut self) -> Result<Vec<u32>, String> {
        let length = self.number(4)?;
        let bytes = self.bytes(4 * length as usize)?;
        let numbers = bytes.chunks_exact(4);
        Ok(numbers
            .map(|le| u32::from_le_bytes([le[0], le[1], le[2], le[3]]))
            .collect())
    }

    fn session(&mut self) -> Result<Session, String> {
        let mut session = Session {
            granules: self.number(8)?,
            rows: self.number(8)?,
            redzone: self.number(8)?,
            quarantine: self.number(4)? as u32,
            unfinished: self.number(8)?,
            line: [0; PLACES],
        };
        session.line.copy_from_slice(&self.bytes(PLACES)?);
        Ok(session)
    }

    fn steps(&mut self) -> Result<Vec<Stepped>, String> {
        let mut steps = Vec::new();
        for _ in 0..self.number(4)? {
            steps.push(Stepped {
                status: self.number(1)? as u8,
                taken: self.number(8)?,
                wrote: self.number(8)?,
            });
        }
        Ok(steps)
    }

    /// Ends the input, at which the bridge stops by itself.
    pub fn finish(self) -> Result<(), String> {
        let Bridge {
            mut child,
            input,
            output,
        } = self;
        drop(input);
        drop(output);
        match child.wait() {
            Ok(status) if status.success() => Ok(()),
            Ok(status) => Err(format!("the bridge ended badly ({})", status)),
            Err(error) => Err(format!("the bridge cannot be waited for: {}", error)),
        }
    }
}

fn put_bytes(request: &mut Vec<u8>, bytes: &[u8]) {
    request.extend_from_slice(&(bytes.len() as u32).to_le_bytes());
    request.extend_from_slice(bytes);
}

fn put_session(request: &mut Vec<u8>, session: &Session) {
    request.extend_from_slice(&session.granules.to_le_bytes());
    request.extend_from_slice(&session.rows.to_le_bytes());
    request.extend_from_slice(&session.redzone.to_le_bytes());
    request.extend_from_slice(&session.quarantine.to_le_bytes());
    request.extend_from_slice(&session.unfinished.to_le_bytes());
    request.extend_from_slice(&session.line);
}

fn encoded(call: &Call) -> Vec<u8> {
    let mut request = vec![call.what as u8];
    put_session(&mut request, &call.session);
    for number in call.numbers {
        request.extend_from_slice(&number.to_le_bytes());
    }
    put_bytes(&mut request, &call.pool.shadow);
    request.extend_from_slice(&(call.pool.table.len() as u32).to_le_bytes());
    for number in &call.pool.table {
        request.extend_from_slice(&number.to_le_bytes());
    }
    put_bytes(&mut request, &call.piece);
    put_bytes(&mut request, &call.room);
    request.extend_from_slice(&(call.steps.len() as u32).to_le_bytes());
    for step in &call.steps {
        request.extend_from_slice(&step.piece.to_le_bytes());
        request.extend_from_slice(&step.room.to_le_bytes());
    }
    request
}
