//! The relay as a process with pipes.

use std::io::{Read, Write};
use std::os::unix::process::ExitStatusExt;
use std::path::Path;
use std::process::{Child, ChildStderr, ChildStdin, ChildStdout, Command, Stdio};

use crate::failure::Failure;

pub struct Relay {
    child: Child,
    pub input: Option<ChildStdin>,
    pub output: Option<ChildStdout>,
    errors: ChildStderr,
}

impl Relay {
    pub fn start(path: &Path) -> Result<Relay, Failure> {
        let started = Command::new(path).stdin(Stdio::piped()).stdout(Stdio::piped()).stderr(Stdio::piped()).spawn();
        let mut child = started.map_err(|error| Failure::new(format!("{}: {error}", path.display())))?;
        let (input, output) = (child.stdin.take(), child.stdout.take());
        let errors = child.stderr.take().expect("standard error");
        Ok(Relay { child, input, output, errors })
    }

    /// A write may fail only where the relay is gone; the missing answers tell.
    pub fn send(&mut self, octets: &[u8]) {
        if let Some(input) = &mut self.input {
            let _ = input.write_all(octets);
        }
    }

    /// One answer frame, or what there is of it.
    pub fn answer(&mut self, frame: &mut Vec<u8>) {
        let output = self.output.as_mut().expect("output");
        frame.resize(2, 0);
        if output.read_exact(frame).is_err() {
            return frame.clear();
        }
        let length = usize::from(frame[0]) * 256 + usize::from(frame[1]);
        frame.resize(2 + length, 0);
        if output.read_exact(&mut frame[2..]).is_err() {
            frame.truncate(2);
        }
    }

    /// Processor time in seconds, counted in hundredths by the system; known until the status is waited for.
    fn processor_time(&self) -> f64 {
        let status = std::fs::read_to_string(format!("/proc/{}/stat", self.child.id())).unwrap_or_default();
        let fields = status.rsplit(')').next().unwrap_or_default().split_whitespace().skip(11).take(2);
        fields.filter_map(|field| field.parse::<f64>().ok()).sum::<f64>() / 100.0
    }

    /// Ends the input; nothing more may come, on either output, and the status is 0. Gives the processor time.
    pub fn end(mut self) -> Result<f64, Failure> {
        drop(self.input.take());
        let mut rest = Vec::new();
        let _ = self.output.take().expect("output").read_to_end(&mut rest);
        let mut errors = String::new();
        let _ = self.errors.read_to_string(&mut errors);
        let processor = self.processor_time();
        let status = self.child.wait().map_err(|error| Failure::new(error.to_string()))?;
        if rest.is_empty() && errors.is_empty() && status.code() == Some(0) {
            return Ok(processor);
        }
        let more = crate::failure::hex(&rest[..rest.len().min(64)]);
        Err(Failure::new(format!("at the end: {status}, {} octets more ({more}), errors: {errors:?}", rest.len())))
    }

    /// Waits until it stops by itself, with the input still open: with status 1, since an answer could not be written.
    pub fn stopped(mut self) -> Result<(), Failure> {
        for _ in 0..500 {
            match self.child.try_wait() {
                Ok(None) => std::thread::sleep(std::time::Duration::from_millis(10)),
                Ok(Some(status)) if status.code() == Some(1) => return Ok(()),
                other => return Err(Failure::new(format!("output not read: {other:?}"))),
            }
        }
        Err(Failure::new("output not read: still running after five seconds".to_string()))
    }

    /// Kills it (SIGKILL) and gives what it had written and nobody had read.
    pub fn kill(mut self) -> Result<Vec<u8>, Failure> {
        let killed = self.child.kill().and_then(|()| self.child.wait());
        let status = killed.map_err(|error| Failure::new(error.to_string()))?;
        let mut rest = Vec::new();
        let _ = self.output.take().expect("output").read_to_end(&mut rest);
        match status.signal() {
            Some(9) => Ok(rest),
            _ => Err(Failure::new(format!("killed, but ended with {status}"))),
        }
    }
}
