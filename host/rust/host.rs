//! The smallest complete host in Rust: opens a job, marks pins, steps to the end, lists the wires, asks for the shortfall.
//!
//!     host/prove library
//!     rustc host/rust/host.rs -L native=target/staticlib -l static=talusdish -o target/host/rust_host && target/host/rust_host

use std::io::Write;
use std::process::ExitCode;

extern "C" {
    fn talusdish_new(record: *mut u8, record_len: u64, rows: u64, columns: u64, o: u64, d: u64, e: u64) -> u64;
    fn talusdish_mark(record: *mut u8, record_len: u64, row: u64, column: u64, mark: u64) -> u64;
    fn talusdish_step(record: *mut u8, record_len: u64, scratch: *mut u8, scratch_len: u64) -> u64;
    fn talusdish_listing(record: *const u8, record_len: u64, output: *mut u8, output_len: u64) -> u64;
    fn talusdish_shortfall(record: *const u8, record_len: u64, scratch: *mut u8, scratch_len: u64, output: *mut u8, output_len: u64) -> u64;
}

/// The value of an accepted call, or the code by which it is refused.
fn accepted(word: u64) -> Result<u64, u64> {
    match word & 255 {
        0 => Ok(word >> 8),
        code => Err(code),
    }
}

struct Job {
    record: Vec<u8>,
    scratch: Vec<u8>,
}

// Each call is lent whole buffers of this job, or of the call itself, that nobody else has.
impl Job {
    fn new(rows: u64, columns: u64, o: u64, d: u64, e: u64) -> Result<Job, u64> {
        let mut job = Job { record: vec![0; 32768], scratch: vec![0; 65536] };
        accepted(unsafe { talusdish_new(job.record.as_mut_ptr(), job.record.len() as u64, rows, columns, o, d, e) })?;
        Ok(job)
    }

    fn mark(&mut self, row: u64, column: u64, mark: u64) -> Result<u64, u64> {
        accepted(unsafe { talusdish_mark(self.record.as_mut_ptr(), self.record.len() as u64, row, column, mark) })
    }

    /// One more wire: 0 added, 1 all wired, 2 short.
    fn step(&mut self) -> Result<u64, u64> {
        accepted(unsafe { talusdish_step(self.record.as_mut_ptr(), self.record.len() as u64, self.scratch.as_mut_ptr(), self.scratch.len() as u64) })
    }

    /// The wires, as text.
    fn listing(&self) -> Result<Vec<u8>, u64> {
        let mut output = vec![0; 1 << 20];
        let length = accepted(unsafe { talusdish_listing(self.record.as_ptr(), self.record.len() as u64, output.as_mut_ptr(), output.len() as u64) })?;
        output.truncate(length as usize);
        Ok(output)
    }

    /// How many chosen pins cannot be wired.
    fn shortfall(&mut self) -> Result<u64, u64> {
        let mut near = vec![0; 32768];
        let (scratch, output) = (&mut self.scratch, &mut near);
        accepted(unsafe {
            talusdish_shortfall(self.record.as_ptr(), self.record.len() as u64, scratch.as_mut_ptr(), scratch.len() as u64, output.as_mut_ptr(), output.len() as u64)
        })
    }
}

/// The listing of a job with four inner pins, and its shortfall.
fn routed() -> Result<(Vec<u8>, u64), u64> {
    let mut job = Job::new(4, 4, 1, 2, 0)?;
    for row in 1..=2 {
        for column in 1..=2 {
            job.mark(row, column, 1)?;
        }
    }
    while job.step()? == 0 {}
    Ok((job.listing()?, job.shortfall()?))
}

fn main() -> ExitCode {
    let (listing, lacking) = match routed() {
        Ok(answer) => answer,
        Err(code) => {
            eprintln!("refused {code}");
            return ExitCode::from(2);
        }
    };
    let mut out = std::io::stdout();
    let written = out.write_all(&listing).and_then(|_| writeln!(out, "shortfall {lacking}"));
    ExitCode::from(if written.is_err() { 3 } else if lacking > 0 { 1 } else { 0 })
}
