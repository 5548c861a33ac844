//! Prints the reports of batches: reports FILE..

use std::io::Write;
use std::process::ExitCode;
use std::{env, fs, io};

/// The most words of a region.
const MOST_WORDS: u32 = 1_048_576;

unsafe extern "C" {
    fn vjobs_run(
        batch: *const u8,
        len: usize,
        region: u32,
        out: *mut u8,
        cap: usize,
        needed: *mut usize,
    ) -> u32;
}

/// How a batch ended.
#[derive(Clone, Copy, PartialEq, Eq, PartialOrd, Ord, Debug)]
enum Status {
    AllReturned,
    SomeNot,
    BatchRefused,
}

/// Why there is no report.
#[derive(Clone, Copy, PartialEq, Eq, Debug)]
enum Fault {
    NoMemory,
    BadRegion,
}

/// The status of a batch and its report, in a buffer that grows once if it is too small.
fn run(batch: &[u8], region: u32) -> Result<(Status, Vec<u8>), Fault> {
    let mut out = vec![0; 64];
    loop {
        let mut needed = 0;
        // The pointers of slices are never null, and the three memories are borrowed apart. The main thread, and each
        // that std starts, has more stack than the call needs.
        let answer = unsafe {
            vjobs_run(batch.as_ptr(), batch.len(), region, out.as_mut_ptr(), out.len(), &mut needed)
        };
        let status = match answer {
            0 => Status::AllReturned,
            1 => Status::SomeNot,
            2 => Status::BatchRefused,
            3 => return Err(Fault::NoMemory),
            4 => {
                out.resize(needed, 0);
                continue;
            }
            _ => return Err(Fault::BadRegion),
        };
        out.truncate(needed);
        return Ok((status, out));
    }
}

/// Prints the reports of the files that are named. Answers the worst status.
fn print_reports() -> io::Result<Status> {
    let mut worst = Status::AllReturned;
    for name in env::args_os().skip(1) {
        let batch = fs::read(name)?;
        let (status, report) = run(&batch, MOST_WORDS)
            .map_err(|fault| io::Error::other(format!("{fault:?}")))?;
        io::stdout().write_all(&report)?;
        worst = worst.max(status);
    }
    Ok(worst)
}

fn main() -> ExitCode {
    match print_reports() {
        Ok(status) => ExitCode::from(status as u8),
        Err(error) => {
            eprintln!("reports: {error}");
            ExitCode::from(3)
        }
    }
}
