//! Scripts run and journals audited in memory.

use crate::{sys, Refused};

/// What a run writes.
#[derive(Clone, Copy, Debug, PartialEq, Eq, Hash)]
pub enum Print {
    /// The reply to each line.
    Replies,
    /// The journal of the calls alone.
    Journal,
}

/// How a run or an audit ended.
#[derive(Clone, Copy, Debug, PartialEq, Eq, Hash)]
pub enum Ended {
    /// There was nothing to find fault with.
    Good,
    /// A reply of the journal is not the table's.
    Wrong,
    /// A line of the text has a fault.
    Fault,
}

/// Runs a script over a table with these limits: how it ended, and what `hygienic run` writes.
///
/// Limits out of their ranges are refused, and a script longer than 16 MiB as want of memory.
pub fn run(limits: (u32, u32), print: Print, script: &[u8]) -> Result<(Ended, Vec<u8>), Refused> {
    whole(|out| sys::run(limits, print == Print::Journal, script, out))
}

/// Audits a journal: how it ended, and what `hygienic audit` writes. A journal longer than 16 MiB is refused as want of memory.
pub fn audit(journal: &[u8]) -> Result<(Ended, Vec<u8>), Refused> {
    whole(|out| sys::audit(journal, out))
}

// The whole output: asked for again with room for it where there was too little.
fn whole(mut ask: impl FnMut(&mut [u8]) -> (u32, usize)) -> Result<(Ended, Vec<u8>), Refused> {
    let mut out = vec![0; 1 << 16];
    loop {
        let (answer, written) = ask(&mut out);
        let ended = match answer {
            0 => Ended::Good,
            1 => Ended::Wrong,
            2 => Ended::Fault,
            3 => return Err(Refused::NoMemory),
            4 => return Err(Refused::OutOfRange),
            _ => {
                out.resize(written, 0);
                continue;
            }
        };
        out.truncate(written);
        return Ok((ended, out));
    }
}
