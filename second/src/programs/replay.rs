//! The program `replay` of document 02, (iv): it replays a trace block by block
//! and tells what each port is to be at the last record's time.

use crate::engine::block::BLOCK_SIZE;
use crate::engine::candidate::PORTS;
use crate::engine::clock::Clock;
use crate::engine::decision::Decision;
use crate::engine::refusal::Refusal;
use crate::engine::replay::Replay;
use crate::protocol::show;
use std::io::{self, Read};

/// What the program prints for a trace with a clock's settings: eighteen lines,
/// or that it is refused.  The trace is read to its end in any case.
pub fn replayed(clock: &Clock, mut trace: impl Read) -> io::Result<String> {
    let mut replay = Replay::with_settings_of(clock);
    let mut block = Vec::new();
    while next_block(&mut trace, &mut block)? {
        if let Err(refusal) = replay.play_block(&block) {
            io::copy(&mut trace, &mut io::sink())?;
            return Ok(refused(refusal));
        }
    }
    let (clock, time) = replay.end();
    Ok(match clock.decide_all(time) {
        Ok(decided) => port_lines(&decided.ports),
        Err(refusal) => refused(refusal),
    })
}

/// Reads the next 512 octets, or as many as are left; false where none are.
fn next_block(trace: &mut impl Read, block: &mut Vec<u8>) -> io::Result<bool> {
    block.clear();
    trace.take(BLOCK_SIZE as u64).read_to_end(block)?;
    Ok(!block.is_empty())
}

/// The line of a refusal.
pub fn refused(refusal: Refusal) -> String {
    format!("refused {}\n", refusal.number())
}

/// A line for each port: its number and its decision.
pub fn port_lines(decisions: &[Decision]) -> String {
    PORTS
        .zip(decisions)
        .map(|(port, &decision)| format!("{port} {}\n", show::decision(decision)))
        .collect()
}
