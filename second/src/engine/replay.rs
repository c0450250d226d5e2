//! Traces, read block by block, and run again.

use super::block::{
    check_holds, number_holds, number_of, records_laid_out, times_hold, BLOCK_SIZE,
};
use super::clock::{Clock, Decided};
use super::received::Received;
use super::refusal::{refuse_if, Refusal};

/// How far a trace has been read: what the next block's number and times are
/// held against.
#[derive(Default)]
pub struct TraceReader {
    last_number: Option<u32>,
    last_time: u64,
}

impl TraceReader {
    /// The records of the next block, which is 512 octets or, at the trace's
    /// end, fewer: 20 where a test fails, in the order check, layout, number,
    /// time.
    pub fn read_block(&mut self, block: &[u8]) -> Result<Vec<Received>, Refusal> {
        refuse_if(!check_holds(block), Refusal::Block)?;
        let records = records_laid_out(block).ok_or(Refusal::Block)?;
        let number = number_of(block);
        refuse_if(!number_holds(number, self.last_number), Refusal::Block)?;
        refuse_if(!times_hold(&records, self.last_time), Refusal::Block)?;
        self.last_number = Some(number);
        self.last_time = records.last().map_or(self.last_time, |last| last.time);
        Ok(records)
    }

    /// The time of the last record that was read; 0 before the first.
    pub fn last_time(&self) -> u64 {
        self.last_time
    }
}

/// All records of a trace: 20.
pub fn records_of_trace(trace: &[u8]) -> Result<Vec<Received>, Refusal> {
    let mut reader = TraceReader::default();
    let mut records = Vec::new();
    for block in trace.chunks(BLOCK_SIZE) {
        records.extend(reader.read_block(block)?);
    }
    Ok(records)
}

/// A replay on its way: a clock that has forgotten its senders and takes what
/// the blocks hold, one block after another.
pub struct Replay {
    clock: Clock,
    reader: TraceReader,
}

impl Replay {
    /// A replay with a clock's settings before its first block.
    pub fn with_settings_of(clock: &Clock) -> Replay {
        let mut clock = clock.clone();
        clock.forget_senders();
        Replay {
            clock,
            reader: TraceReader::default(),
        }
    }

    /// Takes the records of the next block: 20.  A message that is refused, as
    /// it was when it came, is passed over.
    pub fn play_block(&mut self, block: &[u8]) -> Result<(), Refusal> {
        for received in self.reader.read_block(block)? {
            let _ = self.clock.take(&received);
        }
        Ok(())
    }

    /// The clock behind all blocks, and the last record's time, 0 if there was
    /// no record.
    pub fn end(self) -> (Clock, u64) {
        (self.clock, self.reader.last_time())
    }
}

/// Replays a trace: 20, and then the clock stays as it is.  Else its senders are
/// those of the replay, and the last record's time comes with the decisions at
/// that time.
pub fn replay(clock: &mut Clock, trace: &[u8]) -> Result<(u64, Decided), Refusal> {
    let mut replay = Replay::with_settings_of(clock);
    for block in trace.chunks(BLOCK_SIZE) {
        replay.play_block(block)?;
    }
    let (replayed, time) = replay.end();
    let decided = replayed.decide_all(time)?;
    *clock = replayed;
    Ok((time, decided))
}
