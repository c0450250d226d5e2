//! A recording: messages become the records of blocks whose numbers rise by
//! one, each block filled while the next record fits.

use super::block::{block_of, fits, octets_left, LONGEST_MESSAGE};
use super::candidate::check_port;
use super::received::Received;
use super::refusal::{refuse_if, Refusal};

/// A recording: the open block, and the time of what was recorded last.
#[derive(Clone, Debug)]
pub struct Recording {
    /// The number that the open block has, or will have once a record is in it.
    number: u32,
    /// The open block's records.
    records: Vec<Received>,
    last_time: u64,
}

impl Recording {
    /// A recording without a record whose next block has a number; ours begin
    /// at 0.
    pub fn beginning_at(number: u32) -> Recording {
        Recording {
            number,
            records: Vec::new(),
            last_time: 0,
        }
    }

    /// Adds a record: 8, 19, 11, 17.  Hands back the block that is closed by it,
    /// where it did not fit into the open one.
    pub fn record(&mut self, received: &Received) -> Result<Option<Vec<u8>>, Refusal> {
        check_port(received.port)?;
        refuse_if(received.octets.len() > LONGEST_MESSAGE, Refusal::Long)?;
        refuse_if(received.time < self.last_time, Refusal::Backward)?;
        let closed = self.make_room(received)?;
        self.records.push(received.clone());
        self.last_time = received.time;
        Ok(closed)
    }

    /// The time of what was recorded last; 0 before the first record.
    pub fn last_time(&self) -> u64 {
        self.last_time
    }

    /// The octets left in the open block.
    pub fn octets_left(&self) -> usize {
        octets_left(&self.records)
    }

    /// Closes the open block if a record does not fit into it: 17 where no
    /// number is left for the next one.
    fn make_room(&mut self, received: &Received) -> Result<Option<Vec<u8>>, Refusal> {
        if fits(received, &self.records) {
            return Ok(None);
        }
        let next = self.number.checked_add(1).ok_or(Refusal::Many)?;
        let closed = self.open_block();
        self.number = next;
        self.records.clear();
        Ok(closed)
    }

    /// The open block as it would be closed now; none while no record is in it.
    pub fn open_block(&self) -> Option<Vec<u8>> {
        (!self.records.is_empty()).then(|| block_of(self.number, &self.records))
    }
}
