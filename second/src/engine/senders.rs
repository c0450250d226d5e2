//! One port's sender records: sixteen slots, the last accepted time and the
//! announce interval.  Times are nanoseconds.

use super::candidate::{Candidate, Quality};
use super::message::PortIdentity;
use super::refusal::{refuse_if, Refusal};

/// The slots of a port.
const SLOT_COUNT: usize = 16;
/// The intervals that can be set: 2^k seconds.
const LOG_INTERVALS: std::ops::RangeInclusive<i8> = -3..=4;
/// Half a second, the window of the shortest interval.
const SHORTEST_WINDOW: u64 = 500_000_000;
/// The stepsRemoved from which a clock is too distant to be followed: an
/// Announce that goes round in a loop of cables gains steps without end.
const DISTANT_STEPS: u16 = 255;

/// What an Announce tells of its sender, as far as it is kept.
#[derive(Clone, Copy, Debug, PartialEq, Eq)]
pub struct Announced {
    pub sender: PortIdentity,
    pub sequence: u16,
    pub quality: Quality,
    pub grandmaster: u64,
    pub steps_removed: u16,
    pub wr_flags: u16,
}

/// What is held of a sender: its latest Announce and its one or two latest
/// receipts.
#[derive(Clone, Copy, Debug, PartialEq, Eq)]
pub struct Record {
    pub announced: Announced,
    pub newest: u64,
    pub older: Option<u64>,
}

impl Record {
    /// Whether the record is live at a time not before its newest receipt.
    fn is_live(&self, time: u64, window: u64) -> bool {
        time - self.newest <= window
    }

    /// Whether the record makes a candidate: both its receipts lie within the
    /// window before a time, and its latest Announce tells of a clock that is
    /// not distant.
    fn is_qualified(&self, time: u64, window: u64) -> bool {
        let both_recent = self.older.is_some_and(|older| time - older <= window);
        both_recent && !self.is_distant()
    }

    /// Whether the latest Announce came from too many steps away: document 02,
    /// (iii), which amends 01 after IEEE 1588-2008, 9.3.2.5.  Nothing but
    /// qualification asks this: such a record is live by its newest receipt,
    /// holds its slot and shifts its receipts like any other.  So it may qualify
    /// at once when the next Announce comes from fewer steps away.
    fn is_distant(&self) -> bool {
        self.announced.steps_removed >= DISTANT_STEPS
    }
}

/// The records of one port.
#[derive(Clone, Copy, Debug, PartialEq, Eq)]
pub struct Senders {
    pub last_time: u64,
    pub log_interval: i8,
    pub slots: [Option<Record>; SLOT_COUNT],
}

impl Senders {
    /// A port that has heard nothing.
    pub fn fresh() -> Senders {
        Senders {
            last_time: 0,
            log_interval: 0,
            slots: [None; SLOT_COUNT],
        }
    }

    /// Makes the port one that has heard nothing, with the interval it has.
    pub fn forget(&mut self) {
        *self = Senders {
            log_interval: self.log_interval,
            ..Senders::fresh()
        };
    }

    /// Sets the interval: 18.
    pub fn set_interval(&mut self, log_interval: i8) -> Result<(), Refusal> {
        refuse_if(!LOG_INTERVALS.contains(&log_interval), Refusal::Field)?;
        self.log_interval = log_interval;
        Ok(())
    }

    /// Four intervals.
    pub fn window(&self) -> u64 {
        SHORTEST_WINDOW << (self.log_interval - LOG_INTERVALS.start())
    }

    /// Takes what an Announce told at a time: 11, 12, 13.
    pub fn take(&mut self, time: u64, announced: Announced) -> Result<(), Refusal> {
        refuse_if(time < self.last_time, Refusal::Backward)?;
        let (slot, record) = self.plan(time, announced)?;
        self.slots[slot] = Some(record);
        self.last_time = time;
        Ok(())
    }

    /// The slot that an Announce goes to and the record it leaves there.
    fn plan(&self, time: u64, announced: Announced) -> Result<(usize, Record), Refusal> {
        let restarted = Record {
            announced,
            newest: time,
            older: None,
        };
        let Some((slot, held)) = self.record_of(announced.sender) else {
            let slot = self.free_slot(time).ok_or(Refusal::Full)?;
            return Ok((slot, restarted));
        };
        if !held.is_live(time, self.window()) {
            return Ok((slot, restarted));
        }
        let newer = is_newer(announced.sequence, held.announced.sequence);
        refuse_if(!newer, Refusal::Stale)?;
        let shifted = Record {
            older: Some(held.newest),
            ..restarted
        };
        Ok((slot, shifted))
    }

    /// The slot and the record of a sender, live or expired.
    fn record_of(&self, sender: PortIdentity) -> Option<(usize, Record)> {
        self.held()
            .find(|(_, record)| record.announced.sender == sender)
    }

    /// The lowest slot that is empty or expired.
    fn free_slot(&self, time: u64) -> Option<usize> {
        let window = self.window();
        self.slots
            .iter()
            .position(|slot| !slot.is_some_and(|record| record.is_live(time, window)))
    }

    /// The slots that ever held a record, in their order.
    pub fn held(&self) -> impl Iterator<Item = (usize, Record)> + '_ {
        self.slots
            .iter()
            .enumerate()
            .filter_map(|(slot, record)| record.map(|record| (slot, record)))
    }

    /// The qualified records at a time, in slot order, as candidates of a port: 11.
    pub fn candidates(&self, port: u8, time: u64) -> Result<Vec<Candidate>, Refusal> {
        refuse_if(time < self.last_time, Refusal::Backward)?;
        let window = self.window();
        Ok(self
            .held()
            .filter(|(_, record)| record.is_qualified(time, window))
            .map(|(_, record)| candidate_of(&record.announced, port))
            .collect())
    }

    /// The records that make candidates at a time, in slot order, each with the
    /// first moment at which its older receipt has left the window, where 64 bits
    /// hold it.
    pub fn silences(&self, time: u64) -> impl Iterator<Item = (u64, Record)> + '_ {
        let window = self.window();
        self.held()
            .map(|(_, record)| record)
            .filter(move |record| record.is_qualified(time, window))
            .filter_map(move |record| {
                let last = record.older?.checked_add(window)?;
                Some((last.checked_add(1)?, record))
            })
    }
}

/// Whether a sequenceId comes after an old one.
fn is_newer(new: u16, old: u16) -> bool {
    (1..=32_767).contains(&new.wrapping_sub(old))
}

/// The candidate that a port has in what a sender announced.
pub fn candidate_of(announced: &Announced, port: u8) -> Candidate {
    Candidate {
        quality: announced.quality,
        grandmaster: announced.grandmaster,
        steps_removed: announced.steps_removed,
        sender: announced.sender,
        port,
        wr_flags: announced.wr_flags,
    }
}
