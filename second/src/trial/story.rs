//! Lines that follow from each other.

use crate::engine::clock::Clock;
use crate::protocol::answer::answer;

/// Lines in the making, and the clock they lead to.
pub struct Story {
    pub clock: Clock,
    pub lines: Vec<Vec<u8>>,
}

impl Story {
    /// A story that begins with a clock.
    pub fn beginning(clock: &Clock) -> Story {
        Story {
            clock: clock.clone(),
            lines: Vec::new(),
        }
    }

    /// Adds a line.
    pub fn say(&mut self, line: Vec<u8>) {
        answer(&mut self.clock, &line);
        self.lines.push(line);
    }
}
