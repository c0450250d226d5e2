//! The line protocol: one call a line in, one answer a line out.

pub mod answer;
pub mod candidate_tokens;
pub mod lines;
pub mod link_tokens;
pub mod message_tokens;
pub mod show;
pub mod tokens;
#[cfg(test)]
mod worked_bursts;
#[cfg(test)]
mod worked_captures;
#[cfg(test)]
mod worked_distant;
#[cfg(test)]
mod worked_lines;
#[cfg(test)]
mod worked_recordings;
#[cfg(test)]
mod worked_replays;
#[cfg(test)]
mod worked_rows;
#[cfg(test)]
mod worked_tails;
