//! The commands that take a trace on standard input.

pub mod replay;
pub mod why;
#[cfg(test)]
mod worked_why;
