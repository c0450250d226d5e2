//! Why a port changed its decision, or the clock its parent, along a trace: by
//! an Announce, or because a sender was not heard any more.
//!
//! Decisions are asked for behind each record, at its time, and before it at
//! each moment at which a sender stops being a candidate because its older
//! receipt has left the window.

use super::replay::{refused, replayed};
use crate::engine::candidate::PORTS;
use crate::engine::clock::Clock;
use crate::engine::decision::{parent, Decision};
use crate::engine::message::PortIdentity;
use crate::engine::reading::read;
use crate::engine::received::Received;
use crate::engine::refusal::Refusal;
use crate::engine::replay::records_of_trace;
use crate::protocol::show;
use std::io;

/// Nanoseconds of a second.
const SECOND: u64 = 1_000_000_000;

/// A sender, and the port it is heard on.
#[derive(Clone, Copy, PartialEq, Eq)]
struct Heard {
    sender: PortIdentity,
    port: u8,
}

impl Heard {
    /// The sender's name, and where it is heard.
    fn told(self) -> String {
        let Heard { sender, port } = self;
        format!("{:016x}-{} on port {port}", sender.clock, sender.port)
    }
}

/// Why something changed.
#[derive(Clone, Copy)]
enum Reason {
    /// This Announce was taken.
    Announce { sequence: u16, of: Heard },
    /// This sender's record stopped counting.
    Silence(Heard),
}

impl Reason {
    /// The reason in words.
    fn told(self) -> String {
        match self {
            Reason::Announce { sequence, of } => {
                format!("by Announce {sequence} of {}", of.told())
            }
            Reason::Silence(heard) => format!("{} fell silent", heard.told()),
        }
    }
}

/// What is decided at a time.
struct Outcome {
    /// None where our own clock leads.
    parent: Option<Heard>,
    ports: Vec<Decision>,
}

impl Outcome {
    /// Everything that may change, by name: the parent, then the ports.
    fn told(&self) -> Vec<(String, String)> {
        let parent = self.parent.map_or("our own clock".to_string(), Heard::told);
        let ports = PORTS.zip(&self.ports).map(|(port, &decision)| {
            let decision = show::decision(decision).to_string();
            (format!("port {port}"), decision)
        });
        std::iter::once(("parent".to_string(), parent))
            .chain(ports)
            .collect()
    }
}

/// The text for a trace under a clock's settings: a line for each change along
/// it, then what `replay` prints.  That alone where the trace is refused.
pub fn explained(clock: &Clock, trace: &[u8]) -> io::Result<String> {
    let changes = match changes_along(clock, trace) {
        Ok(changes) => changes,
        Err(refusal) => return Ok(refused(refusal)),
    };
    Ok(changes + &replayed(clock, trace)?)
}

/// A line for each change along a trace: 20.
fn changes_along(clock: &Clock, trace: &[u8]) -> Result<String, Refusal> {
    let mut watch = Watch::begun(clock)?;
    for received in records_of_trace(trace)? {
        watch.wait_until(received.time)?;
        watch.take(&received)?;
    }
    Ok(watch.changes)
}

/// A replay that is looked at step by step.
struct Watch {
    clock: Clock,
    /// The time of the last look.
    time: u64,
    /// What was decided then.
    seen: Outcome,
    changes: String,
}

impl Watch {
    /// A clock at time 0 that has heard nobody.
    fn begun(clock: &Clock) -> Result<Watch, Refusal> {
        let mut clock = clock.clone();
        clock.forget_senders();
        Ok(Watch {
            time: 0,
            seen: outcome(&clock, 0)?,
            clock,
            changes: String::new(),
        })
    }

    /// Looks at each moment up to a time at which senders fall silent.
    fn wait_until(&mut self, time: u64) -> Result<(), Refusal> {
        while let Some((moment, heard)) = self.next_silence() {
            if moment > time {
                break;
            }
            self.look(moment, Reason::Silence(heard))?;
        }
        Ok(())
    }

    /// The next moment at which senders fall silent, with the first of them by
    /// port and slot.
    fn next_silence(&self) -> Option<(u64, Heard)> {
        let mut silences = Vec::new();
        for port in PORTS {
            let senders = self.clock.senders(port).ok()?;
            silences.extend(senders.silences(self.time).map(|(moment, record)| {
                let sender = record.announced.sender;
                (moment, Heard { sender, port })
            }));
        }
        silences.into_iter().min_by_key(|(moment, _)| *moment)
    }

    /// Takes a record and looks at its time.  One that is refused changes
    /// nothing.
    fn take(&mut self, received: &Received) -> Result<(), Refusal> {
        if self.clock.take(received).is_err() {
            return Ok(());
        }
        let reason = self.announce(received)?;
        self.look(received.time, reason)
    }

    /// The reason that an Announce which was taken gives.
    fn announce(&self, received: &Received) -> Result<Reason, Refusal> {
        let header = read(&received.octets, self.clock.magic)?.header;
        let of = Heard {
            sender: header.source,
            port: received.port,
        };
        let sequence = header.sequence;
        Ok(Reason::Announce { sequence, of })
    }

    /// Asks what is decided at a time and tells what of it has changed.
    fn look(&mut self, time: u64, reason: Reason) -> Result<(), Refusal> {
        let now = outcome(&self.clock, time)?;
        for ((what, before), (_, after)) in self.seen.told().iter().zip(&now.told()) {
            if before != after {
                let (time, reason) = (clock_time(time), reason.told());
                let line = format!("{time} {what}: {before} -> {after}, {reason}\n");
                self.changes.push_str(&line);
            }
        }
        self.time = time;
        self.seen = now;
        Ok(())
    }
}

/// What a clock decides at a time.
fn outcome(clock: &Clock, time: u64) -> Result<Outcome, Refusal> {
    let decided = clock.decide_all(time)?;
    let ebest = parent(&clock.own_set(), &decided.ranked)?;
    Ok(Outcome {
        parent: ebest.map(|ebest| Heard {
            sender: ebest.sender,
            port: ebest.port,
        }),
        ports: decided.ports,
    })
}

/// Hours, at least two digits of them, minutes, seconds and nanoseconds.
fn clock_time(time: u64) -> String {
    let seconds = time / SECOND;
    let (hours, minutes) = (seconds / 3600, seconds / 60 % 60);
    format!(
        "{hours:02}:{minutes:02}:{:02}.{:09}",
        seconds % 60,
        time % SECOND
    )
}
