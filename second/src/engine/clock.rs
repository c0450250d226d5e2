//! The boundary clock as a host holds it from call to call: its settings, the
//! sender records and links of its eighteen ports, and a recording.

use super::candidate::{check_port, Candidate, Quality, PORTS, PORT_COUNT};
use super::comparison::DataSet;
use super::decision::{decide, Decision};
use super::link::{Link, LinkEvent, LinkSettings, Step};
use super::message::Body;
use super::ranking::rank;
use super::reading::{read, read_suffix};
use super::received::Received;
use super::recording::Recording;
use super::refusal::{refuse_if, Refusal};
use super::senders::{Announced, Senders};

/// The clock with all that stays from one call to the next.
#[derive(Clone, Debug)]
pub struct Clock {
    pub identity: u64,
    pub domain: u8,
    pub magic: u16,
    pub own_quality: Quality,
    senders: [Senders; PORT_COUNT],
    links: [Link; PORT_COUNT],
    link_settings: [LinkSettings; PORT_COUNT],
    pub recording: Recording,
}

/// The most messages that are taken in one call, refused ones counted.
const LONGEST_BURST: usize = 288;

/// What every port is to be at a time, and what that follows from.
#[derive(Clone, Debug, PartialEq, Eq)]
pub struct Decided {
    /// The decisions of ports 1 to 18.
    pub ports: Vec<Decision>,
    /// The ranked list of all ports' candidates.
    pub ranked: Vec<Candidate>,
}

/// The place of a port that the clock has.
fn place(port: u8) -> usize {
    usize::from(port) - 1
}

impl Clock {
    /// A clock of which nothing has been set and to which nothing has happened.
    pub fn fresh() -> Clock {
        Clock {
            identity: 0,
            domain: 0,
            magic: 0xabcd,
            own_quality: Quality {
                priority1: 128,
                class: 248,
                accuracy: 0xfe,
                variance: 0xffff,
                priority2: 128,
            },
            senders: [Senders::fresh(); PORT_COUNT],
            links: [Link::fresh(); PORT_COUNT],
            link_settings: [LinkSettings::default(); PORT_COUNT],
            recording: Recording::beginning_at(0),
        }
    }

    /// Our own data set.
    pub fn own_set(&self) -> DataSet {
        DataSet::own(self.own_quality, self.identity)
    }

    /// The sender records of a port: 8.
    pub fn senders(&self, port: u8) -> Result<&Senders, Refusal> {
        check_port(port)?;
        Ok(&self.senders[place(port)])
    }

    /// The sender records of port 1.
    pub fn first_port(&self) -> &Senders {
        &self.senders[0]
    }

    /// Sets a port's announce interval: 8, then 18.
    pub fn set_interval(&mut self, port: u8, log_interval: i8) -> Result<(), Refusal> {
        check_port(port)?;
        self.senders[place(port)].set_interval(log_interval)
    }

    /// Takes an Announce that a port received at a time: 8, the reading checks,
    /// 3 if it is no Announce, 9, 10, then 11, 12, 13.
    pub fn take(&mut self, received: &Received) -> Result<(), Refusal> {
        check_port(received.port)?;
        let announced = self.announced(&received.octets)?;
        self.senders[place(received.port)].take(received.time, announced)
    }

    /// Takes the messages of a burst one after another, each with an answer of
    /// its own: 17 for too many, and then none is taken.
    pub fn take_burst(&mut self, burst: &[Received]) -> Result<Vec<Result<(), Refusal>>, Refusal> {
        refuse_if(burst.len() > LONGEST_BURST, Refusal::Many)?;
        Ok(burst.iter().map(|received| self.take(received)).collect())
    }

    /// Lets every port forget all it has heard.  The intervals are settings and
    /// stay, as all else does.
    pub fn forget_senders(&mut self) {
        for senders in &mut self.senders {
            senders.forget();
        }
    }

    /// What an Announce in our domain and from another clock tells.
    fn announced(&self, lent: &[u8]) -> Result<Announced, Refusal> {
        let message = read(lent, self.magic)?;
        let Body::Announce(_, fields) = message.body else {
            return Err(Refusal::Type);
        };
        let header = message.header;
        refuse_if(header.domain != self.domain, Refusal::Domain)?;
        refuse_if(header.source.clock == self.identity, Refusal::Own)?;
        Ok(Announced {
            sender: header.source,
            sequence: header.sequence,
            quality: Quality {
                priority1: fields.priority1,
                class: fields.class,
                accuracy: fields.accuracy,
                variance: fields.variance,
                priority2: fields.priority2,
            },
            grandmaster: fields.grandmaster,
            steps_removed: fields.steps_removed,
            wr_flags: read_suffix(lent, self.magic)?.unwrap_or(0),
        })
    }

    /// A port's candidates at a time: 8, then 11.
    pub fn candidates(&self, port: u8, time: u64) -> Result<Vec<Candidate>, Refusal> {
        self.senders(port)?.candidates(port, time)
    }

    /// The first in rank order of a port's candidates at a time, if it has any:
    /// 8, then 11.
    pub fn best(&self, port: u8, time: u64) -> Result<Option<Candidate>, Refusal> {
        Ok(self.candidates(port, time)?.into_iter().min())
    }

    /// The decision of every port at a time: 11 where that is below any port's
    /// last accepted time.
    pub fn decide_all(&self, time: u64) -> Result<Decided, Refusal> {
        let ranked = rank(&self.all_candidates(time)?)?;
        let ports = PORTS
            .map(|port| {
                let port_best = self.best(port, time)?;
                decide(&self.own_set(), port, &ranked, port_best.as_ref())
            })
            .collect::<Result<_, _>>()?;
        Ok(Decided { ports, ranked })
    }

    /// The candidates of all ports at a time, at most 288: 11.
    fn all_candidates(&self, time: u64) -> Result<Vec<Candidate>, Refusal> {
        let mut all = Vec::new();
        for port in PORTS {
            all.extend(self.candidates(port, time)?);
        }
        Ok(all)
    }

    /// The link of a port that the clock has.
    pub fn link(&self, port: u8) -> &Link {
        &self.links[place(port)]
    }

    /// The link settings of a port that the clock has.
    pub fn link_settings(&self, port: u8) -> &LinkSettings {
        &self.link_settings[place(port)]
    }

    /// Sets a port's link settings: 8, then 18.
    pub fn set_link(&mut self, port: u8, settings: LinkSettings) -> Result<(), Refusal> {
        check_port(port)?;
        settings.check()?;
        self.link_settings[place(port)] = settings;
        Ok(())
    }

    /// Lets something happen to a port's link: 8.
    pub fn step_link(&mut self, port: u8, event: LinkEvent) -> Result<Step, Refusal> {
        check_port(port)?;
        let step = self.link(port).step(self.link_settings(port), event);
        self.links[place(port)] = step.link;
        Ok(step)
    }
}
