//! The machine that brings up one port's White Rabbit link: document 01's "The
//! WR link", with the states of 003, Table 5.

use super::refusal::{refuse_if, Refusal};
use super::white_rabbit::{
    LinkMessage, CALIBRATE, CALIBRATED, LOCK, LOCKED, SLAVE_PRESENT, WR_MODE_ON,
};

/// How often a state's message is sent again before the link is given up.
const MOST_RETRIES: u8 = 3;
/// The greatest config: both master and slave.
const GREATEST_CONFIG: u8 = 3;

/// What a port is set to.
#[derive(Clone, Copy, Debug, Default, PartialEq, Eq)]
pub struct LinkSettings {
    /// 0 none, 1 master only, 2 slave only, 3 both.
    pub config: u8,
    pub needs_calibration: bool,
    pub retry: u8,
    pub period: u32,
    pub delta_tx: u64,
    pub delta_rx: u64,
}

impl LinkSettings {
    /// Refuses a config that there is not.
    pub fn check(&self) -> Result<(), Refusal> {
        refuse_if(self.config > GREATEST_CONFIG, Refusal::Field)
    }
}

/// Which end of the link the port is.
#[derive(Clone, Copy, Debug, PartialEq, Eq)]
pub enum Role {
    Slave,
    Master,
}

/// The states; those of both ends know which end they are.
#[derive(Clone, Copy, Debug, PartialEq, Eq)]
pub enum LinkState {
    Idle,
    Present,
    MLock,
    SLock,
    Locked,
    Calibration(Role),
    Calibrated(Role),
    RespCalibReq(Role),
}

/// One port's link.
#[derive(Clone, Copy, Debug, PartialEq, Eq)]
pub struct Link {
    pub state: LinkState,
    pub mode_on: bool,
    /// The timeouts since the last change of state.
    pub retries: u8,
}

/// What can happen to a link.
#[derive(Clone, Copy, Debug, PartialEq, Eq)]
pub enum LinkEvent {
    Start {
        parent_config: u8,
        parent_mode_on: bool,
    },
    Message(u16),
    Done,
    Timeout,
    Stop,
}

/// What a step makes of a link.
#[derive(Clone, Debug, PartialEq, Eq)]
pub struct Step {
    pub link: Link,
    pub sent: Vec<LinkMessage>,
    /// Whether this step went through link on.
    pub reports_link_on: bool,
}

impl Link {
    /// A link that nothing has happened to.
    pub fn fresh() -> Link {
        Link {
            state: LinkState::Idle,
            mode_on: false,
            retries: 0,
        }
    }

    /// What an event makes of the link under the settings of the moment.
    pub fn step(self, settings: &LinkSettings, event: LinkEvent) -> Step {
        match event {
            LinkEvent::Stop => self.given_up(),
            LinkEvent::Timeout if self.state == LinkState::Idle => self.ignored(),
            LinkEvent::Timeout if self.retries == MOST_RETRIES => self.given_up(),
            LinkEvent::Timeout => self.retried(settings),
            _ => self.moved(settings, event),
        }
    }

    /// The step of a start, a message or hardware that is done: slave's and
    /// master's ways, and nothing where these name no change.
    fn moved(self, settings: &LinkSettings, event: LinkEvent) -> Step {
        use LinkEvent::{Done, Message};
        use LinkState::*;
        match (self.state, event) {
            (Idle, _) if self.slave_starts(settings, event) => self.enters(Present, settings),
            (Present, Message(LOCK)) => self.enters(SLock, settings),
            (SLock, Done) => self.enters(Locked, settings),
            (Locked, Message(CALIBRATE)) => self.enters(RespCalibReq(Role::Slave), settings),
            (RespCalibReq(Role::Slave), Message(CALIBRATED)) => {
                self.enters_calibration(Role::Slave, settings)
            }
            (Calibration(role), Done) => self.enters(Calibrated(role), settings),
            (Calibrated(Role::Slave), Message(WR_MODE_ON)) => self.comes_on(Vec::new()),
            (Idle, Message(SLAVE_PRESENT)) if matches!(settings.config, 1 | 3) => {
                self.enters(MLock, settings)
            }
            (MLock, Message(LOCKED)) => self.enters_calibration(Role::Master, settings),
            (Calibrated(Role::Master), Message(CALIBRATE)) => {
                self.enters(RespCalibReq(Role::Master), settings)
            }
            (RespCalibReq(Role::Master), Message(CALIBRATED)) => {
                self.comes_on(vec![LinkMessage::WrModeOn])
            }
            _ => self.ignored(),
        }
    }

    /// Whether the event is a start that meets the conditions of 001, 6.7.1.
    fn slave_starts(self, settings: &LinkSettings, event: LinkEvent) -> bool {
        let LinkEvent::Start {
            parent_config,
            parent_mode_on,
        } = event
        else {
            return false;
        };
        matches!(settings.config, 2 | 3)
            && matches!(parent_config, 1 | 3)
            && !(self.mode_on && parent_mode_on)
    }

    /// The step into a state, with the message that it sends.
    fn enters(self, state: LinkState, settings: &LinkSettings) -> Step {
        Step {
            link: Link {
                state,
                mode_on: self.mode_on,
                retries: 0,
            },
            sent: state_message(state, settings).into_iter().collect(),
            reports_link_on: false,
        }
    }

    /// The step into CALIBRATION or, where the port needs none, through it into
    /// CALIBRATED.
    fn enters_calibration(self, role: Role, settings: &LinkSettings) -> Step {
        let mut step = self.enters(LinkState::Calibration(role), settings);
        if !settings.needs_calibration {
            let further = self.enters(LinkState::Calibrated(role), settings);
            step.link = further.link;
            step.sent.extend(further.sent);
        }
        step
    }

    /// The step through link on.
    fn comes_on(self, sent: Vec<LinkMessage>) -> Step {
        Step {
            link: Link {
                state: LinkState::Idle,
                mode_on: true,
                retries: 0,
            },
            sent,
            reports_link_on: true,
        }
    }

    /// The step that sends the state's message, if any, once more.
    fn retried(self, settings: &LinkSettings) -> Step {
        Step {
            link: Link {
                retries: self.retries + 1,
                ..self
            },
            sent: state_message(self.state, settings).into_iter().collect(),
            reports_link_on: false,
        }
    }

    /// The step to IDLE with mode off.
    fn given_up(self) -> Step {
        Step {
            link: Link::fresh(),
            sent: Vec::new(),
            reports_link_on: false,
        }
    }

    /// The step that changes nothing.
    fn ignored(self) -> Step {
        Step {
            link: self,
            sent: Vec::new(),
            reports_link_on: false,
        }
    }
}

/// The message of a state, with the settings of the moment.
fn state_message(state: LinkState, settings: &LinkSettings) -> Option<LinkMessage> {
    match state {
        LinkState::Present => Some(LinkMessage::SlavePresent),
        LinkState::MLock => Some(LinkMessage::Lock),
        LinkState::Locked => Some(LinkMessage::Locked),
        LinkState::Calibration(_) => Some(LinkMessage::Calibrate {
            pattern: u8::from(settings.needs_calibration),
            retry: settings.retry,
            period: settings.period,
        }),
        LinkState::Calibrated(_) => Some(LinkMessage::Calibrated {
            delta_tx: settings.delta_tx,
            delta_rx: settings.delta_rx,
        }),
        LinkState::Idle | LinkState::SLock | LinkState::RespCalibReq(_) => None,
    }
}

#[cfg(test)]
mod tests {
    use super::*;

    const START: LinkEvent = LinkEvent::Start {
        parent_config: 1,
        parent_mode_on: false,
    };

    /// Settings of a config, with or without calibration.
    fn settings(config: u8, needs_calibration: bool) -> LinkSettings {
        LinkSettings {
            config,
            needs_calibration,
            ..LinkSettings::default()
        }
    }

    /// The link after some events, and the numbers it sent at the last.
    fn after(settings: &LinkSettings, events: &[LinkEvent]) -> (Link, Vec<u16>) {
        events
            .iter()
            .fold((Link::fresh(), Vec::new()), |(link, _), &event| {
                let step = link.step(settings, event);
                (
                    step.link,
                    step.sent.iter().map(|sent| sent.number()).collect(),
                )
            })
    }

    #[test]
    fn the_slaves_way_to_link_on() {
        use LinkEvent::{Done, Message};
        let way = [
            (START, vec![SLAVE_PRESENT]),
            (Message(LOCK), vec![]),
            (Done, vec![LOCKED]),
            (Message(CALIBRATE), vec![]),
            (Message(CALIBRATED), vec![CALIBRATE]),
            (Done, vec![CALIBRATED]),
            (Message(WR_MODE_ON), vec![]),
        ];
        let events: Vec<LinkEvent> = way.iter().map(|(event, _)| *event).collect();
        let slave = settings(2, true);
        for (count, (_, sent)) in way.iter().enumerate() {
            assert_eq!(after(&slave, &events[..=count]).1, *sent);
        }
        let (link, _) = after(&slave, &events);
        assert_eq!((link.state, link.mode_on), (LinkState::Idle, true));
    }

    #[test]
    fn the_masters_way_to_link_on_without_calibration() {
        use LinkEvent::Message;
        let way = [
            (Message(SLAVE_PRESENT), vec![LOCK]),
            (Message(LOCKED), vec![CALIBRATE, CALIBRATED]),
            (Message(CALIBRATE), vec![]),
            (Message(CALIBRATED), vec![WR_MODE_ON]),
        ];
        let events: Vec<LinkEvent> = way.iter().map(|(event, _)| *event).collect();
        let master = settings(1, false);
        for (count, (_, sent)) in way.iter().enumerate() {
            assert_eq!(after(&master, &events[..=count]).1, *sent);
        }
        assert!(after(&master, &events).0.mode_on);
    }

    #[test]
    fn the_fourth_timeout_gives_up() {
        let slave = settings(2, true);
        for state_events in [vec![START], vec![START, LinkEvent::Message(LOCK)]] {
            let mut events = state_events;
            events.extend([LinkEvent::Timeout; 3]);
            let (link, _) = after(&slave, &events);
            assert_eq!(link.retries, 3);
            events.push(LinkEvent::Timeout);
            assert_eq!(after(&slave, &events), (Link::fresh(), vec![]));
        }
    }

    #[test]
    fn a_start_needs_one_mode_off_and_leaves_it() {
        let on = Link {
            mode_on: true,
            ..Link::fresh()
        };
        let both_on = LinkEvent::Start {
            parent_config: 3,
            parent_mode_on: true,
        };
        let slave = settings(3, true);
        assert_eq!(on.step(&slave, both_on).link, on);
        let started = on.step(&slave, START).link;
        assert_eq!((started.state, started.mode_on), (LinkState::Present, true));
    }
}
