//! Values as answers spell them: a clockIdentity is `0x` and 16 digits, other
//! numbers are decimal, octets are lower case and `-` where there are none.

use crate::engine::candidate::Candidate;
use crate::engine::clock::Decided;
use crate::engine::comparison::{Side, Verdict};
use crate::engine::decision::Decision;
use crate::engine::link::{LinkState, Step};
use crate::engine::message::{Announce, Body, Header, Message, PortIdentity, Timestamp};
use crate::engine::senders::{Record, Senders};
use crate::engine::tlv::Tlv;
use crate::engine::white_rabbit::LinkMessage;

/// Octets.
pub fn octets(octets: &[u8]) -> String {
    const DIGITS: &[u8; 16] = b"0123456789abcdef";
    if octets.is_empty() {
        return "-".to_string();
    }
    let mut text = String::with_capacity(2 * octets.len());
    for &octet in octets {
        text.push(char::from(DIGITS[usize::from(octet >> 4)]));
        text.push(char::from(DIGITS[usize::from(octet & 0x0f)]));
    }
    text
}

/// A clockIdentity.
pub fn clock(identity: u64) -> String {
    format!("0x{identity:016x}")
}

/// A clock and its port.
pub fn identity(identity: PortIdentity) -> String {
    format!("{} {}", clock(identity.clock), identity.port)
}

/// A message as reading answers it.
pub fn message(message: &Message) -> String {
    format!(
        "{} {} {} {}",
        message.body.message_type().number(),
        header(&message.header),
        body(&message.body),
        octets(message.tail)
    )
}

/// A header's fields.
fn header(header: &Header) -> String {
    format!(
        "{} {} {} {} {} {} {}",
        header.transport_specific,
        header.domain,
        header.flags,
        header.correction,
        identity(header.source),
        header.sequence,
        header.log_interval
    )
}

/// A body's fields.
fn body(body: &Body) -> String {
    match *body {
        Body::Sync(stamp) | Body::DelayReq(stamp) | Body::FollowUp(stamp) => timestamp(stamp),
        Body::DelayResp(stamp, requesting) => {
            format!("{} {}", timestamp(stamp), identity(requesting))
        }
        Body::Announce(stamp, ref fields) => {
            format!("{} {}", timestamp(stamp), announce(fields))
        }
        Body::Signaling(target) => identity(target),
    }
}

/// Seconds and nanoseconds.
fn timestamp(stamp: Timestamp) -> String {
    format!("{} {}", stamp.seconds, stamp.nanoseconds)
}

/// An Announce's fields behind its timestamp.
fn announce(fields: &Announce) -> String {
    format!(
        "{} {} {} {} {} {} {} {} {}",
        fields.utc_offset,
        fields.priority1,
        fields.class,
        fields.accuracy,
        fields.variance,
        fields.priority2,
        clock(fields.grandmaster),
        fields.steps_removed,
        fields.time_source
    )
}

/// A count, then AT TYPE LENGTH of that many TLVs.
pub fn tlvs(tlvs: &[Tlv]) -> String {
    let mut text = tlvs.len().to_string();
    for tlv in tlvs {
        text.push_str(&format!(" {} {} {}", tlv.at, tlv.tlv_type, tlv.data.len()));
    }
    text
}

/// A link message's number and values.
pub fn link_message(message: LinkMessage) -> String {
    let number = message.number();
    match message {
        LinkMessage::Calibrate {
            pattern,
            retry,
            period,
        } => format!("{number} {pattern} {retry} {period}"),
        LinkMessage::Calibrated { delta_tx, delta_rx } => {
            format!("{number} {delta_tx} {delta_rx}")
        }
        _ => number.to_string(),
    }
}

/// The answer of a comparison.
pub fn verdict(verdict: Verdict) -> &'static str {
    match verdict {
        Verdict::Better(Side::A) => "a",
        Verdict::Better(Side::B) => "b",
        Verdict::BetterByTopology(Side::A) => "a-topology",
        Verdict::BetterByTopology(Side::B) => "b-topology",
        Verdict::Error1 => "error-1",
        Verdict::Error2 => "error-2",
    }
}

/// The eighteen ports' decisions, then the list they follow from.
pub fn decided(decided: &Decided) -> String {
    format!("{} {}", decisions(&decided.ports), list(&decided.ranked))
}

/// Ports' decisions, one behind the other.
pub fn decisions(ports: &[Decision]) -> String {
    let names: Vec<&str> = ports.iter().map(|&port| decision(port)).collect();
    names.join(" ")
}

/// A decision's name.
pub fn decision(decision: Decision) -> &'static str {
    match decision {
        Decision::M1 => "M1",
        Decision::M2 => "M2",
        Decision::M3 => "M3",
        Decision::S1 => "S1",
        Decision::S2 => "S2",
        Decision::P1 => "P1",
        Decision::P2 => "P2",
    }
}

/// A count, then that many candidates.
pub fn list(candidates: &[Candidate]) -> String {
    let mut text = candidates.len().to_string();
    for one in candidates {
        text.push(' ');
        text.push_str(&candidate(one));
    }
    text
}

/// A candidate's eleven numbers.
pub fn candidate(candidate: &Candidate) -> String {
    format!(
        "{} {} {} {} {} {} {} {} {} {}",
        candidate.quality.priority1,
        candidate.quality.class,
        candidate.quality.accuracy,
        candidate.quality.variance,
        candidate.quality.priority2,
        clock(candidate.grandmaster),
        candidate.steps_removed,
        identity(candidate.sender),
        candidate.port,
        candidate.wr_flags
    )
}

/// STATE MODE RETRIES REPORT N, then the N messages sent.
pub fn link_step(step: &Step) -> String {
    let mut text = format!(
        "{} {} {} {} {}",
        link_state(step.link.state),
        u8::from(step.link.mode_on),
        step.link.retries,
        u8::from(step.reports_link_on),
        step.sent.len()
    );
    for &message in &step.sent {
        text.push(' ');
        text.push_str(&link_message(message));
    }
    text
}

/// A link state's name.
fn link_state(state: LinkState) -> &'static str {
    match state {
        LinkState::Idle => "idle",
        LinkState::Present => "present",
        LinkState::MLock => "m-lock",
        LinkState::SLock => "s-lock",
        LinkState::Locked => "locked",
        LinkState::Calibration(_) => "calibration",
        LinkState::Calibrated(_) => "calibrated",
        LinkState::RespCalibReq(_) => "resp-calib-req",
    }
}

/// LAST K N, then the N slots that ever held a record.
pub fn records(senders: &Senders) -> String {
    let mut text = format!(
        "{} {} {}",
        senders.last_time,
        senders.log_interval,
        senders.held().count()
    );
    for (slot, held) in senders.held() {
        text.push_str(&format!(" {slot} {}", record(&held)));
    }
    text
}

/// CLOCK PORT SEQUENCE RECEIPTS NEWEST OLDER
fn record(record: &Record) -> String {
    format!(
        "{} {} {} {} {}",
        identity(record.announced.sender),
        record.announced.sequence,
        1 + u8::from(record.older.is_some()),
        record.newest,
        record.older.unwrap_or(0)
    )
}
