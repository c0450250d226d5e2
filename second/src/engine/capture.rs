//! Captures: classic pcap files (document 02, (vi)).  A head of 24 octets has a
//! magic, the version, zone and precision of the times, a snapshot length and
//! the link type.  Behind it comes each frame with a head of its own: seconds,
//! a fraction of a second, stored and original length.
//!
//! A file comes in one of four forms, which its magic tells: the octets of its
//! numbers come in either order, and fractions count microseconds or
//! nanoseconds.

use super::message::SECOND;
use super::octets::push_number;
use super::refusal::{refuse_if, Refusal};

/// The octets of a capture's head.
pub const CAPTURE_HEAD: usize = 24;
/// The octets that stand before a frame.
pub const FRAME_HEAD: usize = 16;

/// Where the head has the major and the minor part of the version, and the link
/// type.
const MAJOR_AT: usize = 4;
const MINOR_AT: usize = 6;
const LINK_TYPE_AT: usize = 20;

/// Where a frame's head has the fraction, and the two lengths.
const FRACTION_AT: usize = 4;
const STORED_AT: usize = 8;
const ORIGINAL_AT: usize = 12;

/// The magic of a file whose fractions count microseconds.
const MICROSECOND_MAGIC: u64 = 0xa1b2_c3d4;
/// The magic of a file whose fractions count nanoseconds.
const NANOSECOND_MAGIC: u64 = 0xa1b2_3c4d;
/// The version, 2.4.
const MAJOR: u64 = 2;
const MINOR: u64 = 4;
/// The link type of Ethernet, of all 32 bits.
const ETHERNET: u64 = 1;
/// The snapshot length that we write.
const SNAPSHOT_LENGTH: u64 = 65_535;

/// A frame of a capture: its time in nanoseconds, and the octets stored of it.
#[derive(Clone, Debug, PartialEq, Eq)]
pub struct Frame {
    pub time: u64,
    pub octets: Vec<u8>,
}

/// The order of a number's octets.
#[derive(Clone, Copy)]
enum OctetOrder {
    Big,
    Little,
}

impl OctetOrder {
    /// The unsigned number in the `width` octets from `at` on.
    fn number_at(self, octets: &[u8], at: usize, width: usize) -> u64 {
        let append = |value, &octet: &u8| value << 8 | u64::from(octet);
        let octets = octets[at..at + width].iter();
        match self {
            OctetOrder::Big => octets.fold(0, append),
            OctetOrder::Little => octets.rev().fold(0, append),
        }
    }
}

/// What a fraction counts.
#[derive(Clone, Copy)]
enum TimeUnit {
    Microseconds,
    Nanoseconds,
}

impl TimeUnit {
    /// The unit that a magic stands for.
    fn of_magic(magic: u64) -> Option<TimeUnit> {
        match magic {
            MICROSECOND_MAGIC => Some(TimeUnit::Microseconds),
            NANOSECOND_MAGIC => Some(TimeUnit::Nanoseconds),
            _ => None,
        }
    }

    /// The nanoseconds that one of the unit lasts.
    fn nanoseconds(self) -> u64 {
        match self {
            TimeUnit::Microseconds => 1000,
            TimeUnit::Nanoseconds => 1,
        }
    }
}

/// One of the four forms of a file.
#[derive(Clone, Copy)]
struct Form {
    order: OctetOrder,
    unit: TimeUnit,
}

impl Form {
    /// The form that a head's magic tells, in the one order or the other.
    fn of_head(head: &[u8]) -> Option<Form> {
        [OctetOrder::Big, OctetOrder::Little]
            .into_iter()
            .find_map(|order| {
                let unit = TimeUnit::of_magic(order.number_at(head, 0, 4))?;
                Some(Form { order, unit })
            })
    }

    /// Whether a head tells our version.
    fn has_version(self, head: &[u8]) -> bool {
        let major = self.order.number_at(head, MAJOR_AT, 2);
        let minor = self.order.number_at(head, MINOR_AT, 2);
        (major, minor) == (MAJOR, MINOR)
    }

    /// Whether a head tells the link type of Ethernet.
    fn has_link_type(self, head: &[u8]) -> bool {
        self.order.number_at(head, LINK_TYPE_AT, 4) == ETHERNET
    }

    /// The frame that octets begin with, and the octets behind it: 21 where its
    /// fraction is a second or more, less of it is stored than there was, or the
    /// octets end before it does.
    fn first_frame(self, octets: &[u8]) -> Result<(Frame, &[u8]), Refusal> {
        let head = octets.get(..FRAME_HEAD).ok_or(Refusal::Pcap)?;
        let time = self.time(head).ok_or(Refusal::Pcap)?;
        let stored = self.order.number_at(head, STORED_AT, 4);
        let original = self.order.number_at(head, ORIGINAL_AT, 4);
        refuse_if(stored < original, Refusal::Pcap)?;
        let rest = &octets[FRAME_HEAD..];
        refuse_if(stored > rest.len() as u64, Refusal::Pcap)?;
        let (stored, behind) = rest.split_at(stored as usize);
        let octets = stored.to_vec();
        Ok((Frame { time, octets }, behind))
    }

    /// The time of a frame in nanoseconds; none where the fraction is a second
    /// or more.
    fn time(self, head: &[u8]) -> Option<u64> {
        let second = u64::from(SECOND);
        let seconds = self.order.number_at(head, 0, 4);
        let fraction = self.order.number_at(head, FRACTION_AT, 4) * self.unit.nanoseconds();
        (fraction < second).then_some(seconds * second + fraction)
    }
}

/// All frames of a capture: 21 for a wrong head or link type, or any frame that
/// is at fault.
pub fn frames_of(file: &[u8]) -> Result<Vec<Frame>, Refusal> {
    let head = file.get(..CAPTURE_HEAD).ok_or(Refusal::Pcap)?;
    let form = Form::of_head(head).ok_or(Refusal::Pcap)?;
    refuse_if(!form.has_version(head), Refusal::Pcap)?;
    refuse_if(!form.has_link_type(head), Refusal::Pcap)?;
    let mut rest = &file[CAPTURE_HEAD..];
    let mut frames = Vec::new();
    while !rest.is_empty() {
        let (frame, behind) = form.first_frame(rest)?;
        frames.push(frame);
        rest = behind;
    }
    Ok(frames)
}

/// The capture of some frames as we write it, big-endian and in nanoseconds:
/// none where the seconds of a time pass 32 bits.
pub fn capture_of(frames: &[Frame]) -> Option<Vec<u8>> {
    let mut file = Vec::new();
    push_head(&mut file);
    for frame in frames {
        push_frame(&mut file, frame)?;
    }
    Some(file)
}

/// Puts the head of a capture that we write behind what is there.
fn push_head(file: &mut Vec<u8>) {
    push_number(file, NANOSECOND_MAGIC, 4);
    push_number(file, MAJOR, 2);
    push_number(file, MINOR, 2);
    // Zone and precision.
    push_number(file, 0, 8);
    push_number(file, SNAPSHOT_LENGTH, 4);
    push_number(file, ETHERNET, 4);
}

/// Puts a frame behind those already there; none where the seconds of its time
/// pass 32 bits.
fn push_frame(file: &mut Vec<u8>, frame: &Frame) -> Option<()> {
    let second = u64::from(SECOND);
    let seconds = u32::try_from(frame.time / second).ok()?;
    push_number(file, u64::from(seconds), 4);
    push_number(file, frame.time % second, 4);
    let length = frame.octets.len() as u64;
    push_number(file, length, 4);
    push_number(file, length, 4);
    file.extend_from_slice(&frame.octets);
    Some(())
}
