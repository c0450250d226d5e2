//! The six messages of IEEE 1588-2008, clause 13, that the engine knows, as
//! values.

/// The header's octets.
pub const HEADER_SIZE: usize = 34;
/// Nanoseconds in a second, the first count a timestamp may not hold.
pub const SECOND: u32 = 1_000_000_000;

/// The types listed in document 01.
#[derive(Clone, Copy, Debug, PartialEq, Eq)]
pub enum MessageType {
    Sync,
    DelayReq,
    FollowUp,
    DelayResp,
    Announce,
    Signaling,
}

/// All of them, in the order of their numbers.
pub const LISTED_TYPES: [MessageType; 6] = [
    MessageType::Sync,
    MessageType::DelayReq,
    MessageType::FollowUp,
    MessageType::DelayResp,
    MessageType::Announce,
    MessageType::Signaling,
];

impl MessageType {
    /// The type of a number, where it is listed.
    pub fn from_number(number: u8) -> Option<MessageType> {
        LISTED_TYPES.into_iter().find(|t| t.number() == number)
    }

    /// The number in the low half of octet 0.
    pub fn number(self) -> u8 {
        match self {
            MessageType::Sync => 0x0,
            MessageType::DelayReq => 0x1,
            MessageType::FollowUp => 0x8,
            MessageType::DelayResp => 0x9,
            MessageType::Announce => 0xb,
            MessageType::Signaling => 0xc,
        }
    }

    /// The octets before the tail.
    pub fn fixed_size(self) -> usize {
        match self {
            MessageType::DelayResp => 54,
            MessageType::Announce => 64,
            _ => 44,
        }
    }

    /// Whether a timestamp stands at octet 34; Signaling has its target there.
    pub fn has_timestamp(self) -> bool {
        self != MessageType::Signaling
    }
}

/// A port's ten octets: clock, then port.
#[derive(Clone, Copy, Debug, PartialEq, Eq, PartialOrd, Ord)]
pub struct PortIdentity {
    pub clock: u64,
    pub port: u16,
}

/// A time of 48-bit seconds and 32-bit nanoseconds.
#[derive(Clone, Copy, Debug, PartialEq, Eq)]
pub struct Timestamp {
    pub seconds: u64,
    pub nanoseconds: u32,
}

/// The header's fields that a reader hands on.
#[derive(Clone, Copy, Debug, PartialEq, Eq)]
pub struct Header {
    pub transport_specific: u8,
    pub domain: u8,
    pub flags: u16,
    pub correction: i64,
    pub source: PortIdentity,
    pub sequence: u16,
    pub log_interval: i8,
}

/// What an Announce holds behind its timestamp.
#[derive(Clone, Copy, Debug, PartialEq, Eq)]
pub struct Announce {
    pub utc_offset: i16,
    pub priority1: u8,
    pub class: u8,
    pub accuracy: u8,
    pub variance: u16,
    pub priority2: u8,
    pub grandmaster: u64,
    pub steps_removed: u16,
    pub time_source: u8,
}

/// The fields from octet 34 to the tail, by type.
#[derive(Clone, Copy, Debug, PartialEq, Eq)]
pub enum Body {
    Sync(Timestamp),
    DelayReq(Timestamp),
    FollowUp(Timestamp),
    DelayResp(Timestamp, PortIdentity),
    Announce(Timestamp, Announce),
    Signaling(PortIdentity),
}

impl Body {
    /// The type that has this body.
    pub fn message_type(&self) -> MessageType {
        match self {
            Body::Sync(_) => MessageType::Sync,
            Body::DelayReq(_) => MessageType::DelayReq,
            Body::FollowUp(_) => MessageType::FollowUp,
            Body::DelayResp(..) => MessageType::DelayResp,
            Body::Announce(..) => MessageType::Announce,
            Body::Signaling(_) => MessageType::Signaling,
        }
    }
}

/// A message with its tail.
#[derive(Clone, Copy, Debug, PartialEq, Eq)]
pub struct Message<'a> {
    pub header: Header,
    pub body: Body,
    pub tail: &'a [u8],
}
