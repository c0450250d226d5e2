//! White Rabbit TLVs (001, Table 5) and the messages they carry (003, Table 4,
//! with the data sizes of document 01).

use super::octets::{push_number, u16_at, u32_at, u64_at};
use super::refusal::Refusal;
use super::tlv::Tlv;

pub const SLAVE_PRESENT: u16 = 0x1000;
pub const LOCK: u16 = 0x1001;
pub const LOCKED: u16 = 0x1002;
pub const CALIBRATE: u16 = 0x1003;
pub const CALIBRATED: u16 = 0x1004;
pub const WR_MODE_ON: u16 = 0x1005;
pub const ANN_SUFIX: u16 = 0x2000;

/// ORGANIZATION_EXTENSION, the TLV type that a White Rabbit TLV has.
pub const ORGANIZATION_EXTENSION: u16 = 0x0003;
/// The organization's identifier.
pub const OUI: [u8; 3] = [0x08, 0x00, 0x30];
/// The version of the protocol in the TLV.
pub const VERSION: u8 = 0x01;
/// Organization, magic, version and message number: what stands before the data.
pub const PREFIX: usize = 8;
/// The bits of wrFlags that are not reserved.
const FLAGS_USED: u16 = 0x000f;

/// The number of data octets a message has; none for a number not listed.
pub fn data_size(number: u16) -> Option<usize> {
    match number {
        SLAVE_PRESENT | LOCK | LOCKED | WR_MODE_ON => Some(0),
        CALIBRATE => Some(6),
        CALIBRATED => Some(16),
        ANN_SUFIX => Some(2),
        _ => None,
    }
}

/// A message between the two ends of a link, with its values.
#[derive(Clone, Copy, Debug, PartialEq, Eq)]
pub enum LinkMessage {
    SlavePresent,
    Lock,
    Locked,
    Calibrate { pattern: u8, retry: u8, period: u32 },
    Calibrated { delta_tx: u64, delta_rx: u64 },
    WrModeOn,
}

impl LinkMessage {
    /// The message's number.
    pub fn number(self) -> u16 {
        match self {
            LinkMessage::SlavePresent => SLAVE_PRESENT,
            LinkMessage::Lock => LOCK,
            LinkMessage::Locked => LOCKED,
            LinkMessage::Calibrate { .. } => CALIBRATE,
            LinkMessage::Calibrated { .. } => CALIBRATED,
            LinkMessage::WrModeOn => WR_MODE_ON,
        }
    }

    /// The octets of its data.
    fn data(self) -> Vec<u8> {
        let mut data = Vec::new();
        match self {
            LinkMessage::Calibrate {
                pattern,
                retry,
                period,
            } => {
                data.extend([pattern, retry]);
                push_number(&mut data, u64::from(period), 4);
            }
            LinkMessage::Calibrated { delta_tx, delta_rx } => {
                push_number(&mut data, delta_tx, 8);
                push_number(&mut data, delta_rx, 8);
            }
            _ => {}
        }
        data
    }
}

/// The TLV of a link message.
pub fn link_message_tlv(message: LinkMessage, magic: u16) -> Vec<u8> {
    message_tlv(message.number(), &message.data(), magic)
}

/// The TLV of an ANN_SUFIX; the reserved bits of wrFlags are written as zero.
pub fn suffix_tlv(wr_flags: u16, magic: u16) -> Vec<u8> {
    let data = (wr_flags & FLAGS_USED).to_be_bytes();
    message_tlv(ANN_SUFIX, &data, magic)
}

/// The TLV of the message of that number with those data.
fn message_tlv(number: u16, data: &[u8], magic: u16) -> Vec<u8> {
    let mut tlv = Vec::new();
    push_number(&mut tlv, u64::from(ORGANIZATION_EXTENSION), 2);
    push_number(&mut tlv, (PREFIX + data.len()) as u64, 2);
    tlv.extend(OUI);
    push_number(&mut tlv, u64::from(magic), 2);
    tlv.push(VERSION);
    push_number(&mut tlv, u64::from(number), 2);
    tlv.extend_from_slice(data);
    tlv
}

/// The number and the data of a TLV that has the White Rabbit form under this
/// magic and a listed number; none for every TLV that is passed over.
fn known_message<'a>(tlv: &Tlv<'a>, magic: u16) -> Option<(u16, &'a [u8])> {
    let has_form = tlv.tlv_type == ORGANIZATION_EXTENSION
        && tlv.data.len() >= PREFIX
        && tlv.data[0..3] == OUI
        && u16_at(tlv.data, 3) == magic
        && tlv.data[5] == VERSION;
    if !has_form {
        return None;
    }
    let number = u16_at(tlv.data, 6);
    data_size(number).map(|_| (number, &tlv.data[PREFIX..]))
}

/// Refuses a run of TLVs at the first in which a known message has a wrong data
/// size.
pub fn check_sizes(tlvs: &[Tlv], magic: u16) -> Result<(), Refusal> {
    match tlvs.iter().find(|tlv| has_wrong_size(tlv, magic)) {
        Some(tlv) => Err(Refusal::WrBad { at: tlv.at }),
        None => Ok(()),
    }
}

/// Whether a TLV holds a known message with a wrong data size.
fn has_wrong_size(tlv: &Tlv, magic: u16) -> bool {
    known_message(tlv, magic).is_some_and(|(number, data)| data_size(number) != Some(data.len()))
}

/// wrFlags of the first ANN_SUFIX, reserved bits left out.  The sizes have been
/// checked before.
pub fn first_suffix(tlvs: &[Tlv], magic: u16) -> Option<u16> {
    tlvs.iter()
        .filter_map(|tlv| known_message(tlv, magic))
        .find(|(number, _)| *number == ANN_SUFIX)
        .map(|(_, data)| u16_at(data, 0) & FLAGS_USED)
}

/// The first link message with its values.  The sizes have been checked before.
pub fn first_link_message(tlvs: &[Tlv], magic: u16) -> Option<LinkMessage> {
    tlvs.iter()
        .filter_map(|tlv| known_message(tlv, magic))
        .find_map(|(number, data)| link_message(number, data))
}

/// The link message of that number with those data; none for ANN_SUFIX.
fn link_message(number: u16, data: &[u8]) -> Option<LinkMessage> {
    match number {
        SLAVE_PRESENT => Some(LinkMessage::SlavePresent),
        LOCK => Some(LinkMessage::Lock),
        LOCKED => Some(LinkMessage::Locked),
        CALIBRATE => Some(LinkMessage::Calibrate {
            pattern: data[0],
            retry: data[1],
            period: u32_at(data, 2),
        }),
        CALIBRATED => Some(LinkMessage::Calibrated {
            delta_tx: u64_at(data, 0),
            delta_rx: u64_at(data, 8),
        }),
        WR_MODE_ON => Some(LinkMessage::WrModeOn),
        _ => None,
    }
}
