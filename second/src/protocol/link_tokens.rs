//! Link settings, events and messages, taken from a line's tokens.

use super::tokens::Tokens;
use crate::engine::link::{LinkEvent, LinkSettings};
use crate::engine::white_rabbit::{
    LinkMessage, CALIBRATE, CALIBRATED, LOCK, LOCKED, SLAVE_PRESENT, WR_MODE_ON,
};

/// CONFIG CALIBRATE RETRY PERIOD TX RX
pub fn link_settings(tokens: &mut Tokens) -> Option<LinkSettings> {
    Some(LinkSettings {
        config: tokens.number()?,
        needs_calibration: tokens.flag()?,
        retry: tokens.number()?,
        period: tokens.number()?,
        delta_tx: tokens.number()?,
        delta_rx: tokens.number()?,
    })
}

/// `start PARENTCONFIG PARENTMODE`, `message NUMBER`, `done`, `timeout`, `stop`
pub fn link_event(tokens: &mut Tokens) -> Option<LinkEvent> {
    match tokens.word()? {
        b"start" => Some(LinkEvent::Start {
            parent_config: tokens.number()?,
            parent_mode_on: tokens.flag()?,
        }),
        b"message" => Some(LinkEvent::Message(tokens.number()?)),
        b"done" => Some(LinkEvent::Done),
        b"timeout" => Some(LinkEvent::Timeout),
        b"stop" => Some(LinkEvent::Stop),
        _ => None,
    }
}

/// NUMBER VALUES; `Some(None)` is a number that is no link message's, which has
/// no values.
pub fn link_message(tokens: &mut Tokens) -> Option<Option<LinkMessage>> {
    Some(match tokens.number::<u16>()? {
        SLAVE_PRESENT => Some(LinkMessage::SlavePresent),
        LOCK => Some(LinkMessage::Lock),
        LOCKED => Some(LinkMessage::Locked),
        CALIBRATE => Some(LinkMessage::Calibrate {
            pattern: tokens.number()?,
            retry: tokens.number()?,
            period: tokens.number()?,
        }),
        CALIBRATED => Some(LinkMessage::Calibrated {
            delta_tx: tokens.number()?,
            delta_rx: tokens.number()?,
        }),
        WR_MODE_ON => Some(LinkMessage::WrModeOn),
        _ => None,
    })
}
