//! The rules of document 01, with requests (i) to (vi) of document 02, written
//! from these, the sources they name and the agreed readings alone.  Nothing
//! here knows of lines or text.

pub mod block;
pub mod candidate;
pub mod capture;
pub mod clock;
pub mod comparison;
pub mod decision;
pub mod delay;
pub mod link;
pub mod message;
pub mod octets;
pub mod origin;
pub mod ranking;
pub mod reading;
pub mod received;
pub mod recording;
pub mod refusal;
pub mod replay;
pub mod senders;
pub mod tlv;
pub mod transfer;
pub mod white_rabbit;
pub mod writing;
