//! From a capture to a trace and back (document 02, (vi)): PTP messages come and
//! go in Ethernet frames of their own EtherType.

use super::candidate::check_port;
use super::capture::{capture_of, frames_of, Frame};
use super::received::Received;
use super::recording::Recording;
use super::refusal::{refuse_if, Refusal};
use super::replay::records_of_trace;

/// The octets before what a frame carries: two addresses and the EtherType.
pub const ETHERNET_HEAD: usize = 14;
/// Where the EtherType stands, behind the addresses.
const ETHERTYPE_AT: usize = 12;
/// The EtherType of PTP, big-endian in every capture.
const PTP: [u8; 2] = [0x88, 0xf7];

/// The trace of a capture whose frames a port received: 21 for anything in the
/// whole file, 8, then what recording gives the first frame that it refuses.
pub fn import(file: &[u8], port: u8) -> Result<Vec<u8>, Refusal> {
    let frames = frames_of(file)?;
    check_port(port)?;
    let mut recording = Recording::beginning_at(0);
    let mut trace = Vec::new();
    for frame in &frames {
        if let Some(received) = received_in(frame, port) {
            trace.extend(recording.record(&received)?.unwrap_or_default());
        }
    }
    trace.extend(recording.open_block().unwrap_or_default());
    Ok(trace)
}

/// The message that a port received in a frame: all behind the head of one that
/// is PTP's; none where the frame is another's or too short for a head.
fn received_in(frame: &Frame, port: u8) -> Option<Received> {
    let head = frame.octets.get(..ETHERNET_HEAD)?;
    (head[ETHERTYPE_AT..] == PTP).then(|| Received {
        port,
        time: frame.time,
        octets: frame.octets[ETHERNET_HEAD..].to_vec(),
    })
}

/// The capture of a trace: 20 as in replay, 22 where it mixes ports or the
/// seconds of a time pass 32 bits.
pub fn export(trace: &[u8]) -> Result<Vec<u8>, Refusal> {
    let records = records_of_trace(trace)?;
    let mixes_ports = records.windows(2).any(|two| two[0].port != two[1].port);
    refuse_if(mixes_ports, Refusal::Export)?;
    let frames: Vec<Frame> = records.iter().map(frame_of).collect();
    capture_of(&frames).ok_or(Refusal::Export)
}

/// The frame that carries a record's message, its addresses zero.
fn frame_of(record: &Received) -> Frame {
    let mut octets = vec![0; ETHERTYPE_AT];
    octets.extend_from_slice(&PTP);
    octets.extend_from_slice(&record.octets);
    Frame {
        time: record.time,
        octets,
    }
}

/// Puts a file at the front of `room` and answers its length; the octets behind
/// it stay, and all of them where there are too few: 16.
pub fn put_into(room: &mut [u8], file: &[u8]) -> Result<usize, Refusal> {
    refuse_if(room.len() < file.len(), Refusal::Room)?;
    room[..file.len()].copy_from_slice(file);
    Ok(file.len())
}

#[cfg(test)]
mod tests {
    use super::*;
    use crate::engine::clock::Clock;
    use crate::trial::candidates::port;
    use crate::trial::captures::END_OF_SECONDS;
    use crate::trial::random::Random;
    use crate::trial::scene_lines::base;
    use crate::trial::traces::{blocks, history};

    #[test]
    fn importing_an_exported_trace_under_its_own_port_gives_back_its_records() {
        let mut random = Random::new(7);
        let mut written = 0;
        for _ in 0..3000 {
            let base = base(&mut random);
            let mut history = history(&mut random, &mut Clock::fresh(), &base);
            let port = port(&mut random);
            history.iter_mut().for_each(|one| one.port = port);
            let trace = blocks(&mut random, &history).concat();
            if history.iter().any(|one| one.time >= END_OF_SECONDS) {
                assert_eq!(export(&trace), Err(Refusal::Export));
                continue;
            }
            written += 1;
            let file = export(&trace).unwrap();
            let again = import(&file, port).unwrap();
            assert_eq!(records_of_trace(&again), records_of_trace(&trace));
            assert_eq!(export(&again), Ok(file));
        }
        assert!((2000..2900).contains(&written), "{written}");
    }
}
