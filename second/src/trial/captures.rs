//! Captures in the making: the fields of a pcap file, each of which may be
//! spoiled before the octets are laid out in one of the four forms.

use super::messages;
use super::random::Random;
use super::traces::{history, longest_that_fits};
use super::values;
use crate::engine::block::LONGEST_MESSAGE;
use crate::engine::candidate::Candidate;
use crate::engine::clock::Clock;
use crate::engine::received::Received;
use crate::engine::recording::Recording;

/// The EtherType of PTP, and that of a VLAN tag.
const PTP: [u8; 2] = [0x88, 0xf7];
const VLAN: [u8; 2] = [0x81, 0x00];
/// EtherTypes of others, some of them near PTP's.
const OTHERS: [[u8; 2]; 10] = [
    [0xf7, 0x88],
    [0xf7, 0x88],
    [0x08, 0x00],
    [0x86, 0xdd],
    [0x88, 0xf6],
    [0x88, 0xf8],
    [0x89, 0xf7],
    [0x00, 0xf7],
    [0x88, 0x00],
    [0x00, 0x2c],
];
/// Nanoseconds of a second.
const SECOND: u64 = 1_000_000_000;
/// The first time whose seconds pass 32 bits.
pub const END_OF_SECONDS: u64 = SECOND << 32;

/// The form of a file.
#[derive(Clone, Copy, PartialEq, Eq)]
pub struct CaptureForm {
    pub is_little: bool,
    pub is_nano: bool,
}

/// All four forms.
pub const FORMS: [CaptureForm; 4] = [
    CaptureForm {
        is_little: false,
        is_nano: false,
    },
    CaptureForm {
        is_little: false,
        is_nano: true,
    },
    CaptureForm {
        is_little: true,
        is_nano: false,
    },
    CaptureForm {
        is_little: true,
        is_nano: true,
    },
];

impl CaptureForm {
    /// The magic of the form.
    pub fn magic(self) -> u32 {
        if self.is_nano {
            0xa1b2_3c4d
        } else {
            0xa1b2_c3d4
        }
    }

    /// How many fractions make a second.
    pub fn fractions(self) -> u64 {
        if self.is_nano {
            SECOND
        } else {
            SECOND / 1000
        }
    }

    /// Puts the lowest `width` octets of a number behind those already there.
    fn push(self, octets: &mut Vec<u8>, value: u64, width: usize) {
        if self.is_little {
            octets.extend_from_slice(&value.to_le_bytes()[..width]);
        } else {
            octets.extend_from_slice(&value.to_be_bytes()[8 - width..]);
        }
    }
}

/// A frame with its head.
#[derive(Clone)]
pub struct FrameDraft {
    pub seconds: u32,
    pub fraction: u32,
    pub stored: u32,
    pub original: u32,
    pub octets: Vec<u8>,
}

impl FrameDraft {
    /// A frame of some octets, all of which are stored, at a time in fractions.
    fn of(form: CaptureForm, time: u64, octets: Vec<u8>) -> FrameDraft {
        let length = octets.len() as u32;
        FrameDraft {
            seconds: (time / form.fractions()) as u32,
            fraction: (time % form.fractions()) as u32,
            stored: length,
            original: length,
            octets,
        }
    }

    /// The octets of the frame's head and of the frame.
    pub fn laid_out(&self, form: CaptureForm) -> Vec<u8> {
        let mut octets = Vec::new();
        for field in [self.seconds, self.fraction, self.stored, self.original] {
            form.push(&mut octets, field.into(), 4);
        }
        octets.extend_from_slice(&self.octets);
        octets
    }

    /// Whether the frame is PTP's.
    pub fn is_ptp(&self) -> bool {
        self.octets.get(12..14) == Some(&PTP[..])
    }
}

/// A capture's fields.
#[derive(Clone)]
pub struct CaptureDraft {
    pub form: CaptureForm,
    pub magic: u32,
    pub version: (u16, u16),
    pub zone: u32,
    pub precision: u32,
    pub snapshot: u32,
    pub link_type: u32,
    pub frames: Vec<FrameDraft>,
    /// What stands behind the last frame.
    pub loose_end: Vec<u8>,
    /// How many octets are left of the file, if not all.
    pub cut_to: Option<usize>,
}

impl CaptureDraft {
    /// A capture of some frames without a fault.  What no reader looks at is
    /// mostly zero.
    fn sound(random: &mut Random, form: CaptureForm, frames: Vec<FrameDraft>) -> CaptureDraft {
        let mut ignored = |usual: u32| {
            let any = values::number(random, 32) as u32;
            random.pick(&[usual, usual, usual, any])
        };
        CaptureDraft {
            form,
            magic: form.magic(),
            version: (2, 4),
            zone: ignored(0),
            precision: ignored(0),
            snapshot: ignored(65_535),
            link_type: 1,
            frames,
            loose_end: Vec::new(),
            cut_to: None,
        }
    }

    /// The file's octets.
    pub fn octets(&self) -> Vec<u8> {
        let mut file = self.head();
        for frame in &self.frames {
            file.extend(frame.laid_out(self.form));
        }
        file.extend_from_slice(&self.loose_end);
        file.truncate(self.cut_to.unwrap_or(file.len()));
        file
    }

    /// The head's octets.
    fn head(&self) -> Vec<u8> {
        let mut head = Vec::new();
        let put = |head: &mut Vec<u8>, value: u32, width| {
            self.form.push(head, value.into(), width);
        };
        put(&mut head, self.magic, 4);
        put(&mut head, self.version.0.into(), 2);
        put(&mut head, self.version.1.into(), 2);
        for field in [self.zone, self.precision, self.snapshot, self.link_type] {
            put(&mut head, field, 4);
        }
        head
    }

    /// The same capture in another form; fractions of a second stay, as far as
    /// microseconds can tell them.
    pub fn in_form(&self, form: CaptureForm) -> CaptureDraft {
        let mut other = self.clone();
        other.form = form;
        if self.magic == self.form.magic() {
            other.magic = form.magic();
        }
        for frame in &mut other.frames {
            frame.fraction = match (self.form.is_nano, form.is_nano) {
                (true, false) => frame.fraction / 1000,
                (false, true) => frame.fraction.saturating_mul(1000),
                _ => frame.fraction,
            };
        }
        other
    }
}

/// A capture without a fault: of what a port would hear under a clock's
/// settings, or of messages of any length, with frames of others among them.
pub fn sound_capture(random: &mut Random, clock: &Clock, base: &Candidate) -> CaptureDraft {
    let form = random.pick(&FORMS);
    let frames = if random.chance(1, 3) {
        heard_frames(random, form, clock, base)
    } else {
        let count = random.pick(&[0, 1, 1, 1, 2, 2, 3, 3, 4, 5, 6, 8, 12]);
        frames(random, form, count)
    };
    let mut capture = CaptureDraft::sound(random, form, frames);
    if random.chance(1, 6) {
        store_more(random, &mut capture.frames);
    }
    capture
}

/// A capture of very many short frames, about as many as a line has room for.
pub fn long_capture(random: &mut Random) -> CaptureDraft {
    let form = random.pick(&FORMS);
    let size = random.pick(&[0, 0, 44, 64, 100]);
    let count = random.pick(&[90_000, 140_000, 149_000]) / (size + 30);
    let mut time = start(random, form) / 2;
    let frames = (0..count)
        .map(|_| {
            time += random.below(2);
            let octet = random.octet();
            FrameDraft::of(form, time, ptp_frame(random, &vec![octet; size]))
        })
        .collect();
    CaptureDraft::sound(random, form, frames)
}

/// The frames of a history, as if one port had received all of it, with frames
/// of others among them.
fn heard_frames(
    random: &mut Random,
    form: CaptureForm,
    clock: &Clock,
    base: &Candidate,
) -> Vec<FrameDraft> {
    let mut clock = clock.clone();
    clock.forget_senders();
    let mut frames = Vec::new();
    for received in history(random, &mut clock, base) {
        let time = received.time.min(END_OF_SECONDS - 1) / (SECOND / form.fractions());
        if random.chance(1, 8) {
            let other = other_frame(random, &received.octets);
            frames.push(FrameDraft::of(form, time, other));
        }
        let octets = ptp_frame(random, &received.octets);
        frames.push(FrameDraft::of(form, time, octets));
    }
    frames
}

/// So many frames at times that never fall.  Messages are recorded as they are
/// made, so that the next can be aimed at what the open block has left.
fn frames(random: &mut Random, form: CaptureForm, count: usize) -> Vec<FrameDraft> {
    let mut recording = Recording::beginning_at(0);
    let mut time = start(random, form);
    let mut frames = Vec::new();
    for _ in 0..count {
        time = later(random, form, time);
        let message = message(random, recording.octets_left());
        if random.chance(1, 4) {
            let other = other_frame(random, &message);
            frames.push(FrameDraft::of(form, time, other));
            continue;
        }
        let received = Received {
            port: 1,
            time: 0,
            octets: message,
        };
        let _ = recording.record(&received);
        let octets = ptp_frame(random, &received.octets);
        frames.push(FrameDraft::of(form, time, octets));
    }
    frames
}

/// The time at which a capture begins, in fractions.
fn start(random: &mut Random, form: CaptureForm) -> u64 {
    let any = random.below(1 << 32);
    let few = random.below(4);
    let seconds = random.pick(&[0, few, 1_700_000_000, 0x7fff_ffff, 0xffff_fffe, any]);
    seconds * form.fractions() + edge_fraction(random, form)
}

/// A fraction below a second, often at an edge of the one unit or the other.
fn edge_fraction(random: &mut Random, form: CaptureForm) -> u64 {
    let any = random.below(form.fractions());
    let last = form.fractions() - 1;
    let edge = random.pick(&[0, 1, 999, 1000, 999_999, 1_000_000, 999_999_999, last]);
    random.pick(&[edge, any]).min(last)
}

/// A time that is not earlier, in fractions, and not past the last of all.
fn later(random: &mut Random, form: CaptureForm, time: u64) -> u64 {
    let end = form.fractions() << 32;
    let next_second = (time / form.fractions() + 1) * form.fractions();
    let later = match random.below(10) {
        0..=3 => time,
        4 | 5 => time + 1,
        6 => next_second - 1,
        7 => next_second,
        8 => time + random.below(form.fractions()),
        _ => time + random.below(end / 256),
    };
    later.min(end - 1)
}

/// A message: one of any type and fault, or octets of some length, often at an
/// edge of what the open block has left.
fn message(random: &mut Random, octets_left: usize) -> Vec<u8> {
    let fitting = longest_that_fits(octets_left);
    let count = match random.below(40) {
        0..=4 => 0,
        5 | 6 => 1,
        7..=9 => fitting,
        10..=12 => fitting + 1,
        13 => fitting.saturating_sub(1),
        14 => LONGEST_MESSAGE,
        15 => LONGEST_MESSAGE - 1,
        16 => random.place(LONGEST_MESSAGE + 1),
        17..=24 => 2 + random.place(42),
        25..=30 => random.pick(&[44, 46, 54, 64]),
        _ => return short_message(random),
    };
    let octet = random.octet();
    match random.below(3) {
        0 => vec![octet; count.min(LONGEST_MESSAGE)],
        _ => random.octets(count.min(LONGEST_MESSAGE)),
    }
}

/// A message of any type, with Ethernet's padding where it has some, and without
/// its end where it is too long.
fn short_message(random: &mut Random) -> Vec<u8> {
    let mut octets = messages::message(random, 0xabcd, None).octets;
    octets.truncate(LONGEST_MESSAGE);
    if octets.len() < 46 && random.chance(1, 2) {
        octets.resize(46, 0);
    }
    octets
}

/// The two addresses of a frame.
fn addresses(random: &mut Random) -> Vec<u8> {
    let multicast = vec![1, 0x1b, 0x19, 0, 0, 0, 0, 1, 2, 3, 4, 5];
    match random.below(4) {
        0 => vec![0; 12],
        1 => PTP.repeat(6),
        2 => random.octets(12),
        _ => multicast,
    }
}

/// A frame of PTP's with a message.
pub fn ptp_frame(random: &mut Random, message: &[u8]) -> Vec<u8> {
    [&addresses(random)[..], &PTP, message].concat()
}

/// A frame that is passed over: too short, with a tag, or of another type.
fn other_frame(random: &mut Random, message: &[u8]) -> Vec<u8> {
    let addresses = addresses(random);
    match random.below(10) {
        0 => Vec::new(),
        1 => [&addresses[..], &PTP[..1]].concat(),
        2 => addresses,
        3 => [&PTP[..], message].concat()[..2.max(message.len().min(13))].to_vec(),
        4 | 5 => {
            let tag = [VLAN, [0, 7]].concat();
            [&addresses[..], &tag, &PTP, message].concat()
        }
        6 => [&addresses[..], &random.pick(&OTHERS)].concat(),
        _ => {
            let other = random.pick(&OTHERS);
            let inner = random.pick(&[PTP, PTP, [0x45, 0]]);
            [&addresses[..], &other, &inner, message].concat()
        }
    }
}

/// Gives some frame a lower original length than was stored, which is no fault.
fn store_more(random: &mut Random, frames: &mut [FrameDraft]) {
    if frames.is_empty() {
        return;
    }
    let at = random.place(frames.len());
    let stored = frames[at].stored;
    let lower = [stored.saturating_sub(1), 13, 14, 0, stored / 2];
    frames[at].original = random.pick(&lower).min(stored);
}

#[cfg(test)]
mod tests {
    use super::*;
    use crate::engine::transfer::import;
    use crate::trial::scene_lines::base;

    #[test]
    fn a_capture_without_a_fault_is_imported_in_every_form() {
        let mut random = Random::new(7);
        for _ in 0..2000 {
            let base = base(&mut random);
            let capture = sound_capture(&mut random, &Clock::fresh(), &base);
            let trace = import(&capture.octets(), 1).unwrap();
            let little = CaptureForm {
                is_little: !capture.form.is_little,
                ..capture.form
            };
            assert_eq!(import(&capture.in_form(little).octets(), 1), Ok(trace));
        }
    }
}
