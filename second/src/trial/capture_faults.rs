//! What makes a capture be refused, each fault on both sides of its edge and
//! alone or among others; some of these changes are no fault.

use super::captures::{ptp_frame, CaptureDraft, FrameDraft};
use super::random::Random;
use crate::engine::block::LONGEST_MESSAGE;

/// Magics that are none, but near one: octets exchanged in pairs, pairs
/// exchanged, of neighbours and of other kinds of files.
const WRONG_MAGICS: [u32; 14] = [
    0xb2a1_d4c3,
    0xb2a1_4d3c,
    0xc3d4_a1b2,
    0x3c4d_a1b2,
    0xa1b2_c3d5,
    0xa1b2_c3d3,
    0xa1b2_3c4e,
    0xa1b2_4d3c,
    0xa1b2_cd34,
    0xa2b1_c3d4,
    0x0a0d_0d0a,
    0x1a2b_3c4d,
    0,
    0xffff_ffff,
];
/// Versions that are none.
const WRONG_VERSIONS: [(u16, u16); 12] = [
    (2, 3),
    (2, 3),
    (2, 5),
    (2, 5),
    (4, 2),
    (4, 2),
    (1, 4),
    (3, 4),
    (0x0200, 0x0400),
    (0x0102, 4),
    (2, 0x0104),
    (0, 0),
];
/// Link types that are not Ethernet's alone.
const WRONG_LINK_TYPES: [u32; 12] = [
    0x1000_0001,
    0x1000_0001,
    0x0100_0000,
    0x0100_0000,
    0x0001_0001,
    0x8000_0001,
    0x0000_0101,
    0x0001_0000,
    0,
    2,
    101,
    113,
];

/// Puts a fault in; one of a frame where there is a frame.
pub fn spoil(random: &mut Random, capture: &mut CaptureDraft) {
    match random.below(30) {
        0 => spoil_magic(random, capture),
        1 => capture.version = random.pick(&WRONG_VERSIONS),
        2 => capture.link_type = random.pick(&WRONG_LINK_TYPES),
        3 | 4 => spoil_fraction(random, capture),
        5 | 6 => store_less(random, capture),
        7 => run_past(random, capture),
        8 => capture.loose_end = loose_end(random, capture),
        9 => cut(random, capture),
        10..=18 => lengthen_message(random, capture),
        _ => lower_time(random, capture),
    }
}

/// Another magic, or the rest of the file in the other order.
fn spoil_magic(random: &mut Random, capture: &mut CaptureDraft) {
    match random.below(4) {
        0 => capture.magic ^= 1 << random.below(32),
        1 => capture.magic = capture.magic.swap_bytes(),
        _ => capture.magic = random.pick(&WRONG_MAGICS),
    }
}

/// One of the frames, the last more often than others.
fn some_frame<'a>(
    random: &mut Random,
    capture: &'a mut CaptureDraft,
) -> Option<&'a mut FrameDraft> {
    let last = capture.frames.len().checked_sub(1)?;
    let any = random.place(capture.frames.len());
    let at = random.pick(&[any, any, last]);
    capture.frames.get_mut(at)
}

/// A fraction at a second or past it, in the one unit or the other; in
/// nanoseconds a second's microseconds are no fault.
fn spoil_fraction(random: &mut Random, capture: &mut CaptureDraft) {
    let second = capture.form.fractions() as u32;
    let far = random.pick(&[
        999_999,
        1_000_000,
        999_999_999,
        1_000_000_000,
        u32::MAX,
        1 << 31,
    ]);
    let fraction = random.pick(&[second, second, second + 1, second - 1, far, far]);
    if let Some(frame) = some_frame(random, capture) {
        frame.fraction = fraction;
    }
}

/// Less is stored of a frame than there was: its end is gone, or the original
/// length is greater.
fn store_less(random: &mut Random, capture: &mut CaptureDraft) {
    let Some(frame) = some_frame(random, capture) else {
        return;
    };
    if random.chance(1, 3) && !frame.octets.is_empty() {
        frame.octets.pop();
        frame.stored = frame.stored.saturating_sub(1);
        return;
    }
    let original = [
        frame.stored.saturating_add(1),
        frame.stored.saturating_add(1),
        frame.stored.saturating_add(256),
        u32::MAX,
        1 << 31,
    ];
    frame.original = random.pick(&original);
}

/// A frame's stored length passes the file's end: the last one's by a little, or
/// any by as much as 32 bits hold.
fn run_past(random: &mut Random, capture: &mut CaptureDraft) {
    let far = random.pick(&[u32::MAX, u32::MAX - 15, 1 << 31, 0x0100_0000, 65_536]);
    let is_far = random.chance(1, 2);
    let keeps_original = random.chance(1, 2);
    let frame = if is_far {
        some_frame(random, capture)
    } else {
        capture.frames.last_mut()
    };
    if let Some(frame) = frame {
        frame.stored = if is_far {
            far
        } else {
            frame.stored.saturating_add(1)
        };
        if !keeps_original {
            frame.original = frame.stored;
        }
    }
}

/// Octets behind the last frame: too few for a head, or just enough, which is no
/// fault where they are zeros.
fn loose_end(random: &mut Random, capture: &CaptureDraft) -> Vec<u8> {
    let few = 1 + random.place(15);
    let count = random.pick(&[few, few, few, 1, 15, 16, 17]);
    match (random.below(3), capture.frames.last()) {
        (0, Some(last)) => {
            let mut begin = last.laid_out(capture.form);
            begin.truncate(count);
            begin
        }
        (1, _) => vec![0xff; count],
        _ => vec![0; count],
    }
}

/// Leaves the front of the file: none or some of its head, or all but a few
/// octets of its end.
fn cut(random: &mut Random, capture: &mut CaptureDraft) {
    let whole = capture.octets().len();
    let of_head = random.pick(&[0, 1, 4, 8, 20, 22, 23]);
    let few = random.pick(&[1, 1, 2, 14, 15, 16, 17]);
    let any = random.place(whole + 1);
    let left = random.pick(&[of_head, whole.saturating_sub(few), any]);
    capture.cut_to = Some(left);
}

/// Gives a frame of PTP's a message about as long as one may be, mostly one
/// octet longer.
fn lengthen_message(random: &mut Random, capture: &mut CaptureDraft) {
    let over = LONGEST_MESSAGE + 1;
    let count = random.pick(&[over, over, over, over, over + 1, LONGEST_MESSAGE, 512, 741]);
    let count = if random.chance(1, 20) { 1500 } else { count };
    let octet = random.octet();
    let octets = ptp_frame(random, &vec![octet; count]);
    if let Some(frame) = some_frame(random, capture) {
        frame.stored = octets.len() as u32;
        frame.original = frame.stored;
        frame.octets = octets;
    }
}

/// Lets the time of a frame fall below that of one before it, mostly by the
/// least there is; among frames that are passed over this is no fault.
fn lower_time(random: &mut Random, capture: &mut CaptureDraft) {
    let last = capture.frames.iter().rposition(FrameDraft::is_ptp);
    let Some(last) = last.filter(|&last| last > 0) else {
        return;
    };
    let any = 1 + random.place(capture.frames.len() - 1);
    let at = random.pick(&[last, last, any]);
    let before = (
        capture.frames[at - 1].seconds,
        capture.frames[at - 1].fraction,
    );
    let greatest = capture.form.fractions() as u32 - 1;
    let lower = match before {
        (0, 0) => (0, 0),
        (seconds, 0) => (seconds - 1, greatest),
        (seconds, fraction) => (seconds, fraction - 1),
    };
    let far = (before.0.saturating_sub(1), before.1);
    let (seconds, fraction) = random.pick(&[lower, lower, lower, far, (0, 0)]);
    capture.frames[at].seconds = seconds;
    capture.frames[at].fraction = fraction;
}
