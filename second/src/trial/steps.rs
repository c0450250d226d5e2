//! The stepsRemoved of Announces that a port is to take.  From 255 on a record
//! is kept and makes no candidate (document 02, (iii)), so many lie close to
//! that on both sides, also from one Announce of a sender to the next.  Most
//! are few, so that ordinary candidates stay common.

use super::random::Random;
use super::values;

/// The steps of ordinary clocks.
const FEW: [u16; 6] = [0, 0, 1, 1, 2, 3];
/// The greatest steps of a candidate.
const LAST: [u16; 3] = [253, 254, 254];
/// Steps of records that make no candidates: the least and the greatest.
const DISTANT: [u16; 4] = [255, 255, 256, 65_535];

/// Steps of a candidate: mostly few, often the last below 255.
pub fn near_steps(random: &mut Random) -> u16 {
    if random.chance(1, 4) {
        random.pick(&LAST)
    } else {
        random.pick(&FEW)
    }
}

/// Steps of any Announce: mostly those of a candidate.  Others are rare enough
/// for a port to be full of candidates.
pub fn any_steps(random: &mut Random) -> u16 {
    match random.below(40) {
        0 => values::u16(random),
        1..=4 => random.pick(&DISTANT),
        _ => near_steps(random),
    }
}

/// Steps of an Announce that is unlike its sender's others: on either side of
/// 255.
pub fn stray_steps(random: &mut Random) -> u16 {
    let last = random.pick(&LAST);
    let distant = random.pick(&DISTANT);
    random.pick(&[last, distant])
}

/// The steps that most senders of a scene announce, others one or two more:
/// mostly few, else so close to 255 that they part there.
pub fn scene_steps(random: &mut Random) -> u16 {
    if random.chance(1, 4) {
        random.pick(&[252, 253, 253, 254, 255])
    } else {
        random.pick(&FEW)
    }
}
