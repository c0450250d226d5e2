//! Lines of the calls that set something without a port.

use super::call_line::CallLine;
use super::random::Random;
use super::values;
use crate::engine::candidate::Quality;

/// `fresh`
pub fn fresh_line() -> Vec<u8> {
    CallLine::named("fresh").text()
}

/// A line of `clock`.
pub fn clock_line(random: &mut Random) -> Vec<u8> {
    let clock = values::clock(random);
    line_of_clock(random, clock)
}

/// The line of `clock` for an identity.
pub fn line_of_clock(random: &mut Random, clock: u64) -> Vec<u8> {
    CallLine::named("clock").number(random, clock).text()
}

/// A line of `domain`.
pub fn domain_line(random: &mut Random) -> Vec<u8> {
    let any = values::octet(random);
    let domain = random.pick(&[0, 0, 1, 127, 128, 255, any]);
    CallLine::named("domain").number(random, domain).text()
}

/// A line of `magic`.
pub fn magic_line(random: &mut Random) -> Vec<u8> {
    let any = values::u16(random);
    let magic = random.pick(&[0xabcd, 0xabcd, 0xdead, 0xcdab, 0xabcc, 0, 0xffff, any]);
    CallLine::named("magic").number(random, magic).text()
}

/// A line of `own`.
pub fn own_line(random: &mut Random) -> Vec<u8> {
    let quality = Quality {
        priority1: random.pick(&[128, 128, 0, 1, 127, 129, 255]),
        class: own_class(random),
        accuracy: random.pick(&[0xfe, 0xfe, 0x20, 0x21, 0, 255]),
        variance: random.pick(&[0xffff, 0xffff, 0, 1, 0x4e5d, 0xfffe]),
        priority2: random.pick(&[128, 128, 0, 1, 127, 129, 255]),
    };
    line_of_own(random, &quality)
}

/// The line of `own` for a quality.
pub fn line_of_own(random: &mut Random, quality: &Quality) -> Vec<u8> {
    CallLine::named("own").quality(random, quality).text()
}

/// Our own class, at the edges of 1 to 127 and beyond.
fn own_class(random: &mut Random) -> u8 {
    let any = values::octet(random);
    random.pick(&[248, 248, 248, 0, 1, 6, 127, 128, 255, any])
}
