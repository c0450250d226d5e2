//! Lines of `delay`: exchanges built from the differences they are to have, at
//! the limits and at quotients and offsets that come out even or one off, and
//! the same with one number out of its range.

use super::call_line::CallLine;
use super::random::Random;
use super::values;
use crate::engine::delay::{in_nanoseconds, measure, Exchange, Stamp, SCALED_SECOND};
use crate::engine::message::SECOND;

/// The bits of the limit of corrections and differences.
const SPAN_BITS: u32 = 47;
/// The bits of the limit of the asymmetry.
const ASYMMETRY_BITS: u32 = 39;
/// The bits of the limit of latencies.
const LATENCY_BITS: u32 = 50;
/// The first time that stamps cannot hold.
const END_OF_TIME: i128 = (1 << 48) * SCALED_SECOND;

/// A line of `delay`.
pub fn delay_line(random: &mut Random) -> Vec<u8> {
    let mut exchange = exchange(random);
    if random.chance(1, 3) {
        spoil(random, &mut exchange);
    }
    let line = CallLine::named("delay")
        .number(random, exchange.t1.seconds)
        .number(random, exchange.t1.nanoseconds)
        .number(random, exchange.sync_correction)
        .number(random, exchange.follow_up_correction);
    let line = push_stamp(random, line, exchange.t2);
    push_stamp(random, line, exchange.t3)
        .number(random, exchange.t4.seconds)
        .number(random, exchange.t4.nanoseconds)
        .number(random, exchange.delay_resp_correction)
        .number(random, exchange.master_tx)
        .number(random, exchange.master_rx)
        .number(random, exchange.slave_tx)
        .number(random, exchange.slave_rx)
        .number(random, exchange.asymmetry)
        .text()
}

/// The line with a stamp's three numbers.
fn push_stamp(random: &mut Random, line: CallLine, stamp: Stamp) -> CallLine {
    line.number(random, stamp.seconds)
        .number(random, stamp.nanoseconds)
        .number(random, stamp.fraction)
}

/// A number strictly between minus and plus 2^bits, weighted to the ends, to
/// zero and to every size.
fn signed(random: &mut Random, bits: u32) -> i64 {
    let greatest = (1 << bits) - 1;
    let sizes = 1 + random.below(u64::from(bits)) as u32;
    let any = (random.word() >> (64 - sizes)) as i64;
    let magnitude = random.pick(&[0, 0, 1, greatest, greatest - 1, any, any, any, any]);
    random.pick(&[magnitude, -magnitude])
}

/// A latency, weighted to the ends and to thousands.
fn latency(random: &mut Random) -> u64 {
    let greatest = (1 << LATENCY_BITS) - 1;
    let any = random.word() >> (64 - LATENCY_BITS) >> random.below(50);
    random.pick(&[
        0,
        0,
        1,
        999,
        999,
        1000,
        1001,
        greatest,
        greatest - 1,
        any,
        any,
        any,
    ])
}

/// A time in scaled nanoseconds: at either end, or anywhere.
fn time(random: &mut Random) -> i128 {
    let fine = i128::from(random.below(SCALED_SECOND as u64));
    let seconds = match random.below(8) {
        0 => i128::from(random.below(3)),
        1 => (1 << 48) - 1 - i128::from(random.below(3)),
        _ => i128::from(values::number(random, 48)),
    };
    seconds * SCALED_SECOND + random.pick(&[fine, 0, SCALED_SECOND - 1])
}

/// The stamp of a time, brought within what stamps can hold.
fn stamp(time: i128) -> Stamp {
    let time = time.clamp(0, END_OF_TIME - 1);
    let nanoseconds = (time % SCALED_SECOND) >> 16;
    Stamp {
        seconds: (time / SCALED_SECOND) as u64,
        nanoseconds: nanoseconds as u32,
        fraction: time as u16,
    }
}

/// An exchange whose numbers are, but for few, all in range.
fn exchange(random: &mut Random) -> Exchange {
    let mut exchange = Exchange {
        t1: stamp(0),
        sync_correction: signed(random, SPAN_BITS),
        follow_up_correction: signed(random, SPAN_BITS),
        t2: stamp(0),
        t3: stamp(0),
        t4: stamp(0),
        delay_resp_correction: signed(random, SPAN_BITS),
        master_tx: latency(random),
        master_rx: latency(random),
        slave_tx: latency(random),
        slave_rx: latency(random),
        asymmetry: signed(random, ASYMMETRY_BITS),
    };
    let (out_and_back, turn_around) = differences(random, &exchange);
    set_master_stamps(random, &mut exchange, out_and_back);
    set_slave_stamps(random, &mut exchange, turn_around.into());
    exchange
}

/// t4 - t1 and t3 - t2: at their limits, or such that the asymmetry's quotient
/// has a remainder of 0, one, or one less than its divisor.
fn differences(random: &mut Random, exchange: &Exchange) -> (i128, i64) {
    let turn_around = signed(random, SPAN_BITS);
    if random.chance(1, 2) {
        return (signed(random, SPAN_BITS).into(), turn_around);
    }
    let turn_around = turn_around >> random.below(4);
    let fixed = in_nanoseconds(&[
        exchange.master_tx,
        exchange.master_rx,
        exchange.slave_tx,
        exchange.slave_rx,
    ]);
    let in_medium = aimed_at_remainder(random, exchange.asymmetry.into());
    (in_medium + fixed + i128::from(turn_around), turn_around)
}

/// A value of M - D for which the quotient leaves a chosen remainder, where
/// there is one.
fn aimed_at_remainder(random: &mut Random, asymmetry: i128) -> i128 {
    let factor = (1 << 40) + asymmetry;
    let divisor = (1 << 41) + asymmetry;
    let (common, inverse) = euclid(factor, divisor);
    let remainder = random.pick(&[0, common, divisor - common]);
    let period = divisor / common;
    let least = (remainder / common * inverse).rem_euclid(period);
    least + period * random.pick(&[-2, -1, -1, 0, 0, 1])
}

/// The greatest common divisor of two positive numbers, and a factor that
/// brings the first to it modulo the second.
fn euclid(first: i128, second: i128) -> (i128, i128) {
    let (mut upper, mut lower) = (first, second);
    let (mut upper_factor, mut lower_factor) = (1, 0);
    while lower != 0 {
        let quotient = upper / lower;
        (upper, lower) = (lower, upper - quotient * lower);
        (upper_factor, lower_factor) = (lower_factor, upper_factor - quotient * lower_factor);
    }
    (upper, upper_factor)
}

/// Sets t1 and t4 so that, corrections counted, they lie so far apart.  t4 has
/// no fraction, so the Delay_Resp correction or the distance gives way.
fn set_master_stamps(random: &mut Random, exchange: &mut Exchange, apart: i128) {
    let t1 = time(random) >> 16 << 16;
    let corrections = i128::from(exchange.sync_correction)
        + i128::from(exchange.follow_up_correction)
        + i128::from(exchange.delay_resp_correction);
    let t4 = t1 + corrections + apart;
    exchange.t1 = stamp(t1);
    exchange.t4 = stamp(t4 >> 16 << 16);
    exchange.t4.fraction = 0;
    if random.chance(3, 4) {
        let lost = (t4 & 0xffff) as i64;
        exchange.delay_resp_correction -= lost;
    }
}

/// Sets t2 and t3 so far apart: anywhere, near t1, or where the offset comes to
/// whole seconds or one fraction beside them.
fn set_slave_stamps(random: &mut Random, exchange: &mut Exchange, apart: i128) {
    let sent = i128::from(exchange.t1.seconds) * SCALED_SECOND
        + (i128::from(exchange.t1.nanoseconds) << 16);
    let near = sent + i128::from(signed(random, SPAN_BITS));
    let t2 = if random.chance(1, 4) {
        time(random)
    } else {
        near
    };
    put_slave_stamps(exchange, t2, apart);
    if random.chance(1, 3) {
        if let Ok(measured) = measure(exchange) {
            let beside = random.pick(&[0, 0, 1, -1]);
            put_slave_stamps(exchange, t2 - measured.offset_rest + beside, apart);
        }
    }
}

/// Sets t2, and t3 so far behind it.
fn put_slave_stamps(exchange: &mut Exchange, t2: i128, apart: i128) {
    exchange.t2 = stamp(t2);
    exchange.t3 = stamp(t2 + apart);
}

/// Puts one number at its limit or past it.
fn spoil(random: &mut Random, exchange: &mut Exchange) {
    match random.below(14) {
        0 => exchange.sync_correction = past(random, SPAN_BITS),
        1 => exchange.follow_up_correction = past(random, SPAN_BITS),
        2 => exchange.delay_resp_correction = past(random, SPAN_BITS),
        3 => exchange.asymmetry = past(random, ASYMMETRY_BITS),
        4 => exchange.master_tx = past_latency(random),
        5 => exchange.master_rx = past_latency(random),
        6 => exchange.slave_tx = past_latency(random),
        7 => exchange.slave_rx = past_latency(random),
        8 => set_master_stamps_at_limit(random, exchange),
        9 => set_slave_stamps_at_limit(random, exchange),
        _ => spoil_stamp(random, exchange),
    }
}

/// A number at plus or minus 2^bits, or beyond.
fn past(random: &mut Random, bits: u32) -> i64 {
    let limit: i64 = 1 << bits;
    random.pick(&[limit, -limit, limit + 1, -limit - 1, i64::MAX, i64::MIN])
}

/// A latency at its limit or beyond.
fn past_latency(random: &mut Random) -> u64 {
    let limit = 1 << LATENCY_BITS;
    random.pick(&[limit, limit, limit + 1, 1 << 63, u64::MAX])
}

/// Sets t4 - t1 to its limit, the corrections small so that nothing else is out
/// of range.
fn set_master_stamps_at_limit(random: &mut Random, exchange: &mut Exchange) {
    exchange.sync_correction >>= 8;
    exchange.follow_up_correction >>= 8;
    exchange.delay_resp_correction >>= 8;
    let limit: i128 = 1 << SPAN_BITS;
    let apart = random.pick(&[limit, -limit, limit + 1, -limit - 1]);
    set_master_stamps(random, exchange, apart);
}

/// Sets t3 - t2 to its limit.
fn set_slave_stamps_at_limit(random: &mut Random, exchange: &mut Exchange) {
    let limit: i128 = 1 << SPAN_BITS;
    let apart = random.pick(&[limit, -limit, limit + 1, -limit - 1]);
    let t2 = time(random);
    put_slave_stamps(exchange, t2, apart);
}

/// Puts a stamp's nanoseconds at their limit or past it, or all stamps about
/// the end of time.
fn spoil_stamp(random: &mut Random, exchange: &mut Exchange) {
    let stamps = [
        &mut exchange.t1,
        &mut exchange.t2,
        &mut exchange.t3,
        &mut exchange.t4,
    ];
    let one = random.place(4);
    match random.below(6) {
        0 => stamps[one].seconds = random.pick(&[1 << 48, (1 << 48) + 1, 1 << 63, u64::MAX]),
        1..=3 => {
            let later = (1 << 48) - stamps[one].seconds;
            for stamp in stamps {
                stamp.seconds += later;
            }
        }
        _ => stamps[one].nanoseconds = random.pick(&[SECOND, SECOND, SECOND + 1, u32::MAX]),
    }
}
