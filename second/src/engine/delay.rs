//! Delay and offset of one exchange of four stamps.  Times and corrections are
//! held as nanoseconds times 2^16, latencies as picoseconds times 2^16; all
//! arithmetic is done in 128 bits, where nothing here can overflow once the
//! ranges have been checked.

use super::message::SECOND;
use super::refusal::{refuse_if, Refusal};

/// The 16-bit fractions of a nanosecond in one nanosecond.
const FRACTIONS: i128 = 1 << 16;
/// A second in scaled nanoseconds.
pub const SCALED_SECOND: i128 = SECOND as i128 * FRACTIONS;
/// Corrections and differences lie strictly within this.
const SPAN_LIMIT: i128 = 1 << 47;
/// The asymmetry lies strictly within this.
const ASYMMETRY_LIMIT: i128 = 1 << 39;
/// Latencies lie below this.
const LATENCY_LIMIT: u64 = 1 << 50;
/// Seconds lie below this.
const SECONDS_LIMIT: u64 = 1 << 48;
/// One, in units of the asymmetry.
const ASYMMETRY_ONE: i128 = 1 << 40;
/// Picoseconds in a nanosecond.
const PICOSECONDS: i128 = 1000;

/// A time to a fraction of a nanosecond; the fraction is 0 where a stamp has
/// none.
#[derive(Clone, Copy, Debug, PartialEq, Eq)]
pub struct Stamp {
    pub seconds: u64,
    pub nanoseconds: u32,
    pub fraction: u16,
}

impl Stamp {
    /// The time in scaled nanoseconds.
    fn scaled(self) -> i128 {
        i128::from(self.seconds) * SCALED_SECOND
            + i128::from(self.nanoseconds) * FRACTIONS
            + i128::from(self.fraction)
    }

    /// Whether seconds and nanoseconds are within their limits.
    fn in_range(self) -> bool {
        self.seconds < SECONDS_LIMIT && self.nanoseconds < SECOND
    }
}

/// What is known of an exchange.
#[derive(Clone, Copy, Debug, PartialEq, Eq)]
pub struct Exchange {
    pub t1: Stamp,
    pub sync_correction: i64,
    pub follow_up_correction: i64,
    pub t2: Stamp,
    pub t3: Stamp,
    pub t4: Stamp,
    pub delay_resp_correction: i64,
    pub master_tx: u64,
    pub master_rx: u64,
    pub slave_tx: u64,
    pub slave_rx: u64,
    pub asymmetry: i64,
}

/// What follows from it: the delay and the slave's offset, in scaled
/// nanoseconds, the latter as whole seconds and a rest of less than one.
#[derive(Clone, Copy, Debug, PartialEq, Eq)]
pub struct Measured {
    pub delay: i128,
    pub offset_seconds: i128,
    pub offset_rest: i128,
}

/// Delay and offset of an exchange; 14 where a number is out of its range.
pub fn measure(exchange: &Exchange) -> Result<Measured, Refusal> {
    refuse_if(!numbers_in_range(exchange), Refusal::Range)?;
    let t1 = exchange.t1.scaled()
        + i128::from(exchange.sync_correction)
        + i128::from(exchange.follow_up_correction);
    let t2 = exchange.t2.scaled();
    let t3 = exchange.t3.scaled();
    let t4 = exchange.t4.scaled() - i128::from(exchange.delay_resp_correction);
    refuse_if(!is_span(t4 - t1) || !is_span(t3 - t2), Refusal::Range)?;
    let round_trip = (t4 - t1) - (t3 - t2);
    let delay = delay(exchange, round_trip);
    let offset = t2 - t1 - delay;
    Ok(Measured {
        delay,
        offset_seconds: offset.div_euclid(SCALED_SECOND),
        offset_rest: offset.rem_euclid(SCALED_SECOND),
    })
}

/// Whether stamps, corrections, asymmetry and latencies are within their limits.
fn numbers_in_range(exchange: &Exchange) -> bool {
    let stamps = [exchange.t1, exchange.t2, exchange.t3, exchange.t4];
    let corrections = [
        exchange.sync_correction,
        exchange.follow_up_correction,
        exchange.delay_resp_correction,
    ];
    let asymmetry = i128::from(exchange.asymmetry);
    stamps.into_iter().all(Stamp::in_range)
        && corrections.into_iter().all(|one| is_span(one.into()))
        && (1 - ASYMMETRY_LIMIT..ASYMMETRY_LIMIT).contains(&asymmetry)
        && latencies(exchange)
            .into_iter()
            .all(|latency| latency < LATENCY_LIMIT)
}

/// Whether a correction or a difference lies strictly within its limits.
fn is_span(value: i128) -> bool {
    -SPAN_LIMIT < value && value < SPAN_LIMIT
}

/// The four latencies.
fn latencies(exchange: &Exchange) -> [u64; 4] {
    [
        exchange.master_tx,
        exchange.master_rx,
        exchange.slave_tx,
        exchange.slave_rx,
    ]
}

/// A sum of latencies in scaled nanoseconds, rounded down once.
pub fn in_nanoseconds(latencies: &[u64]) -> i128 {
    let sum: i128 = latencies.iter().map(|&latency| i128::from(latency)).sum();
    sum.div_euclid(PICOSECONDS)
}

/// The delay from master to slave: the medium's share by the asymmetry, and the
/// two latencies on that way.
fn delay(exchange: &Exchange, round_trip: i128) -> i128 {
    let asymmetry = i128::from(exchange.asymmetry);
    let in_medium = round_trip - in_nanoseconds(&latencies(exchange));
    let numerator = (ASYMMETRY_ONE + asymmetry) * in_medium;
    let denominator = 2 * ASYMMETRY_ONE + asymmetry;
    numerator.div_euclid(denominator) + in_nanoseconds(&[exchange.master_tx, exchange.slave_rx])
}
