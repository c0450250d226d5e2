//! Lines of `compare`: two sets that differ in little, with senders equal to
//! receivers or beside them, and steps none, one, two or all apart.

use super::call_line::CallLine;
use super::candidates::{candidate, change_identity, change_quality, change_steps, cycle};
use super::random::Random;
use super::values;
use crate::engine::candidate::Candidate;
use crate::engine::comparison::DataSet;

/// A line of `compare`.
pub fn compare_line(random: &mut Random) -> Vec<u8> {
    let (a, b) = if random.chance(1, 60) {
        two_of_the_cycle(random)
    } else {
        two_alike(random)
    };
    let line = CallLine::named("compare");
    let line = push_set(random, line, &a);
    push_set(random, line, &b).text()
}

/// Two of document 01's cycle.
fn two_of_the_cycle(random: &mut Random) -> (DataSet, DataSet) {
    let circle = cycle(random);
    let one = random.pick(&circle);
    let other = random.pick(&circle);
    (set_of(random, &one), set_of(random, &other))
}

/// Two sets of which the second is the first with a few changes.
fn two_alike(random: &mut Random) -> (DataSet, DataSet) {
    let base = candidate(random);
    let mut a = set_of(random, &base);
    let mut b = a;
    let changes = random.pick(&[0, 1, 1, 1, 2, 2, 3]);
    for _ in 0..changes {
        change(random, &mut b);
    }
    draw_together(random, &mut a);
    draw_together(random, &mut b);
    if random.chance(1, 2) {
        (a, b)
    } else {
        (b, a)
    }
}

/// The set of a candidate, with some receiver.
fn set_of(random: &mut Random, candidate: &Candidate) -> DataSet {
    let clock = values::clock(random);
    DataSet::of_candidate(candidate, clock, candidate.port)
}

/// Changes one thing of a set.
fn change(random: &mut Random, set: &mut DataSet) {
    match random.below(9) {
        0 => change_quality(random, &mut set.quality),
        1 => set.grandmaster = values::clock(random),
        2 => set.grandmaster = set.grandmaster.wrapping_add(1),
        3..=5 => set.steps_removed = change_steps(random, set.steps_removed),
        6 => change_identity(random, &mut set.sender),
        7 => change_identity(random, &mut set.receiver),
        _ => std::mem::swap(&mut set.sender, &mut set.receiver),
    }
}

/// Now and then makes a set's receiver its sender, or one beside it.
fn draw_together(random: &mut Random, set: &mut DataSet) {
    match random.below(8) {
        0 => set.receiver = set.sender,
        1 => {
            set.receiver = set.sender;
            change_identity(random, &mut set.receiver);
        }
        _ => {}
    }
}

/// The line with a set's eleven numbers.
fn push_set(random: &mut Random, line: CallLine, set: &DataSet) -> CallLine {
    line.quality(random, &set.quality)
        .number(random, set.grandmaster)
        .number(random, set.steps_removed)
        .identity(random, set.sender)
        .identity(random, set.receiver)
}
