//! Lines of `rank`, `merge`, `decide` and `parent`.

use super::call_line::CallLine;
use super::candidates::{
    candidate, change_identity, change_key, cycle, family, port, FOREIGN_PORTS,
};
use super::random::Random;
use crate::engine::candidate::Candidate;
use crate::engine::comparison::DataSet;

/// Counts of a list that is far too long to be a ranked one, up to the greatest
/// that a line may give and one past it.
const LONG_COUNTS: [usize; 4] = [288, 399, 400, 401];

/// A line of `rank`.
pub fn rank_line(random: &mut Random, own: &DataSet) -> Vec<u8> {
    let mut run = if random.chance(1, 60) {
        let circle = cycle(random).to_vec();
        shuffled(random, circle)
    } else {
        let count = run_length(random);
        family(random, own, count)
    };
    if random.chance(1, 12) {
        spoil_port(random, &mut run);
    }
    push_list(random, CallLine::named("rank"), &run).text()
}

/// A line of `merge`: two lists, ranked or nearly, or far too long.
pub fn merge_line(random: &mut Random, own: &DataSet) -> Vec<u8> {
    let run = family(random, own, 16);
    let (left, right) = run.split_at(random.place(17));
    let first = list_to_use(random, own, left);
    let second = if random.chance(1, 8) {
        first.clone()
    } else {
        list_to_use(random, own, right)
    };
    let line = push_list(random, CallLine::named("merge"), &first);
    push_list(random, line, &second).text()
}

/// A line of `decide`: a list, ranked or nearly, or far too long, a port and its
/// best or none.
pub fn decide_line(random: &mut Random, own: &DataSet) -> Vec<u8> {
    let count = random.pick(&[0, 1, 2, 4, 6, 8]);
    let mut run = family(random, own, count);
    if random.chance(1, 2) {
        outdo_own(own, &mut run);
    }
    let list = list_to_use(random, own, &run);
    let asked = asked_port(random, &list);
    let line = CallLine::named("decide").number(random, asked);
    let line = push_list(random, line, &list);
    let best = match list.first() {
        Some(ebest) if random.chance(1, 2) => Some(rival(random, own, ebest, asked)),
        _ => port_best(random, own, &run, asked),
    };
    match best {
        Some(best) => push_candidate(random, line.word("best"), &best).text(),
        None => line.word("none").text(),
    }
}

/// A line of `parent`: a list, ranked or nearly, that our own set leads or not.
pub fn parent_line(random: &mut Random, own: &DataSet) -> Vec<u8> {
    let count = random.pick(&[0, 1, 1, 2, 3, 4, 6, 8, 12]);
    let mut run = family(random, own, count);
    match random.below(5) {
        0 | 1 => outdo_own(own, &mut run),
        2 | 3 => match_own(random, own, &mut run),
        _ => {}
    }
    let list = match random.below(10) {
        0 => best_of_ports(&run),
        _ => list_to_use(random, own, &run),
    };
    push_list(random, CallLine::named("parent"), &list).text()
}

/// Gives all of a run our own set's quality and, half of the time, our clock as
/// grandmaster, none or one step away.
fn match_own(random: &mut Random, own: &DataSet, run: &mut [Candidate]) {
    let ours = random.chance(1, 2);
    for one in run {
        one.quality = own.quality;
        if ours {
            let port = one.port;
            *one = looking_back(random, own, port);
            one.quality = own.quality;
            one.port = port;
        }
    }
}

/// The length of a run to rank: mostly a few, now and then about 288, 400.
fn run_length(random: &mut Random) -> usize {
    match random.below(600) {
        0..=2 => 288,
        3 => 287,
        4..=6 => 289,
        7 => random.pick(&[290, 300, 399, 400, 401]),
        8..=39 => random.place(60),
        _ => random.pick(&[0, 1, 2, 3, 4, 5, 6, 7, 9, 12, 18]),
    }
}

/// Gives one of a run a port that the clock does not have.
fn spoil_port(random: &mut Random, run: &mut [Candidate]) {
    if !run.is_empty() {
        run[random.place(run.len())].port = random.pick(&FOREIGN_PORTS);
    }
}

/// The same in another order.
pub fn shuffled(random: &mut Random, mut run: Vec<Candidate>) -> Vec<Candidate> {
    for at in 1..run.len() {
        run.swap(at, random.place(at + 1));
    }
    run
}

/// The best of each port of a run in rank order, not cut.
fn best_of_ports(run: &[Candidate]) -> Vec<Candidate> {
    let mut sorted = run.to_vec();
    sorted.sort();
    let mut best: Vec<Candidate> = Vec::new();
    for one in sorted {
        if best.iter().all(|kept| kept.port != one.port) {
            best.push(one);
        }
    }
    best
}

/// A list for a call that wants a ranked one: that of a run or nearly, now and
/// then one that is far too long.
fn list_to_use(random: &mut Random, own: &DataSet, run: &[Candidate]) -> Vec<Candidate> {
    if random.chance(1, 200) {
        let count = random.pick(&LONG_COUNTS);
        return family(random, own, count);
    }
    nearly_ranked(random, run)
}

/// The ranked list of a run, or one step away from it.
fn nearly_ranked(random: &mut Random, run: &[Candidate]) -> Vec<Candidate> {
    let mut list = best_of_ports(run);
    list.truncate(random.pick(&[1, 2, 3, 4, 4, 4, 4, 4]));
    if list.is_empty() || random.chance(4, 5) {
        return list;
    }
    let at = random.place(list.len());
    match random.below(8) {
        0 => {
            let other = random.place(list.len());
            list.swap(at, other);
        }
        1 => list.insert(at, list[at]),
        2 => list[at].port = list[0].port,
        3 => list[at].port = random.pick(&FOREIGN_PORTS),
        4 => change_key(random, &mut list[at]),
        5 => {
            let fifth = best_of_ports(run);
            list = fifth[..fifth.len().min(5 + random.place(3))].to_vec();
        }
        6 => list.reverse(),
        _ => {
            let next = Candidate {
                wr_flags: list[at].wr_flags.wrapping_add(1),
                ..list[at]
            };
            list.insert(at + 1, next);
        }
    }
    list
}

/// Makes all of a run better than our own set, where that is possible.
fn outdo_own(own: &DataSet, run: &mut [Candidate]) {
    for one in run {
        one.quality.priority1 = own.quality.priority1.saturating_sub(1);
    }
}

/// A best of the port asked for that has Ebest's grandmaster, as many steps or
/// one or two more, and a sender about as good, or ourselves.
fn rival(random: &mut Random, own: &DataSet, ebest: &Candidate, asked: u8) -> Candidate {
    let mut rival = *ebest;
    let more = random.pick(&[0, 0, 0, 1, 1, 1, 2]);
    rival.steps_removed = ebest.steps_removed.wrapping_add(more);
    match random.below(6) {
        0 => rival.sender = looking_back(random, own, asked).sender,
        1 | 2 => change_identity(random, &mut rival.sender),
        3 => rival.sender = candidate(random).sender,
        _ => {}
    }
    rival.port = random.pick(&[asked, ebest.port, 0, 200]);
    rival
}

/// The port to decide for: one of the list's, any, or none of the clock's.
fn asked_port(random: &mut Random, list: &[Candidate]) -> u8 {
    if random.chance(1, 20) {
        return random.pick(&FOREIGN_PORTS);
    }
    match random.below(5) {
        0 if !list.is_empty() => list[0].port,
        1 | 2 if !list.is_empty() => list[random.place(list.len())].port,
        _ => port(random),
    }
}

/// A port's best: of the run, near one of it, our own looking back at us, or
/// none.
fn port_best(
    random: &mut Random,
    own: &DataSet,
    run: &[Candidate],
    asked: u8,
) -> Option<Candidate> {
    if random.chance(1, 6) {
        return None;
    }
    let mut best = if run.is_empty() || random.chance(1, 5) {
        family(random, own, 1)[0]
    } else {
        random.pick(run)
    };
    if random.chance(1, 3) {
        change_key(random, &mut best);
    }
    if random.chance(1, 12) {
        best = looking_back(random, own, asked);
    }
    best.port = match random.below(4) {
        0 | 1 => asked,
        2 => random.octet(),
        _ => best.port,
    };
    Some(best)
}

/// A candidate of our grandmaster whose sender is our clock at the port asked
/// for or beside it.
fn looking_back(random: &mut Random, own: &DataSet, asked: u8) -> Candidate {
    let mut sender = own.sender;
    sender.port = u16::from(asked) + random.pick(&[0, 0, 0, 1]);
    Candidate {
        grandmaster: own.grandmaster,
        steps_removed: random.pick(&[0, 1, 1, 1, 2]),
        sender,
        ..candidate(random)
    }
}

/// The line with a list.
fn push_list(random: &mut Random, line: CallLine, list: &[Candidate]) -> CallLine {
    let line = line.number(random, list.len() as u64);
    list.iter()
        .fold(line, |line, one| push_candidate(random, line, one))
}

/// The line with a candidate's eleven numbers.
fn push_candidate(random: &mut Random, line: CallLine, candidate: &Candidate) -> CallLine {
    line.quality(random, &candidate.quality)
        .number(random, candidate.grandmaster)
        .number(random, candidate.steps_removed)
        .identity(random, candidate.sender)
        .number(random, candidate.port)
        .number(random, candidate.wr_flags)
}
