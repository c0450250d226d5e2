//! Ranked lists: the best candidate of each port, in rank order, cut after four.

use super::candidate::{is_port, Candidate};
use super::refusal::{refuse_if, Refusal};
use std::collections::BTreeMap;

/// The most candidates a ranked list holds.
const LIST_LENGTH: usize = 4;
/// The most candidates that are ranked in one call, repeats counted.
const MOST_CANDIDATES: usize = 288;

/// Ranks a run of candidates: 17, then 8.
pub fn rank(candidates: &[Candidate]) -> Result<Vec<Candidate>, Refusal> {
    refuse_if(candidates.len() > MOST_CANDIDATES, Refusal::Many)?;
    let foreign = candidates.iter().any(|candidate| !is_port(candidate.port));
    refuse_if(foreign, Refusal::Port)?;
    Ok(ranked_list(candidates))
}

/// Merges two ranked lists into that of both: 15.
pub fn merge(first: &[Candidate], second: &[Candidate]) -> Result<Vec<Candidate>, Refusal> {
    check_ranked(first)?;
    check_ranked(second)?;
    Ok(ranked_list(&[first, second].concat()))
}

/// Refuses what is no ranked list: more than four, a port the clock does not
/// have, a port twice, or candidates that do not rise strictly.
pub fn check_ranked(list: &[Candidate]) -> Result<(), Refusal> {
    let rises = list.windows(2).all(|pair| pair[0] < pair[1]);
    let ports_differ = list
        .iter()
        .enumerate()
        .all(|(at, one)| list[..at].iter().all(|other| other.port != one.port));
    let ports_are_ours = list.iter().all(|candidate| is_port(candidate.port));
    let is_ranked = list.len() <= LIST_LENGTH && ports_are_ours && ports_differ && rises;
    refuse_if(!is_ranked, Refusal::Unranked)
}

/// The ranked list of a collection of valid candidates.
fn ranked_list(candidates: &[Candidate]) -> Vec<Candidate> {
    let mut best: BTreeMap<u8, Candidate> = BTreeMap::new();
    for candidate in candidates {
        let kept = best.entry(candidate.port).or_insert(*candidate);
        *kept = *candidate.min(kept);
    }
    let mut list: Vec<Candidate> = best.into_values().collect();
    list.sort();
    list.truncate(LIST_LENGTH);
    list
}
