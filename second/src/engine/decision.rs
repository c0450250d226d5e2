//! What a port is to be, from our own set, the ranked list and the port's best.

use super::candidate::{check_port, Candidate};
use super::comparison::{compare, DataSet, Side, Verdict};
use super::ranking::check_ranked;
use super::refusal::Refusal;

/// The decision codes.
#[derive(Clone, Copy, Debug, PartialEq, Eq)]
pub enum Decision {
    M1,
    M2,
    M3,
    S1,
    S2,
    P1,
    P2,
}

/// The decision for a port: 8, then 15.
pub fn decide(
    own: &DataSet,
    port: u8,
    ranked: &[Candidate],
    port_best: Option<&Candidate>,
) -> Result<Decision, Refusal> {
    check_port(port)?;
    check_ranked(ranked)?;
    let clock = own.grandmaster;
    let erbest = port_best.map(|best| DataSet::of_candidate(best, clock, port));
    if (1..=127).contains(&own.quality.class) {
        return Ok(if beats_erbest(own, erbest.as_ref()) {
            Decision::M1
        } else {
            Decision::P1
        });
    }
    let Some(first) = ranked.first() else {
        return Ok(Decision::M2);
    };
    let ebest = DataSet::of_candidate(first, clock, first.port);
    Ok(if compare(own, &ebest).a_wins() {
        Decision::M2
    } else if port == first.port {
        Decision::S1
    } else if !beats_by_topology(&ebest, erbest.as_ref()) {
        Decision::M3
    } else if ranked.iter().any(|entry| entry.port == port) {
        Decision::S2
    } else {
        Decision::P2
    })
}

/// Ebest, the first of a ranked list, where its port is decided S1; none where
/// the list is empty or our own clock leads: 15.
pub fn parent(own: &DataSet, ranked: &[Candidate]) -> Result<Option<Candidate>, Refusal> {
    check_ranked(ranked)?;
    let Some(ebest) = ranked.first() else {
        return Ok(None);
    };
    let decision = decide(own, ebest.port, ranked, Some(ebest))?;
    Ok((decision == Decision::S1).then_some(*ebest))
}

/// Whether our set beats a port's best; anything beats an absent one.
fn beats_erbest(own: &DataSet, erbest: Option<&DataSet>) -> bool {
    match erbest {
        Some(erbest) => compare(own, erbest).a_wins(),
        None => true,
    }
}

/// Whether Ebest is better by topology than a port's best; an absent one is not
/// beaten by topology.
fn beats_by_topology(ebest: &DataSet, erbest: Option<&DataSet>) -> bool {
    erbest.is_some_and(|erbest| compare(ebest, erbest) == Verdict::BetterByTopology(Side::A))
}
