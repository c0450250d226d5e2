//! The tail of a message as a run of TLVs: type 2 octets, length L 2 octets,
//! then L octets of data.

use super::octets::u16_at;
use super::refusal::Refusal;

/// The octets of a TLV before its data.
pub const HEAD: usize = 4;

/// One TLV of a tail.
#[derive(Clone, Copy, Debug)]
pub struct Tlv<'a> {
    /// Where it begins, counted from octet 0 of what was walked.
    pub at: usize,
    pub tlv_type: u16,
    pub data: &'a [u8],
}

impl Tlv<'_> {
    /// Where its data begin, counted from the same octet.
    pub fn data_at(&self) -> usize {
        self.at + HEAD
    }

    /// Where its data end and the next TLV begins.
    fn end(&self) -> usize {
        self.data_at() + self.data.len()
    }
}

/// Walks over the tail that begins at `tail_at` and goes to the end of the
/// octets: all its TLVs in their order.  Refused at the first place where no
/// whole TLV of even length begins.
pub fn walk_tail(octets: &[u8], tail_at: usize) -> Result<Vec<Tlv<'_>>, Refusal> {
    let mut tlvs = Vec::new();
    let mut at = tail_at;
    while at < octets.len() {
        let tlv = tlv_at(octets, at).ok_or(Refusal::Tlv { at })?;
        at = tlv.end();
        tlvs.push(tlv);
    }
    Ok(tlvs)
}

/// The TLV that begins at `at`; none where its head or data run past the
/// octets or its length is odd.
fn tlv_at(octets: &[u8], at: usize) -> Option<Tlv<'_>> {
    let data_at = at + HEAD;
    if data_at > octets.len() {
        return None;
    }
    let length = usize::from(u16_at(octets, at + 2));
    if length % 2 == 1 {
        return None;
    }
    Some(Tlv {
        at,
        tlv_type: u16_at(octets, at),
        data: octets.get(data_at..data_at + length)?,
    })
}

#[cfg(test)]
mod tests {
    use super::*;

    /// What a walk that is refused gives.
    fn refused(octets: &[u8], tail_at: usize) -> Option<Refusal> {
        walk_tail(octets, tail_at).err()
    }

    #[test]
    fn places_count_from_the_first_of_the_octets() {
        let octets = [9, 9, 0, 8, 0, 2, 7, 7, 0, 8, 0, 0];
        let tlvs = walk_tail(&octets, 2).unwrap();
        let places: Vec<_> = tlvs.iter().map(|tlv| (tlv.at, tlv.data_at())).collect();
        assert_eq!(places, [(2, 6), (8, 12)]);
        assert_eq!(refused(&octets[..11], 2), Some(Refusal::Tlv { at: 8 }));
        assert_eq!(refused(&octets[..7], 2), Some(Refusal::Tlv { at: 2 }));
        // A tail without a message: from the tail's own first octet.
        assert_eq!(refused(&octets[2..11], 0), Some(Refusal::Tlv { at: 6 }));
    }

    #[test]
    fn a_tail_of_nothing_holds_nothing() {
        assert!(walk_tail(&[9, 9], 2).is_ok_and(|tlvs| tlvs.is_empty()));
    }
}
