//! Certificates: why a watched deadline may leave the list, with all checks in their order.

use crate::lines::Line;
use crate::refusal::{roster, Refusal};

/// A cite: a watched deadline with a weight.
#[derive(Clone, Copy, Debug, PartialEq, Eq)]
pub struct Cite {
    pub deadline: u32,
    pub weight: u32,
}

/// A certificate: the deadline to cut, the divisor and the cites.
#[derive(Clone, Debug, PartialEq, Eq)]
pub struct Certificate {
    pub deadline: u32,
    pub divisor: u32,
    pub cites: Vec<Cite>,
}

/// Checks a certificate: 9, 8, 10, 11. The leasts of the supply come as a question.
pub fn check(
    lines: &[Line],
    watched: &[u32],
    least: &mut dyn FnMut(u32) -> u32,
    certificate: &Certificate,
) -> Result<(), Refusal> {
    let d = certificate.deadline;
    let q = certificate.divisor;
    let cites = &certificate.cites;
    if !(1..=1000).contains(&q) || !(1..=8).contains(&cites.len()) {
        return Err(roster(9, 0));
    }
    for (i, cite) in cites.iter().enumerate() {
        if !(1..=1000).contains(&cite.weight) {
            return Err(roster(9, i as u32 + 1));
        }
    }
    if !watched.contains(&d) {
        return Err(roster(8, 0));
    }
    for (i, cite) in cites.iter().enumerate() {
        if !watched.contains(&cite.deadline) || cite.deadline == d {
            return Err(roster(8, i as u32 + 1));
        }
    }
    for (number, line) in lines.iter().enumerate() {
        let cited: u32 = cites.iter().map(|c| c.weight * line.count(c.deadline)).sum();
        if q * line.count(d) > cited {
            return Err(roster(10, number as u32));
        }
    }
    let cited: u32 = cites.iter().map(|c| c.weight * least(c.deadline)).sum();
    if cited > q * least(d) {
        return Err(roster(11, 0));
    }
    Ok(())
}

/// Splits bytes into cites of 4 bytes each; bytes that are not whole cites give none.
pub fn cites_of(bytes: &[u8]) -> Option<Vec<Cite>> {
    if bytes.len() % 4 != 0 {
        return None;
    }
    let number = |high: u8, low: u8| u32::from(high) * 256 + u32::from(low);
    Some(bytes.chunks(4).map(|b| Cite { deadline: number(b[0], b[1]), weight: number(b[2], b[3]) }).collect())
}
