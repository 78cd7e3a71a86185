//! Supplies: which slots the gateway may use. Slots are walked one by one; a share's worst phase is the documents' sum.

use crate::refusal::{self, Refusal};

/// Up to so many phases, least walks every start of a window too; over it, the starts are left to the phases.
const PHASES_WITH_STARTS: u32 = 24;

/// A supply.
#[derive(Clone, Debug, PartialEq, Eq)]
pub enum Supply {
    /// Every slot is given.
    Whole,
    /// A row of slots that repeats: slot s of the row is given when the bit worth 2^s is 1.
    Timetable { length: u32, word: u64 },
    /// s of each f slots that the supply below gives.
    Share { below: Box<Supply>, s: u32, f: u32 },
}

impl Supply {
    /// Makes a timetable, or refuses it with 17.
    pub fn timetable(length: u32, word: u64) -> Result<Supply, Refusal> {
        if !(1..=64).contains(&length) {
            return Err(refusal::supply(17));
        }
        let ones_in_row = (0..length).filter(|s| (word >> s) & 1 == 1).count();
        let ones_above = (length..64).filter(|s| (word >> s) & 1 == 1).count();
        if ones_in_row == 0 || ones_above > 0 {
            return Err(refusal::supply(17));
        }
        Ok(Supply::Timetable { length, word })
    }

    /// Makes a share of s in f over a supply, or refuses it with 18.
    pub fn share(below: Supply, s: u32, f: u32) -> Result<Supply, Refusal> {
        let lawful = 1 <= s && s <= f && f <= 64;
        if !lawful || u64::from(below.phases()) * u64::from(f) > 1_000_000 {
            return Err(refusal::supply(18));
        }
        Ok(Supply::Share { below: Box::new(below), s, f })
    }

    /// The number of phases.
    pub fn phases(&self) -> u32 {
        match self {
            Supply::Whole => 1,
            Supply::Timetable { length, .. } => *length,
            Supply::Share { below, f, .. } => below.phases() * f,
        }
    }

    /// The first n slots in a phase, one by one: true where the slot is given.
    pub fn slots(&self, phase: u32, n: usize) -> Vec<bool> {
        let phase = phase % self.phases();
        match self {
            Supply::Whole => vec![true; n],
            Supply::Timetable { length, word } => {
                let mut slots = Vec::with_capacity(n);
                let mut place = phase;
                for _ in 0..n {
                    slots.push((word >> place) & 1 == 1);
                    place = if place + 1 == *length { 0 } else { place + 1 };
                }
                slots
            }
            Supply::Share { below, s, f } => {
                let r = phase / below.phases();
                let mut slots = below.slots(phase % below.phases(), n);
                // (j + r) mod f for the next slot j that is given below.
                let mut turn = r % f;
                for slot in slots.iter_mut() {
                    if *slot {
                        *slot = turn < *s;
                        turn = if turn + 1 == *f { 0 } else { turn + 1 };
                    }
                }
                slots
            }
        }
    }

    /// count(p, n): how many of the first n slots are given in phase p.
    pub fn count(&self, phase: u32, n: usize) -> u32 {
        self.slots(phase, n).iter().filter(|given| **given).count() as u32
    }

    /// least(0), least(1), .., least(n): the fewest given slots in a window, over all phases, and over all starts where
    /// there are few phases.
    pub fn least_up_to(&self, n: usize) -> Vec<u32> {
        let phases = self.phases();
        let starts = if phases <= PHASES_WITH_STARTS { phases } else { 1 };
        self.least_over_starts(n, starts as usize)
    }

    /// least(0), .., least(n) over all phases and the given number of starts.
    pub fn least_over_starts(&self, n: usize, starts: usize) -> Vec<u32> {
        let mut least = vec![u32::MAX; n + 1];
        for phase in 0..self.phases() {
            let slots = self.slots(phase, starts + n);
            for start in 0..starts {
                let mut held = 0;
                least[0] = 0;
                for (fewest, given) in least[1..].iter_mut().zip(&slots[start..]) {
                    held += u32::from(*given);
                    *fewest = (*fewest).min(held);
                }
            }
        }
        least
    }

    /// least(n).
    pub fn least(&self, n: usize) -> u32 {
        self.least_up_to(n)[n]
    }

    /// worst(n): for a timetable the smallest phase that attains least(n), for a share the worst below + N x (S mod F).
    pub fn worst(&self, n: usize) -> u32 {
        match self {
            Supply::Whole => 0,
            Supply::Timetable { length, .. } => {
                let counts: Vec<u32> = (0..*length).map(|p| self.count(p, n)).collect();
                let fewest = *counts.iter().min().unwrap();
                counts.iter().position(|c| *c == fewest).unwrap() as u32
            }
            Supply::Share { below, s, f } => below.worst(n) + below.phases() * (s % f),
        }
    }
}

#[cfg(test)]
mod tests {
    use super::*;

    /// The share's least by the formula of the documents.
    fn formula(x: u32, s: u32, f: u32) -> u32 {
        x / f * s + (x % f).saturating_sub(f - s)
    }

    #[test]
    fn timetable_of_length_4_number_3() {
        let row = Supply::timetable(4, 3).unwrap();
        assert_eq!(row.slots(0, 5), [true, true, false, false, true]);
        assert_eq!((row.least(3), row.worst(3)), (1, 1));
        assert_eq!((row.least(4), row.worst(4)), (2, 0));
    }

    #[test]
    fn share_of_1_in_2_over_it() {
        let share = Supply::share(Supply::timetable(4, 3).unwrap(), 1, 2).unwrap();
        assert_eq!(share.phases(), 8);
        assert_eq!(share.least(4), 1);
    }

    #[test]
    fn refused_timetables_and_shares() {
        assert_eq!(Supply::timetable(0, 0), Err(refusal::supply(17)));
        assert_eq!(Supply::timetable(65, 1), Err(refusal::supply(17)));
        assert_eq!(Supply::timetable(4, 0), Err(refusal::supply(17)));
        assert_eq!(Supply::timetable(4, 16), Err(refusal::supply(17)));
        assert!(Supply::timetable(64, 1 << 63).is_ok());
        assert_eq!(Supply::share(Supply::Whole, 0, 1), Err(refusal::supply(18)));
        assert_eq!(Supply::share(Supply::Whole, 3, 2), Err(refusal::supply(18)));
        assert_eq!(Supply::share(Supply::Whole, 1, 65), Err(refusal::supply(18)));
        let pile = (0..3).fold(Supply::Whole, |below, _| Supply::share(below, 1, 64).unwrap());
        assert_eq!(pile.phases(), 262_144);
        assert_eq!(Supply::share(pile, 1, 4), Err(refusal::supply(18)));
    }

    #[test]
    fn attainment_and_formula_on_small_supplies_and_piles() {
        for length in 1..=5 {
            for word in 1..1u64 << length {
                let below = Supply::timetable(length, word).unwrap();
                check(&below);
                for f in 1..=4 {
                    for s in 1..=f {
                        let share = Supply::share(below.clone(), s, f).unwrap();
                        check(&share);
                        let x = below.least_up_to(30);
                        let y = share.least_up_to(30);
                        for n in 0..=30 {
                            assert_eq!(y[n], formula(x[n], s, f));
                        }
                        if length <= 3 {
                            check(&Supply::share(share, 2, 3).unwrap());
                        }
                    }
                }
            }
        }
    }

    /// The two laws, and that the starts add nothing to the phases.
    fn check(supply: &Supply) {
        let least = supply.least_over_starts(20, supply.phases() as usize);
        assert_eq!(least, supply.least_over_starts(20, 1));
        for n in 0..=20 {
            let worst = supply.worst(n);
            assert!(worst < supply.phases());
            assert_eq!(supply.count(worst, n), least[n]);
        }
    }

    #[test]
    fn a_phase_stands_for_its_remainder() {
        let share = Supply::share(Supply::timetable(5, 11).unwrap(), 2, 3).unwrap();
        assert_eq!(share.slots(7, 40), share.slots(7 + 15 * 9, 40));
    }
}
