//! Supplies in straight Rust: the same closed forms as in the library, without proofs.

/// The questions of a supply.
pub trait Supply {
    fn phases(&self) -> u32;
    fn count(&self, phase: u32, n: u16) -> u16;
    fn least(&self, n: u16) -> (u16, u32);
}

/// The whole processor.
#[derive(Clone, Copy)]
pub struct Whole;

impl Supply for Whole {
    fn phases(&self) -> u32 {
        1
    }

    fn count(&self, _phase: u32, n: u16) -> u16 {
        n
    }

    fn least(&self, n: u16) -> (u16, u32) {
        (n, 0)
    }
}

/// A row of slots that repeats: slot s is given when the bit of the word worth 2^s is 1.
#[derive(Clone, Copy)]
pub struct Timetable {
    pub length: u8,
    pub word: u64,
}

impl Timetable {
    fn before(&self, x: u32) -> u32 {
        let turn = u32::from(self.length);
        let left_over = self.word & ((1 << (x % turn)) - 1);
        x / turn * self.word.count_ones() + left_over.count_ones()
    }

    fn from(&self, start: u32, n: u16) -> u16 {
        (self.before(start + u32::from(n)) - self.before(start)) as u16
    }
}

impl Supply for Timetable {
    fn phases(&self) -> u32 {
        u32::from(self.length)
    }

    fn count(&self, phase: u32, n: u16) -> u16 {
        self.from(phase % u32::from(self.length), n)
    }

    fn least(&self, n: u16) -> (u16, u32) {
        let mut fewest = self.from(0, n);
        let mut worst = 0;
        for phase in 1..u32::from(self.length) {
            let given = self.from(phase, n);
            if given < fewest {
                fewest = given;
                worst = phase;
            }
        }
        (fewest, worst)
    }
}

/// A share of s in f of the slots that the supply below gives.
#[derive(Clone, Copy)]
pub struct Share<B> {
    pub below: B,
    pub s: u8,
    pub f: u8,
}

impl<B> Share<B> {
    fn taken_before(&self, x: u32) -> u32 {
        let turn = u32::from(self.f);
        let given = u32::from(self.s);
        x / turn * given + (x % turn).min(given)
    }
}

impl<B: Supply> Supply for Share<B> {
    fn phases(&self) -> u32 {
        self.below.phases() * u32::from(self.f)
    }

    fn count(&self, phase: u32, n: u16) -> u16 {
        let below = self.below.phases();
        let own = phase % (below * u32::from(self.f));
        let given = self.below.count(own % below, n);
        let start = own / below;
        (self.taken_before(start + u32::from(given)) - self.taken_before(start)) as u16
    }

    fn least(&self, n: u16) -> (u16, u32) {
        let (given, worst) = self.below.least(n);
        let turn = u16::from(self.f);
        let taken = u16::from(self.s);
        let sure = given / turn * taken + (given % turn).saturating_sub(turn - taken);
        (sure, worst + self.below.phases() * u32::from(self.s % self.f))
    }
}

/// The supplies that a sheet can name.
#[derive(Clone, Copy)]
pub enum Named {
    Whole(Whole),
    Timetable(Timetable),
    SharedWhole(Share<Whole>),
    SharedTimetable(Share<Timetable>),
}

impl Supply for Named {
    fn phases(&self) -> u32 {
        match self {
            Named::Whole(supply) => supply.phases(),
            Named::Timetable(supply) => supply.phases(),
            Named::SharedWhole(supply) => supply.phases(),
            Named::SharedTimetable(supply) => supply.phases(),
        }
    }

    fn count(&self, phase: u32, n: u16) -> u16 {
        match self {
            Named::Whole(supply) => supply.count(phase, n),
            Named::Timetable(supply) => supply.count(phase, n),
            Named::SharedWhole(supply) => supply.count(phase, n),
            Named::SharedTimetable(supply) => supply.count(phase, n),
        }
    }

    fn least(&self, n: u16) -> (u16, u32) {
        match self {
            Named::Whole(supply) => supply.least(n),
            Named::Timetable(supply) => supply.least(n),
            Named::SharedWhole(supply) => supply.least(n),
            Named::SharedTimetable(supply) => supply.least(n),
        }
    }
}
