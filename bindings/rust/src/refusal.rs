use crate::foreign::{self, Refused};
use std::error::Error;
use std::fmt;

/// The part of the gateway that refused.
#[derive(Clone, Copy, PartialEq, Eq, Debug)]
pub enum Layer {
    Supply,
    Roster,
    Run,
    Sheet,
}

impl fmt::Display for Layer {
    fn fmt(&self, f: &mut fmt::Formatter) -> fmt::Result {
        f.write_str(match self {
            Layer::Supply => "supply",
            Layer::Roster => "roster",
            Layer::Run => "run",
            Layer::Sheet => "sheet",
        })
    }
}

/// Why a call is refused. docs/REFUSALS.md has the reasons by number.
#[derive(Clone, Copy, PartialEq, Eq, Debug)]
pub struct Refusal {
    pub number: u8,
    pub layer: Layer,
    /// A line or a job, from 0; a cite, from 1; or the length needed; 0 where the reason names none.
    pub place: u32,
    /// The record of the sheet, from 1, and the byte at which it begins; 0 where it is not a record that is refused.
    pub record: u32,
    pub byte: u32,
}

impl From<Refused> for Refusal {
    fn from(refused: Refused) -> Refusal {
        Refusal {
            number: refused.number,
            layer: match refused.layer {
                foreign::SUPPLY => Layer::Supply,
                foreign::ROSTER => Layer::Roster,
                foreign::RUN => Layer::Run,
                _ => Layer::Sheet,
            },
            place: refused.place,
            record: refused.record,
            byte: refused.byte,
        }
    }
}

impl fmt::Display for Refusal {
    fn fmt(&self, f: &mut fmt::Formatter) -> fmt::Result {
        write!(
            f,
            "refused {} {} place {} record {} byte {}",
            self.number, self.layer, self.place, self.record, self.byte
        )
    }
}

impl Error for Refusal {}
