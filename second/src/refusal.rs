//! Refusals: the number of the reason, the layer that refused, and a place.

/// The layer that turned a call down.
#[derive(Clone, Copy, Debug, PartialEq, Eq)]
pub enum Layer {
    Supply,
    Roster,
    Run,
    Sheet,
}

impl Layer {
    /// The layer's name, as the report prints it.
    pub fn name(self) -> &'static str {
        match self {
            Layer::Supply => "supply",
            Layer::Roster => "roster",
            Layer::Run => "run",
            Layer::Sheet => "sheet",
        }
    }
}

/// A refusal.
#[derive(Clone, Copy, Debug, PartialEq, Eq)]
pub struct Refusal {
    pub number: u32,
    pub layer: Layer,
    pub place: u32,
}

/// A refusal of the roster.
pub fn roster(number: u32, place: u32) -> Refusal {
    Refusal { number, layer: Layer::Roster, place }
}

/// A refusal of a supply; its place is always 0.
pub fn supply(number: u32) -> Refusal {
    Refusal { number, layer: Layer::Supply, place: 0 }
}

/// A refusal of a run.
pub fn run(number: u32, place: u32) -> Refusal {
    Refusal { number, layer: Layer::Run, place }
}

/// A refusal of a call on sheets.
pub fn sheet(number: u32, place: u32) -> Refusal {
    Refusal { number, layer: Layer::Sheet, place }
}
