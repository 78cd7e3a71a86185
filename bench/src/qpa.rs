//! The quick processor-demand test on the whole processor: from the last deadline before a bound it goes down by demand itself.
//! It tells only whether the lines fit.

use crate::roster::{demand, Row};

/// The synchronous busy period: the first instant from 1 on at which all that was released is done; none where the lines ask
/// for more than all slots.
fn busy_period(rows: &[Row], end: u32) -> Option<u32> {
    let mut w: u32 = rows.iter().map(|row| u32::from(row.cost)).sum();
    loop {
        let next: u32 = rows.iter().map(|row| w.div_ceil(u32::from(row.period)) * u32::from(row.cost)).sum();
        if next == w {
            return Some(w);
        }
        if next > end {
            return None;
        }
        w = next;
    }
}

/// The last deadline before an instant.
fn last_before(rows: &[Row], t: u16) -> Option<u16> {
    rows.iter()
        .filter(|row| row.deadline < t)
        .map(|row| (t - 1 - row.deadline) / row.period * row.period + row.deadline)
        .max()
}

/// Whether the lines fit.
pub fn fits(rows: &[Row], hyperperiod: u16) -> bool {
    let load: u32 = rows.iter().map(|row| u32::from(hyperperiod / row.period) * u32::from(row.cost)).sum();
    if load > u32::from(hyperperiod) {
        return false;
    }
    let Some(bound) = busy_period(rows, 60_000) else {
        return false;
    };
    let Some(first) = rows.iter().map(|row| row.deadline).min() else {
        return true;
    };
    let mut at = last_before(rows, bound as u16);
    while let Some(t) = at {
        let asked = demand(rows, t);
        if asked > u32::from(t) {
            return false;
        }
        if asked <= u32::from(first) {
            return true;
        }
        at = if asked < u32::from(t) { Some(asked as u16) } else { last_before(rows, t) };
    }
    true
}
