//! Legality and wirelength of a placement, and what measuring answers.

use crate::chips::{Chip, Spot};
use crate::library::{Answer, NO, YES};
use crate::reading::read_chip;

const POSITION_MOST: u64 = 1_024;

/// One of two rectangles is left of, right of, below or above the other; edges may touch.
pub fn apart(corner: Spot, size: Spot, other: Spot, other_size: Spot) -> bool {
    (0..2).any(|axis| {
        corner[axis] + size[axis] <= other[axis] || other[axis] + other_size[axis] <= corner[axis]
    })
}

/// Macro `m` (from 0) at `spot` lies in the die, apart from each fix and each macro before it.
pub fn clear(chip: &Chip, m: usize, spot: Spot, before: &[Spot]) -> bool {
    let size = chip.macros[m];
    let inside = (0..2).all(|axis| spot[axis] >= 0 && spot[axis] + size[axis] <= chip.die[axis]);
    let mut fixes = chip.fixes.iter();
    let mut macros = before.iter().zip(&chip.macros);
    inside
        && fixes.all(|fix| apart(spot, size, fix.corner, fix.size))
        && macros.all(|(other, other_size)| apart(spot, size, *other, *other_size))
}

pub fn legal(chip: &Chip, spots: &[Spot]) -> bool {
    (0..spots.len()).all(|m| clear(chip, m, spots[m], &spots[..m]))
}

pub fn wirelength(chip: &Chip, spots: &[Spot]) -> i64 {
    (0..2).map(|axis| axis_length(chip, axis, |m| spots[m][axis])).sum()
}

/// The share of one axis in the wirelength; `corner` gives the coordinate of each macro.
pub fn axis_length(chip: &Chip, axis: usize, corner: impl Fn(usize) -> i64) -> i64 {
    let mut length = 0;
    for net in &chip.nets {
        let mut low = i64::MAX;
        let mut high = i64::MIN;
        for pin in &net.pins {
            let corner = if pin.m == 0 { 0 } else { corner(pin.m - 1) };
            low = low.min(corner + pin.at[axis]);
            high = high.max(corner + pin.at[axis]);
        }
        length += net.weight * (high - low);
    }
    length
}

/// The corners of the numbers x1, y1, x2, y2 ..
pub fn spots(positions: &[u64]) -> Vec<Spot> {
    positions.chunks(2).map(|spot| [spot[0] as i64, spot[1] as i64]).collect()
}

/// The answer of the measuring service.
pub fn expected(text: &[u8], positions: &[u64]) -> Answer {
    let chip = match read_chip(text) {
        Ok(chip) => chip,
        Err(refusal) => return Answer::refused(refusal),
    };
    if positions.len() != 2 * chip.macros.len() {
        return Answer::new(13, 0);
    }
    if positions.iter().any(|&position| position > POSITION_MOST) {
        return Answer::new(14, 0);
    }
    let spots = spots(positions);
    let number = if legal(&chip, &spots) { YES } else { NO };
    Answer::new(number, wirelength(&chip, &spots) as u64)
}
