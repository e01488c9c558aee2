//! The slow ways: every position, every letter string, every coordinate.

use crate::chips::{Chip, Second, Spot, LETTERS};
use crate::fitting::fit;
use crate::measuring::{axis_length, clear, wirelength};
use crate::records::Placed;

/// How many corners macro `m` has in the die along an axis.
fn corners(chip: &Chip, m: usize, axis: usize) -> i64 {
    (chip.die[axis] - chip.macros[m][axis] + 1).max(0)
}

/// How many lists of coordinates of an axis there are in the die, as far as `most`.
pub fn coordinates(chip: &Chip, axis: usize, most: i64) -> i64 {
    let macros = 0..chip.macros.len();
    macros.fold(1, |count, m| count.saturating_mul(corners(chip, m, axis)).min(most))
}

/// How many placements there are in the die, as far as `most`.
pub fn placements(chip: &Chip, most: i64) -> i64 {
    coordinates(chip, 0, most).saturating_mul(coordinates(chip, 1, most)).min(most)
}

/// The earliest least placement so far, and how many legal ones are as short.
#[derive(Default)]
pub struct Least {
    pub first: Option<Placed>,
    pub equal: usize,
}

/// Tries every position of each macro, in document 01's order of placements.
pub fn by_positions(chip: &Chip) -> Least {
    let mut least = Least::default();
    try_positions(chip, &mut Vec::new(), &mut least);
    least
}

/// A macro that is not clear of the macros before it makes every placement from there on illegal.
fn try_positions(chip: &Chip, spots: &mut Vec<Spot>, least: &mut Least) {
    let m = spots.len();
    if m == chip.macros.len() {
        return try_placement(wirelength(chip, spots), spots, least);
    }
    for x in 0..corners(chip, m, 0) {
        for y in 0..corners(chip, m, 1) {
            if clear(chip, m, [x, y], spots) {
                spots.push([x, y]);
                try_positions(chip, spots, least);
                spots.pop();
            }
        }
    }
}

fn try_placement(length: i64, spots: &[Spot], least: &mut Least) {
    match &least.first {
        Some(first) if first.length < length => {}
        Some(first) if first.length == length => least.equal += 1,
        _ => {
            let first = Some(Placed { length, spots: spots.to_vec() });
            *least = Least { first, equal: 1 };
        }
    }
}

/// Tries every string of the four letters: a placement in the die is legal where it keeps one, and
/// the fit is the earliest least placement of its string.
pub fn by_letters(chip: &Chip) -> Option<Placed> {
    let mut best = None;
    try_letters(chip, &mut vec![b'.'; chip.pairs().len()], 0, &mut best);
    best
}

/// Further letters never make a fit shorter, nor a coordinate smaller in an equally short one: where
/// the best is not after the fit of the letters so far, no string from there on is better.
fn try_letters(chip: &Chip, letters: &mut [u8], decided: usize, best: &mut Option<Placed>) {
    let Some(placed) = fit(chip, letters) else {
        return;
    };
    if best.as_ref().is_some_and(|best| *best <= placed) {
        return;
    }
    if decided == letters.len() {
        *best = Some(placed);
        return;
    }
    for letter in LETTERS.concat() {
        letters[decided] = letter;
        try_letters(chip, letters, decided + 1, best);
    }
    letters[decided] = b'.';
}

/// Whether the coordinates of an axis keep the letters of that axis.
fn keeps(chip: &Chip, letters: &[u8], axis: usize, values: &[i64]) -> bool {
    let [before, after] = LETTERS[axis];
    let mut pairs = chip.pairs().into_iter().zip(letters);
    pairs.all(|((a, second), &letter)| {
        let (start, size) = match second {
            Second::Macro(b) => (values[b], chip.macros[b][axis]),
            Second::Fix(f) => (chip.fixes[f].corner[axis], chip.fixes[f].size[axis]),
        };
        (letter != before || values[a] + chip.macros[a][axis] <= start)
            && (letter != after || start + size <= values[a])
    })
}

/// The least length of an axis under the letters, and the smallest of each coordinate among all
/// coordinates of that length. For few coordinates only.
pub fn by_coordinates(chip: &Chip, letters: &[u8], axis: usize) -> Option<(i64, Vec<i64>)> {
    let mut best: Option<(i64, Vec<i64>)> = None;
    for turn in 0..coordinates(chip, axis, i64::MAX) {
        let mut rest = turn;
        let mut values = Vec::new();
        for m in 0..chip.macros.len() {
            values.push(rest % corners(chip, m, axis));
            rest /= corners(chip, m, axis);
        }
        if !keeps(chip, letters, axis, &values) {
            continue;
        }
        let length = axis_length(chip, axis, |m| values[m]);
        match &mut best {
            Some(best) if best.0 < length => {}
            Some(best) if best.0 == length => {
                let smaller = best.1.iter().zip(values).map(|(&least, value)| value.min(least));
                best.1 = smaller.collect();
            }
            _ => best = Some((length, values)),
        }
    }
    best
}
