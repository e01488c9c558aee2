//! Measurements: legal or not and the wirelength, or the refusal.

use crate::chips::Chip;
use crate::damage;
use crate::generating::{self, LARGE, MIDDLE, SMALL};
use crate::library::{self, NO, YES};
use crate::measuring::expected;
use crate::random::Random;
use crate::report::{shown, Difference, Tally};

pub fn measures(random: &mut Random, count: usize) -> Result<Tally, Difference> {
    let mut tally = Tally::new("measurements", "legal", "illegal");
    for _ in 0..count {
        let bounds = random.pick(&[SMALL, MIDDLE, LARGE]);
        let chip = generating::chip(random, &bounds);
        let mut positions = positions(random, &chip);
        if random.chance(12) {
            spoil_values(random, &mut positions);
        }
        if random.chance(12) {
            spoil_length(random, &mut positions);
        }
        let text = if random.chance(6) { damage::chip_text(random) } else { chip.text() };
        compare(&text, &positions, &mut tally)?;
    }
    Ok(tally)
}

pub fn compare(text: &[u8], positions: &[u64], tally: &mut Tally) -> Result<(), Difference> {
    let expected = expected(text, positions);
    let found = library::measure(text, positions);
    if found != expected {
        return Err(Difference {
            service: "measurements",
            input: format!("{}, {} positions {positions:?}", shown(text), positions.len()),
            library: found.to_string(),
            expected: expected.to_string(),
        });
    }
    tally.answer(found.number);
    if found.number == YES || found.number == NO {
        tally.greatest("greatest wirelength", found.value);
    }
    Ok(())
}

/// Positions of a placement that is legal where one was found, some of them moved a little; or
/// the farthest positions.
pub fn positions(random: &mut Random, chip: &Chip) -> Vec<u64> {
    if random.chance(6) {
        return vec![1_024; 2 * chip.macros.len()];
    }
    let spots = generating::legal_spots(random, chip);
    let mut positions: Vec<u64> = spots.concat().iter().map(|&place| place as u64).collect();
    let moved = random.pick(&[0, 0, 10, 50]);
    for position in &mut positions {
        if random.chance(moved) {
            *position = match random.below(8) {
                0 => random.pick(&[0, 1_023, 1_024]),
                1 => random.within(0, 1_024) as u64,
                2..5 => position.saturating_sub(1),
                _ => (*position + 1).min(1_024),
            };
        }
    }
    positions
}

fn spoil_values(random: &mut Random, positions: &mut [u64]) {
    if positions.is_empty() {
        return;
    }
    let place = random.below(positions.len());
    let any = random.next();
    positions[place] =
        random.pick(&[1_025, 1_026, 2_048, 65_536, 1 << 32, (1 << 32) + 1, 1 << 63, u64::MAX, any]);
}

fn spoil_length(random: &mut Random, positions: &mut Vec<u64>) {
    let length = match random.below(5) {
        0 => 0,
        1 => positions.len() + 1,
        2 => positions.len().saturating_sub(1),
        3 => random.below(20),
        _ => random.pick(&[16, 17, 18, 255, 256, 257, 512, 65_536, 65_538]),
    };
    positions.resize(length, 1);
}
