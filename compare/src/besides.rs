//! Records read beside their chips (document 02, Card 1): passed, or number, line and the text at
//! fault.

use crate::chips::Chip;
use crate::damage;
use crate::generating::{self, LARGE, MIDDLE, SMALL};
use crate::library::{self, Answer, YES};
use crate::measures::positions;
use crate::measuring::{legal, spots, wirelength};
use crate::random::Random;
use crate::reading::{read_chip, read_record};
use crate::records::{record_text, Placed};
use crate::report::{shown, Difference, Tally};

/// The text at fault.
pub const NEITHER: u64 = 0;
pub const CHIP: u64 = 1;
pub const RECORD: u64 = 2;

pub fn records(random: &mut Random, count: usize) -> Result<Tally, Difference> {
    let mut tally = Tally::new("records beside chips", "passed", "");
    for _ in 0..count {
        let bounds = random.pick(&[SMALL, MIDDLE, LARGE]);
        let chip = generating::chip(random, &bounds);
        let record = record(random, &chip);
        let text = if random.chance(15) { damage::chip_text(random) } else { chip.text() };
        compare(&text, &record, &mut tally)?;
    }
    Ok(tally)
}

/// The number and the line, and the text at fault.
pub fn expected(chip: &[u8], record: &[u8]) -> (Answer, u64) {
    let chip = match read_chip(chip) {
        Ok(chip) => chip,
        Err(refusal) => return (Answer::refused(refusal), CHIP),
    };
    let number = match read_record(record) {
        Err(refusal) => return (Answer::refused(refusal), RECORD),
        Ok(None) => YES,
        Ok(Some(placed)) if placed.spots.len() != chip.macros.len() => 13,
        Ok(Some(placed)) if !legal(&chip, &placed.spots) => 16,
        Ok(Some(placed)) if placed.length != wirelength(&chip, &placed.spots) => 17,
        Ok(Some(_)) => YES,
    };
    (Answer::new(number, 0), NEITHER)
}

pub fn compare(chip: &[u8], record: &[u8], tally: &mut Tally) -> Result<(), Difference> {
    let expected = expected(chip, record);
    let found = library::check_beside(chip, record);
    if found != expected {
        let told = |(answer, text): (Answer, u64)| format!("{answer}, text at fault {text}");
        return Err(Difference {
            service: "records beside chips",
            input: format!("{}, {}", shown(chip), shown(record)),
            library: told(found),
            expected: told(expected),
        });
    }
    tally.answer(found.0.number);
    tally.see(["neither at fault", "the chip", "the record"][found.1 as usize]);
    Ok(())
}

/// Mostly the record of a placement of the chip, right or with a fault; else `none`, another
/// chip's record or a damaged one.
fn record(random: &mut Random, chip: &Chip) -> Vec<u8> {
    match random.below(20) {
        0 => record_text(None),
        1 => generating::record(random),
        2..5 => damage::record_text(random),
        _ => record_text(Some(&placed(random, chip))),
    }
}

/// A placement with its length or another, sometimes with a macro less or more.
fn placed(random: &mut Random, chip: &Chip) -> Placed {
    let mut spots = spots(&positions(random, chip));
    let own = wirelength(chip, &spots);
    let length = match random.below(8) {
        0 => own + 1,
        1 => (own - 1).max(0),
        2 => random.within(0, 589_824_000),
        _ => own,
    };
    match random.below(12) {
        0 => drop(spots.pop()),
        1 => spots.push([0, 0]),
        _ => {}
    }
    Placed { length, spots }
}
