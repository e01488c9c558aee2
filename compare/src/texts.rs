//! Chip texts and record texts: accepted, or number and line.

use crate::damage;
use crate::library::{self, Answer, YES};
use crate::random::Random;
use crate::reading::{read_chip, read_record};
use crate::report::{shown, Difference, Tally};

pub fn chips(random: &mut Random, count: usize) -> Result<Tally, Difference> {
    let mut tally = Tally::new("chip texts", "accepted", "");
    for _ in 0..count {
        compare_chip(&damage::chip_text(random), &mut tally)?;
    }
    Ok(tally)
}

pub fn compare_chip(text: &[u8], tally: &mut Tally) -> Result<(), Difference> {
    let expected = read_chip(text).map_or_else(Answer::refused, |_| Answer::new(YES, 0));
    settle("chip texts", text, library::check_chip(text), expected, tally)
}

pub fn records(random: &mut Random, count: usize) -> Result<Tally, Difference> {
    let mut tally = Tally::new("record texts", "accepted", "");
    for _ in 0..count {
        compare_record(&damage::record_text(random), &mut tally)?;
    }
    Ok(tally)
}

pub fn compare_record(text: &[u8], tally: &mut Tally) -> Result<(), Difference> {
    let expected = read_record(text).map_or_else(Answer::refused, |_| Answer::new(YES, 0));
    settle("record texts", text, library::check_record(text), expected, tally)
}

fn settle(
    service: &'static str,
    text: &[u8],
    found: Answer,
    expected: Answer,
    tally: &mut Tally,
) -> Result<(), Difference> {
    if found != expected {
        let (library, expected) = (found.to_string(), expected.to_string());
        return Err(Difference { service, input: shown(text), library, expected });
    }
    tally.answer(found.number);
    Ok(())
}
