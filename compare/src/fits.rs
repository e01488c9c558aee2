//! Fits: length and positions, with the flow counted, or no fit, with the chain counted, or the
//! refusal; and what each list holds afterwards.

use crate::chips::{Chip, Spot};
use crate::counting::{count_chain, count_flow};
use crate::damage;
use crate::fitting::{fit, fit_axis};
use crate::generating::{self, LARGE, MIDDLE, SMALL};
use crate::library::{self, blank_numbers, blank_slots, Answer, NO, YES};
use crate::measuring::axis_length;
use crate::random::Random;
use crate::reading::read_chip;
use crate::report::{shown, Difference, Tally, OWN};
use crate::trying::{by_coordinates, coordinates};

/// Up to so many lists of coordinates of an axis are tried one by one.
const TRIED: i64 = 3_000;

/// A call of the fit: its inputs and the lengths of the lists lent for the answer.
pub struct Call {
    pub text: Vec<u8>,
    pub letters: Vec<u8>,
    pub slots: usize,
    pub positions: usize,
}

/// What a call left behind.
pub struct Found {
    answer: Answer,
    slots: Vec<u16>,
    positions: Vec<u64>,
}

pub fn fits(random: &mut Random, count: usize) -> Result<Tally, Difference> {
    let mut tally = Tally::new("fits", "fit", "no fit");
    for _ in 0..count {
        let bounds = random.pick(&[SMALL, SMALL, MIDDLE, LARGE, LARGE]);
        let chip = generating::chip(random, &bounds);
        let call = random_call(random, &chip);
        let found = compare(&call, &mut tally)?;
        note(&call, &found, &mut tally);
        check_own_fit(&chip, &generating::letters(random, &chip), &mut tally)?;
    }
    Ok(tally)
}

/// Fits of the empty string: as the comparison's own, and as the library's fit of a string of dots.
pub fn of_empty_string(random: &mut Random, count: usize) -> Result<Tally, Difference> {
    let mut tally = Tally::new("fits of the empty string", "fit", "no fit");
    for _ in 0..count {
        let bounds = random.pick(&[SMALL, SMALL, MIDDLE, LARGE]);
        let chip = generating::chip(random, &bounds);
        let call = Call { letters: Vec::new(), ..random_call(random, &chip) };
        let found = compare(&call, &mut tally)?;
        compare_with_dots(call, &found)?;
        tally.see(if chip.pairs().is_empty() { "without pairs" } else { "with pairs" });
    }
    Ok(tally)
}

/// Compares the answer of the empty string and the positions with those of a string of dots.
fn compare_with_dots(call: Call, found: &Found) -> Result<(), Difference> {
    let Ok(chip) = read_chip(&call.text) else { return Ok(()) };
    let dots = Call { letters: vec![b'.'; chip.pairs().len()], ..call };
    let of_dots = called(&dots);
    if found.answer == of_dots.answer && found.positions == of_dots.positions {
        return Ok(());
    }
    Err(Difference {
        service: "fits of the empty string",
        input: format!("{}, {} slots, {} positions", shown(&dots.text), dots.slots, dots.positions),
        library: format!("{}, positions {:?}", found.answer, found.positions),
        expected: format!("as for dots: {}, positions {:?}", of_dots.answer, of_dots.positions),
    })
}

/// A call that is right in most cases, with one or more faults in the others.
fn random_call(random: &mut Random, chip: &Chip) -> Call {
    let mut call = Call {
        text: chip.text(),
        letters: generating::letters(random, chip),
        slots: chip.slot_count() + random.pick(&[0, 0, 1, 7, 100, 800]),
        positions: 2 * chip.macros.len() + random.pick(&[0, 0, 1, 2, 20]),
    };
    if random.chance(4) {
        call.text = damage::chip_text(random);
    }
    if random.chance(6) {
        spoil_letters(random, &mut call.letters);
    }
    if random.chance(6) {
        let length = random.pick(&[0, call.letters.len() + 1, 93, 184, 300, 65_536, 100_000]);
        let length = random.pick(&[length, call.letters.len().saturating_sub(1)]);
        call.letters.resize(length, random.pick(b"L.x"));
    }
    if random.chance(8) {
        call.slots = shorter(random, chip.slot_count());
    }
    if random.chance(8) {
        call.positions = shorter(random, 2 * chip.macros.len());
    }
    call
}

fn shorter(random: &mut Random, length: usize) -> usize {
    let below = if length == 0 { 0 } else { random.below(length) };
    random.pick(&[0, below, length.saturating_sub(1), length / 2])
}

fn spoil_letters(random: &mut Random, letters: &mut [u8]) {
    if letters.is_empty() {
        return;
    }
    let place = random.below(letters.len());
    let any = random.byte();
    letters[place] = random.pick(&[0, b'\n', b' ', b'l', b'a', b',', b'/', b'-', b'C', 255, any]);
}

fn called(call: &Call) -> Found {
    let mut slots = blank_slots(call.slots);
    let mut positions = blank_numbers(call.positions);
    let answer = library::fit(&call.text, &call.letters, &mut slots, &mut positions);
    Found { answer, slots, positions }
}

pub fn compare(call: &Call, tally: &mut Tally) -> Result<Found, Difference> {
    let found = called(call);
    if let Err(expected) = check(call, &found) {
        return Err(Difference {
            service: "fits",
            input: format!(
                "{}, letters {}, {} slots, {} positions",
                shown(&call.text),
                shown(&call.letters),
                call.slots,
                call.positions
            ),
            library: format!(
                "{}, positions {:?}, slots {:?}",
                found.answer, found.positions, found.slots
            ),
            expected,
        });
    }
    tally.answer(found.answer.number);
    Ok(found)
}

/// Counts fits of the most letters and keeps the greatest amount and number of slots.
fn note(call: &Call, found: &Found, tally: &mut Tally) {
    let Ok(chip) = accepted(call) else { return };
    let amounts = found.slots[..chip.slot_count()].iter().max();
    tally.greatest("greatest amount", amounts.map_or(0, |&amount| u64::from(amount)));
    tally.greatest("most slots", chip.slot_count() as u64);
    if chip.macros.len() == 8 && chip.fixes.len() == 8 {
        let placed = found.answer.number == YES;
        tally.see(if placed { "with 92 letters: fit" } else { "with 92 letters: no fit" });
    }
}

/// The chip of a call that is not refused, or the refusal.
pub fn accepted(call: &Call) -> Result<Chip, Answer> {
    let chip = read_chip(&call.text).map_err(Answer::refused)?;
    let letters = undecided_or(&call.letters, &chip);
    if letters.len() != chip.pairs().len() {
        return Err(Answer::new(11, 0));
    }
    if letters.iter().any(|letter| !b"LRBA.".contains(letter)) {
        return Err(Answer::new(12, 0));
    }
    if call.slots < chip.slot_count() || call.positions < 2 * chip.macros.len() {
        return Err(Answer::new(15, 0));
    }
    Ok(chip)
}

/// Document 02, Card 12: for the fit the empty string means that every pair is undecided.
fn undecided_or(letters: &[u8], chip: &Chip) -> Vec<u8> {
    if letters.is_empty() {
        return vec![b'.'; chip.pairs().len()];
    }
    letters.to_vec()
}

/// Compares what a call left with what it should; the fault says what was expected.
fn check(call: &Call, found: &Found) -> Result<(), String> {
    match accepted(call) {
        Err(refusal) => {
            check_answer(found, refusal)?;
            check_rest(found, 0, 0)
        }
        Ok(chip) => {
            let (slots, numbers) = (chip.slot_count(), 2 * chip.macros.len());
            let letters = undecided_or(&call.letters, &chip);
            let Some(placed) = fit(&chip, &letters) else {
                check_answer(found, Answer::new(NO, 0))?;
                check_rest(found, slots, 0)?;
                return count_chain(&chip, &letters, &found.slots[..slots]);
            };
            check_answer(found, Answer::new(YES, placed.length as u64))?;
            check_rest(found, slots, numbers)?;
            check_spots(&found.positions[..numbers], &placed.spots)?;
            count_flow(&chip, &letters, &found.slots[..slots], placed.length)
        }
    }
}

fn check_answer(found: &Found, expected: Answer) -> Result<(), String> {
    if found.answer == expected {
        Ok(())
    } else {
        Err(expected.to_string())
    }
}

fn check_spots(positions: &[u64], spots: &[Spot]) -> Result<(), String> {
    let expected: Vec<u64> = spots.concat().iter().map(|&place| place as u64).collect();
    if positions == expected {
        Ok(())
    } else {
        Err(format!("positions {expected:?}"))
    }
}

/// Whether all but the first `slots` slots and the first `numbers` positions are untouched.
fn check_rest(found: &Found, slots: usize, numbers: usize) -> Result<(), String> {
    if found.slots[slots..] != blank_slots(found.slots.len())[slots..] {
        return Err(format!("slots untouched from place {slots} on"));
    }
    if found.positions[numbers..] != blank_numbers(found.positions.len())[numbers..] {
        return Err(format!("positions untouched from place {numbers} on"));
    }
    Ok(())
}

/// Compares the comparison's own fit with trying every coordinate, where they are few.
fn check_own_fit(chip: &Chip, letters: &[u8], tally: &mut Tally) -> Result<(), Difference> {
    for axis in 0..2 {
        if coordinates(chip, axis, TRIED) == TRIED {
            continue;
        }
        let values = fit_axis(chip, letters, axis);
        let raised = values.map(|values| (axis_length(chip, axis, |m| values[m]), values));
        let tried = by_coordinates(chip, letters, axis);
        if raised != tried {
            return Err(Difference {
                service: OWN,
                input: format!("{}, letters {}, axis {axis}", shown(&chip.text()), shown(letters)),
                library: format!("by raising sets {raised:?}"),
                expected: format!("by trying every coordinate {tried:?}"),
            });
        }
        tally.see("own fit tried by every coordinate");
    }
    Ok(())
}
