//! Chip text to record text, alone or with boxes: compared byte for byte with the slow ways, for
//! buffers of any length.

use crate::boxing;
use crate::chips::Chip;
use crate::damage;
use crate::generating::{self, Bounds, FEW, SMALL, THIN};
use crate::library::{self, blank_bytes, Answer, YES};
use crate::random::Random;
use crate::reading::read_chip;
use crate::records::{record_text, Placed};
use crate::report::{shown, Difference, Tally, OWN};
use crate::trying::{by_letters, by_positions, placements, Least};

/// A service that writes a text for a chip text; `text` makes it of the chip and its earliest least
/// placement.
#[derive(Clone, Copy)]
pub struct Service {
    pub name: &'static str,
    call: fn(&[u8], &mut [u8]) -> Answer,
    text: fn(&Chip, Option<&Placed>) -> Vec<u8>,
}

/// The design desk's search, the quoting page's, and the desk's with the boxes of the nets.
pub const DESK: Service = Service { name: "records", call: library::place, text: record };
pub const PAGE: Service =
    Service { name: "records of the page", call: library::quote, text: record };
pub const BOXES: Service =
    Service { name: "records with boxes", call: library::boxes, text: boxing::text };

fn record(_: &Chip, best: Option<&Placed>) -> Vec<u8> {
    record_text(best)
}

/// Up to so many placements of a small chip are tried.
pub const TRIED: i64 = 60_000;
/// Up to so many letters are decided in all ways.
pub const DECIDED: usize = 12;

/// Small chips by trying every position.
pub fn small(random: &mut Random, count: usize) -> Result<Tally, Difference> {
    let mut tally = Tally::new("records of small chips", "written", "");
    for _ in 0..count {
        let bounds = random.pick(&[SMALL, THIN]);
        let chip = chosen(random, &bounds, |chip| placements(chip, TRIED) < TRIED);
        let least = by_positions(&chip);
        note(&chip, &least, &mut tally);
        check_own_ways(&chip, &least, &mut tally)?;
        compare_chip(random, DESK, &chip, least.first, &mut tally)?;
    }
    Ok(tally)
}

fn note(chip: &Chip, least: &Least, tally: &mut Tally) {
    match least.equal {
        0 => tally.see("none"),
        1 => tally.see("one least placement"),
        _ => tally.see("ties"),
    }
    match chip.macros.len() {
        0 => tally.see("no macros"),
        1 | 2 => tally.see("1 or 2 macros"),
        _ => tally.see("3 or 4 macros"),
    }
}

/// Compares the two slow ways with each other, where the letters are few.
fn check_own_ways(chip: &Chip, least: &Least, tally: &mut Tally) -> Result<(), Difference> {
    if chip.pairs().len() > DECIDED {
        return Ok(());
    }
    let best = by_letters(chip);
    if best != least.first {
        return Err(Difference {
            service: OWN,
            input: shown(&chip.text()),
            library: format!("by letters {best:?}"),
            expected: format!("by positions {:?}", least.first),
        });
    }
    tally.see("also by every letter string");
    Ok(())
}

/// Chips on large dies by trying every letter string.
pub fn large(random: &mut Random, count: usize) -> Result<Tally, Difference> {
    let mut tally = Tally::new("records of large dies", "written", "");
    for _ in 0..count {
        let chip = chosen(random, &FEW, |chip| chip.pairs().len() <= DECIDED);
        let best = by_letters(&chip);
        tally.see(if best.is_some() { "least" } else { "none" });
        if chip.macros.len() > 3 {
            tally.see("4 or 5 macros");
        }
        compare_chip(random, DESK, &chip, best, &mut tally)?;
    }
    Ok(tally)
}

/// Texts with faults: the refusal of the chip text, and nothing written.
pub fn refused(
    random: &mut Random,
    service: Service,
    what: &'static str,
    count: usize,
) -> Result<Tally, Difference> {
    let mut tally = Tally::new(what, "", "");
    for _ in 0..count {
        let (text, refusal) = loop {
            let text = damage::chip_text(random);
            if let Err(refusal) = read_chip(&text) {
                break (text, refusal);
            }
        };
        let length = random.pick(&[0, 5, 256, 5_000]);
        compare(service, &text, length, &[], Answer::refused(refusal), &mut tally)?;
    }
    Ok(tally)
}

pub fn chosen(random: &mut Random, bounds: &Bounds, wanted: impl Fn(&Chip) -> bool) -> Chip {
    loop {
        let chip = generating::chip(random, bounds);
        if wanted(&chip) {
            return chip;
        }
    }
}

/// Places a chip into a buffer that is too short, then into one that is exact or longer. One that
/// has room for the record alone is too short where boxes follow.
pub fn compare_chip(
    random: &mut Random,
    service: Service,
    chip: &Chip,
    best: Option<Placed>,
    tally: &mut Tally,
) -> Result<(), Difference> {
    let text = (service.text)(chip, best.as_ref());
    let below = random.below(text.len());
    let record = record_text(best.as_ref()).len();
    let short = random.pick(&[0, below, record, text.len() - 1]).min(text.len() - 1);
    compare(service, &chip.text(), short, &[], Answer::new(15, 0), tally)?;
    let enough = text.len() + random.pick(&[0, 1, 5, 300]);
    let written = Answer::new(YES, text.len() as u64);
    compare(service, &chip.text(), enough, &text, written, tally)
}

/// What a service writes into a buffer of that length; not tested.
pub fn output(service: Service, text: &[u8], length: usize) -> Vec<u8> {
    let mut out = blank_bytes(length);
    let answer = (service.call)(text, &mut out);
    out.truncate(if answer.number == YES { answer.value as usize } else { 0 });
    out
}

/// The buffer must begin with `written` and hold what it held from there on.
pub fn compare(
    service: Service,
    text: &[u8],
    length: usize,
    written: &[u8],
    expected: Answer,
    tally: &mut Tally,
) -> Result<(), Difference> {
    let mut wanted = blank_bytes(length);
    let mut out = wanted.clone();
    wanted[..written.len()].copy_from_slice(written);
    let found = (service.call)(text, &mut out);
    if found != expected || out != wanted {
        return Err(Difference {
            service: service.name,
            input: format!("{}, buffer of {length} bytes", shown(text)),
            library: format!("{found}, buffer {}", shown(&out)),
            expected: format!("{expected}, buffer {}", shown(&wanted)),
        });
    }
    tally.answer(found.number);
    Ok(())
}
