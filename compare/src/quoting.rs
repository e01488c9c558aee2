//! The quoting page (document 02, Card 11): the design desk's record within the page's limits, 22
//! beyond them.

use crate::chips::Chip;
use crate::generating::{Bounds, SMALL};
use crate::library::Answer;
use crate::placing::{self, chosen, compare_chip, PAGE, TRIED};
use crate::random::Random;
use crate::report::{Difference, Tally};
use crate::trying::{by_positions, placements};

const MACROS: usize = 4;
const FIXES: usize = 2;
const PINS: usize = 16;

/// Chips on both sides of each limit. A net has a pin at least, so there may be as many nets as pins.
const WITHIN: Bounds = Bounds { nets: PINS, pins: PINS, ..SMALL };
const MORE_MACROS: Bounds = Bounds { macros: MACROS + 1, ..WITHIN };
const MORE_FIXES: Bounds = Bounds { fixes: FIXES + 1, ..WITHIN };
const MORE_PINS: Bounds = Bounds { nets: PINS + 1, pins: PINS + 1, ..SMALL };
const MORE_OF_ALL: Bounds =
    Bounds { macros: MACROS + 1, fixes: FIXES + 2, nets: PINS + 3, pins: PINS + 3, ..SMALL };

const AT: [&str; 3] = ["at 4 macros", "at 2 fixes", "at 16 pins"];
const ONE_MORE: [&str; 3] = ["a macro more", "a fix more", "a pin more"];

/// How many macros, fixes and pins a chip has more than the page takes, below 0 where fewer.
fn excess(chip: &Chip) -> [i64; 3] {
    let pins = chip.nets.iter().map(|net| net.pins.len()).sum();
    let counts = [(chip.macros.len(), MACROS), (chip.fixes.len(), FIXES), (pins, PINS)];
    counts.map(|(count, most): (usize, usize)| count as i64 - most as i64)
}

pub fn is_beyond(chip: &Chip) -> bool {
    excess(chip).iter().any(|&more| more > 0)
}

/// Notes a chip that is at a limit or one beyond it, the others kept.
fn note(chip: &Chip, tally: &mut Tally) {
    let excess = excess(chip);
    for kind in 0..excess.len() {
        let alone = (0..excess.len()).all(|other| other == kind || excess[other] <= 0);
        match excess[kind] {
            0 if alone => tally.see(AT[kind]),
            1 if alone => tally.see(ONE_MORE[kind]),
            _ => {}
        }
    }
}

/// Small chips by trying every position; those beyond the limits with buffers of any length.
pub fn quotes(random: &mut Random, count: usize) -> Result<Tally, Difference> {
    let mut tally = Tally::new(PAGE.name, "written", "");
    for _ in 0..count {
        let bounds = random.pick(&[WITHIN, MORE_MACROS, MORE_FIXES, MORE_PINS, MORE_OF_ALL]);
        let few = |chip: &Chip| is_beyond(chip) || placements(chip, TRIED) < TRIED;
        let chip = chosen(random, &bounds, few);
        note(&chip, &mut tally);
        if is_beyond(&chip) {
            let length = random.pick(&[0, 1, 9, 10, 256]);
            placing::compare(PAGE, &chip.text(), length, &[], Answer::new(22, 0), &mut tally)?;
        } else {
            compare_chip(random, PAGE, &chip, by_positions(&chip).first, &mut tally)?;
        }
    }
    Ok(tally)
}
