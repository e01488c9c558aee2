//! Random chips, placements, letter strings and records.

use crate::chips::{Chip, Fix, Net, Pin, Second, Spot, LETTERS};
use crate::measuring::{apart, clear};
use crate::random::Random;
use crate::records::{record_text, Placed};

/// The largest of each kind in a chip.
#[derive(Clone, Copy)]
pub struct Bounds {
    pub die: Spot,
    pub fixes: usize,
    pub macros: usize,
    pub nets: usize,
    pub pins: usize,
}

pub const SMALL: Bounds = Bounds { die: [6, 5], fixes: 2, macros: 4, nets: 5, pins: 12 };
pub const THIN: Bounds = Bounds { die: [30, 2], fixes: 2, macros: 3, nets: 5, pins: 12 };
pub const MIDDLE: Bounds = Bounds { die: [60, 60], fixes: 4, macros: 5, nets: 10, pins: 30 };
pub const LARGE: Bounds = Bounds { die: [1_024, 1_024], fixes: 8, macros: 8, nets: 32, pins: 128 };
/// Large dies with few pairs, so that every letter string can be tried.
pub const FEW: Bounds = Bounds { die: [1_024, 1_024], fixes: 3, macros: 5, nets: 12, pins: 40 };

/// A chip that is accepted; many have as many of a kind as the bounds allow.
pub fn chip(random: &mut Random, bounds: &Bounds) -> Chip {
    let die = bounds.die.map(|most| if random.chance(8) { most } else { random.within(1, most) });
    let mut chip = Chip { die, ..Chip::default() };
    add_fixes(random, &mut chip, bounds.fixes);
    let part = random.pick(&[1, 2, 2, 3, 4, 6]);
    for _ in 0..count(random, bounds.macros) {
        let size = chip.die.map(|side| macro_side(random, side, part));
        chip.macros.push(size);
    }
    if bounds.nets == LARGE.nets && random.chance(8) {
        add_heavy_nets(random, &mut chip);
    } else {
        add_nets(random, &mut chip, bounds);
    }
    chip
}

fn count(random: &mut Random, most: usize) -> usize {
    if random.chance(40) {
        most
    } else {
        random.below(most + 1)
    }
}

/// Adds up to `most` fixes that lie in the die and overlap no other.
fn add_fixes(random: &mut Random, chip: &mut Chip, most: usize) {
    let count = count(random, most);
    let part = random.pick(&[2, 4, 8]);
    for _ in 0..4 * count {
        if chip.fixes.len() == count {
            break;
        }
        let size = chip.die.map(|side| random.within(1, (side / part).max(1)));
        let corner = [0, 1].map(|axis| random.within(0, chip.die[axis] - size[axis]));
        if chip.fixes.iter().all(|fix| apart(corner, size, fix.corner, fix.size)) {
            chip.fixes.push(Fix { corner, size });
        }
    }
}

/// Mostly up to a part of the die's side, sometimes all of it, rarely more.
fn macro_side(random: &mut Random, side: i64, part: i64) -> i64 {
    match random.below(100) {
        0 => random.within(1, 1_024),
        1..4 => side,
        _ => random.within(1, (side / part).max(1)),
    }
}

fn add_nets(random: &mut Random, chip: &mut Chip, bounds: &Bounds) {
    let mut pins = bounds.pins;
    for others in (0..count(random, bounds.nets)).rev() {
        let most = if random.chance(10) { pins - others } else { (pins - others).min(6) };
        let net = net(random, chip, most);
        pins -= net.pins.len();
        chip.nets.push(net);
    }
}

/// Nets of the greatest weight that all pull a macro or two to the same far pad: the greatest
/// amounts and lengths.
fn add_heavy_nets(random: &mut Random, chip: &mut Chip) {
    let pad = [0, 1].map(|_| random.pick(&[-4_096, 4_096]));
    let pulled = random.pick(&[1, 2]).min(chip.macros.len());
    for _ in 0..LARGE.nets {
        let m = if pulled == 0 { 0 } else { 1 + random.below(pulled) };
        let pins = vec![Pin { m, at: pad.map(|place| -place) }, Pin { m: 0, at: pad }];
        chip.nets.push(Net { weight: 1_000, pins });
    }
}

/// One net in ten has all its pins on one macro, or pads only: its length is the same everywhere.
fn net(random: &mut Random, chip: &Chip, most: usize) -> Net {
    let weight = match random.below(10) {
        0 => 1_000,
        1..3 => random.within(1, 1_000),
        _ => random.within(1, 4),
    };
    let one_macro = random.chance(10).then(|| random.below(chip.macros.len() + 1));
    let mut pins = Vec::new();
    for _ in 0..1 + random.below(most) {
        let m = one_macro.unwrap_or_else(|| random.below(chip.macros.len() + 1));
        pins.push(Pin { m, at: [pin_place(random, chip, m, 0), pin_place(random, chip, m, 1)] });
    }
    Net { weight, pins }
}

/// Mostly in the macro or in the die, sometimes off it, rarely at the ends of the range.
fn pin_place(random: &mut Random, chip: &Chip, m: usize, axis: usize) -> i64 {
    let side = if m == 0 { chip.die[axis] } else { chip.macros[m - 1][axis] };
    match random.below(20) {
        0 => random.pick(&[-4_096, 4_096]),
        1 => random.within(-4_096, 4_096),
        2..6 => random.within(-3, side + 3),
        6..10 => 0,
        _ => random.within(0, side),
    }
}

/// A corner for each macro in the die, or at 0 where the macro is larger.
fn spots_in_die(random: &mut Random, chip: &Chip) -> Vec<Spot> {
    let mut spot =
        |size: &Spot| [0, 1].map(|axis| random.within(0, (chip.die[axis] - size[axis]).max(0)));
    chip.macros.iter().map(&mut spot).collect()
}

/// The same, with some tries for each macro to make it legal.
pub fn legal_spots(random: &mut Random, chip: &Chip) -> Vec<Spot> {
    let mut spots = spots_in_die(random, chip);
    for m in 0..spots.len() {
        for _ in 0..60 {
            if clear(chip, m, spots[m], &spots[..m]) {
                break;
            }
            spots[m] = spots_in_die(random, chip)[m];
        }
    }
    spots
}

/// Letters that the placement keeps, a dot where it keeps none.
fn letters_of(random: &mut Random, chip: &Chip, spots: &[Spot]) -> Vec<u8> {
    let mut letters = Vec::new();
    for (a, second) in chip.pairs() {
        let (corner, size) = match second {
            Second::Macro(b) => (spots[b], chip.macros[b]),
            Second::Fix(f) => (chip.fixes[f].corner, chip.fixes[f].size),
        };
        let mut kept = Vec::new();
        for (axis, names) in LETTERS.into_iter().enumerate() {
            if spots[a][axis] + chip.macros[a][axis] <= corner[axis] {
                kept.push(names[0]);
            }
            if corner[axis] + size[axis] <= spots[a][axis] {
                kept.push(names[1]);
            }
        }
        letters.push(if kept.is_empty() { b'.' } else { random.pick(&kept) });
    }
    letters
}

/// A letter string of the right length: any letters, or those of a placement with some changed.
pub fn letters(random: &mut Random, chip: &Chip) -> Vec<u8> {
    let spots = legal_spots(random, chip);
    let mut letters = letters_of(random, chip, &spots);
    let (dots, others) = random.pick(&[
        (0, 0),
        (20, 0),
        (60, 0),
        (10, 2),
        (50, 10),
        (0, 100),
        (30, 70),
        (90, 10),
        (100, 0),
    ]);
    for letter in &mut letters {
        if random.chance(others) {
            *letter = random.pick(b"LRBA");
        }
        if random.chance(dots) {
            *letter = b'.';
        }
    }
    letters
}

/// The text of a record of any wirelength and any corners, numbered in turn.
pub fn record(random: &mut Random) -> Vec<u8> {
    if random.chance(15) {
        return record_text(None);
    }
    let length = match random.below(4) {
        0 => random.pick(&[0, 589_823_999, 589_824_000]),
        1 => random.within(0, 589_824_000),
        _ => random.within(0, 2_000),
    };
    let mut spots = Vec::new();
    for _ in 0..count(random, 8) {
        let most = random.pick(&[3, 50, 1_024]);
        spots.push([0, 1].map(|_| if random.chance(5) { 1_024 } else { random.within(0, most) }));
    }
    record_text(Some(&Placed { length, spots }))
}
