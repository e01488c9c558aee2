//! Records with the box of each net (document 02, Card 2): the record and, after its `done`, the
//! ends of each net's pins at the record's placement.

use crate::chips::{Chip, Net, Spot};
use crate::generating::{Bounds, FEW, LARGE, SMALL, THIN};
use crate::placing::{chosen, compare_chip, output, BOXES, DECIDED, DESK, TRIED};
use crate::random::Random;
use crate::reading::read_record;
use crate::records::{record_text, Placed};
use crate::report::{shown, Difference, Tally};
use crate::trying::{by_letters, by_positions, placements};

/// The most bytes of a record with its boxes.
pub const MOST: usize = 1_495;

/// Chips of few macros and up to as many nets and pins as a chip can have.
const SMALL_NETS: Bounds = Bounds { macros: 2, nets: LARGE.nets, pins: LARGE.pins, ..SMALL };
const FEW_NETS: Bounds = Bounds { nets: LARGE.nets, pins: LARGE.pins, ..FEW };

/// The least and the greatest coordinate of a net's pins along an axis.
fn ends(net: &Net, spots: &[Spot], axis: usize) -> [i64; 2] {
    let corner = |m: usize| if m == 0 { 0 } else { spots[m - 1][axis] };
    let mut places: Vec<i64> = net.pins.iter().map(|pin| corner(pin.m) + pin.at[axis]).collect();
    places.sort_unstable();
    [places[0], places[places.len() - 1]]
}

/// The record, and after it the box of each net; a `none` record gets none.
pub fn text(chip: &Chip, best: Option<&Placed>) -> Vec<u8> {
    let mut text = record_text(best);
    if let Some(Placed { spots, .. }) = best {
        for (place, net) in chip.nets.iter().enumerate() {
            let [[l, r], [b, t]] = [0, 1].map(|axis| ends(net, spots, axis));
            text.extend(format!("box,n,{},l,{l},r,{r},b,{b},t,{t}\n", place + 1).bytes());
        }
    }
    text
}

/// Small chips by trying every position, large dies by trying every letter string.
pub fn boxes(random: &mut Random, count: usize) -> Result<Tally, Difference> {
    let mut tally = Tally::new(BOXES.name, "written", "");
    for _ in 0..count {
        let (chip, best) = if random.chance(80) {
            let bounds = random.pick(&[SMALL, THIN, SMALL_NETS]);
            let chip = chosen(random, &bounds, |chip| placements(chip, TRIED) < TRIED);
            let best = by_positions(&chip).first;
            (chip, best)
        } else {
            let bounds = random.pick(&[FEW, FEW_NETS]);
            let chip = chosen(random, &bounds, |chip| chip.pairs().len() <= DECIDED);
            let best = by_letters(&chip);
            (chip, best)
        };
        note(&chip, best.as_ref(), &mut tally);
        compare_chip(random, BOXES, &chip, best, &mut tally)?;
        compare_with_record(&chip)?;
    }
    Ok(tally)
}

/// Notes what the chip's boxes show.
fn note(chip: &Chip, best: Option<&Placed>, tally: &mut Tally) {
    tally.greatest("longest text", text(chip, best).len() as u64);
    let Some(Placed { spots, .. }) = best else {
        return tally.see(if chip.nets.is_empty() { "none" } else { "none, with nets" });
    };
    match chip.nets.len() {
        0 => tally.see("no nets"),
        1..10 => {}
        _ => tally.see("10 nets or more"),
    }
    for net in &chip.nets {
        let [[left, right], [bottom, top]] = [0, 1].map(|axis| ends(net, spots, axis));
        if net.pins.len() == 1 {
            tally.see("nets of one pin");
        }
        if net.pins.iter().all(|pin| pin.m == 0) {
            tally.see("nets of pads");
        }
        if left.min(bottom) < 0 {
            tally.see("nets with an end below 0");
        }
        if right > chip.die[0] || top > chip.die[1] {
            tally.see("nets with an end beyond the die");
        }
    }
}

/// What the library writes begins with what it writes as the chip's record, and the boxes that
/// follow there sum to that record's wl.
pub fn compare_with_record(chip: &Chip) -> Result<(), Difference> {
    let text = chip.text();
    let (record, boxed) = (output(DESK, &text, MOST), output(BOXES, &text, MOST));
    let wl = read_record(&record).ok().map(|placed| placed.map_or(0, |placed| placed.length));
    let sum = boxed.strip_prefix(&record[..]).and_then(|boxes| sum(chip, boxes));
    if sum.is_some() && sum == wl {
        return Ok(());
    }
    Err(Difference {
        service: BOXES.name,
        input: shown(&text),
        library: format!("{}, whose boxes sum to {sum:?}", shown(&boxed)),
        expected: format!("{}, and boxes that sum to its wl", shown(&record)),
    })
}

/// The sum over box lines of the net's weight times (r - l + t - b), as the lines spell them.
fn sum(chip: &Chip, boxes: &[u8]) -> Option<i64> {
    let mut sum = 0;
    for line in std::str::from_utf8(boxes).ok()?.lines() {
        let values = line.split(',').skip(2).step_by(2).map(|value| value.parse().ok());
        let [n, l, r, b, t] = values.collect::<Option<Vec<i64>>>()?[..] else {
            return None;
        };
        sum += chip.nets.get(usize::try_from(n - 1).ok()?)?.weight * (r - l + t - b);
    }
    Some(sum)
}
