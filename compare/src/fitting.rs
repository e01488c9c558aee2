//! The fit of a letter string, one axis at a time, by raising sets of macros.
//!
//! Start: the least values that keep the bounds, or there is no fit. Step: of all sets of macros
//! whose rise by one keeps the bounds, take those that shorten most, and of these the smallest;
//! raise it as long as each rise shortens as much. End: no set shortens.
//!
//! Why this is right: the length under bounds v - u >= a is an L-natural convex function of the
//! values. Write z for the wanted values (least length, every value smallest) and let x <= z. If x
//! is not z, the set where z - x is greatest shortens. If X is the smallest steepest set of x, then
//! x + X <= z: else the part of X below z would be as steep and smaller. If the next rise of X
//! shortens as much, X is again the smallest steepest set.

use crate::chips::{Chip, Second, LETTERS};
use crate::measuring::wirelength;
use crate::records::Placed;

/// A set of macros, one bit for each; PAD is the bit of what never moves.
type Set = u32;
const PAD: Set = 1 << 31;

/// The value of `to` is at least `least` above that of `from`.
struct Gap {
    from: usize,
    to: usize,
    least: i64,
}

/// A pin of a macro with its offset, or, without a macro, a pad with its place.
struct AxisPin {
    of: Option<usize>,
    at: i64,
}

struct AxisNet {
    weight: i64,
    pins: Vec<AxisPin>,
}

/// One axis of a fit: each value in its range, values at least a gap apart, and the nets.
struct Axis {
    low: Vec<i64>,
    high: Vec<i64>,
    gaps: Vec<Gap>,
    nets: Vec<AxisNet>,
}

/// The ends of some pins of a net, and whose pins are there.
struct Ends {
    high: i64,
    low: i64,
    at_high: Set,
    at_low: Set,
}

/// The placement of a fit, or None where the letters have no fit.
pub fn fit(chip: &Chip, letters: &[u8]) -> Option<Placed> {
    let x = fit_axis(chip, letters, 0)?;
    let y = fit_axis(chip, letters, 1)?;
    let spots: Vec<_> = x.into_iter().zip(y).map(|(x, y)| [x, y]).collect();
    Some(Placed { length: wirelength(chip, &spots), spots })
}

/// The coordinates of a fit along one axis, or None where its letters cannot be kept.
pub fn fit_axis(chip: &Chip, letters: &[u8], axis: usize) -> Option<Vec<i64>> {
    Axis::new(chip, letters, axis).solve()
}

impl Axis {
    fn new(chip: &Chip, letters: &[u8], axis: usize) -> Axis {
        let mut held = Axis {
            low: vec![0; chip.macros.len()],
            high: chip.macros.iter().map(|size| chip.die[axis] - size[axis]).collect(),
            gaps: Vec::new(),
            nets: axis_nets(chip, axis),
        };
        let [before, after] = LETTERS[axis];
        for ((a, second), &letter) in chip.pairs().into_iter().zip(letters) {
            if letter == before || letter == after {
                held.bind(chip, axis, a, second, letter == before);
            }
        }
        held
    }

    /// Macro `a` stands before the second of the pair, or after it.
    fn bind(&mut self, chip: &Chip, axis: usize, a: usize, second: Second, before: bool) {
        let size = chip.macros[a][axis];
        match second {
            Second::Macro(b) if before => self.gaps.push(Gap { from: a, to: b, least: size }),
            Second::Macro(b) => {
                let least = chip.macros[b][axis];
                self.gaps.push(Gap { from: b, to: a, least });
            }
            Second::Fix(f) if before => {
                self.high[a] = self.high[a].min(chip.fixes[f].corner[axis] - size);
            }
            Second::Fix(f) => {
                let end = chip.fixes[f].corner[axis] + chip.fixes[f].size[axis];
                self.low[a] = self.low[a].max(end);
            }
        }
    }

    fn solve(&self) -> Option<Vec<i64>> {
        let mut values = self.least_values()?;
        while let Some(set) = self.steepest_set(&values) {
            let steps = self.steps(&values, set);
            for (m, value) in values.iter_mut().enumerate() {
                *value += if set >> m & 1 == 1 { steps } else { 0 };
            }
        }
        Some(values)
    }

    /// The least values that keep every bound. Each rise is forced, so a value above its range
    /// means that there are none.
    fn least_values(&self) -> Option<Vec<i64>> {
        let mut values = self.low.clone();
        loop {
            if values.iter().zip(&self.high).any(|(value, high)| value > high) {
                return None;
            }
            let mut raised = false;
            for gap in &self.gaps {
                let least = values[gap.from] + gap.least;
                raised |= values[gap.to] < least;
                values[gap.to] = values[gap.to].max(least);
            }
            if !raised {
                return Some(values);
            }
        }
    }

    /// The smallest set whose rise by one shortens most, if one shortens.
    fn steepest_set(&self, values: &[i64]) -> Option<Set> {
        let ends: Vec<Ends> = self.nets.iter().map(|net| net.ends(values, |_| true)).collect();
        let mut best = None;
        let mut best_change = (0, 0);
        for set in 1..1 << values.len() {
            let change = (self.change(&ends, set), set.count_ones());
            if change.0 < 0 && change < best_change && self.room(values, set) > 0 {
                best = Some(set);
                best_change = change;
            }
        }
        best
    }

    /// How the length changes when the set rises by one.
    fn change(&self, ends: &[Ends], set: Set) -> i64 {
        let mut change = 0;
        for (net, ends) in self.nets.iter().zip(ends) {
            change += if ends.at_high & set != 0 { net.weight } else { 0 };
            change -= if ends.at_low & !set == 0 { net.weight } else { 0 };
        }
        change
    }

    /// How far the set may rise under the bounds.
    fn room(&self, values: &[i64], set: Set) -> i64 {
        let within = |m: usize| set >> m & 1 == 1;
        let mut room = i64::MAX;
        for m in (0..values.len()).filter(|&m| within(m)) {
            room = room.min(self.high[m] - values[m]);
        }
        for gap in &self.gaps {
            if within(gap.from) && !within(gap.to) {
                room = room.min(values[gap.to] - values[gap.from] - gap.least);
            }
        }
        room
    }

    /// How far the set may rise until a bound stops it or a rise changes the length otherwise.
    fn steps(&self, values: &[i64], set: Set) -> i64 {
        let mut steps = self.room(values, set);
        for net in &self.nets {
            let moving = net.ends(values, |bit| bit & set != 0);
            let resting = net.ends(values, |bit| bit & set == 0);
            if moving.at_high == 0 || resting.at_high == 0 {
                continue;
            }
            if moving.high < resting.high {
                steps = steps.min(resting.high - moving.high);
            }
            if moving.low < resting.low {
                steps = steps.min(resting.low - moving.low);
            }
        }
        steps
    }
}

fn axis_nets(chip: &Chip, axis: usize) -> Vec<AxisNet> {
    let mut nets = Vec::new();
    for net in &chip.nets {
        let pins =
            net.pins.iter().map(|pin| AxisPin { of: pin.m.checked_sub(1), at: pin.at[axis] });
        nets.push(AxisNet { weight: net.weight, pins: pins.collect() });
    }
    nets
}

impl AxisNet {
    /// The ends of the pins whose bit is wanted; without such a pin, nobody is at them.
    fn ends(&self, values: &[i64], wanted: impl Fn(Set) -> bool) -> Ends {
        let mut ends = Ends { high: i64::MIN, low: i64::MAX, at_high: 0, at_low: 0 };
        for pin in &self.pins {
            let (bit, place) = match pin.of {
                Some(m) => (1 << m, values[m] + pin.at),
                None => (PAD, pin.at),
            };
            if wanted(bit) {
                ends.take(bit, place);
            }
        }
        ends
    }
}

impl Ends {
    fn take(&mut self, bit: Set, place: i64) {
        if place > self.high {
            (self.high, self.at_high) = (place, 0);
        }
        if place < self.low {
            (self.low, self.at_low) = (place, 0);
        }
        self.at_high |= if place == self.high { bit } else { 0 };
        self.at_low |= if place == self.low { bit } else { 0 };
    }
}
