//! Counts a flow or a chain slot by slot, as document 01 lists the slots.

use crate::chips::{Chip, Second, LETTERS};

const AMOUNT_MOST: u16 = 32_000;

/// "to - from >= bound"; the amount flows from `from` to `to`. Node 0 is the die corner, 1..n are
/// the macros, then come hi and lo of each net.
struct Slot {
    from: usize,
    to: usize,
    bound: i64,
}

/// The slots of one axis in order; None has no bound.
fn axis_slots(chip: &Chip, letters: &[u8], axis: usize) -> Vec<Option<Slot>> {
    let slot = |from, to, bound| Some(Slot { from, to, bound });
    let mut slots = Vec::new();
    for (m, size) in chip.macros.iter().enumerate() {
        slots.push(slot(0, m + 1, 0));
        slots.push(slot(m + 1, 0, size[axis] - chip.die[axis]));
    }
    for ((first, second), &letter) in chip.pairs().into_iter().zip(letters) {
        slots.push(pair_slot(chip, axis, first, second, letter));
    }
    let mut hi = chip.macros.len() + 1;
    for net in &chip.nets {
        for pin in &net.pins {
            slots.push(slot(pin.m, hi, pin.at[axis]));
            slots.push(slot(hi + 1, pin.m, -pin.at[axis]));
        }
        hi += 2;
    }
    slots
}

fn pair_slot(chip: &Chip, axis: usize, a: usize, second: Second, letter: u8) -> Option<Slot> {
    let [before, after] = LETTERS[axis];
    let size = chip.macros[a][axis];
    let (from, to, bound) = match second {
        Second::Macro(b) if letter == before => (a + 1, b + 1, size),
        Second::Macro(b) if letter == after => (b + 1, a + 1, chip.macros[b][axis]),
        Second::Fix(f) if letter == before => (a + 1, 0, size - chip.fixes[f].corner[axis]),
        Second::Fix(f) if letter == after => {
            (0, a + 1, chip.fixes[f].corner[axis] + chip.fixes[f].size[axis])
        }
        _ => return None,
    };
    Some(Slot { from, to, bound })
}

/// Inflow minus outflow at each node of an axis, and the sum of bound times amount.
fn count_axis(
    slots: &[Option<Slot>],
    amounts: &[u16],
    nodes: usize,
) -> Result<(Vec<i64>, i64), String> {
    let mut balance = vec![0; nodes];
    let mut sum = 0;
    for (place, (slot, &amount)) in slots.iter().zip(amounts).enumerate() {
        let Some(slot) = slot else {
            if amount != 0 {
                return Err(format!("slot {place} has no bound and holds {amount}"));
            }
            continue;
        };
        balance[slot.to] += i64::from(amount);
        balance[slot.from] -= i64::from(amount);
        sum += slot.bound * i64::from(amount);
    }
    Ok((balance, sum))
}

/// The sum of bound times amount over both axes, where every amount is at most `most` and
/// each net's hi takes `share` times its weight, its lo gives as much, and all else balances.
fn count(
    chip: &Chip,
    letters: &[u8],
    amounts: &[u16],
    most: u16,
    share: i64,
) -> Result<i64, String> {
    if let Some(amount) = amounts.iter().find(|&&amount| amount > most) {
        return Err(format!("an amount is {amount}, above {most}"));
    }
    let first_hi = chip.macros.len() + 1;
    let nodes = first_hi + 2 * chip.nets.len();
    let mut total = 0;
    for axis in 0..2 {
        let slots = axis_slots(chip, letters, axis);
        let amounts = &amounts[axis * slots.len()..(axis + 1) * slots.len()];
        let (balance, sum) =
            count_axis(&slots, amounts, nodes).map_err(|fault| format!("axis {axis}: {fault}"))?;
        for (node, &found) in balance.iter().enumerate() {
            let mut wanted = 0;
            if node >= first_hi {
                let end = node - first_hi;
                let weight = share * chip.nets[end / 2].weight;
                wanted = if end.is_multiple_of(2) { weight } else { -weight };
            }
            if found != wanted {
                return Err(format!("axis {axis}: node {node} takes {found}, not {wanted}"));
            }
        }
        total += sum;
    }
    Ok(total)
}

/// Whether the amounts are a flow of the length.
pub fn count_flow(chip: &Chip, letters: &[u8], amounts: &[u16], length: i64) -> Result<(), String> {
    let sum = count(chip, letters, amounts, AMOUNT_MOST, 1)?;
    if sum == length {
        Ok(())
    } else {
        Err(format!("the flow sums to {sum}, not {length}"))
    }
}

/// Whether the amounts are a closed chain.
pub fn count_chain(chip: &Chip, letters: &[u8], amounts: &[u16]) -> Result<(), String> {
    let sum = count(chip, letters, amounts, 1, 0)?;
    if sum > 0 {
        Ok(())
    } else {
        Err(format!("the chain sums to {sum}, not above 0"))
    }
}
