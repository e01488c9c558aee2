//! Reads chip and record texts in document 01's order of tests: the meaning, or number and line of
//! the first refusal.

use crate::chips::{Chip, Fix, Net, Pin};
use crate::measuring::apart;
use crate::records::Placed;

const TEXT_BYTES: usize = 16_384;
const FIXES: usize = 8;
const MACROS: usize = 8;
const NETS: usize = 32;
const PINS: usize = 128;

#[derive(Clone, Copy, PartialEq)]
pub struct Refusal {
    pub number: u64,
    pub line: u64,
}

/// The name of a field and the ends of its range.
type Field = (&'static str, i64, i64);

/// What reads one kind of text line by line; a fault is the number of its refusal.
trait Reader {
    fn line(&mut self, word: &[u8], rest: &[u8]) -> Result<(), u64>;
    fn complete(&self) -> bool;
}

pub fn read_chip(text: &[u8]) -> Result<Chip, Refusal> {
    let mut reader = ChipReader { chip: Chip::default(), after: Place::Start };
    read(text, &mut reader)?;
    Ok(reader.chip)
}

/// The placement of a record and its wl, or none.
pub fn read_record(text: &[u8]) -> Result<Option<Placed>, Refusal> {
    let mut reader = RecordReader { placed: None, after: RecordPlace::Start };
    read(text, &mut reader)?;
    Ok(reader.placed)
}

fn read(text: &[u8], reader: &mut dyn Reader) -> Result<(), Refusal> {
    if text.len() > TEXT_BYTES {
        return Err(Refusal { number: 1, line: 0 });
    }
    let mut line = 0;
    for piece in text.split_inclusive(|&byte| byte == b'\n') {
        line += 1;
        read_line(piece, reader).map_err(|number| Refusal { number, line })?;
    }
    if reader.complete() {
        Ok(())
    } else {
        Err(Refusal { number: 5, line: line + 1 })
    }
}

fn read_line(piece: &[u8], reader: &mut dyn Reader) -> Result<(), u64> {
    let line = piece.strip_suffix(b"\n").ok_or(2u64)?;
    let comma = line.iter().position(|&byte| byte == b',').unwrap_or(line.len());
    let (word, rest) = line.split_at(comma);
    reader.line(word, rest)
}

/// The values of a line from the comma after its word on.
fn values<const N: usize>(rest: &[u8], fields: [Field; N]) -> Result<[i64; N], u64> {
    let mut rest = rest;
    let mut values = [0; N];
    for (place, (name, least, greatest)) in fields.into_iter().enumerate() {
        let opening = format!(",{name},");
        let field = rest.strip_prefix(opening.as_bytes()).ok_or(2u64)?;
        let end = field.iter().position(|&byte| byte == b',').unwrap_or(field.len());
        let value = number(&field[..end]).ok_or(3u64)?;
        if value < least || value > greatest {
            return Err(4);
        }
        values[place] = value;
        rest = &field[end..];
    }
    if rest.is_empty() {
        Ok(values)
    } else {
        Err(2)
    }
}

/// The number that a field spells; one of more than 15 digits is only held as too large.
fn number(field: &[u8]) -> Option<i64> {
    let digits = field.strip_prefix(b"-").unwrap_or(field);
    let negative = digits.len() < field.len();
    if digits.is_empty() || !digits.iter().all(u8::is_ascii_digit) {
        return None;
    }
    if digits[0] == b'0' && (negative || digits.len() > 1) {
        return None;
    }
    let mut value = i64::MAX;
    if digits.len() <= 15 {
        value = digits.iter().fold(0, |value, &digit| 10 * value + i64::from(digit - b'0'));
    }
    Some(if negative { -value } else { value })
}

fn fail_if(fault: bool, number: u64) -> Result<(), u64> {
    if fault {
        Err(number)
    } else {
        Ok(())
    }
}

/// What the lines so far have been; `Open` is a net without a pin yet.
#[derive(PartialEq)]
enum Place {
    Start,
    Fixes,
    Macros,
    Open,
    Pins,
    End,
}

struct ChipReader {
    chip: Chip,
    after: Place,
}

impl Reader for ChipReader {
    fn line(&mut self, word: &[u8], rest: &[u8]) -> Result<(), u64> {
        match word {
            b"die" => self.die(rest),
            b"fix" => self.fix(rest),
            b"mac" => self.mac(rest),
            b"net" => self.net(rest),
            b"pin" => self.pin(rest),
            b"end" => self.end(rest),
            _ => Err(2),
        }
    }

    fn complete(&self) -> bool {
        self.after == Place::End
    }
}

impl ChipReader {
    fn die(&mut self, rest: &[u8]) -> Result<(), u64> {
        fail_if(self.after != Place::Start, 5)?;
        self.chip.die = values(rest, [("w", 1, 1_024), ("h", 1, 1_024)])?;
        self.after = Place::Fixes;
        Ok(())
    }

    fn fix(&mut self, rest: &[u8]) -> Result<(), u64> {
        fail_if(self.after != Place::Fixes, 5)?;
        fail_if(self.chip.fixes.len() == FIXES, 6)?;
        let fields = [("x", 0, 1_023), ("y", 0, 1_023), ("w", 1, 1_024), ("h", 1, 1_024)];
        let [x, y, w, h] = values(rest, fields)?;
        fail_if(x + w > self.chip.die[0] || y + h > self.chip.die[1], 9)?;
        let clear = |earlier: &Fix| apart([x, y], [w, h], earlier.corner, earlier.size);
        fail_if(!self.chip.fixes.iter().all(clear), 10)?;
        self.chip.fixes.push(Fix { corner: [x, y], size: [w, h] });
        Ok(())
    }

    fn mac(&mut self, rest: &[u8]) -> Result<(), u64> {
        fail_if(!matches!(self.after, Place::Fixes | Place::Macros), 5)?;
        fail_if(self.chip.macros.len() == MACROS, 6)?;
        self.chip.macros.push(values(rest, [("w", 1, 1_024), ("h", 1, 1_024)])?);
        self.after = Place::Macros;
        Ok(())
    }

    fn net(&mut self, rest: &[u8]) -> Result<(), u64> {
        fail_if(matches!(self.after, Place::Start | Place::End), 5)?;
        fail_if(self.chip.nets.len() == NETS, 6)?;
        fail_if(self.after == Place::Open, 7)?;
        let [weight] = values(rest, [("w", 1, 1_000)])?;
        self.chip.nets.push(Net { weight, pins: Vec::new() });
        self.after = Place::Open;
        Ok(())
    }

    fn pin(&mut self, rest: &[u8]) -> Result<(), u64> {
        fail_if(!matches!(self.after, Place::Open | Place::Pins), 5)?;
        let pins: usize = self.chip.nets.iter().map(|net| net.pins.len()).sum();
        fail_if(pins == PINS, 6)?;
        let fields = [("m", 0, MACROS as i64), ("x", -4_096, 4_096), ("y", -4_096, 4_096)];
        let [m, x, y] = values(rest, fields)?;
        let m = m as usize;
        fail_if(m > self.chip.macros.len(), 8)?;
        let net = self.chip.nets.last_mut().ok_or(5u64)?;
        net.pins.push(Pin { m, at: [x, y] });
        self.after = Place::Pins;
        Ok(())
    }

    fn end(&mut self, rest: &[u8]) -> Result<(), u64> {
        fail_if(matches!(self.after, Place::Start | Place::End), 5)?;
        fail_if(self.after == Place::Open, 7)?;
        values(rest, [])?;
        self.after = Place::End;
        Ok(())
    }
}

#[derive(PartialEq)]
enum RecordPlace {
    Start,
    Least,
    None,
    Done,
}

struct RecordReader {
    placed: Option<Placed>,
    after: RecordPlace,
}

impl Reader for RecordReader {
    fn line(&mut self, word: &[u8], rest: &[u8]) -> Result<(), u64> {
        match word {
            b"least" => self.least(rest),
            b"none" => self.none(rest),
            b"at" => self.at(rest),
            b"done" => self.done(rest),
            _ => Err(2),
        }
    }

    fn complete(&self) -> bool {
        self.after == RecordPlace::Done
    }
}

impl RecordReader {
    fn least(&mut self, rest: &[u8]) -> Result<(), u64> {
        fail_if(self.after != RecordPlace::Start, 5)?;
        let [length] = values(rest, [("wl", 0, 589_824_000)])?;
        self.placed = Some(Placed { length, spots: Vec::new() });
        self.after = RecordPlace::Least;
        Ok(())
    }

    fn none(&mut self, rest: &[u8]) -> Result<(), u64> {
        fail_if(self.after != RecordPlace::Start, 5)?;
        values(rest, [])?;
        self.after = RecordPlace::None;
        Ok(())
    }

    fn at(&mut self, rest: &[u8]) -> Result<(), u64> {
        let placed = self.placed.as_mut().ok_or(5u64)?;
        fail_if(self.after != RecordPlace::Least, 5)?;
        fail_if(placed.spots.len() == MACROS, 6)?;
        let fields = [("m", 1, MACROS as i64), ("x", 0, 1_024), ("y", 0, 1_024)];
        let [m, x, y] = values(rest, fields)?;
        fail_if(m as usize != placed.spots.len() + 1, 8)?;
        placed.spots.push([x, y]);
        Ok(())
    }

    fn done(&mut self, rest: &[u8]) -> Result<(), u64> {
        fail_if(!matches!(self.after, RecordPlace::Least | RecordPlace::None), 5)?;
        values(rest, [])?;
        self.after = RecordPlace::Done;
        Ok(())
    }
}
