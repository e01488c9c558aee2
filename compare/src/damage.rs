//! Texts with faults: faults in the meaning of a chip, and faults in the bytes of a text.

use crate::chips::{Chip, Fix, Net, Pin};
use crate::generating::{self, LARGE, MIDDLE, SMALL};
use crate::random::Random;
use crate::reading::{read_chip, read_record};

/// Values that are no number, or lie at or past the end of some range.
#[rustfmt::skip]
const ODD_VALUES: [&str; 36] = [
    "", "-", "-0", "00", "01", "--1", "+1", " 1", "1 ", "1.0", "0x5", "1e3", "-01", "-1", "0",
    "1", "8", "9", "1000", "1001", "1023", "1024", "1025", "4096", "4097", "-4096", "-4097",
    "589824000", "589824001", "999999999999", "2147483648", "4294967297", "9223372036854775808",
    "18446744073709551616", "18446744073709551617", "-18446744073709551615",
];

const ODD_BYTES: &[u8] = b"\0\r\n\t ,,--0019aZ\x7f\x80\xff";

#[rustfmt::skip]
const ODD_LINES: [&str; 24] = [
    "\n", "end\n", "end,\n", "done\n", "none\n", "none,\n", "x\n", "die,w,5,h,3\n",
    "diex,w,5,h,3\n", "DIE,w,5,h,3\n", "mac,w,2,h,2\n", "mac,w,2\n", "fix,x,0,y,0,w,1,h,1\n",
    "net,w,1\n", "net,w,0\n", "pin,m,0,x,0,y,0\n", "pin,m,9\n", "pin,m,8,x,0,y,0\n",
    "gap,g,2\n", "least,wl,3\n", "at,m,1,x,0,y,0\n", "at,m,9,x,0,y,0\n",
    "refused,no,4,line,1\n", "end",
];

/// A chip text: about a third of them are meant to be accepted.
pub fn chip_text(random: &mut Random) -> Vec<u8> {
    let bounds = random.pick(&[SMALL, SMALL, MIDDLE, LARGE]);
    let mut chip = generating::chip(random, &bounds);
    match random.below(100) {
        0..30 => chip.text(),
        30..55 => {
            spoil_chip(random, &mut chip);
            chip.text()
        }
        55..70 => {
            spoil_chip(random, &mut chip);
            let text = chip.text();
            let line = read_chip(&text).map_or_else(|refusal| refusal.line, |_| 1);
            spoil_line(random, text, line)
        }
        70..95 => spoil_text(random, chip.text()),
        _ => odd_text(random),
    }
}

/// A record text: about a third of them are meant to be accepted.
pub fn record_text(random: &mut Random) -> Vec<u8> {
    let text = generating::record(random);
    match random.below(100) {
        0..30 => text,
        30..40 => one_at_too_many(random, text),
        40..55 => {
            let text = one_at_too_many(random, text);
            let line = read_record(&text).map_or_else(|refusal| refusal.line, |_| 1);
            spoil_line(random, text, line)
        }
        55..95 => spoil_text(random, text),
        _ => odd_text(random),
    }
}

/// Puts a ninth `at` line, or one out of turn, before `done`.
fn one_at_too_many(random: &mut Random, text: Vec<u8>) -> Vec<u8> {
    let mut lines = lines(&text);
    while lines.len() < 10 && random.chance(90) {
        let next = format!("at,m,{},x,1,y,2\n", lines.len() - 1);
        lines.insert(lines.len() - 1, next.into_bytes());
    }
    let extra = format!("at,m,{},x,{},y,0\n", random.within(0, 10), random.within(0, 1_030));
    lines.insert(lines.len() - 1, extra.into_bytes());
    lines.concat()
}

/// One fault in the meaning of a chip: 4, 6, 7, 8, 9 or 10, where the chip has room for it.
fn spoil_chip(random: &mut Random, chip: &mut Chip) {
    match random.below(9) {
        0 => too_many_fixes(chip),
        1 => chip.macros.resize(9, [1, 1]),
        2 => chip.nets.resize(33, one_pin_net()),
        3 => too_many_pins(random, chip),
        4 => pinless_net(random, chip),
        5 => no_such_macro(random, chip),
        6 => fix_off_die(random, chip),
        7 => fix_overlaps(random, chip),
        _ => number_off_range(random, chip),
    }
}

fn one_pin_net() -> Net {
    Net { weight: 1, pins: vec![Pin { m: 0, at: [0, 0] }] }
}

/// Nine fixes side by side on the lowest row.
fn too_many_fixes(chip: &mut Chip) {
    chip.die[0] = chip.die[0].max(9);
    chip.fixes = (0..9).map(|x| Fix { corner: [x, 0], size: [1, 1] }).collect();
}

fn too_many_pins(random: &mut Random, chip: &mut Chip) {
    if chip.nets.is_empty() {
        chip.nets.push(one_pin_net());
    }
    let net = random.below(chip.nets.len());
    let others: usize = chip.nets.iter().map(|net| net.pins.len()).sum();
    let pins = &mut chip.nets[net].pins;
    pins.resize(pins.len() + 129 - others, Pin { m: 0, at: [1, -1] });
}

fn pinless_net(random: &mut Random, chip: &mut Chip) {
    let place = random.below(chip.nets.len() + 1);
    chip.nets.insert(place, Net { weight: random.within(1, 9), pins: Vec::new() });
}

fn no_such_macro(random: &mut Random, chip: &mut Chip) {
    chip.macros.truncate(7);
    chip.nets.truncate(31);
    let place = random.below(chip.nets.len() + 1);
    chip.nets.insert(place, one_pin_net());
    chip.nets[place].pins[0].m = random.within(chip.macros.len() as i64 + 1, 8) as usize;
}

fn fix_off_die(random: &mut Random, chip: &mut Chip) {
    if chip.fixes.is_empty() {
        chip.fixes.push(Fix { corner: [0, 0], size: [1, 1] });
    }
    let fix = random.below(chip.fixes.len());
    let axis = random.below(2);
    let past = chip.die[axis] - chip.fixes[fix].corner[axis] + random.within(1, 3);
    chip.fixes[fix].size[axis] = past.min(1_024);
}

fn fix_overlaps(random: &mut Random, chip: &mut Chip) {
    if chip.fixes.is_empty() {
        chip.fixes.push(Fix { corner: [0, 0], size: chip.die });
    }
    chip.fixes.truncate(7);
    let mut fix = chip.fixes[random.below(chip.fixes.len())].clone();
    for axis in 0..2 {
        fix.corner[axis] += random.within(0, fix.size[axis] - 1);
        fix.size[axis] = random.within(1, chip.die[axis] - fix.corner[axis]);
    }
    chip.fixes.insert(random.below(chip.fixes.len() + 1), fix);
}

/// A number just past one of its ends, or at an end where another rule is broken.
fn number_off_range(random: &mut Random, chip: &mut Chip) {
    let side = random.below(2);
    match random.below(4) {
        0 => chip.die[side] = random.pick(&[0, -1, 1_025, 100_000]),
        1 => chip.macros.push([random.pick(&[0, 1, 1_024, 1_025]), random.pick(&[0, 1_025])]),
        2 => {
            let mut net = one_pin_net();
            net.weight = random.pick(&[-1, 0, 1, 1_000, 1_001]);
            net.pins[0].at[side] = random.pick(&[-4_097, -4_096, 4_096, 4_097]);
            net.pins[0].m = random.pick(&[0, 0, 9, 10]);
            chip.nets.push(net);
        }
        _ => chip.fixes.push(Fix {
            corner: [random.pick(&[-1, 0, 1_023, 1_024]), 0],
            size: [random.pick(&[0, 1, 1_024, 1_025]), 1],
        }),
    }
}

/// A further fault in the same line (from 1) or at its end: the order of tests in a line decides.
fn spoil_line(random: &mut Random, text: Vec<u8>, line: u64) -> Vec<u8> {
    let mut lines = lines(&text);
    let place = (line as usize).clamp(1, lines.len()) - 1;
    let mut spoiled = lines[place].clone();
    spoiled.pop();
    match random.below(6) {
        0 => spoiled.extend_from_slice(random.pick(&[",", ",x", ",x,1", " "]).as_bytes()),
        1 => spoiled = spoil_value(random, spoiled),
        2 => spoiled = spoil_bytes(random, spoiled),
        3 => spoiled.truncate(random.below(spoiled.len())),
        4 => spoiled.insert(random.below(4).min(spoiled.len()), b'x'),
        _ => {
            lines.truncate(place + 1);
            lines[place] = spoiled;
            return lines.concat();
        }
    }
    spoiled.push(b'\n');
    lines[place] = spoiled;
    lines.concat()
}

/// One to three faults in the bytes of a text.
fn spoil_text(random: &mut Random, text: Vec<u8>) -> Vec<u8> {
    let mut text = text;
    for _ in 0..random.pick(&[1, 1, 1, 2, 3]) {
        text = match random.below(10) {
            0..3 => spoil_bytes(random, text),
            3..6 => spoil_lines(random, text),
            6..9 => spoil_value(random, text),
            _ => spoil_ends(random, text),
        };
    }
    text
}

/// Changes, inserts, removes or doubles a byte.
fn spoil_bytes(random: &mut Random, mut text: Vec<u8>) -> Vec<u8> {
    if text.is_empty() {
        return text;
    }
    let place = random.below(text.len());
    let byte = if random.chance(60) { random.pick(ODD_BYTES) } else { random.byte() };
    match random.below(4) {
        0 => text[place] = byte,
        1 => text.insert(place, byte),
        2 => text.insert(place, text[place]),
        _ => {
            text.remove(place);
        }
    }
    text
}

fn lines(text: &[u8]) -> Vec<Vec<u8>> {
    text.split_inclusive(|&byte| byte == b'\n').map(<[u8]>::to_vec).collect()
}

/// Swaps, doubles, repeats, drops or inserts a line, or cuts it short before its LF.
fn spoil_lines(random: &mut Random, text: Vec<u8>) -> Vec<u8> {
    let mut lines = lines(&text);
    if lines.is_empty() {
        return text;
    }
    let place = random.below(lines.len());
    let other = random.below(lines.len());
    match random.below(7) {
        0 => lines.swap(place, other),
        1 => lines.insert(place, lines[place].clone()),
        2 => lines.insert(other, lines[place].clone()),
        3 => {
            let times = random.pick(&[8, 9, 32, 130]);
            lines.splice(place..place, vec![lines[place].clone(); times]);
        }
        4 => {
            lines.remove(place);
        }
        5 => lines.insert(place, random.pick(&ODD_LINES).as_bytes().to_vec()),
        _ => {
            let keep = random.below(lines[place].len());
            lines[place].truncate(keep);
            lines[place].push(b'\n');
        }
    }
    lines.concat()
}

/// Puts another value in the place of one, or changes how it is spelled.
fn spoil_value(random: &mut Random, mut text: Vec<u8>) -> Vec<u8> {
    let digit = |place: &usize| text[place - 1] == b',' && b"-0123456789".contains(&text[*place]);
    let starts: Vec<usize> = (1..text.len()).filter(digit).collect();
    if starts.is_empty() {
        return text;
    }
    let start = random.pick(&starts);
    let rest = &text[start..];
    let end = start + rest.iter().position(|b| b",\n".contains(b)).unwrap_or(rest.len());
    let value = match random.below(10) {
        0 => [b"0", &text[start..end]].concat(),
        1 => [b"-", &text[start..end]].concat(),
        2 => [&text[start..end], b"\r"].concat(),
        3 => long_value(random),
        4 => random.within(-10, 1_100).to_string().into_bytes(),
        _ => random.pick(&ODD_VALUES).as_bytes().to_vec(),
    };
    text.splice(start..end, value);
    text
}

/// Many digits; some start with 0, some end with another byte.
fn long_value(random: &mut Random) -> Vec<u8> {
    let digits = random.pick(&[12, 15, 16, 19, 20, 21, 40, 300, 5_000, 16_000, 16_384]);
    let mut value = vec![random.pick(b"0199"); digits];
    if random.chance(30) {
        value.insert(0, b'-');
    }
    if random.chance(30) {
        value.push(random.pick(b"0x."));
    }
    value
}

/// Cuts the text, or puts something after it or in front of it, up to and past the longest text.
fn spoil_ends(random: &mut Random, mut text: Vec<u8>) -> Vec<u8> {
    match random.below(7) {
        0 => {
            text.pop();
        }
        1 => text.truncate(random.below(text.len() + 1)),
        2 => text.extend_from_slice(random.pick(&ODD_LINES).as_bytes()),
        3 => text.push(random.byte()),
        4 => text.insert(0, random.pick(ODD_BYTES)),
        5 => {
            let length = text.len().max(random.within(16_380, 16_390) as usize);
            text.resize(length, random.pick(b"\na,0"));
        }
        _ => text = text.iter().flat_map(|&byte| crlf(byte)).collect(),
    }
    text
}

/// A line end of CR and LF in the place of LF.
fn crlf(byte: u8) -> Vec<u8> {
    if byte == b'\n' {
        vec![b'\r', b'\n']
    } else {
        vec![byte]
    }
}

/// No lines of a chip or a record: nothing, one byte many times, any bytes, bytes of such lines.
fn odd_text(random: &mut Random) -> Vec<u8> {
    let length = random.pick(&[0, 0, 1, 2, 5, 30, 200, 16_383, 16_384, 16_385, 16_386, 40_000]);
    let byte = random.byte();
    match random.below(3) {
        0 => vec![byte; length],
        1 => (0..length).map(|_| random.byte()).collect(),
        _ => (0..length).map(|_| random.pick(b"diefxmacnetpn,w1\n")).collect(),
    }
}
