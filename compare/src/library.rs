//! The static library behind its C interface. Every list is lent from inside a larger buffer, and
//! what a call must not write is compared with what it held before.

use crate::reading::Refusal;

pub const YES: u64 = 0;
pub const NO: u64 = 255;

/// Elements before and after each lent list.
const GUARD: usize = 41;
/// What follows a lent text: a reader that goes past the end meets the rest of a chip or record.
const TEXT_GUARD: &[u8] = b"\nend\n\ndone\n0123,w,1,h,1\nend\n";
const LETTER_GUARD: &[u8] = b"L.RBA";
const OUT_GUARD: &[u8] = &[0xC1, 0xC2, 0xC3];
const SLOT_GUARD: &[u16] = &[50_001, 50_002, 50_003];
const NUMBER_GUARD: &[u64] = &[0, 1, 2_000, u64::MAX];

/// What the unwritten parts of an output list hold before a call: no call writes such elements.
pub fn blank_bytes(length: usize) -> Vec<u8> {
    (0..length).map(|place| 200 + (place % 50) as u8).collect()
}

pub fn blank_slots(length: usize) -> Vec<u16> {
    (0..length).map(|place| 40_000 + (place % 20_000) as u16).collect()
}

pub fn blank_numbers(length: usize) -> Vec<u64> {
    (0..length).map(|place| u64::MAX - place as u64).collect()
}

/// Number and value of a call; `stray` names what was written although the call may not write it.
#[derive(Clone, PartialEq, Debug)]
pub struct Answer {
    pub number: u64,
    pub value: u64,
    pub stray: Vec<&'static str>,
}

impl Answer {
    pub fn new(number: u64, value: u64) -> Answer {
        Answer { number, value, stray: Vec::new() }
    }

    pub fn refused(refusal: Refusal) -> Answer {
        Answer::new(refusal.number, refusal.line)
    }
}

/// A list lent from the middle of a larger buffer.
struct Lent<T> {
    buffer: Vec<T>,
    before: Vec<T>,
    length: usize,
}

impl<T: Copy + PartialEq> Lent<T> {
    fn new(list: &[T], guard: &[T]) -> Lent<T> {
        let mut buffer: Vec<T> = guard.iter().copied().cycle().take(GUARD).collect();
        buffer.extend_from_slice(list);
        buffer.extend(guard.iter().copied().cycle().take(GUARD));
        Lent { before: buffer.clone(), buffer, length: list.len() }
    }

    fn pointer(&mut self) -> *mut T {
        self.buffer[GUARD..].as_mut_ptr()
    }

    fn list(&self) -> &[T] {
        &self.buffer[GUARD..GUARD + self.length]
    }

    fn changed(&self) -> bool {
        self.buffer != self.before
    }

    fn changed_outside(&self) -> bool {
        let end = GUARD + self.length;
        self.buffer[..GUARD] != self.before[..GUARD] || self.buffer[end..] != self.before[end..]
    }
}

/// Lends the text and the place of the value, and makes the answer of what the call left.
fn answer(text: &[u8], call: impl FnOnce(&mut Lent<u8>, *mut u64) -> u64) -> Answer {
    let mut text = Lent::new(text, TEXT_GUARD);
    let mut value = Lent::new(&blank_numbers(1), NUMBER_GUARD);
    let number = call(&mut text, value.pointer());
    let mut answer = Answer::new(number, value.list()[0]);
    answer.note(text.changed(), "the text");
    answer.note(value.changed_outside(), "memory beside the value");
    answer
}

impl Answer {
    fn note(&mut self, written: bool, what: &'static str) {
        if written {
            self.stray.push(what);
        }
    }
}

mod raw {
    extern "C" {
        pub fn jizdovel_place(
            text: *const u8,
            text_length: usize,
            out: *mut u8,
            out_length: usize,
            value: *mut u64,
        ) -> u64;
        pub fn jizdovel_quote(
            text: *const u8,
            text_length: usize,
            out: *mut u8,
            out_length: usize,
            value: *mut u64,
        ) -> u64;
        pub fn jizdovel_boxes(
            text: *const u8,
            text_length: usize,
            out: *mut u8,
            out_length: usize,
            value: *mut u64,
        ) -> u64;
        pub fn jizdovel_check_chip(text: *const u8, text_length: usize, value: *mut u64) -> u64;
        pub fn jizdovel_check_record(text: *const u8, text_length: usize, value: *mut u64) -> u64;
        pub fn jizdovel_check_beside(
            chip: *const u8,
            chip_length: usize,
            record: *const u8,
            record_length: usize,
            value: *mut u64,
            at_fault: *mut u64,
        ) -> u64;
        pub fn jizdovel_measure(
            text: *const u8,
            text_length: usize,
            positions: *const u64,
            positions_length: usize,
            value: *mut u64,
        ) -> u64;
        pub fn jizdovel_fit(
            text: *const u8,
            text_length: usize,
            letters: *const u8,
            letters_length: usize,
            slots: *mut u16,
            slots_length: usize,
            positions: *mut u64,
            positions_length: usize,
            value: *mut u64,
        ) -> u64;
    }
}

pub fn check_chip(text: &[u8]) -> Answer {
    // SAFETY: pointers and lengths are those of live lists that overlap nothing.
    answer(text, |text, value| unsafe {
        raw::jizdovel_check_chip(text.pointer(), text.length, value)
    })
}

pub fn check_record(text: &[u8]) -> Answer {
    // SAFETY: as above.
    answer(text, |text, value| unsafe {
        raw::jizdovel_check_record(text.pointer(), text.length, value)
    })
}

/// The answer, and the text at fault.
pub fn check_beside(chip: &[u8], record: &[u8]) -> (Answer, u64) {
    let mut record = Lent::new(record, TEXT_GUARD);
    let mut at_fault = Lent::new(&blank_numbers(1), NUMBER_GUARD);
    // SAFETY: as above.
    let mut answer = answer(chip, |chip, value| unsafe {
        let (text, fault) = (record.pointer(), at_fault.pointer());
        raw::jizdovel_check_beside(chip.pointer(), chip.length, text, record.length, value, fault)
    });
    answer.note(record.changed(), "the record");
    answer.note(at_fault.changed_outside(), "memory beside the text at fault");
    (answer, at_fault.list()[0])
}

pub fn measure(text: &[u8], positions: &[u64]) -> Answer {
    let mut positions = Lent::new(positions, NUMBER_GUARD);
    // SAFETY: as above.
    let mut answer = answer(text, |text, value| unsafe {
        let list = positions.pointer();
        raw::jizdovel_measure(text.pointer(), text.length, list, positions.length, value)
    });
    answer.note(positions.changed(), "the positions");
    answer
}

/// A function of the interface that writes a text into a buffer.
type Writer = unsafe extern "C" fn(*const u8, usize, *mut u8, usize, *mut u64) -> u64;

fn write(writer: Writer, text: &[u8], out: &mut [u8]) -> Answer {
    let mut lent = Lent::new(out, OUT_GUARD);
    // SAFETY: as above.
    let mut answer = answer(text, |text, value| unsafe {
        writer(text.pointer(), text.length, lent.pointer(), lent.length, value)
    });
    answer.note(lent.changed_outside(), "memory beside the buffer");
    out.copy_from_slice(lent.list());
    answer
}

pub fn place(text: &[u8], out: &mut [u8]) -> Answer {
    write(raw::jizdovel_place, text, out)
}

pub fn quote(text: &[u8], out: &mut [u8]) -> Answer {
    write(raw::jizdovel_quote, text, out)
}

pub fn boxes(text: &[u8], out: &mut [u8]) -> Answer {
    write(raw::jizdovel_boxes, text, out)
}

pub fn fit(text: &[u8], letters: &[u8], slots: &mut [u16], positions: &mut [u64]) -> Answer {
    let mut letters = Lent::new(letters, LETTER_GUARD);
    let mut lent_slots = Lent::new(slots, SLOT_GUARD);
    let mut lent_positions = Lent::new(positions, NUMBER_GUARD);
    // SAFETY: as above.
    let mut answer = answer(text, |text, value| unsafe {
        raw::jizdovel_fit(
            text.pointer(),
            text.length,
            letters.pointer(),
            letters.length,
            lent_slots.pointer(),
            lent_slots.length,
            lent_positions.pointer(),
            lent_positions.length,
            value,
        )
    });
    answer.note(letters.changed(), "the letters");
    answer.note(lent_slots.changed_outside(), "memory beside the slots");
    answer.note(lent_positions.changed_outside(), "memory beside the positions");
    slots.copy_from_slice(lent_slots.list());
    positions.copy_from_slice(lent_positions.list());
    answer
}
