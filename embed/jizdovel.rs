//! Jizdovel from Rust: the C interface of embed/jizdovel.h in safe functions.
//!
//! The types of Rust keep the duties that the header states: a slice is valid, aligned and not
//! null, and what is lent as `&mut` overlaps nothing else.

/// What a function answers: yes or no with its value, or a refusal of document 01.
#[derive(Clone, Copy, Debug, PartialEq, Eq)]
pub enum Answer {
    Yes(u64),
    No(u64),
    Refused { number: u64, line: u64 },
}

/// The text that a refusal is of: its line is one of that text; neither where both are accepted.
#[derive(Clone, Copy, Debug, PartialEq, Eq)]
pub enum AtFault {
    Neither,
    Chip,
    Record,
}

/// The most that a chip can need: bytes of a record, bytes of a record with its boxes, slots of a
/// fit, numbers of a position list.
pub const RECORD_BYTES: usize = 256;
pub const BOXES_BYTES: usize = 1495;
pub const SLOTS: usize = 728;
pub const POSITIONS: usize = 16;

/// The limits of the quoting page.
pub const PAGE_MACROS: usize = 4;
pub const PAGE_FIXES: usize = 2;
pub const PAGE_PINS: usize = 16;

const YES: u64 = 0;
const NO: u64 = 255;
const CHIP: u64 = 1;
const RECORD: u64 = 2;

extern "C" {
    fn jizdovel_place(text: *const u8, n: usize, out: *mut u8, m: usize, value: *mut u64) -> u64;
    fn jizdovel_quote(text: *const u8, n: usize, out: *mut u8, m: usize, value: *mut u64) -> u64;
    fn jizdovel_boxes(text: *const u8, n: usize, out: *mut u8, m: usize, value: *mut u64) -> u64;
    fn jizdovel_check_chip(text: *const u8, n: usize, value: *mut u64) -> u64;
    fn jizdovel_check_record(text: *const u8, n: usize, value: *mut u64) -> u64;
    fn jizdovel_check_beside(chip: *const u8, n: usize, record: *const u8, m: usize, value: *mut u64, at_fault: *mut u64) -> u64;
    fn jizdovel_measure(text: *const u8, n: usize, positions: *const u64, m: usize, value: *mut u64) -> u64;
    fn jizdovel_fit(
        text: *const u8,
        n: usize,
        letters: *const u8,
        m: usize,
        slots: *mut u16,
        k: usize,
        positions: *mut u64,
        l: usize,
        value: *mut u64,
    ) -> u64;
}

fn answer(number: u64, value: u64) -> Answer {
    match number {
        YES => Answer::Yes(value),
        NO => Answer::No(value),
        number => Answer::Refused { number, line: value },
    }
}

/// Chip text to record text: the record goes into `out`; yes with the number of bytes written.
pub fn place(text: &[u8], out: &mut [u8]) -> Answer {
    let mut value = 0;
    let number = unsafe { jizdovel_place(text.as_ptr(), text.len(), out.as_mut_ptr(), out.len(), &mut value) };
    answer(number, value)
}

/// The same for the quoting page: a chip beyond its limits is refused by 22.
pub fn quote(text: &[u8], out: &mut [u8]) -> Answer {
    let mut value = 0;
    let number = unsafe { jizdovel_quote(text.as_ptr(), text.len(), out.as_mut_ptr(), out.len(), &mut value) };
    answer(number, value)
}

/// Chip text to record text and, after its `done`, the box of each net: they go into `out`; yes with
/// the number of bytes written. A `none` record gets no boxes.
pub fn boxes(text: &[u8], out: &mut [u8]) -> Answer {
    let mut value = 0;
    let number = unsafe { jizdovel_boxes(text.as_ptr(), text.len(), out.as_mut_ptr(), out.len(), &mut value) };
    answer(number, value)
}

/// Whether a chip text is accepted.
pub fn check_chip(text: &[u8]) -> Answer {
    let mut value = 0;
    let number = unsafe { jizdovel_check_chip(text.as_ptr(), text.len(), &mut value) };
    answer(number, value)
}

/// Whether a record text is accepted, by itself.
pub fn check_record(text: &[u8]) -> Answer {
    let mut value = 0;
    let number = unsafe { jizdovel_check_record(text.as_ptr(), text.len(), &mut value) };
    answer(number, value)
}

/// Whether a record text passes beside its chip's text, and the text at fault.
pub fn check_beside(chip: &[u8], record: &[u8]) -> (Answer, AtFault) {
    let (mut value, mut text) = (0, 0);
    let number =
        unsafe { jizdovel_check_beside(chip.as_ptr(), chip.len(), record.as_ptr(), record.len(), &mut value, &mut text) };
    let at_fault = match text {
        CHIP => AtFault::Chip,
        RECORD => AtFault::Record,
        _ => AtFault::Neither,
    };
    (answer(number, value), at_fault)
}

/// Positions x1, y1, x2, y2 .. of the macros of a chip text: yes where legal, else no, with the wirelength.
pub fn measure(text: &[u8], positions: &[u64]) -> Answer {
    let mut value = 0;
    let number = unsafe { jizdovel_measure(text.as_ptr(), text.len(), positions.as_ptr(), positions.len(), &mut value) };
    answer(number, value)
}

/// The fit of a letter string, the empty one standing for a dot on each pair: yes with its wirelength, or no where there is no fit.
pub fn fit(text: &[u8], letters: &[u8], slots: &mut [u16], positions: &mut [u64]) -> Answer {
    let mut value = 0;
    let number = unsafe {
        jizdovel_fit(
            text.as_ptr(),
            text.len(),
            letters.as_ptr(),
            letters.len(),
            slots.as_mut_ptr(),
            slots.len(),
            positions.as_mut_ptr(),
            positions.len(),
            &mut value,
        )
    };
    answer(number, value)
}
