// The library from Rust: one chip, through every function, chips at the limits of the quoting page,
// chips without boxes and with a box off the die, and records beside the chip; it prints what
// example.c prints.
mod jizdovel;

use jizdovel::{Answer, AtFault, BOXES_BYTES, PAGE_FIXES, PAGE_MACROS, PAGE_PINS};

const CHIP: &str = "die,w,5,h,3
fix,x,2,y,0,w,1,h,2
mac,w,2,h,2
mac,w,2,h,1
net,w,3
pin,m,1,x,0,y,0
pin,m,2,x,0,y,0
end
";
// No legal placement.
const CROWDED: &str = "die,w,3,h,1
mac,w,2,h,1
mac,w,2,h,1
net,w,1
pin,m,1,x,0,y,0
pin,m,2,x,0,y,0
end
";
// A net whose pads lie off the die.
const PADS: &str = "die,w,4,h,1
net,w,2
pin,m,0,x,-2,y,0
pin,m,0,x,3,y,1
end
";

fn tell(what: &str, answer: Answer) {
    match answer {
        Answer::Yes(value) => println!("{what}: yes, {value}"),
        Answer::No(value) => println!("{what}: no, {value}"),
        Answer::Refused { number, line } => println!("{what}: refused, number {number}, line {line}"),
    }
}

// A record beside the chip, and the text at fault where there is one.
fn check_beside(what: &str, chip: &[u8], record: &[u8]) {
    let (answer, at_fault) = jizdovel::check_beside(chip, record);
    print!("{what}, ");
    tell(
        match at_fault {
            AtFault::Chip => "check beside, of the chip",
            AtFault::Record => "check beside, of the record",
            AtFault::Neither => "check beside",
        },
        answer,
    );
}

// Chip text to record text, and the record checked, by itself and beside the chip.
fn place(text: &[u8]) {
    let mut record = [0; jizdovel::RECORD_BYTES];
    let answer = jizdovel::place(text, &mut record);
    tell("place", answer);
    if let Answer::Yes(length) = answer {
        let record = &record[..length as usize];
        print!("{}", String::from_utf8_lossy(record));
        tell("check record", jizdovel::check_record(record));
        check_beside("its record", text, record);
        check_beside("its record and half the chip", &text[..text.len() / 2], record);
        check_beside("half its record", text, &record[..record.len() / 2]);
    }
}

// The page's answer: the chip, and the record where there is one.
fn quote(what: &str, text: &str) {
    let mut record = [0; jizdovel::RECORD_BYTES];
    let answer = jizdovel::quote(text.as_bytes(), &mut record);
    print!("{what}, ");
    tell("quote", answer);
    if let Answer::Yes(length) = answer {
        print!("{}", String::from_utf8_lossy(&record[..length as usize]));
    }
}

// A row of so many fixes, macros and pins that nothing overlaps: each is 1 x 1, each pin is a pad.
fn quote_row(fixes: usize, macros: usize, pins: usize) {
    let row: String = (0..fixes).map(|x| format!("fix,x,{x},y,0,w,1,h,1\n")).collect();
    let text = format!(
        "die,w,{},h,1\n{row}{}net,w,1\n{}end\n",
        fixes + macros,
        "mac,w,1,h,1\n".repeat(macros),
        "pin,m,0,x,0,y,0\n".repeat(pins),
    );
    quote(&format!("{macros} macros, {fixes} fixes, {pins} pins"), &text);
}

// The record with its boxes into a buffer of that length; of a refusal, whether the buffer is as it
// was.
fn boxes(what: &str, text: &str, length: usize) {
    let mut out = [b'?'; BOXES_BYTES];
    let answer = jizdovel::boxes(text.as_bytes(), &mut out[..length]);
    print!("{what}, ");
    tell("boxes", answer);
    if let Answer::Yes(length) = answer {
        print!("{}", String::from_utf8_lossy(&out[..length as usize]));
    } else {
        let unchanged = out.iter().all(|&byte| byte == b'?');
        println!("the buffer {}", if unchanged { "is as it was" } else { "has changed" });
    }
}

fn measure(text: &[u8], x: u64, y: u64) {
    print!("macro 1 at {x},{y}, ");
    tell("measure", jizdovel::measure(text, &[x, y, 0, 0]));
}

fn fit(text: &[u8], letters: &str) {
    let mut slots = [0; jizdovel::SLOTS];
    let mut at = [0; jizdovel::POSITIONS];
    let answer = jizdovel::fit(text, letters.as_bytes(), &mut slots, &mut at);
    print!("letters '{letters}', ");
    tell("fit", answer);
    if let Answer::Yes(_) = answer {
        println!("macro 1 at {},{}, macro 2 at {},{}", at[0], at[1], at[2], at[3]);
    }
}

fn main() {
    let text = CHIP.as_bytes();
    tell("check chip", jizdovel::check_chip(text));
    tell("check its first line", jizdovel::check_chip(&text[..12]));
    place(text);
    check_beside("none", text, b"none\ndone\n");
    check_beside("a longer placement", text, b"least,wl,6\nat,m,1,x,0,y,0\nat,m,2,x,0,y,2\ndone\n");
    check_beside("a macro less", text, b"least,wl,0\nat,m,1,x,0,y,1\ndone\n");
    check_beside("both at 0,0", text, b"least,wl,0\nat,m,1,x,0,y,0\nat,m,2,x,0,y,0\ndone\n");
    check_beside("another wl", text, b"least,wl,4\nat,m,1,x,0,y,1\nat,m,2,x,0,y,0\ndone\n");
    quote("the same chip", CHIP);
    quote_row(PAGE_FIXES, PAGE_MACROS, PAGE_PINS);
    quote_row(PAGE_FIXES, PAGE_MACROS + 1, PAGE_PINS);
    quote_row(PAGE_FIXES + 1, PAGE_MACROS, PAGE_PINS);
    quote_row(PAGE_FIXES, PAGE_MACROS, PAGE_PINS + 1);
    boxes("the same chip", CHIP, BOXES_BYTES);
    boxes("room for its record alone", CHIP, 46);
    boxes("no legal placement", CROWDED, BOXES_BYTES);
    boxes("pads off the die", PADS, BOXES_BYTES);
    measure(text, 0, 1);
    measure(text, 0, 0);
    fit(text, "ALL");
    fit(text, "LLL");
    fit(text, "AL");
    fit(text, "...");
    fit(text, "");
}
