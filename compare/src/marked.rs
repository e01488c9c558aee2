//! Document 01's own examples, with the answers typed from it: the marked cases and the refusal
//! table, and examples of document 02's cards. Both the library and the comparison's own functions
//! are held to them.

use crate::besides::{self, CHIP, NEITHER, RECORD};
use crate::boxing;
use crate::chips::Spot;
use crate::fits::{self, Call};
use crate::fitting::fit;
use crate::library::{Answer, YES};
use crate::measures;
use crate::measuring;
use crate::placing::{self, BOXES, DESK, PAGE};
use crate::quoting;
use crate::reading::{read_chip, read_record};
use crate::records::{record_text, Placed};
use crate::report::{shown, Difference, Tally, OWN};
use crate::texts;
use crate::trying::{by_letters, by_positions};

const EXAMPLE: &str = "die,w,5,h,3\nfix,x,2,y,0,w,1,h,2\nmac,w,2,h,2\nmac,w,2,h,1\nnet,w,3\n\
                       pin,m,1,x,0,y,0\npin,m,2,x,0,y,0\nend\n";

/// Cases 1, 7 to 11, and the macro that a far pad draws to x 4; then a net in case 7, a net of one
/// pin in case 1, and a pin outside its macro. The chip, its record and its boxes (document 02,
/// Card 2).
const RECORDS: [(&str, &str, &str); 10] = [
    (EXAMPLE, "least,wl,3\nat,m,1,x,0,y,1\nat,m,2,x,0,y,0\ndone\n", "box,n,1,l,0,r,0,b,0,t,1\n"),
    ("die,w,3,h,1\nmac,w,2,h,1\nmac,w,2,h,1\nend\n", "none\ndone\n", ""),
    (
        "die,w,4,h,1\nmac,w,2,h,1\nmac,w,2,h,1\nend\n",
        "least,wl,0\nat,m,1,x,0,y,0\nat,m,2,x,2,y,0\ndone\n",
        "",
    ),
    (
        "die,w,4,h,1\nnet,w,2\npin,m,0,x,-2,y,0\npin,m,0,x,3,y,1\nend\n",
        "least,wl,12\ndone\n",
        "box,n,1,l,-2,r,3,b,0,t,1\n",
    ),
    (
        "die,w,2,h,1\nfix,x,0,y,0,w,1,h,1\nmac,w,1,h,1\nend\n",
        "least,wl,0\nat,m,1,x,1,y,0\ndone\n",
        "",
    ),
    ("die,w,2,h,1\nfix,x,0,y,0,w,1,h,1\nmac,w,2,h,1\nend\n", "none\ndone\n", ""),
    (
        "die,w,5,h,1\nmac,w,1,h,1\nnet,w,1\npin,m,1,x,0,y,0\npin,m,0,x,4,y,0\nend\n",
        "least,wl,0\nat,m,1,x,4,y,0\ndone\n",
        "box,n,1,l,4,r,4,b,0,t,0\n",
    ),
    ("die,w,3,h,1\nmac,w,2,h,1\nmac,w,2,h,1\nnet,w,1\npin,m,1,x,0,y,0\nend\n", "none\ndone\n", ""),
    (
        "die,w,5,h,3\nfix,x,2,y,0,w,1,h,2\nmac,w,2,h,2\nmac,w,2,h,1\nnet,w,3\n\
         pin,m,1,x,0,y,0\npin,m,2,x,0,y,0\nnet,w,7\npin,m,1,x,1,y,2\nend\n",
        "least,wl,3\nat,m,1,x,0,y,1\nat,m,2,x,0,y,0\ndone\n",
        "box,n,1,l,0,r,0,b,0,t,1\nbox,n,2,l,1,r,1,b,3,t,3\n",
    ),
    (
        "die,w,5,h,1\nmac,w,1,h,1\nnet,w,2\npin,m,1,x,-3,y,2\npin,m,0,x,0,y,0\nend\n",
        "least,wl,4\nat,m,1,x,3,y,0\ndone\n",
        "box,n,1,l,0,r,0,b,0,t,2\n",
    ),
];

/// A chip whose record with boxes is as long as one can be: each macro is drawn to its own place by
/// a pad, and far pads make the wirelength 24 x 1,000 x (3,096 + 3,096). The chip, its record and
/// its boxes.
fn longest() -> [String; 3] {
    let mut chip = "die,w,1024,h,1024\n".to_owned() + &"mac,w,1,h,1\n".repeat(8);
    let mut record = "least,wl,148608000\n".to_owned();
    let mut boxes = String::new();
    for m in 1..=8 {
        let (corner, pad) = (1_000 + m, 1_000 + m - 4_096);
        chip += &format!("net,w,1\npin,m,{m},x,-4096,y,-4096\npin,m,0,x,{pad},y,{pad}\n");
        record += &format!("at,m,{m},x,{corner},y,{corner}\n");
        boxes += &format!("box,n,{m},l,{pad},r,{pad},b,{pad},t,{pad}\n");
    }
    for n in 9..=32 {
        chip += "net,w,1000\npin,m,0,x,-4096,y,-4096\npin,m,0,x,-1000,y,-1000\n";
        boxes += &format!("box,n,{n},l,-4096,r,-1000,b,-4096,t,-1000\n");
    }
    [chip + "end\n", record + "done\n", boxes]
}

/// Length and corners of a fit.
type Fit = Option<(i64, [Spot; 2])>;

/// Cases 2 to 6, on the example, and case 6 with the empty string (document 02, Card 12).
const FITS: [(&str, Fit); 6] = [
    ("ALL", Some((3, [[0, 1], [0, 0]]))),
    ("BLL", Some((6, [[0, 0], [0, 2]]))),
    ("LLR", Some((9, [[0, 0], [3, 0]]))),
    ("LLL", None),
    ("...", Some((0, [[0, 0], [0, 0]]))),
    ("", Some((0, [[0, 0], [0, 0]]))),
];

/// Rows 2 to 10 of the refusal table: text, number, line.
const REFUSALS: [(&str, u64, u64); 9] = [
    ("die,w,5\n", 2, 1),
    ("die,w,05,h,3\n", 3, 1),
    ("die,w,0,h,3\n", 4, 1),
    ("", 5, 1),
    (
        "die,w,5,h,3\nmac,w,1,h,1\nmac,w,1,h,1\nmac,w,1,h,1\nmac,w,1,h,1\nmac,w,1,h,1\n\
         mac,w,1,h,1\nmac,w,1,h,1\nmac,w,1,h,1\nmac,w,1,h,1\nend\n",
        6,
        10,
    ),
    ("die,w,5,h,3\nnet,w,1\nend\n", 7, 3),
    ("die,w,5,h,3\nmac,w,1,h,1\nmac,w,1,h,1\nnet,w,1\npin,m,3,x,0,y,0\nend\n", 8, 5),
    ("die,w,5,h,3\nfix,x,4,y,0,w,2,h,1\nend\n", 9, 2),
    ("die,w,5,h,3\nfix,x,2,y,0,w,1,h,2\nfix,x,2,y,0,w,1,h,2\nend\n", 10, 3),
];

/// A macro, a fix and a pin more than the quoting page takes (document 02, Card 11).
const BEYOND: [&str; 3] = [
    "die,w,5,h,1\nmac,w,1,h,1\nmac,w,1,h,1\nmac,w,1,h,1\nmac,w,1,h,1\nmac,w,1,h,1\nend\n",
    "die,w,3,h,1\nfix,x,0,y,0,w,1,h,1\nfix,x,1,y,0,w,1,h,1\nfix,x,2,y,0,w,1,h,1\nend\n",
    "die,w,1,h,1\nnet,w,1\n\
     pin,m,0,x,0,y,0\npin,m,0,x,0,y,0\npin,m,0,x,0,y,0\npin,m,0,x,0,y,0\npin,m,0,x,0,y,0\n\
     pin,m,0,x,0,y,0\npin,m,0,x,0,y,0\npin,m,0,x,0,y,0\npin,m,0,x,0,y,0\nnet,w,1\n\
     pin,m,0,x,0,y,0\npin,m,0,x,0,y,0\npin,m,0,x,0,y,0\npin,m,0,x,0,y,0\npin,m,0,x,0,y,0\n\
     pin,m,0,x,0,y,0\npin,m,0,x,0,y,0\npin,m,0,x,0,y,0\nend\n",
];

/// Records beside the example (document 02, Card 1): the record, the number, the line and the text
/// at fault.
const BESIDE: [(&str, u64, u64, u64); 8] = [
    ("least,wl,3\nat,m,1,x,0,y,1\nat,m,2,x,0,y,0\ndone\n", YES, 0, NEITHER),
    ("none\ndone\n", YES, 0, NEITHER),
    ("least,wl,6\nat,m,1,x,0,y,0\nat,m,2,x,0,y,2\ndone\n", YES, 0, NEITHER),
    ("least,wl,0\nat,m,1,x,0,y,1\ndone\n", 13, 0, NEITHER),
    ("least,wl,0\nat,m,1,x,0,y,0\nat,m,2,x,0,y,0\ndone\n", 16, 0, NEITHER),
    ("least,wl,6144\nat,m,1,x,1024,y,1024\nat,m,2,x,0,y,0\ndone\n", 16, 0, NEITHER),
    ("least,wl,4\nat,m,1,x,0,y,1\nat,m,2,x,0,y,0\ndone\n", 17, 0, NEITHER),
    ("least,wl,3\nat,m,1,x,0,y,1\nat,m,2,x,0,y,0\n", 5, 4, RECORD),
];

pub fn cases() -> Result<Tally, Difference> {
    let mut tally = Tally::new("examples of the documents", "yes", "no");
    for (text, record, boxes) in RECORDS {
        compare_record(text, record, &mut tally)?;
        compare_boxes(text, record, boxes, &mut tally)?;
    }
    let [text, record, boxes] = longest();
    hold(&text, (record.len() + boxes.len()).to_string(), boxing::MOST.to_string())?;
    compare_boxes(&text, &record, &boxes, &mut tally)?;
    for (letters, answer) in FITS {
        compare_fit(letters, answer, &mut tally)?;
    }
    let long = "a".repeat(16_385);
    compare_refusal(&long, 1, 0, &mut tally)?;
    for (text, number, line) in REFUSALS {
        compare_refusal(text, number, line, &mut tally)?;
    }
    compare_late_refusals(&mut tally)?;
    for (record, number, line, text) in BESIDE {
        compare_beside(EXAMPLE, record, (Answer::new(number, line), text), &mut tally)?;
    }
    compare_beside("die,w,5\n", "x\n", (Answer::new(2, 1), CHIP), &mut tally)?;
    Ok(tally)
}

/// Holds one of the comparison's own functions to the document.
fn hold(input: &str, own: String, document: String) -> Result<(), Difference> {
    if own == document {
        return Ok(());
    }
    Err(Difference {
        service: OWN,
        input: shown(input.as_bytes()),
        library: own,
        expected: document,
    })
}

fn compare_record(text: &str, record: &str, tally: &mut Tally) -> Result<(), Difference> {
    if let Ok(chip) = read_chip(text.as_bytes()) {
        for best in [by_positions(&chip).first, by_letters(&chip)] {
            hold(text, shown(&record_text(best.as_ref())), shown(record.as_bytes()))?;
        }
    }
    let answer = Answer::new(YES, record.len() as u64);
    for service in [DESK, PAGE] {
        placing::compare(service, text.as_bytes(), 256, record.as_bytes(), answer.clone(), tally)?;
    }
    texts::compare_record(record.as_bytes(), tally)?;
    compare_beside(text, record, (Answer::new(YES, 0), NEITHER), tally)
}

/// The record with its boxes, into buffers long enough and too short: by a byte, and with room for
/// the record alone. With a box it is no record any more: refused by 2 at the first of them.
fn compare_boxes(
    text: &str,
    record: &str,
    boxes: &str,
    tally: &mut Tally,
) -> Result<(), Difference> {
    let both = [record, boxes].concat();
    if let Ok(chip) = read_chip(text.as_bytes()) {
        let own = boxing::text(&chip, by_letters(&chip).as_ref());
        hold(text, shown(&own), shown(both.as_bytes()))?;
        boxing::compare_with_record(&chip)?;
    }
    let written = Answer::new(YES, both.len() as u64);
    for length in [boxing::MOST, both.len()] {
        let (text, both) = (text.as_bytes(), both.as_bytes());
        placing::compare(BOXES, text, length, both, written.clone(), tally)?;
    }
    let refused = Answer::new(15, 0);
    placing::compare(BOXES, text.as_bytes(), both.len() - 1, &[], refused.clone(), tally)?;
    if boxes.is_empty() {
        return Ok(());
    }
    placing::compare(BOXES, text.as_bytes(), record.len(), &[], refused, tally)?;
    let own = read_record(both.as_bytes()).map_or_else(Answer::refused, |_| Answer::new(YES, 0));
    let first_box = Answer::new(2, record.lines().count() as u64 + 1);
    hold(&both, own.to_string(), first_box.to_string())?;
    texts::compare_record(both.as_bytes(), tally)
}

fn compare_beside(
    chip: &str,
    record: &str,
    answer: (Answer, u64),
    tally: &mut Tally,
) -> Result<(), Difference> {
    let own = besides::expected(chip.as_bytes(), record.as_bytes());
    hold(record, format!("{own:?}"), format!("{answer:?}"))?;
    besides::compare(chip.as_bytes(), record.as_bytes(), tally)
}

fn compare_fit(letters: &str, answer: Fit, tally: &mut Tally) -> Result<(), Difference> {
    if let Ok(chip) = read_chip(EXAMPLE.as_bytes()) {
        let own = fit(&chip, letters.as_bytes());
        let document = answer.map(|(length, spots)| Placed { length, spots: spots.to_vec() });
        hold(letters, format!("{own:?}"), format!("{document:?}"))?;
    }
    fits::compare(&call(letters), tally).map(|_| ())
}

fn compare_refusal(
    text: &str,
    number: u64,
    line: u64,
    tally: &mut Tally,
) -> Result<(), Difference> {
    let own = read_chip(text.as_bytes()).map_or_else(Answer::refused, |_| Answer::new(YES, 0));
    hold(text, own.to_string(), Answer::new(number, line).to_string())?;
    texts::compare_chip(text.as_bytes(), tally)
}

/// Rows 11 to 15, on the example chip, and 22 of the quoting page, before 15.
fn compare_late_refusals(tally: &mut Tally) -> Result<(), Difference> {
    for (letters, number) in [("AL", 11), ("..", 11), ("....", 11), ("AxL", 12)] {
        let own = fits::accepted(&call(letters)).map_or_else(|refusal| refusal.number, |_| YES);
        hold(letters, own.to_string(), number.to_string())?;
        fits::compare(&call(letters), tally)?;
    }
    for (positions, number) in [(&[0, 0][..], 13), (&[0, 0, 1_025, 0], 14)] {
        let own = measuring::expected(EXAMPLE.as_bytes(), positions).number;
        hold(EXAMPLE, own.to_string(), number.to_string())?;
        measures::compare(EXAMPLE.as_bytes(), positions, tally)?;
    }
    for service in [DESK, PAGE, BOXES] {
        placing::compare(service, EXAMPLE.as_bytes(), 10, &[], Answer::new(15, 0), tally)?;
    }
    for text in BEYOND {
        let own = read_chip(text.as_bytes()).is_ok_and(|chip| quoting::is_beyond(&chip));
        hold(text, own.to_string(), true.to_string())?;
        for length in [0, 256] {
            placing::compare(PAGE, text.as_bytes(), length, &[], Answer::new(22, 0), tally)?;
        }
    }
    Ok(())
}

fn call(letters: &str) -> Call {
    let (text, letters) = (EXAMPLE.as_bytes().to_vec(), letters.as_bytes().to_vec());
    Call { text, letters, slots: 30, positions: 4 }
}
