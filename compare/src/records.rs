//! A placement with its length, and the text of a record.

use crate::chips::Spot;

/// Placements compare by length, then by document 01's order: x1, y1, x2, y2 and so on.
#[derive(Clone, PartialEq, PartialOrd, Debug)]
pub struct Placed {
    pub length: i64,
    pub spots: Vec<Spot>,
}

/// The record of a chip's earliest least placement, or of none.
pub fn record_text(placed: Option<&Placed>) -> Vec<u8> {
    let Some(placed) = placed else {
        return b"none\ndone\n".to_vec();
    };
    let mut text = format!("least,wl,{}\n", placed.length);
    for (place, [x, y]) in placed.spots.iter().enumerate() {
        text += &format!("at,m,{},x,{x},y,{y}\n", place + 1);
    }
    (text + "done\n").into_bytes()
}
