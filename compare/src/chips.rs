//! A chip as a value, its counts and its text.

/// A place or a size: horizontal, vertical. An axis is the number of one of the two.
pub type Spot = [i64; 2];

/// The letters of each axis: the first of a pair stands before the second, or after it.
pub const LETTERS: [[u8; 2]; 2] = [*b"LR", *b"BA"];

#[derive(Clone)]
pub struct Fix {
    pub corner: Spot,
    pub size: Spot,
}

/// A pin of macro `m` (from 1) at the macro's corner plus `at`, or, with `m` 0, a pad at `at`.
#[derive(Clone)]
pub struct Pin {
    pub m: usize,
    pub at: Spot,
}

#[derive(Clone)]
pub struct Net {
    pub weight: i64,
    pub pins: Vec<Pin>,
}

#[derive(Clone, Default)]
pub struct Chip {
    pub die: Spot,
    pub fixes: Vec<Fix>,
    pub macros: Vec<Spot>,
    pub nets: Vec<Net>,
}

/// The second of a pair of the letter string; the first is a macro.
#[derive(Clone, Copy)]
pub enum Second {
    Macro(usize),
    Fix(usize),
}

impl Chip {
    /// The pairs in the order of their letters: two macros, then a macro and a fix.
    pub fn pairs(&self) -> Vec<(usize, Second)> {
        let mut pairs = Vec::new();
        for first in 0..self.macros.len() {
            for second in first + 1..self.macros.len() {
                pairs.push((first, Second::Macro(second)));
            }
        }
        for first in 0..self.macros.len() {
            for fix in 0..self.fixes.len() {
                pairs.push((first, Second::Fix(fix)));
            }
        }
        pairs
    }

    /// 2n + p + 2q for each axis.
    pub fn slot_count(&self) -> usize {
        let pins: usize = self.nets.iter().map(|net| net.pins.len()).sum();
        2 * (2 * self.macros.len() + self.pairs().len() + 2 * pins)
    }

    pub fn text(&self) -> Vec<u8> {
        let mut text = format!("die,w,{},h,{}\n", self.die[0], self.die[1]);
        for Fix { corner: [x, y], size: [w, h] } in &self.fixes {
            text += &format!("fix,x,{x},y,{y},w,{w},h,{h}\n");
        }
        for [w, h] in &self.macros {
            text += &format!("mac,w,{w},h,{h}\n");
        }
        for net in &self.nets {
            text += &format!("net,w,{}\n", net.weight);
            for Pin { m, at: [x, y] } in &net.pins {
                text += &format!("pin,m,{m},x,{x},y,{y}\n");
            }
        }
        (text + "end\n").into_bytes()
    }
}
