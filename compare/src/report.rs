//! What is printed: counts by answer, or the first difference.

use std::collections::BTreeMap;
use std::fmt::{self, Display, Formatter};

use crate::library::{Answer, NO, YES};

/// The service named where two of the comparison's own ways differ.
pub const OWN: &str = "the comparison's own functions (no fault of the library)";

/// An input on which the library and the expectation differ.
pub struct Difference {
    pub service: &'static str,
    pub input: String,
    pub library: String,
    pub expected: String,
}

impl Display for Difference {
    fn fmt(&self, f: &mut Formatter) -> fmt::Result {
        writeln!(f, "DIFFERENCE: {}", self.service)?;
        writeln!(f, "input: {}", self.input)?;
        writeln!(f, "library: {}", self.library)?;
        write!(f, "expected: {}", self.expected)
    }
}

/// A text with escapes for all bytes that do not print.
pub fn shown(text: &[u8]) -> String {
    format!("{} bytes \"{}\"", text.len(), text.escape_ascii())
}

impl Display for Answer {
    fn fmt(&self, f: &mut Formatter) -> fmt::Result {
        write!(f, "{} with value {}", self.number, self.value)?;
        for stray in &self.stray {
            write!(f, ", and {stray} was written")?;
        }
        Ok(())
    }
}

/// Counts of one service by answer, and of what else was seen.
pub struct Tally {
    service: &'static str,
    yes: &'static str,
    no: &'static str,
    answers: BTreeMap<u64, u64>,
    seen: BTreeMap<&'static str, u64>,
}

impl Tally {
    /// `yes` and `no` are the words for these two answers.
    pub fn new(service: &'static str, yes: &'static str, no: &'static str) -> Tally {
        Tally { service, yes, no, answers: BTreeMap::new(), seen: BTreeMap::new() }
    }

    pub fn answer(&mut self, number: u64) {
        *self.answers.entry(number).or_insert(0) += 1;
    }

    /// Counts one more case of `what`.
    pub fn see(&mut self, what: &'static str) {
        *self.seen.entry(what).or_insert(0) += 1;
    }

    /// Notes a value of `what`; the greatest is kept.
    pub fn greatest(&mut self, what: &'static str, value: u64) {
        let greatest = self.seen.entry(what).or_insert(0);
        *greatest = value.max(*greatest);
    }

    /// Adds the answers of another tally.
    pub fn add(&mut self, other: Tally) {
        for (number, count) in other.answers {
            *self.answers.entry(number).or_insert(0) += count;
        }
    }

    pub fn total(&self) -> u64 {
        self.answers.values().sum()
    }

    /// Names an answer that came up less than `least` times, if there is one.
    pub fn rare(&self, answers: &[u64], least: u64) -> Option<String> {
        let count = |number: &u64| self.answers.get(number).copied().unwrap_or(0);
        let rare = answers.iter().find(|number| count(number) < least)?;
        Some(format!("{}: answer {rare} came up {} times only", self.service, count(rare)))
    }
}

impl Display for Tally {
    fn fmt(&self, f: &mut Formatter) -> fmt::Result {
        write!(f, "{}: {} compared;", self.service, grouped(self.total()))?;
        for (number, word) in [(YES, self.yes), (NO, self.no)] {
            if let Some(&count) = self.answers.get(&number) {
                write!(f, " {word} {},", grouped(count))?;
            }
        }
        write!(f, " refused")?;
        for (number, &count) in
            self.answers.iter().filter(|(&number, _)| number != YES && number != NO)
        {
            write!(f, " {number}: {}", grouped(count))?;
        }
        for (what, count) in &self.seen {
            write!(f, "; {what} {}", grouped(*count))?;
        }
        Ok(())
    }
}

/// A count with a comma between groups of three digits.
pub fn grouped(count: u64) -> String {
    let digits = count.to_string();
    let mut text = String::new();
    for (place, digit) in digits.chars().enumerate() {
        if place > 0 && (digits.len() - place).is_multiple_of(3) {
            text.push(',');
        }
        text.push(digit);
    }
    text
}
