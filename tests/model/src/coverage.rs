//! Counts of what the calls of a comparison hit. What must be hit and never was fails the run.

use model::frame::Frame;
use std::collections::BTreeMap;

#[derive(Default)]
pub struct Counts(BTreeMap<String, u64>);

impl Counts {
    pub fn add(&mut self, what: &str) {
        *self.0.entry(what.to_string()).or_default() += 1;
    }

    fn of(&self, what: &str) -> u64 {
        self.0.get(what).copied().unwrap_or(0)
    }
}

/// A line of counts, and the names in it that were never hit.
pub struct Line<'a> {
    counts: &'a Counts,
    parts: Vec<String>,
    never: Vec<String>,
}

impl Line<'_> {
    pub fn new(counts: &Counts) -> Line<'_> {
        Line {
            counts,
            parts: Vec::new(),
            never: Vec::new(),
        }
    }

    /// The count of each name, behind its name.
    pub fn each(&mut self, names: &[String]) {
        for name in names {
            self.list(name, std::slice::from_ref(name));
        }
    }

    /// The counts of some names, behind one title.
    pub fn list(&mut self, title: &str, names: &[String]) {
        let counts: Vec<String> = names
            .iter()
            .map(|name| self.count(name).to_string())
            .collect();
        self.parts.push(format!("{title}: {}", counts.join(" ")));
    }

    /// How many of some names were hit. Where many were not, they are not named one by one.
    pub fn share(&mut self, title: &str, names: &[String]) {
        let known = self.never.len();
        let hit = names.iter().filter(|name| self.count(name) > 0).count();
        let part = format!("{title}: {hit} of {}", names.len());
        if self.never.len() > known + 3 {
            self.never.truncate(known);
            self.never
                .push(format!("{title} ({hit} of {})", names.len()));
        }
        self.parts.push(part);
    }

    fn count(&mut self, name: &str) -> u64 {
        let count = self.counts.of(name);
        if count == 0 {
            self.never.push(name.to_string());
        }
        count
    }

    /// The line of a call, and what was never hit.
    pub fn end(self, call: &str) -> (String, Vec<String>) {
        let never = self.never.iter().map(|name| format!("{call}: {name}"));
        let line = format!("coverage of {call}: {}", self.parts.join("; "));
        (line, never.collect())
    }
}

/// Names that end in a number.
pub fn range(word: &str, from: usize, to: usize) -> Vec<String> {
    (from..=to).map(|i| format!("{word} {i}")).collect()
}

/// A silence frame as it was met: its class, whether the profile has that class carry a CRC, whether
/// the CRC is right or would be, the context and the direction.
pub fn silence(frame: &Frame, profile: u8, context: u64, direction: u64) -> String {
    let carried = if frame.carries(profile) {
        "with"
    } else {
        "without"
    };
    let right = if frame.silence_right() {
        "right"
    } else {
        "wrong"
    };
    let class = frame.class();
    format!("class {class} {carried} CRC, {right}, in context {context}, {direction}")
}

/// Every silence frame that can be met.
pub fn silences() -> Vec<String> {
    let mut names = Vec::new();
    for class in 0..8 {
        for how in [
            "with CRC, right",
            "with CRC, wrong",
            "without CRC, right",
            "without CRC, wrong",
        ] {
            for context in 0..=5 {
                names.extend(
                    [0, 1].map(|d| format!("class {class} {how}, in context {context}, {d}")),
                );
            }
        }
    }
    names
}

/// The verdicts that a kind 6 can have: unchecked; sixteen each in 4,75 and 5,15; two in 5,90.
pub fn verdicts_of_6() -> Vec<String> {
    let verdicts = [0x80].into_iter().chain(0x10..0x30).chain(0x30..0x32);
    verdicts.map(|v: usize| format!("verdict {v}")).collect()
}
