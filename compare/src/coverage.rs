//! How often each call was carried out and each refusal was given, counted from transcripts.

use crate::record::KINDS;
use std::collections::BTreeMap;
use std::fmt::Write;

/// Counts by kind letter and outcome; 0 is a call carried out, else the refusal's number.
#[derive(Debug, Clone, Default)]
pub struct Coverage {
    pub counts: BTreeMap<(u8, u8), u64>,
}

/// What a line says: its kind letter, and 0 or the refusal's number.
pub fn outcome(line: &str) -> Option<(u8, u8)> {
    let mut words = line.splitn(5, ' ').skip(1);
    let kind = *words.next()?.as_bytes().first()?;
    match words.next()? {
        "ok" => Some((kind, 0)),
        "no" => Some((kind, words.next()?.parse().ok()?)),
        _ => None,
    }
}

impl Coverage {
    pub fn count(&mut self, text: &str) {
        for line in text.lines() {
            if let Some(key) = outcome(line) {
                *self.counts.entry(key).or_default() += 1;
            }
        }
    }

    pub fn add(&mut self, other: &Coverage) {
        for (key, count) in &other.counts {
            *self.counts.entry(*key).or_default() += count;
        }
    }

    pub fn lines(&self) -> u64 {
        self.counts.values().sum()
    }

    /// All outcomes that the documents allow in a transcript, as (kind, 0 or number).
    pub fn possible() -> Vec<(u8, u8)> {
        let mut all = vec![(b'?', 1)];
        for &kind in KINDS {
            let (ok, numbers): (bool, &[u8]) = match kind {
                b'U' => (true, &[2, 3, 4, 5, 6, 10, 11]),
                b'S' => (true, &[2, 3, 4, 6, 10, 11, 20]),
                b'O' => (true, &[2, 3, 4, 6]),
                b'R' => (true, &[2, 3, 4, 5, 6, 10, 12, 13, 14, 15, 16, 17, 20]),
                b'Q' => (true, &[2, 3, 4, 5, 6, 10, 12, 15, 16, 17, 18, 19, 20, 21, 22]),
                b'P' => (true, &[2, 3, 4, 6, 10, 12, 19]),
                b'X' => (true, &[2, 3, 4, 6, 10, 12, 18]),
                b'A' => (true, &[2, 3, 4, 5, 6, 10, 12, 18, 19, 23, 24]),
                b'T' => (true, &[2, 3, 4, 6, 10, 17]),
                b'M' => (true, &[2, 3, 4, 6, 10, 13]),
                b'K' => (true, &[2, 3, 4, 5, 6, 10, 13, 30, 31, 32, 33, 34]),
                b'V' => (true, &[2, 3, 4, 6, 10, 12]),
                b'B' => (true, &[2, 3, 4, 6, 10, 12, 18]),
                b'C' => (true, &[2, 3, 6]),
                b'r' | b't' => (false, &[2, 3, 4, 5, 6]),
                _ => (false, &[2, 3, 4, 6]),
            };
            all.extend(ok.then_some((kind, 0)));
            all.extend(numbers.iter().map(|&number| (kind, number)));
        }
        all
    }

    /// A table of all counts, and what was never reached.
    pub fn report(&self) -> String {
        let mut text = String::new();
        let mut by_number: BTreeMap<u8, u64> = BTreeMap::new();
        for (&(_, number), count) in &self.counts {
            *by_number.entry(number).or_default() += count;
        }
        let _ = writeln!(text, "by outcome (0 is carried out):");
        for (number, count) in &by_number {
            let _ = write!(text, "  {number:>2}: {count:>8}  ");
            for (&(kind, _), count) in self.counts.iter().filter(|(key, _)| key.1 == *number) {
                let _ = write!(text, " {}={count}", char::from(kind));
            }
            text.push('\n');
        }
        let possible = Coverage::possible();
        let never: Vec<String> = possible
            .iter()
            .filter(|key| !self.counts.contains_key(key))
            .map(|&(kind, number)| format!("{}/{number}", char::from(kind)))
            .collect();
        let _ = writeln!(text, "outcomes possible {}, never reached {}: {}", possible.len(), never.len(), never.join(" "));
        let beyond: Vec<String> = self
            .counts
            .keys()
            .filter(|key| !possible.contains(key))
            .map(|&(kind, number)| format!("{}/{number}", char::from(kind)))
            .collect();
        let _ = writeln!(text, "outcomes not in the documents: {} {}", beyond.len(), beyond.join(" "));
        text
    }
}
