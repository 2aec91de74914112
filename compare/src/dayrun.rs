//! The program that plays one day from a file of records and prints a line for each.

use crate::book::{Answer, Book};
use crate::record::read;
use crate::{Layer, Refusal};
use std::fmt::Write;

/// What lies beyond is not read.
pub const MOST_BYTES: usize = 65_536;

/// A day that is being played.
#[derive(Debug, Clone, Default)]
pub struct Run {
    pub book: Book,
    /// Records so far.
    pub count: u64,
}

impl Run {
    pub fn new() -> Run {
        Run::default()
    }

    /// Play the record at `offset`, which is within the bytes: write its line, without the line
    /// feed, and return where the next record begins, unless the program stops.
    pub fn step(&mut self, bytes: &[u8], offset: usize, line: &mut String) -> Option<usize> {
        self.count += 1;
        let reading = read(bytes, offset);
        let by_record = |number| Refusal { number, layer: Layer::Record, place: offset };
        let outcome = match &reading.record {
            Err(number) => Err(by_record(*number)),
            Ok(record) => match record.call() {
                Some(call) if self.book.takes(&call) => self.book.call(&call),
                _ => Err(by_record(6)),
            },
        };
        let kind = char::from(reading.kind.unwrap_or(b'?'));
        let count = self.count;
        // Writing to a string cannot fail.
        let _ = match outcome {
            Ok(Answer::Number(number)) => write!(line, "{count} {kind} ok {number}"),
            Ok(Answer::Traded(trades, debt)) => {
                self.book.file(debt).expect("a debt is good on its own day");
                write!(line, "{count} {kind} ok {trades}")
            }
            Ok(Answer::Page(page)) => {
                let _ = write!(line, "{count} {kind} ok {}", page.len());
                push_hex(line, &page);
                Ok(())
            }
            Err(refusal) => {
                let Refusal { number, layer, place } = refusal;
                write!(line, "{count} {kind} no {number} {} {place}", layer.letter())
            }
        };
        reading.next
    }
}

fn push_hex(line: &mut String, page: &[u8]) {
    const DIGITS: &[u8; 16] = b"0123456789abcdef";
    line.reserve(3 * page.len());
    for byte in page {
        line.push(' ');
        line.push(char::from(DIGITS[usize::from(byte >> 4)]));
        line.push(char::from(DIGITS[usize::from(byte & 15)]));
    }
}

/// The whole transcript of a file.
pub fn transcript(bytes: &[u8]) -> String {
    let bytes = &bytes[..bytes.len().min(MOST_BYTES)];
    let mut run = Run::new();
    let mut text = String::new();
    let mut offset = 0;
    while offset < bytes.len() {
        let next = run.step(bytes, offset, &mut text);
        text.push('\n');
        match next {
            Some(next) => offset = next,
            None => break,
        }
    }
    text
}

#[cfg(test)]
mod tests {
    use super::*;

    fn bytes(hex: &str) -> Vec<u8> {
        let digits: Vec<u32> = hex.chars().filter_map(|digit| digit.to_digit(16)).collect();
        digits.chunks(2).map(|pair| (pair[0] * 16 + pair[1]) as u8).collect()
    }

    #[test]
    fn the_five_records() {
        let file = bytes("55 0700 02 00 4e  4f 0100 01000000  50 0300 02 0100  56 0100 02  43 0000");
        assert_eq!(file.len(), 26);
        assert_eq!(transcript(&file), "1 U ok 0\n2 O ok 0\n3 P no 19 B 0\n4 V ok 0\n5 C ok 0\n");
    }

    #[test]
    fn the_example_of_an_entry_and_its_row() {
        let mut file = Vec::new();
        for user in [1, 2, 3] {
            file.extend([0x55, 7, 0, user, 0, b'N']);
        }
        file.extend(bytes("53 0700 4142432020202020 64000000 0100000000000000"));
        file.extend(bytes("4f 0100 01000000"));
        file.extend(bytes(
            "52 7f01 02 4142432020202020 0a00000000000000 42 10270000 4c08430f00 d0070000 09",
        ));
        file.extend(bytes("56 0100 01"));
        let text = transcript(&file);
        let lines: Vec<&str> = text.lines().skip(5).collect();
        let row = "72 4f 00 01 00 41 42 43 20 20 20 20 20 c0 4d c1 03 42 d0 07 00 00";
        assert_eq!(lines[0], "6 R ok 1");
        assert_eq!(lines[1], format!("7 V ok 22 {row}"));
    }

    #[test]
    fn stops_after_1_2_and_3_and_goes_on_after_others() {
        assert_eq!(transcript(b""), "");
        assert_eq!(transcript(b"z"), "1 ? no 1 R 0\n");
        assert_eq!(transcript(b"U"), "1 U no 2 R 0\n");
        assert_eq!(transcript(b"C\x01\x00C\x00\x00"), "1 C no 3 R 0\n");
        assert_eq!(transcript(b"C\x00\x00U\x00\x00q\x00\x00"), "1 C no 6 R 0\n2 U no 4 R 3\n3 q no 4 R 6\n");
    }

    #[test]
    fn what_lies_beyond_the_limit_is_not_there() {
        let mut file = b"C\x00\x00".repeat(21_845);
        assert_eq!(file.len(), MOST_BYTES - 1);
        file.extend(b"C\x00\x00");
        let text = transcript(&file);
        assert_eq!(text.lines().last(), Some("21846 C no 2 R 65535"));
    }
}
