//! Make days, or count what days reach.
//!
//! `gen day STYLE SEED LENGTH`: one day to standard output.
//! `gen damaged SEED`: one damaged file to standard output.
//! `gen coverage FIRST COUNT`: play so many days and damaged files, and count outcomes.

use plain::coverage::Coverage;
use plain::damage::damaged;
use plain::dayrun::transcript;
use plain::generate::{day, Events, Style};
use std::io::{self, Write};

fn main() -> io::Result<()> {
    let args: Vec<String> = std::env::args().skip(1).collect();
    let words: Vec<&str> = args.iter().map(String::as_str).collect();
    let number = |text: &str| text.parse::<u64>().unwrap_or_else(|_| usage());
    match words[..] {
        ["day", style, seed, length] => {
            let style = match style {
                "busy" => Style::Busy,
                "full" => Style::Full,
                "harvest" => Style::Harvest,
                "wide" => Style::Wide,
                "paired" => Style::Paired,
                _ => usage(),
            };
            io::stdout().write_all(&day(number(seed), style, number(length) as usize).bytes)
        }
        ["damaged", seed] => io::stdout().write_all(&damaged(number(seed))),
        ["coverage", first, count] => {
            let (first, count) = (number(first), number(count));
            let mut coverage = Coverage::default();
            let mut events = Events::default();
            for seed in first..first + count {
                for style in [Style::Busy, Style::Full, Style::Harvest, Style::Wide] {
                    let day = day(seed, style, 30_000);
                    events.add(&day.events);
                    coverage.count(&transcript(&day.bytes));
                }
                for more in 0..20 {
                    coverage.count(&transcript(&damaged(seed * 20 + more)));
                }
            }
            print!("{} lines\n{}events of the whole days:\n{}", coverage.lines(), coverage.report(), events.report());
            Ok(())
        }
        _ => usage(),
    }
}

fn usage() -> ! {
    eprintln!("gen day busy|full|harvest|wide|paired SEED LENGTH | gen damaged SEED | gen coverage FIRST COUNT");
    std::process::exit(2)
}
