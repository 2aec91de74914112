//! `pairs PROVED [--pairs N] [--seed N] [--out DIR]`
//!
//! Pairs of days that differ only in fields held back by entries that both days carry out. Up to the
//! first trade on a changed entry's request on either day, everybody else is told the same: all lines of
//! users who made no changed entry, and of postings, clock moves, price questions and the close.
//! Run on the output of the program PROVED.

use plain::generate::{day, Day, Style};
use plain::record::{read, Call};
use plain::rng::Rng;
use std::collections::BTreeMap;
use std::fs::{self, File};
use std::path::{Path, PathBuf};
use std::process::{Command, Stdio};

#[derive(Default)]
struct Tally {
    pairs: u64,
    changes: u64,
    compared: u64,
    of_changed_users: u64,
    different_for_changed_users: u64,
    to_the_end: u64,
    differences: u64,
    by_kind: BTreeMap<u8, u64>,
}

/// One pair: the two files, where their records begin, and which records were changed.
struct Pair {
    files: [Vec<u8>; 2],
    offsets: [Vec<usize>; 2],
    changed: Vec<usize>,
}

fn main() {
    let mut command = Vec::new();
    let (mut wanted, mut seed, mut out) = (2000, 1, PathBuf::from("target/differences"));
    let mut args = std::env::args().skip(1);
    while let Some(arg) = args.next() {
        let mut value = || args.next().unwrap_or_else(|| usage());
        match arg.as_str() {
            "--pairs" => wanted = value().parse().unwrap_or_else(|_| usage()),
            "--seed" => seed = value().parse().unwrap_or_else(|_| usage()),
            "--out" => out = value().into(),
            _ if arg.starts_with("--") => usage(),
            _ => command.push(arg),
        }
    }
    if command.is_empty() {
        usage();
    }
    let path = std::env::temp_dir().join(format!("pairs-{}", std::process::id()));
    let mut tally = Tally::default();
    let mut count = 0;
    while tally.pairs < wanted {
        count += 1;
        let Some(pair) = pair(seed * 1_000_003 + count) else { continue };
        let run = |file: &[u8]| run(&command, &path, file);
        let texts = [run(&pair.files[0]), run(&pair.files[1])];
        if let Some(place) = check(&pair, &texts, &mut tally) {
            tally.differences += 1;
            if tally.differences <= 10 {
                report(&out, count, &pair, &texts, place);
            }
        }
    }
    let _ = fs::remove_file(&path);
    println!("pairs                      {}", tally.pairs);
    println!("entries changed            {}", tally.changes);
    println!("pairs compared to the end  {} (no trade on a changed entry)", tally.to_the_end);
    println!("lines compared             {}", tally.compared);
    for (kind, count) in &tally.by_kind {
        println!("  {} {count}", char::from(*kind));
    }
    println!("lines of changed users     {}, of them different {}", tally.of_changed_users, tally.different_for_changed_users);
    println!("differences                {}", tally.differences);
    std::process::exit((tally.differences > 0) as i32);
}

fn usage() -> ! {
    eprintln!("pairs PROVED [--pairs N] [--seed N] [--out DIR]");
    std::process::exit(2)
}

/// A day and the same with some of its changes made.
fn pair(seed: u64) -> Option<Pair> {
    let mut rng = Rng::new(seed);
    let length = rng.between(1_000, 12_000) as usize;
    let Day { bytes, offsets, changes, .. } = day(rng.next(), Style::Paired, length);
    let all = rng.percent(50);
    let changes: Vec<_> = changes.into_iter().filter(|_| all || rng.percent(40)).collect();
    let mut other = Vec::new();
    let mut other_offsets = Vec::new();
    for (place, &offset) in offsets.iter().enumerate() {
        other_offsets.push(other.len());
        let end = offsets.get(place + 1).map_or(bytes.len(), |&next| next);
        match changes.iter().find(|(changed, _)| *changed == place) {
            Some((_, new)) => other.extend(new),
            None => other.extend(&bytes[offset..end]),
        }
    }
    let changed: Vec<usize> = changes.iter().map(|(place, _)| *place).collect();
    (!changed.is_empty()).then_some(Pair { files: [bytes, other], offsets: [offsets, other_offsets], changed })
}

/// The line with a place that is the record's own offset left out: where a minimum lacks on one day and
/// stands on the other, the records behind it begin elsewhere.
fn placeless(line: &str, offset: usize) -> &str {
    line.strip_suffix(&format!(" R {offset}")).unwrap_or(line)
}

fn run(command: &[String], path: &Path, bytes: &[u8]) -> String {
    fs::write(path, bytes).expect("a temporary file can be written");
    let stdin = File::open(path).map(Stdio::from).expect("it can be read");
    let output = Command::new(&command[0]).args(&command[1..]).stdin(stdin).output().expect("the program runs");
    assert!(output.status.success(), "the program ends with status 0");
    String::from_utf8(output.stdout).expect("the transcript is text")
}

/// Who makes the call at this place, if a user does, and the request that it would trade on.
fn caller(file: &[u8], offset: usize) -> (Option<u8>, Option<u16>) {
    let Ok(record) = read(file, offset).record else {
        // Refused by the record alone, but it may still name a user: its first field.
        let kind = file[offset];
        let names_user = b"RQPXAVB".contains(&kind) && file[offset + 1] & 1 == 1;
        return (names_user.then(|| file[offset + 3]), None);
    };
    match record.call() {
        Some(Call::Entry(entry)) => (Some(entry.user), None),
        Some(Call::Quote(offer)) => (Some(offer.user), None),
        Some(Call::Accept(acceptance)) => (Some(acceptance.user), Some(acceptance.request)),
        Some(Call::Pull { user, .. } | Call::Cancel { user, .. } | Call::Book { user, .. } | Call::View { user }) => {
            (Some(user), None)
        }
        _ => (None, None),
    }
}

/// The place of the first difference that should not be, if there is one.
fn check(pair: &Pair, texts: &[String; 2], tally: &mut Tally) -> Option<usize> {
    let lines: [Vec<&str>; 2] = [texts[0].lines().collect(), texts[1].lines().collect()];
    let file = &pair.files[0];
    let offsets = &pair.offsets[0];
    assert_eq!(lines[0].len(), offsets.len(), "a line for each record");
    assert_eq!(lines[1].len(), offsets.len(), "a line for each record");

    let mut requests = Vec::new();
    let mut users = Vec::new();
    for &place in &pair.changed {
        let number = |line: &str| line.split_once(" R ok ").and_then(|(_, number)| number.parse::<u16>().ok());
        let numbers = [number(lines[0][place]), number(lines[1][place])];
        if numbers[0].is_none() || numbers[1].is_none() {
            // Not carried out on both days, so this is no pair.
            return None;
        }
        requests.extend(numbers.into_iter().flatten());
        users.extend(caller(file, offsets[place]).0);
    }
    tally.pairs += 1;
    tally.changes += pair.changed.len() as u64;

    for (place, &offset) in offsets.iter().enumerate() {
        let (user, request) = caller(file, offset);
        let traded = lines.iter().any(|lines| lines[place].contains(" A ok "));
        if traded && request.is_some_and(|request| requests.contains(&request)) {
            return None;
        }
        let same = placeless(lines[0][place], offset) == placeless(lines[1][place], pair.offsets[1][place]);
        if user.is_some_and(|user| users.contains(&user)) {
            tally.of_changed_users += 1;
            tally.different_for_changed_users += !same as u64;
            continue;
        }
        tally.compared += 1;
        *tally.by_kind.entry(file[offset]).or_default() += 1;
        if !same {
            return Some(place);
        }
    }
    tally.to_the_end += 1;
    None
}

fn report(out: &Path, count: u64, pair: &Pair, texts: &[String; 2], place: usize) {
    let _ = fs::create_dir_all(out);
    for (day, file) in pair.files.iter().enumerate() {
        let _ = fs::write(out.join(format!("pair-{count}-{day}.bin")), file);
    }
    println!("DIFFERENCE in pair {count}, saved in {}", out.display());
    for text in texts {
        println!("  {}", text.lines().nth(place).unwrap_or("(no line)"));
    }
}
