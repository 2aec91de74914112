//! `compare PROVED [--days N] [--damaged N] [--seed N] [--jobs N] [--no-sweep] [--out DIR]`
//!
//! Feed the same files to the program PROVED and to the plain book, and compare what they print byte
//! for byte. PROVED may be several words; the file is handed to it as its argument for one half of the
//! files and as its standard input for the other.

use plain::coverage::Coverage;
use plain::damage::damaged;
use plain::dayrun::transcript;
use plain::generate::{day, Events, Style};
use plain::rng::Rng;
use plain::sweep;
use std::fs::{self, File};
use std::path::{Path, PathBuf};
use std::process::{Command, Stdio};
use std::sync::atomic::{AtomicU64, Ordering};
use std::sync::Mutex;
use std::time::Instant;

struct Settings {
    proved: Vec<String>,
    days: u64,
    damaged: u64,
    seed: u64,
    jobs: u64,
    sweep: bool,
    out: PathBuf,
}

#[derive(Default)]
struct Tally {
    days: u64,
    damaged: u64,
    bytes: u64,
    output: u64,
    damaged_lines: u64,
    swept: u64,
    swept_lines: u64,
    coverage: Coverage,
    events: Events,
    differences: u64,
}

fn settings() -> Settings {
    let mut settings = Settings {
        proved: Vec::new(),
        days: 600,
        damaged: 20_000,
        seed: 1,
        jobs: 1,
        sweep: true,
        out: PathBuf::from("target/differences"),
    };
    let mut args = std::env::args().skip(1);
    while let Some(arg) = args.next() {
        let mut value = || args.next().unwrap_or_else(|| usage());
        let number = |text: String| text.parse().unwrap_or_else(|_| usage());
        match arg.as_str() {
            "--days" => settings.days = number(value()),
            "--damaged" => settings.damaged = number(value()),
            "--seed" => settings.seed = number(value()),
            "--jobs" => settings.jobs = number(value()).max(1),
            "--no-sweep" => settings.sweep = false,
            "--out" => settings.out = value().into(),
            _ if arg.starts_with("--") => usage(),
            _ => settings.proved.push(arg),
        }
    }
    if settings.proved.is_empty() {
        usage();
    }
    settings
}

fn usage() -> ! {
    eprintln!("compare PROVED [--days N] [--damaged N] [--seed N] [--jobs N] [--no-sweep] [--out DIR]");
    std::process::exit(2)
}

#[derive(Clone, Copy, PartialEq, Eq)]
enum Sort {
    Day,
    Damaged,
    Swept,
}

/// The file of this count: whole days, then damaged files, then swept ones.
fn file(settings: &Settings, swept: &[Vec<u8>], count: u64) -> (Vec<u8>, Sort, Events) {
    let seed = settings.seed.wrapping_mul(1_000_003).wrapping_add(count);
    if count >= settings.days + settings.damaged {
        return (swept[(count - settings.days - settings.damaged) as usize].clone(), Sort::Swept, Events::default());
    }
    if count >= settings.days {
        return (damaged(seed), Sort::Damaged, Events::default());
    }
    let mut rng = Rng::new(seed ^ 0x0057_171e);
    let style = match rng.below(24) {
        0 | 1 => Style::Full,
        2 | 3 => Style::Harvest,
        4 => Style::Wide,
        _ => Style::Busy,
    };
    let length = rng.between(1_000, 63_000) as usize;
    let day = day(seed, style, length);
    let mut bytes = day.bytes;
    if rng.percent(3) {
        // Beyond the limit of the file.
        while bytes.len() < 66_000 {
            bytes.extend(b"K\x07\x00ABC     MS");
        }
    }
    (bytes, Sort::Day, day.events)
}

/// What the proved program prints, or why it is not to be had.
fn proved(command: &[String], path: &Path, as_argument: bool) -> Result<Vec<u8>, String> {
    let mut process = Command::new(&command[0]);
    process.args(&command[1..]);
    if as_argument {
        process.arg(path).stdin(Stdio::null());
    } else {
        process.stdin(File::open(path).map_err(|error| error.to_string())?);
    }
    let output = process.output().map_err(|error| error.to_string())?;
    if output.status.success() {
        Ok(output.stdout)
    } else {
        Err(format!("status {} {}", output.status, String::from_utf8_lossy(&output.stderr)))
    }
}

/// Say where the two differ, and save the file.
fn report(settings: &Settings, count: u64, bytes: &[u8], by_plain: &str, by_proved: &Result<Vec<u8>, String>) {
    let path = settings.out.join(format!("{count}.hex"));
    let hex: Vec<String> = bytes.chunks(32).map(|row| row.iter().map(|byte| format!("{byte:02x}")).collect()).collect();
    let saved = fs::create_dir_all(&settings.out)
        .and_then(|()| fs::write(&path, hex.join("\n") + "\n"))
        .and_then(|()| fs::write(path.with_extension("bin"), bytes));
    println!("DIFFERENCE in file {count}, saved as {} ({saved:?})", path.display());
    match by_proved {
        Err(error) => println!("  the proved program failed: {error}"),
        Ok(text) => {
            let text = String::from_utf8_lossy(text);
            let (mut plain, mut proved) = (by_plain.split('\n'), text.split('\n'));
            loop {
                let (one, two) = (plain.next(), proved.next());
                if one != two {
                    println!("  plain:  {}", shown(one));
                    println!("  proved: {}", shown(two));
                    break;
                }
                if one.is_none() {
                    println!("  the same lines, but not the same bytes");
                    break;
                }
            }
        }
    }
}

fn shown(line: Option<&str>) -> String {
    match line {
        None => "(no line)".into(),
        Some(line) if line.len() > 400 => format!("{} ... ({} bytes)", &line[..400], line.len()),
        Some(line) => line.into(),
    }
}

fn work(settings: &Settings, swept: &[Vec<u8>], job: u64, next: &AtomicU64, tally: &Mutex<Tally>) {
    let path = std::env::temp_dir().join(format!("compare-{}-{job}", std::process::id()));
    loop {
        let count = next.fetch_add(1, Ordering::Relaxed);
        if count >= settings.days + settings.damaged + swept.len() as u64 {
            break;
        }
        let (bytes, sort, events) = file(settings, swept, count);
        let by_plain = transcript(&bytes);
        let by_proved = fs::write(&path, &bytes)
            .map_err(|error| error.to_string())
            .and_then(|()| proved(&settings.proved, &path, count % 2 == 0));
        let same = by_proved.as_deref().is_ok_and(|text| text == by_plain.as_bytes());
        let mut tally = tally.lock().expect("no job panics");
        tally.bytes += bytes.len() as u64;
        tally.output += by_plain.len() as u64;
        tally.coverage.count(&by_plain);
        tally.events.add(&events);
        match sort {
            Sort::Day => tally.days += 1,
            Sort::Damaged => {
                tally.damaged += 1;
                tally.damaged_lines += by_plain.lines().count() as u64;
            }
            Sort::Swept => {
                tally.swept += 1;
                tally.swept_lines += by_plain.lines().count() as u64;
            }
        }
        if !same {
            tally.differences += 1;
            if tally.differences <= 10 {
                report(settings, count, &bytes, &by_plain, &by_proved);
            }
            if tally.differences == 100 {
                println!("stopped after 100 differences");
                next.store(u64::MAX / 2, Ordering::Relaxed);
            }
        }
    }
    let _ = fs::remove_file(&path);
}

fn main() {
    let settings = settings();
    let start = Instant::now();
    let tally = Mutex::new(Tally::default());
    let next = AtomicU64::new(0);
    let swept = if settings.sweep { sweep::files() } else { Vec::new() };
    std::thread::scope(|scope| {
        for job in 0..settings.jobs {
            let (settings, swept, next, tally) = (&settings, &swept, &next, &tally);
            scope.spawn(move || work(settings, swept, job, next, tally));
        }
    });
    let tally = tally.into_inner().expect("no job panics");
    println!("whole days      {}", tally.days);
    println!("damaged files   {} with {} lines", tally.damaged, tally.damaged_lines);
    println!("swept files     {} with {} lines", tally.swept, tally.swept_lines);
    println!("bytes read      {}", tally.bytes);
    println!("lines compared  {} with {} bytes", tally.coverage.lines(), tally.output);
    print!("{}", tally.coverage.report());
    print!("events of the whole days:\n{}", tally.events.report());
    println!("seconds         {:.1}", start.elapsed().as_secs_f64());
    println!("differences     {}", tally.differences);
    std::process::exit((tally.differences > 0) as i32);
}
