//! The proved functions beside the Rust's, and beside libical where it is installed, in one program. See `bench/run`.
//!   bench [ROW..]                            times both sides, turn and turn about
//!   bench --list [ROW..]                     the rows, each with its feed
//!   bench --to PLACE SIDE ROW FEED BYTES     runs one side to `start` or to `stop`: for a count of its instructions
//!   bench --stack [ROW..]                    the stack that each side takes
mod clock;
mod feeds;
#[cfg(libical)]
mod libical;
mod ours;
mod rows;
use clock::{Clock, Measure};
use ours::Lent;
use rows::{ROWS, Row};

fn main() {
    let args: Vec<String> = std::env::args().skip(1).collect();
    let words: Vec<&str> = args.iter().map(String::as_str).collect();
    match words[..] {
        ["--list", ref names @ ..] => for_each(names, |row, kind, bytes| println!("{} {kind} {bytes}", row.name)),
        ["--to", place, side, name, kind, bytes] => run_to(place, side, name, kind, bytes.parse().unwrap()),
        ["--stack", ref names @ ..] => {
            println!("{:8}{:10}{:>9}{:>9}{:>9}  bytes of stack, at most", "row", "feed", "bytes", "ours", "theirs");
            for_each(names, stack);
        }
        ref names => {
            println!(
                "{:8}{:10}{:>9}{:>13}{:>13}{:>11}{:>11}{:>11}",
                "row", "feed", "bytes", "ours ms", "theirs ms", "ours MB/s", "their MB/s", "ours is"
            );
            for_each(names, times);
        }
    }
}

/// The rows named, or all.
fn for_each(names: &[&str], mut then: impl FnMut(&Row, &str, usize)) {
    for row in ROWS.iter().filter(|row| names.is_empty() || names.contains(&row.name)) {
        for (kind, bytes) in row.feeds {
            then(row, kind, *bytes);
        }
    }
}

fn input(row: &Row, kind: &str, bytes: usize) -> (Vec<String>, Lent) {
    ((row.parts)(feeds::feed(kind, bytes)), Lent::new(bytes))
}

/// The least time of each side, over at least five turns and a second.
fn times(row: &Row, kind: &str, bytes: usize) {
    let (parts, mut lent) = input(row, kind, bytes);
    assert!((row.same)(&parts, &mut lent), "{} {kind} {bytes}: the answers differ", row.name);
    let mut clock = Clock::new(Measure::Time);
    let (mut ours, mut theirs, mut spent, mut turns) = (f64::INFINITY, f64::INFINITY, 0.0, 0);
    while turns < 5 || spent < 1.0 {
        (row.ours)(&parts, &mut lent, &mut clock);
        ours = ours.min(clock.seconds);
        spent += clock.seconds;
        (row.theirs)(&parts, &mut lent, &mut clock);
        theirs = theirs.min(clock.seconds);
        spent += clock.seconds;
        turns += 1;
    }
    let worked: usize = parts.iter().map(String::len).sum();
    let rate = |seconds: f64| worked as f64 / seconds / 1e6;
    println!(
        "{:8}{kind:10}{worked:9}{:13.4}{:13.4}{:11.0}{:11.0}{:>11}",
        row.name,
        ours * 1e3,
        theirs * 1e3,
        rate(ours),
        rate(theirs),
        format!("{:.1}x", theirs / ours)
    );
}

fn run_to(place: &str, side: &str, name: &str, kind: &str, bytes: usize) {
    let row = ROWS.iter().find(|row| row.name == name).expect("no such row");
    let (parts, mut lent) = input(row, kind, bytes);
    let mut clock = Clock::new(if place == "start" { Measure::EndAtStart } else { Measure::EndAtStop });
    match side {
        "ours" => (row.ours)(&parts, &mut lent, &mut clock),
        _ => (row.theirs)(&parts, &mut lent, &mut clock),
    }
}

fn stack(row: &Row, kind: &str, bytes: usize) {
    let (parts, mut lent) = input(row, kind, bytes);
    let mut clock = Clock::new(Measure::Stack);
    (row.ours)(&parts, &mut lent, &mut clock);
    let ours = clock.stack;
    (row.theirs)(&parts, &mut lent, &mut clock);
    println!("{:8}{kind:10}{bytes:9}{ours:9}{:9}", row.name, clock.stack);
}
