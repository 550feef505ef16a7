// Writes the largest bid files and series of growing ones, for measuring speed: largest FOLDER.

#[allow(dead_code)]
mod plain;
#[allow(dead_code)]
mod records;

use records::{padded, BidFile, Random, UnitRecord};
use std::path::Path;
use std::process::ExitCode;

const MOST_WORDS: usize = plain::MOST_BYTES / 4;
const CORNERS: u64 = 16;
const CAPACITY: u64 = 20_000;

// The curve and the tie order of a file, as its terms give them.
#[derive(Clone, Copy)]
struct Kind {
    curve: u64,
    order: u64,
}

const STRAIGHT: Kind = Kind { curve: 0, order: 0 };
const STEPPED: Kind = Kind { curve: 1, order: 1 };

// Terms and 16 corners whose demand at price 1 is about this part of a thousand of what is enrolled.
fn started(kind: Kind, cap: u64, spread: u64, units: u64, part: u64) -> BidFile {
    let mut file = BidFile::default();
    file.terms(cap, spread, cap, kind.curve, kind.order);
    let widest = (units * CAPACITY * part / 1_000).max(CORNERS + 1);
    for corner in 1..=CORNERS {
        let quantity = widest / 2 + corner * widest / (2 * CORNERS);
        // The last corner has the price 1, so the demand reaches the widest place at no higher price.
        file.corner(quantity, cap - (corner - 1) * (cap - 1) / (CORNERS - 1));
    }
    file
}

// New-build units with 15 years; names are in no order, capacities are alike in groups of four.
fn enrol(file: &mut BidFile, units: u64) {
    let mut random = Random::new(1);
    let mut numbers: Vec<u64> = (0..units).collect();
    random.shuffle(&mut numbers);
    for number in numbers {
        let name = padded(&format!("U-{number:06}"));
        let capacity = CAPACITY - 200 + 4 * (number / 4 % 100);
        file.unit(&UnitRecord {
            capacity,
            class: 2,
            side: number % 2,
            years: 15,
            random: random.below(8),
            name,
        });
    }
}

// Years entries unit after unit, each for one year fewer.
fn years(file: &mut BidFile, units: u64, entries: u64) {
    for entry in 0..entries {
        file.years(entry % units, 14 - entry / units);
    }
}

// Exits of the first units at prices from the floor's next to the cap, in mixed order.
fn exits(file: &mut BidFile, floor: u64, cap: u64, count: u64) {
    let mut random = Random::new(2);
    for unit in 0..count {
        file.exit(unit, random.within(floor + 1, cap));
    }
}

// Everything at its bound: 512 units, 16 corners, 10,000 rounds, 1,024 entries in the last, words up to the last one.
fn fullest(kind: Kind) -> BidFile {
    let units = 512;
    let mut file = started(kind, 10_000, 1, units, 600);
    enrol(&mut file, units);
    for _ in 1..10_000 {
        file.close();
    }
    years(&mut file, units, 512);
    for unit in 0..units {
        file.exit(unit, 1);
    }
    // What is left before the last close is filled with exits that are stepped back and entered again.
    while file.words.len() + 3 < MOST_WORDS {
        file.step_back();
        file.exit(units - 1, 1);
    }
    file.close();
    file
}

// 512 units and 1,024 entries in one wide round, with exits at many prices, and a settlement in it.
fn widest_round(kind: Kind) -> BidFile {
    let mut file = started(kind, 10_000, 10_000, 512, 600);
    enrol(&mut file, 512);
    years(&mut file, 512, 512);
    exits(&mut file, 0, 10_000, 512);
    file.close();
    file
}

// Grows with the units alone: one round that settles at floor 0 with all of them in.
fn by_units(kind: Kind, units: u64) -> BidFile {
    let mut file = started(kind, 10_000, 10_000, units, 600);
    enrol(&mut file, units);
    file.close();
    file
}

fn by_years(kind: Kind, entries: u64) -> BidFile {
    let mut file = started(kind, 10_000, 10_000, 512, 600);
    enrol(&mut file, 512);
    years(&mut file, 512, entries);
    file.close();
    file
}

fn by_step_backs(kind: Kind, entries: u64) -> BidFile {
    let mut file = started(kind, 10_000, 10_000, 512, 600);
    enrol(&mut file, 512);
    years(&mut file, 512, entries);
    for _ in 0..entries {
        file.step_back();
    }
    file.close();
    file
}

fn by_exits(kind: Kind, count: u64) -> BidFile {
    let mut file = started(kind, 10_000, 10_000, 512, 600);
    enrol(&mut file, 512);
    exits(&mut file, 0, 10_000, count);
    file.close();
    file
}

// Exits all at one price, so that the tie order alone ranks them.
fn by_ties(kind: Kind, count: u64) -> BidFile {
    let mut file = started(kind, 10_000, 10_000, 512, 600);
    enrol(&mut file, 512);
    exits(&mut file, 4_999, 5_000, count);
    file.close();
    file
}

// Rounds that do not clear before the last, which has floor 0.
fn by_rounds(kind: Kind, rounds: u64, units: u64) -> BidFile {
    let mut file = started(kind, 10_000, 10_000 / rounds, units, 600);
    enrol(&mut file, units);
    for _ in 0..rounds {
        file.close();
    }
    file
}

// Rounds with an entry that stands, an entry that is stepped back and a refused record in each, up to the last word.
fn busy_rounds(kind: Kind) -> BidFile {
    let units = 512;
    let mut file = started(kind, 10_000, 6, units, 600);
    enrol(&mut file, units);
    let mut round = 0;
    while file.words.len() + 9 <= MOST_WORDS && round < 1_667 {
        let cap = 10_000 - 6 * round;
        file.years(round % units, 14 - round / units);
        file.exit((round + 7) % units, cap);
        file.step_back();
        file.exit(units, cap);
        file.close();
        round += 1;
    }
    file
}

fn write(folder: &Path, name: &str, file: &BidFile) -> std::io::Result<()> {
    let bytes = file.bytes();
    let listing = plain::listing(&bytes);
    let text = String::from_utf8_lossy(&listing);
    let count = |start: &str| text.lines().filter(|line| line.starts_with(start)).count();
    let cleared = text.lines().find(|line| line.starts_with("CLEARED")).unwrap_or("not cleared");
    println!(
        "{name:<28} {:>6} bytes, ROUND {:>5}, REFUSED {}, FAULT {}, AWARD {:>3}, {cleared}",
        bytes.len(),
        count("ROUND"),
        count("REFUSED"),
        count("FAULT"),
        count("AWARD")
    );
    std::fs::write(folder.join(format!("{name}.bid")), bytes)
}

fn write_kind(folder: &Path, label: &str, kind: Kind) -> std::io::Result<()> {
    write(folder, &format!("largest-{label}"), &fullest(kind))?;
    write(folder, &format!("widest-round-{label}"), &widest_round(kind))?;
    write(folder, &format!("busy-rounds-{label}"), &busy_rounds(kind))?;
    for units in [64, 128, 256, 512] {
        write(folder, &format!("units-{units:04}-{label}"), &by_units(kind, units))?;
        write(folder, &format!("exits-{units:04}-{label}"), &by_exits(kind, units))?;
        write(folder, &format!("ties-{units:04}-{label}"), &by_ties(kind, units))?;
    }
    for entries in [128, 256, 512, 1_024] {
        write(folder, &format!("years-{entries:04}-{label}"), &by_years(kind, entries))?;
        write(folder, &format!("step-backs-{entries:04}-{label}"), &by_step_backs(kind, entries))?;
    }
    for rounds in [10, 100, 1_000, 10_000] {
        write(folder, &format!("rounds-{rounds:05}-{label}"), &by_rounds(kind, rounds, 512))?;
        write(folder, &format!("rounds-few-units-{rounds:05}-{label}"), &by_rounds(kind, rounds, 8))?;
    }
    Ok(())
}

fn main() -> ExitCode {
    let Some(folder) = std::env::args().nth(1) else {
        eprintln!("largest FOLDER");
        return ExitCode::FAILURE;
    };
    let folder = Path::new(&folder);
    let written = std::fs::create_dir_all(folder)
        .and_then(|()| write_kind(folder, "straight", STRAIGHT))
        .and_then(|()| write_kind(folder, "stepped", STEPPED));
    match written {
        Ok(()) => ExitCode::SUCCESS,
        Err(error) => {
            eprintln!("largest: {error}");
            ExitCode::FAILURE
        }
    }
}
