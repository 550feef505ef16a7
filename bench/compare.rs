// Compares another program that prints listings with the plain one, over seeded bid files.
//
// compare PROGRAM SEED COUNT [--threads N] [--folder FOLDER]
//
// PROGRAM reads a bid file on standard input. With "-" as PROGRAM nothing is run and only the tally is printed.

mod bid_files;
#[allow(dead_code)]
mod plain;
#[allow(dead_code)]
mod records;

use std::collections::BTreeMap;
use std::io::Write;
use std::path::PathBuf;
use std::process::{Command, ExitCode, Stdio};
use std::sync::atomic::{AtomicU64, Ordering};
use std::sync::Mutex;

struct Task {
    program: String,
    seed: u64,
    count: u64,
    threads: u64,
    folder: PathBuf,
}

// How many lines of a kind there were, and in how many files.
#[derive(Clone, Copy, Default)]
struct Counts {
    lines: u64,
    files: u64,
}

#[derive(Default)]
struct Tally {
    files: u64,
    equal: u64,
    bytes: u64,
    kinds: BTreeMap<String, Counts>,
}

impl Tally {
    fn add(&mut self, kinds: &BTreeMap<String, u64>) {
        for (kind, &lines) in kinds {
            let counts = self.kinds.entry(kind.clone()).or_default();
            counts.lines += lines;
            counts.files += 1;
        }
    }

    fn merge(&mut self, other: Tally) {
        self.files += other.files;
        self.equal += other.equal;
        self.bytes += other.bytes;
        for (kind, counts) in other.kinds {
            let sum = self.kinds.entry(kind).or_default();
            sum.lines += counts.lines;
            sum.files += counts.files;
        }
    }
}

// What a line counts as: the question of a refusal or fault, the ground of a settlement, else its first word.
fn kind_of(line: &str) -> String {
    let words: Vec<&str> = line.split(' ').collect();
    match words[0] {
        "REFUSED" => format!("REFUSED {:>2}", words[1]),
        "FAULT" => format!("FAULT {:<7} {:>2}", words[1], words[2]),
        "CLEARED" => format!("CLEARED GROUND {}", words[3]),
        first => first.to_string(),
    }
}

fn kinds_of(listing: &[u8]) -> BTreeMap<String, u64> {
    let mut kinds = BTreeMap::new();
    for line in String::from_utf8_lossy(listing).lines() {
        *kinds.entry(kind_of(line)).or_default() += 1;
    }
    kinds
}

// What the other program printed, and whether its status was 0.
struct Answer {
    output: Vec<u8>,
    message: Vec<u8>,
    status: Option<i32>,
}

// Every eighth file is handed over in small pieces, so that short reads come up. A reader that stops early is no error.
fn feed(mut input: impl Write, file: &[u8], in_pieces: bool) {
    let piece = if in_pieces { 1_021 } else { file.len().max(1) };
    for part in file.chunks(piece) {
        if input.write_all(part).is_err() {
            return;
        }
    }
}

fn ask(program: &str, file: &[u8], in_pieces: bool) -> std::io::Result<Answer> {
    let mut child =
        Command::new(program).stdin(Stdio::piped()).stdout(Stdio::piped()).stderr(Stdio::piped()).spawn()?;
    let input = child.stdin.take().expect("standard input was piped");
    std::thread::scope(|scope| {
        scope.spawn(move || feed(input, file, in_pieces));
        let done = child.wait_with_output()?;
        Ok(Answer { output: done.stdout, message: done.stderr, status: done.status.code() })
    })
}

fn report_difference(task: &Task, seed: u64, file: &[u8], listing: &[u8], answer: &Answer) {
    let _ = std::fs::create_dir_all(&task.folder);
    let name = |end: &str| task.folder.join(format!("{seed}.{end}"));
    for (end, bytes) in [("bid", file), ("plain", listing), ("other", &answer.output)] {
        if let Err(error) = std::fs::write(name(end), bytes) {
            eprintln!("compare: {}: {error}", name(end).display());
        }
    }
    let shown = |bytes: &[u8]| String::from_utf8_lossy(&bytes[..bytes.len().min(2_000)]).into_owned();
    println!("DIFFERENCE seed {seed}, file {}, status {:?}", name("bid").display(), answer.status);
    println!("--- plain ({} bytes)\n{}", listing.len(), shown(listing));
    println!("--- other ({} bytes)\n{}", answer.output.len(), shown(&answer.output));
    if !answer.message.is_empty() {
        println!("--- other, standard error\n{}", shown(&answer.message));
    }
}

// One file: true if the other program printed the same bytes and ended with status 0.
fn is_equal(task: &Task, seed: u64, file: &[u8], listing: &[u8], printing: &Mutex<()>) -> bool {
    if task.program == "-" {
        return true;
    }
    let answer = match ask(&task.program, file, seed % 8 == 0) {
        Ok(answer) => answer,
        Err(error) => Answer { output: Vec::new(), message: error.to_string().into_bytes(), status: None },
    };
    let equal = answer.output == listing && answer.status == Some(0);
    if !equal {
        let _one_at_a_time = printing.lock();
        report_difference(task, seed, file, listing, &answer);
    }
    equal
}

fn work(task: &Task, next: &AtomicU64, printing: &Mutex<()>) -> Tally {
    let mut tally = Tally::default();
    loop {
        let number = next.fetch_add(1, Ordering::Relaxed);
        if number >= task.count {
            return tally;
        }
        let seed = task.seed.wrapping_add(number);
        let file = bid_files::bid_file(seed);
        let listing = plain::listing(&file);
        tally.files += 1;
        tally.bytes += file.len() as u64;
        tally.equal += u64::from(is_equal(task, seed, &file, &listing, printing));
        tally.add(&kinds_of(&listing));
    }
}

fn compared(task: &Task) -> Tally {
    let next = AtomicU64::new(0);
    let printing = Mutex::new(());
    let mut total = Tally::default();
    std::thread::scope(|scope| {
        let workers: Vec<_> =
            (0..task.threads).map(|_| scope.spawn(|| work(task, &next, &printing))).collect();
        for worker in workers {
            total.merge(worker.join().expect("a worker ends with its tally"));
        }
    });
    total
}

fn task_from(arguments: &[String]) -> Option<Task> {
    let mut plain_arguments = Vec::new();
    let mut threads = 2;
    let mut folder = PathBuf::from("differences");
    let mut rest = arguments.iter();
    while let Some(argument) = rest.next() {
        match argument.as_str() {
            "--threads" => threads = rest.next()?.parse().ok()?,
            "--folder" => folder = PathBuf::from(rest.next()?),
            _ => plain_arguments.push(argument),
        }
    }
    let [program, seed, count] = plain_arguments[..] else { return None };
    Some(Task {
        program: program.clone(),
        seed: seed.parse().ok()?,
        count: count.parse().ok()?,
        threads,
        folder,
    })
}

fn main() -> ExitCode {
    let arguments: Vec<String> = std::env::args().skip(1).collect();
    let Some(task) = task_from(&arguments) else {
        eprintln!("compare PROGRAM SEED COUNT [--threads N] [--folder FOLDER]");
        return ExitCode::FAILURE;
    };
    let tally = compared(&task);
    println!("files {}, equal {}, bytes {}", tally.files, tally.equal, tally.bytes);
    println!("{:<20} {:>9} {:>9}", "line", "lines", "files");
    for (kind, counts) in &tally.kinds {
        println!("{kind:<20} {:>9} {:>9}", counts.lines, counts.files);
    }
    if tally.equal == tally.files {
        ExitCode::SUCCESS
    } else {
        ExitCode::FAILURE
    }
}
