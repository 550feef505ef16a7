// Writes seeded bid files: generate SEED COUNT FOLDER. File number i has the seed SEED + i and carries it in its name.

mod bid_files;
#[allow(dead_code)]
mod plain;
#[allow(dead_code)]
mod records;

use std::path::Path;
use std::process::ExitCode;

fn write_files(seed: u64, count: u64, folder: &Path) -> std::io::Result<()> {
    std::fs::create_dir_all(folder)?;
    for number in 0..count {
        let seed = seed.wrapping_add(number);
        std::fs::write(folder.join(format!("{seed}.bid")), bid_files::bid_file(seed))?;
    }
    Ok(())
}

fn main() -> ExitCode {
    let arguments: Vec<String> = std::env::args().skip(1).collect();
    let number = |at: usize| arguments.get(at).and_then(|text| text.parse::<u64>().ok());
    let (Some(seed), Some(count), Some(folder)) = (number(0), number(1), arguments.get(2)) else {
        eprintln!("generate SEED COUNT FOLDER");
        return ExitCode::FAILURE;
    };
    match write_files(seed, count, Path::new(folder)) {
        Ok(()) => ExitCode::SUCCESS,
        Err(error) => {
            eprintln!("generate: {error}");
            ExitCode::FAILURE
        }
    }
}
