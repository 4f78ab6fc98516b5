//! Writes a part of made records for crates/prog_records, for tests/four_ways_made. FOLDER/stdin has the records,
//! FOLDER/stdout what the program must print for them by the second judge, and FOLDER/lengths a line for each
//! record: its kind and its bytes in either file.

use comparison::makers::records::part;
use std::fs;
use std::path::Path;
use std::process::ExitCode;

const USAGE: &str = "usage: made_records SEED FOLDER";

fn main() -> ExitCode {
    let arguments: Vec<String> = std::env::args().skip(1).collect();
    let [seed, folder] = &arguments[..] else {
        eprintln!("{USAGE}");
        return ExitCode::from(2);
    };
    let Ok(seed) = seed.parse() else {
        eprintln!("{USAGE}");
        return ExitCode::from(2);
    };
    match write(seed, Path::new(folder)) {
        Ok(()) => ExitCode::SUCCESS,
        Err(fault) => {
            eprintln!("made_records: {folder}: {fault}");
            ExitCode::FAILURE
        }
    }
}

fn write(seed: u64, folder: &Path) -> std::io::Result<()> {
    let (mut given, mut due, mut lengths) = (Vec::new(), Vec::new(), String::new());
    for (kind, record) in part(seed) {
        let (bytes, printed) = (record.bytes(), record.printed());
        lengths += &format!("{kind} {} {}\n", bytes.len(), printed.len());
        given.extend(bytes);
        due.extend(printed);
    }
    fs::create_dir_all(folder)?;
    fs::write(folder.join("stdin"), given)?;
    fs::write(folder.join("stdout"), due)?;
    fs::write(folder.join("lengths"), lengths)
}
