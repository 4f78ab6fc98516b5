//! The first difference of a run, as files that `lta` opens by their suffixes: difference.case,
//! difference.proposal, difference.families and so on. difference.about says what differs.

use std::fs;
use std::io;
use std::path::Path;

/// An input's files, each with the suffix by which `lta` knows it.
pub type Files<'a> = [(&'a str, &'a [u8])];

const NAME: &str = "difference";

/// Writes the files and removes those of an earlier run. Returns the command that shows them, or the path of
/// difference.about if they are no hour's.
pub fn write(folder: &Path, files: &Files, about: &str) -> io::Result<String> {
    fs::create_dir_all(folder)?;
    for entry in fs::read_dir(folder)? {
        let path = entry?.path();
        if path.file_stem().is_some_and(|stem| stem == NAME) {
            fs::remove_file(path)?;
        }
    }
    let path = |suffix: &str| folder.join(format!("{NAME}.{suffix}"));
    fs::write(path("about"), format!("{about}\n"))?;
    for (suffix, bytes) in files {
        fs::write(path(suffix), bytes)?;
    }
    let suffixes: Vec<&str> = files.iter().map(|(suffix, _)| *suffix).collect();
    let (command, opened) = match suffixes[..] {
        ["case", "proposal"] | ["case", "proposal", "families"] | ["joined"] => ("lta explain ", &suffixes[..]),
        ["case"] | ["case", "dump"] => ("lta show ", &suffixes[..]),
        ["columned"] => ("lta restore ", &suffixes[..]),
        _ => ("", &["about"][..]),
    };
    let paths: Vec<String> = opened.iter().map(|suffix| path(suffix).display().to_string()).collect();
    Ok(format!("{command}{}", paths.join(" ")))
}

/// A line for each file: its name and its bytes in hexadecimal digits, unless there are too many to read.
pub fn hex(files: &Files) -> String {
    let line = |(name, file): &(&str, &[u8])| match file.len() {
        0..=400 => {
            let digits: String = file.iter().map(|byte| format!("{byte:02x}")).collect();
            format!("\n  {name} {digits}")
        }
        length => format!("\n  {name} of {length} bytes"),
    };
    files.iter().map(line).collect()
}

#[cfg(test)]
mod tests {
    use super::*;

    #[test]
    fn only_the_last_difference_is_left() {
        let folder = std::env::temp_dir().join(format!("comparison-{}", std::process::id()));
        write(&folder, &[("case", b"LTC"), ("proposal", b"LTP")], "first").unwrap();
        write(&folder, &[("joined", b"LTC")], "second").unwrap();
        let mut names: Vec<_> = fs::read_dir(&folder).unwrap().map(|entry| entry.unwrap().file_name()).collect();
        names.sort();
        assert_eq!(names, ["difference.about", "difference.joined"]);
        assert_eq!(fs::read(folder.join("difference.joined")).unwrap(), b"LTC");
        assert_eq!(fs::read(folder.join("difference.about")).unwrap(), b"second\n");
        fs::remove_dir_all(folder).unwrap();
    }

    #[test]
    fn the_command_names_every_file() {
        let folder = std::env::temp_dir().join(format!("comparison-commands-{}", std::process::id()));
        let shown = folder.display();
        let command = |suffixes: &[&str]| {
            let files: Vec<(&str, &[u8])> = suffixes.iter().map(|suffix| (*suffix, &b"LT"[..])).collect();
            write(&folder, &files, "").unwrap()
        };
        let due =
            format!("lta explain {shown}/difference.case {shown}/difference.proposal {shown}/difference.families");
        assert_eq!(command(&["case", "proposal", "families"]), due);
        assert_eq!(command(&["joined"]), format!("lta explain {shown}/difference.joined"));
        let due = format!("lta show {shown}/difference.case {shown}/difference.dump");
        assert_eq!(command(&["case", "dump"]), due);
        assert_eq!(command(&["sheet"]), format!("{shown}/difference.about"));
        assert_eq!(command(&[]), format!("{shown}/difference.about"));
        fs::remove_dir_all(folder).unwrap();
    }
}
