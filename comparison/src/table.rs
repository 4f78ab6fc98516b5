//! What a run prints: the checks by section, and the closing table by entry.

use crate::numbers::Reach;
use crate::run::Check;

/// A row of the closing table.
#[derive(Clone)]
pub struct Entry {
    pub name: &'static str,
    pub inputs: u64,
    /// Numbers reached, and all of them.
    pub numbers: (usize, usize),
    /// Wrong builds found, and all of them.
    pub builds: (usize, usize),
}

impl Entry {
    /// From how often each number was answered, and each wrong build found.
    pub fn new(name: &'static str, inputs: u64, reached: &[(&Reach, &[u64])], told: &[u64]) -> Entry {
        let mut numbers = (0, 0);
        for (reach, times) in reached {
            numbers.0 += reach.numbers.iter().filter(|number| times[**number as usize] >= reach.times).count();
            numbers.1 += reach.numbers.len();
        }
        let found = told.iter().filter(|times| **times > 0).count();
        Entry { name, inputs, numbers, builds: (found, told.len()) }
    }

    /// The same entry in a further round.
    fn add(&mut self, other: &Entry) {
        self.inputs += other.inputs;
        self.numbers = self.numbers.max(other.numbers);
        self.builds = self.builds.max(other.builds);
    }
}

/// Adds the entries of a round to those of the rounds before.
pub fn add(entries: &mut Vec<Entry>, round: &[Entry]) {
    for entry in round {
        match entries.iter_mut().find(|before| before.name == entry.name) {
            Some(before) => before.add(entry),
            None => entries.push(entry.clone()),
        }
    }
}

/// A part for each section, with short checks next to each other.
pub fn print_checks(checks: &[Check]) {
    for section in checks.chunk_by(|one, other| one.section == other.section) {
        println!("{}", section[0].section);
        let entries: Vec<String> = section
            .iter()
            .map(|check| {
                let state = if check.passed { "" } else { "  FAILED" };
                format!("{}: {}{state}", check.name, check.note)
            })
            .collect();
        let width = 2 + entries.iter().map(String::len).max().unwrap_or(0);
        for line in entries.chunks((96 / width).max(1)) {
            let line: String = line.iter().map(|entry| format!("{entry:<width$}")).collect();
            println!("  {}", line.trim_end());
        }
    }
}

/// Entry, inputs, numbers reached, wrong builds found.
pub fn print_entries(entries: &[Entry]) {
    let of = |(some, all): (usize, usize)| match all {
        0 => "-".to_string(),
        _ => format!("{some} of {all}"),
    };
    println!();
    println!("{:<48} {:>10} {:>16} {:>19}", "entry", "inputs", "numbers reached", "wrong builds found");
    for entry in entries {
        let (name, inputs) = (entry.name, grouped(entry.inputs));
        println!("{name:<48} {inputs:>10} {:>16} {:>19}", of(entry.numbers), of(entry.builds));
    }
    let inputs = grouped(entries.iter().map(|entry| entry.inputs).sum());
    println!("{:<48} {inputs:>10}", "all");
    println!();
}

/// A number with a comma before each group of three digits.
pub fn grouped(number: u64) -> String {
    let digits = number.to_string();
    let mut text = String::new();
    for (n, digit) in digits.chars().enumerate() {
        if n > 0 && (digits.len() - n).is_multiple_of(3) {
            text.push(',');
        }
        text.push(digit);
    }
    text
}

#[cfg(test)]
mod tests {
    use super::*;

    #[test]
    fn digits_in_groups_of_three() {
        for (number, text) in [(0, "0"), (999, "999"), (1_000, "1,000"), (1_234_567, "1,234,567")] {
            assert_eq!(grouped(number), text);
        }
    }

    #[test]
    fn a_number_that_is_not_met_is_not_reached() {
        let reach = Reach { numbers: vec![0, 2], times: 2 };
        let entry = Entry::new("entry", 9, &[(&reach, &[2, 0, 1])], &[0, 5]);
        assert_eq!((entry.numbers, entry.builds), ((1, 2), (1, 2)));
        let mut entries = vec![entry.clone()];
        add(&mut entries, &[Entry { inputs: 1, numbers: (2, 2), ..entry }]);
        assert_eq!((entries.len(), entries[0].inputs, entries[0].numbers), (1, 10, (2, 2)));
    }
}
