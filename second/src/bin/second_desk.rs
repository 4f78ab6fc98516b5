//! The desk program with the second judge: reads all of standard input, prints.

use std::io::{Read, Write};

fn main() -> std::io::Result<()> {
    let mut input = Vec::new();
    std::io::stdin().read_to_end(&mut input)?;
    std::io::stdout().write_all(&second_judge::desk_lines(&input))
}
