//! Builds the plain C that the entries are timed against.

use std::path::PathBuf;
use std::process::Command;

const PLAIN_C: [&str; 3] = ["plain_desk", "plain_dump", "plain_sheet"];
const HEADER: &str = "../include/lta_judgement.h";

fn main() {
    println!("cargo:rerun-if-changed={HEADER}");
    for name in PLAIN_C {
        println!("cargo:rerun-if-changed=src/{name}.c");
        build(name);
    }
}

fn build(name: &str) {
    let out = PathBuf::from(std::env::var("OUT_DIR").expect("set by cargo"));
    let object = out.join(format!("{name}.o"));
    let source = format!("src/{name}.c");
    let status = Command::new("gcc")
        .args("-std=c99 -O2 -Wall -Wextra -Werror -I../include -c".split(' '))
        .args([&source, "-o"])
        .arg(&object)
        .status()
        .expect("gcc is on the path");
    assert!(status.success(), "{source} is not built");
    println!("cargo:rustc-link-arg-bins={}", object.display());
}
