//! The library's entries, columning and the way back, against the second judge's.

use crate::{heading, measure, print, sized, Times, CLASSES};
use comparison::library;
use second_judge::{case_columned, case_restored, OutputAnswer};
use std::hint::black_box;

type Entry = fn(&[u8], &mut [u8]) -> OutputAnswer;

fn of(file: &[u8], proved: Entry, other: Entry) -> (Times, Vec<u8>) {
    let (mut one, mut two) = (vec![0; file.len()], vec![0; file.len()]);
    assert_eq!(proved(file, &mut one), other(file, &mut two), "both answer");
    assert_eq!(one, two, "both files");
    let made = one.clone();
    let times = measure(
        || {
            black_box(proved(black_box(file), black_box(&mut one)));
        },
        || {
            black_box(other(black_box(file), black_box(&mut two)));
        },
    );
    (times, made)
}

pub fn files() {
    heading("columns");
    for (name, [zones, branches, links, orders]) in CLASSES {
        let case = sized(zones, branches, links, orders).case();
        let (there, made) = of(&case, |file, out| library::case_columned(file, out, false), case_columned);
        print(&format!("{name}, columning"), &there);
        let (back, _) = of(&made, |file, out| library::case_restored(file, out, false), case_restored);
        print(&format!("{name}, way back"), &back);
    }
}
