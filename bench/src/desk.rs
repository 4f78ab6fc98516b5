//! A day's print, a hundred of P1's reports, by lta_desk_lines: against the second judge, and against lta_judge
//! with snprintf in plain C. If LTA_BEFORE names a shared object of another version, made by tools/link_shared,
//! also against that.

use crate::{heading, heading_against, measure, print, Times};
use comparison::library;
use paper_hours::three_zone_hour;
use second_judge::limits::{LEAST_BUFFER, LEAST_OUTPUT};
use std::ffi::{c_char, c_int, c_void, CString};
use std::hint::black_box;
use std::os::unix::ffi::OsStringExt;

const REPORTS: usize = 100;
const NOW: c_int = 2;

type Lines = unsafe extern "C" fn(*const u8, usize, *mut u8, usize) -> lta_sys::Written;

extern "C" {
    fn plain_desk_lines(
        case_bytes: *const u8,
        case_len: usize,
        proposal: *const u8,
        proposal_len: usize,
        out: *mut u8,
        out_len: usize,
    ) -> usize;
    fn dlopen(file: *const c_char, mode: c_int) -> *mut c_void;
    fn dlsym(object: *mut c_void, name: *const c_char) -> *mut c_void;
}

fn plain(case: &[u8], proposal: &[u8], out: &mut [u8]) -> usize {
    // Safe: each pointer comes with the length of its own slice.
    unsafe {
        plain_desk_lines(case.as_ptr(), case.len(), proposal.as_ptr(), proposal.len(), out.as_mut_ptr(), out.len())
    }
}

/// lta_desk_lines of the shared object that LTA_BEFORE names.
fn before() -> Option<Lines> {
    let file = CString::new(std::env::var_os("LTA_BEFORE")?.into_vec()).expect("a path");
    // Safe: both names end with a zero byte, and an entry of that name has this declaration.
    unsafe {
        let object = dlopen(file.as_ptr(), NOW);
        assert!(!object.is_null(), "{file:?} is not loaded");
        let entry = dlsym(object, c"lta_desk_lines".as_ptr());
        assert!(!entry.is_null(), "{file:?} has no lta_desk_lines");
        Some(std::mem::transmute::<*mut c_void, Lines>(entry))
    }
}

/// Both times less the judgement's, whose share of the entry's time is known. It is a share, because the machine's
/// speed changes from one row to the next.
fn printing(times: &Times, share: f64) -> Times {
    Times {
        proved: times.proved * (1.0 - share),
        other: times.other - times.proved * share,
        ratio: (1.0 - share) / (1.0 / times.ratio - share),
    }
}

pub fn lines() {
    let hour = three_zone_hour();
    let (case, proposal) = (hour.case(), hour.proposal());
    let input = [case.clone(), proposal.clone()].concat();
    let (mut one, mut other) = ([0; LEAST_OUTPUT], [0; LEAST_OUTPUT]);
    let due = second_judge::desk_lines(&input);
    let length = library::desk_lines(&input, &mut one).length as usize;
    assert_eq!(one[..length], due, "the library");
    let in_c = plain(&case, &proposal, &mut other);
    assert_eq!(other[..in_c], due, "plain C");

    let mut proved = || {
        for _ in 0..REPORTS {
            black_box(library::desk_lines(black_box(&input), black_box(&mut one)));
        }
    };
    let mut report = [0; LEAST_BUFFER];
    let judging = 1.0
        / measure(&mut proved, || {
            for _ in 0..REPORTS {
                black_box(library::judge(black_box(&case), black_box(&proposal), black_box(&mut report)));
            }
        })
        .ratio;
    let row = |times: &Times| {
        print("a day: a hundred of P1's reports", times);
        print("the same less lta_judge", &printing(times, judging));
    };

    heading("desk lines");
    let rust = measure(&mut proved, || {
        for _ in 0..REPORTS {
            black_box(second_judge::desk_lines(black_box(&input)));
        }
    });
    print("a day: a hundred of P1's reports", &rust);

    heading_against("desk lines, against snprintf", "C ns");
    row(&measure(&mut proved, || {
        for _ in 0..REPORTS {
            black_box(plain(black_box(&case), black_box(&proposal), black_box(&mut other)));
        }
    }));

    let Some(entry) = before() else { return };
    let old = |out: &mut [u8]| {
        // Safe: each pointer comes with the length of its own slice.
        unsafe { entry(input.as_ptr(), input.len(), out.as_mut_ptr(), out.len()) }
    };
    old(&mut other);
    assert_eq!(other[..length], due, "the version before");
    heading_against("desk lines, against LTA_BEFORE", "before ns");
    row(&measure(&mut proved, || {
        for _ in 0..REPORTS {
            black_box(old(black_box(&mut other)));
        }
    }));
}
