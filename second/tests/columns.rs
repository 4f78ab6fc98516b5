//! Columns and the way back, by hand.

use paper_hours::Hour;
use second_judge::*;

#[test]
fn columns_by_hand_restore_to_the_case() {
    // Two orders of P1's first zone, in a case of nothing else.
    let hour = Hour {
        zones: 1,
        orders: vec![
            Row { zone: 0, side: 0, quantity: 513, price: -2 },
            Row { zone: 0, side: 1, quantity: 7, price: 66_051 },
        ],
        ..Hour::default()
    };
    let case = hour.case();
    let (mut out, mut back) = ([9; 35], [9; 34]);
    let written = |length| OutputAnswer { number: 0, index: 0, length };
    assert_eq!(case_columned(&case, &mut out), written(34));
    assert_eq!((&out[..3], &out[3..14]), (&b"LTK"[..], &case[3..14]));
    assert_eq!(out[14..20], [0, 0, 0, 1, 1, 7]);
    assert_eq!(out[20..26], [2, 0, 0, 0, 0, 0]);
    assert_eq!(out[26..35], [0xFE, 3, 0xFF, 2, 0xFF, 1, 0xFF, 0, 9]);
    assert_eq!(case_restored(&out[..34], &mut back), written(34));
    assert_eq!(back[..], case[..]);
    assert_eq!(case_restored(&case, &mut back).number, 71);
    assert_eq!(case_columned(&case, &mut back[..33]).number, 72);
}
