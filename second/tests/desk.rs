//! The desk's cut and its lines, and the book's sum.

use paper_hours::{contracted_hour, stored, three_zone_hour, Stored, EURO};
use second_judge::limits::LEAST_BUFFER;
use second_judge::*;

fn named(name: &str) -> Stored {
    stored().into_iter().find(|hour| hour.name == name).unwrap()
}

#[test]
fn desk_prints_the_three_zone_hour() {
    let hour = three_zone_hour();
    let lines = desk_lines(&[hour.case(), hour.proposal()].concat());
    let expected = "verdict 0 0\n\
        welfare 22125.00000000\n\
        bound 22125.00000000\n\
        gap 0.00000000\n\
        rent 17500.00000000\n\
        owed 17500.00000000\n\
        price 0 20.0000000\n\
        price 1 63.7500000\n\
        price 2 50.0000000\n";
    assert_eq!(String::from_utf8(lines).unwrap(), expected);
}

#[test]
fn desk_cuts_at_the_demanded_length() {
    let hour = three_zone_hour();
    let input = [hour.case(), hour.proposal()].concat();
    assert_eq!(desk_lines(b""), b"verdict 1 0\n");
    assert_eq!(desk_lines(&input[..101]), b"verdict 5 0\n");
    assert_eq!(desk_lines(&input[..102]), b"verdict 9 0\n");
    assert_eq!(desk_lines(&input[..146]), b"verdict 12 0\n");
    assert_eq!(desk_lines(&[&input[..], &[0]].concat()), b"verdict 12 0\n");
    // A bad header: all is the case.
    let mut bad = input;
    bad[5] = 17;
    assert_eq!(desk_lines(&bad), b"verdict 4 5\n");
}

#[test]
fn desk_prints_an_hour_over_tolerance() {
    let hour = named("P3");
    let lines = String::from_utf8(desk_lines(&[hour.case, hour.proposal].concat())).unwrap();
    assert!(lines.starts_with("verdict 26 0\n"));
    assert!(lines.contains("\ngap 3000.00000000\n"));
    assert!(lines.contains("\nowed 18000.00000000\n"));
}

#[test]
fn desk_cuts_version_2_at_its_own_length() {
    let hour = contracted_hour();
    let input = [hour.case(), hour.proposal()].concat();
    assert_eq!(desk_lines(&input[..105]), b"verdict 5 0\n");
    assert_eq!(desk_lines(&input[..106]), b"verdict 9 0\n");
    let lines = String::from_utf8(desk_lines(&input)).unwrap();
    assert!(lines.starts_with("verdict 0 0\n"), "{lines}");
    assert!(lines.contains("\nowed 10937.50000000\n"), "{lines}");
    // Six bytes to a link under version 2: the case takes four bytes of the proposal.
    let mut narrow = three_zone_hour().case();
    narrow[3] = 2;
    let joined = [narrow.clone(), hour.proposal()].concat();
    assert_eq!(desk_lines(&joined), b"verdict 7 52\n");
    let verdict = judge(&narrow, &hour.proposal(), &mut [0; LEAST_BUFFER]);
    assert_eq!((verdict.number, verdict.index), (5, 0));
}

#[test]
fn desk_refuses_an_output_under_1024_bytes() {
    for room in [0, 12, 1_023, 1_024, 1_025] {
        let mut out = vec![7; room];
        let answer = desk_output(b"", &mut out);
        let due: (u32, &[u8]) = match room {
            ..1_024 => (31, b""),
            _ => (0, b"verdict 1 0\n"),
        };
        let length = due.1.len() as u64;
        assert_eq!((answer.number, answer.index, answer.length), (due.0, 0, length));
        let (written, rest) = out.split_at(due.1.len());
        assert_eq!(written, due.1);
        assert!(rest.iter().all(|byte| *byte == 7));
    }
}

#[test]
fn book_is_answered_in_the_papers_order() {
    let row = |zone, side, quantity, price| Row { zone, side, quantity, price };
    let answer = |number, index, sum| BookAnswer { number, index, sum };
    let p1 = three_zone_hour();
    let prices = named("P1").prices;
    // P1: bound less owed, 22,125 - 17,500 euros.
    assert_eq!(book_surplus(&p1.orders, &prices), answer(0, 0, 4_625 * EURO));
    assert_eq!(book_surplus(&[], &prices), answer(0, 0, 0));

    // In the paper's order: prices, rows, each row, each price.
    let (bad_row, bad_price) = (row(3, 0, 1, 0), [0, -5_000_000_001, 0]);
    assert_eq!(book_surplus(&[bad_row; 513], &[]), answer(4, 5, 0));
    assert_eq!(book_surplus(&[bad_row; 513], &[40_000_000_001; 17]), answer(4, 5, 0));
    assert_eq!(book_surplus(&[bad_row; 513], &bad_price), answer(4, 8, 0));
    assert_eq!(book_surplus(&[row(0, 1, 1, 0), bad_row], &bad_price), answer(8, 1, 0));
    assert_eq!(book_surplus(&[row(0, 1, 1, 0)], &bad_price), answer(25, 1, 0));
    for bad in [row(0, 2, 1, 0), row(0, 0, 0, 0), row(0, 0, 100_001, 0), row(0, 0, 1, 400_001)] {
        assert_eq!(book_surplus(&[bad], &prices), answer(8, 0, 0));
    }

    // The largest book at the widest prices, both ways.
    let most = 512 * 100_000 * 450_000 * 100_000;
    let buys = [row(0, 0, 100_000, 400_000); 512];
    assert_eq!(book_surplus(&buys, &[-5_000_000_000]), answer(0, 0, most));
    assert_eq!(book_surplus(&buys, &[40_000_000_000]), answer(0, 0, 0));
    let sells = [row(0, 1, 100_000, -50_000); 512];
    assert_eq!(book_surplus(&sells, &[40_000_000_000]), answer(0, 0, most));
    assert_eq!(book_surplus(&sells, &[-5_000_000_000]), answer(0, 0, 0));
}
