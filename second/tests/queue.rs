//! The desk queue: its bounds are reached, and its bytes.

use second_judge::*;

#[test]
fn queue_bounds_are_reached() {
    // Every hour of the long day waits, that of area 3 posted last.
    let mut queue = Queue::default();
    for place in 0..100 {
        assert_eq!(Papers.post(&mut queue, place / 25, place % 25), 0);
        assert_eq!(Papers.post(&mut queue, place / 25, place % 25), 63);
    }
    let served: Vec<ServedAnswer> = (0..101).map(|_| Papers.serve(&mut queue)).collect();
    for (n, one) in (0..100).zip(&served) {
        assert_eq!((one.number, one.area, one.hour), (0, n % 4, n / 4));
    }
    assert_eq!(served[100].number, 64);
}

#[test]
fn queue_bytes_are_cells_and_turn_and_refusals_change_none() {
    let mut bytes = [0; QUEUE_BYTES];
    assert_eq!(queue_serve(&mut bytes).number, 64);
    assert_eq!(bytes, [0; QUEUE_BYTES]);
    for hour in [24, 0, 7] {
        assert_eq!(queue_post(&mut bytes, 2, hour), 0);
    }
    assert_eq!(bytes[50..55], [25, 1, 8, 0, 0]);
    for (area, hour, number) in [(4, 25, 61), (2, 25, 62), (2, 7, 63)] {
        let before = bytes;
        assert_eq!(queue_post(&mut bytes, area, hour), number);
        assert_eq!(bytes, before);
    }
    let answer = queue_serve(&mut bytes);
    assert_eq!((answer.number, answer.area, answer.hour), (0, 2, 24));
    assert_eq!((&bytes[50..53], bytes[100]), (&[1, 8, 0][..], 3));
    // Free cells between are closed, and other areas stay as they are.
    bytes[0] = 200;
    bytes[30] = 3;
    bytes[31] = 3;
    assert_eq!(queue_post(&mut bytes, 1, 4), 0);
    assert_eq!(bytes[25..32], [3, 5, 0, 0, 0, 0, 0]);
    assert_eq!(bytes[0], 200);
}
