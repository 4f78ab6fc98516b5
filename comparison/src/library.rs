//! The proved judge's library, with the second judge's types for its answers.

use second_judge::{BookAnswer, CarriedAnswer, OutputAnswer, Row, ServedAnswer, Verdict, QUEUE_BYTES};

/// An index that does not fit becomes the largest, which no judge gives.
fn verdict(returned: u64) -> Verdict {
    Verdict { number: (returned % 256) as u32, index: u32::try_from(returned / 256).unwrap_or(u32::MAX) }
}

fn output(written: lta_sys::Written) -> OutputAnswer {
    OutputAnswer { number: written.number, index: written.index, length: written.length }
}

fn carried(carried: lta_sys::Carried) -> CarriedAnswer {
    CarriedAnswer { number: carried.number, index: carried.index, intuitive: carried.intuitive, total: carried.total }
}

pub fn judge(case: &[u8], proposal: &[u8], report: &mut [u8]) -> Verdict {
    judge_as(case, proposal, report, false)
}

/// Like `judge`; `null`, here and below, passes a null pointer for each empty slice.
pub fn judge_as(case: &[u8], proposal: &[u8], report: &mut [u8], null: bool) -> Verdict {
    verdict(lta_sys::judge(case, proposal, report, null))
}

pub fn judge_families(case: &[u8], proposal: &[u8], list: &[u8], report: &mut [u8], null: bool) -> Verdict {
    verdict(lta_sys::judge_families(case, proposal, list, report, null))
}

pub fn book_surplus(rows: &[Row], prices: &[i64], null: bool) -> BookAnswer {
    let order = |row: &Row| lta_sys::Order { zone: row.zone, side: row.side, quantity: row.quantity, price: row.price };
    let orders: Vec<lta_sys::Order> = rows.iter().map(order).collect();
    let answer = lta_sys::book_surplus(&orders, prices, null);
    BookAnswer { number: answer.number, index: answer.index, sum: answer.sum }
}

pub fn desk_lines(input: &[u8], out: &mut [u8]) -> OutputAnswer {
    output(lta_sys::desk_lines(input, out, false))
}

pub fn sheet_branches(sheet: &[u8], zones: usize, out: &mut [u8], null: bool) -> OutputAnswer {
    output(lta_sys::sheet_branches(sheet, zones, out, null))
}

pub fn dump_proposal(case: &[u8], dump: &[u8], out: &mut [u8], null: bool) -> OutputAnswer {
    output(lta_sys::dump_proposal(case, dump, out, null))
}

pub fn case_columned(case: &[u8], out: &mut [u8], null: bool) -> OutputAnswer {
    output(lta_sys::case_columned(case, out, null))
}

pub fn case_restored(file: &[u8], out: &mut [u8], null: bool) -> OutputAnswer {
    output(lta_sys::case_restored(file, out, null))
}

pub fn shortfalls(case: &[u8], proposal: &[u8], out: &mut [i64], null: bool) -> OutputAnswer {
    output(lta_sys::shortfalls(case, proposal, out, null))
}

pub fn intuitive(net: &[i64], prices: &[i64], pairs: &[u8], scratch: &mut [i64], null: bool) -> CarriedAnswer {
    carried(lta_sys::intuitive(net, prices, pairs, scratch, null))
}

pub fn intuitive_small(net: &[i64], prices: &[i64], pairs: &[u8], scratch: &mut [i64], null: bool) -> CarriedAnswer {
    carried(lta_sys::intuitive_small(net, prices, pairs, scratch, null))
}

pub fn hour_intuitive(case: &[u8], proposal: &[u8], pairs: &[u8], scratch: &mut [i64], null: bool) -> CarriedAnswer {
    carried(lta_sys::hour_intuitive(case, proposal, pairs, scratch, null))
}

pub fn hour_intuitive_small(
    case: &[u8],
    proposal: &[u8],
    pairs: &[u8],
    scratch: &mut [i64],
    null: bool,
) -> CarriedAnswer {
    carried(lta_sys::hour_intuitive_small(case, proposal, pairs, scratch, null))
}

pub fn queue_post(queue: &mut [u8; QUEUE_BYTES], area: u32, hour: u32) -> u32 {
    lta_sys::queue_post(queue, area, hour)
}

pub fn queue_serve(queue: &mut [u8; QUEUE_BYTES]) -> ServedAnswer {
    let served = lta_sys::queue_serve(queue);
    ServedAnswer { number: served.number, index: served.index, area: served.area, hour: served.hour }
}

#[cfg(test)]
mod tests {
    #[test]
    fn the_library_has_the_version_of_the_header() {
        let header = include_str!("../../include/lta_judgement.h");
        let defined = header.lines().find_map(|line| line.strip_prefix("#define LTA_VERSION_NUMBER "));
        assert_eq!(defined, Some(lta_sys::version().to_string().as_str()));
    }
}
