//! Wrong builds of columns and the way back, of S-10 and S-12.

use second_judge::columns::with_mark;
use second_judge::files::Case;
use second_judge::judgement::readable;
use second_judge::limits::*;
use second_judge::{Columns, OutputAnswer, Papers};

/// An entry of a build: columning, or the way back.
pub type Rearrange = fn(&[u8], &mut [u8]) -> OutputAnswer;

/// Every wrong build: its columning, its way back, and its name.
pub static BUILDS: [([Rearrange; 2], &str); 13] = [
    ([|f, o| RowByRow.case_columned(f, o), |f, o| RowByRow.case_restored(f, o)], "columns by order of rows"),
    (
        [|f, o| PriceHighestFirst.case_columned(f, o), |f, o| PriceHighestFirst.case_restored(f, o)],
        "price's highest byte first",
    ),
    (
        [|f, o| QuantityHighestFirst.case_columned(f, o), |f, o| QuantityHighestFirst.case_restored(f, o)],
        "quantity's highest byte first",
    ),
    ([|f, o| SidesFirst.case_columned(f, o), |f, o| SidesFirst.case_restored(f, o)], "sides before zones"),
    ([|f, o| MarkKept.case_columned(f, o), |f, o| MarkKept.case_restored(f, o)], "mark not changed"),
    ([|f, o| LastOrderLeftOut.case_columned(f, o), |f, o| LastOrderLeftOut.case_restored(f, o)], "last order left out"),
    ([|f, o| LinksOfSix.case_columned(f, o), |f, o| LinksOfSix.case_restored(f, o)], "links of six bytes in version 2"),
    ([|f, o| TakesCase.case_columned(f, o), |f, o| TakesCase.case_restored(f, o)], "way back takes LTC"),
    ([|f, o| AnyMark.case_columned(f, o), |f, o| AnyMark.case_restored(f, o)], "way back takes any mark"),
    (
        [|f, o| ReadableOfColumns.case_columned(f, o), |f, o| ReadableOfColumns.case_restored(f, o)],
        "readable asked of the columns",
    ),
    ([|f, o| RoomFirst.case_columned(f, o), |f, o| RoomFirst.case_restored(f, o)], "72 before 71"),
    (
        [|f, o| RefusalHasLength.case_columned(f, o), |f, o| RefusalHasLength.case_restored(f, o)],
        "length of a refusal by 72",
    ),
    ([|f, o| WideRefused.case_columned(f, o), |f, o| WideRefused.case_restored(f, o)], "wide tolerances refused"),
];

pub struct RowByRow;
impl Columns for RowByRow {
    fn in_columns(&self, rows: &[u8], _orders: usize) -> Vec<u8> {
        rows.to_vec()
    }
    fn in_rows(&self, columns: &[u8], _orders: usize) -> Vec<u8> {
        columns.to_vec()
    }
}

pub struct PriceHighestFirst;
impl Columns for PriceHighestFirst {
    fn columns(&self) -> [usize; ORDER_BYTES] {
        [0, 1, 2, 3, 4, 5, 9, 8, 7, 6]
    }
}

pub struct QuantityHighestFirst;
impl Columns for QuantityHighestFirst {
    fn columns(&self) -> [usize; ORDER_BYTES] {
        [0, 1, 5, 4, 3, 2, 6, 7, 8, 9]
    }
}

pub struct SidesFirst;
impl Columns for SidesFirst {
    fn columns(&self) -> [usize; ORDER_BYTES] {
        [1, 0, 2, 3, 4, 5, 6, 7, 8, 9]
    }
}

pub struct MarkKept;
impl Columns for MarkKept {
    fn mark(&self) -> &'static [u8; 3] {
        b"LTC"
    }
}

pub struct LastOrderLeftOut;
impl Columns for LastOrderLeftOut {
    fn in_columns(&self, rows: &[u8], orders: usize) -> Vec<u8> {
        let taken = orders.saturating_sub(1);
        let (taken_rows, last) = rows.split_at(taken * ORDER_BYTES);
        [&Papers.in_columns(taken_rows, taken), last].concat()
    }
}

pub struct LinksOfSix;
impl Columns for LinksOfSix {
    fn orders_at(&self, case: &Case) -> usize {
        case.link_at(0) + 6 * case.links
    }
}

pub struct TakesCase;
impl Columns for TakesCase {
    fn has_mark(&self, file: &[u8]) -> bool {
        file.starts_with(b"LTK") || file.starts_with(b"LTC")
    }
}

pub struct AnyMark;
impl Columns for AnyMark {
    fn has_mark(&self, _file: &[u8]) -> bool {
        true
    }
}

pub struct ReadableOfColumns;
impl Columns for ReadableOfColumns {
    fn restored(&self, file: &[u8]) -> Option<Vec<u8>> {
        if !file.starts_with(b"LTK") {
            return None;
        }
        let bytes = with_mark(b"LTC", file);
        let case = readable(&bytes).ok()?;
        let (before, columns) = bytes.split_at(case.order_at(0));
        Some([before, &self.in_rows(columns, case.orders)].concat())
    }
}

pub struct RoomFirst;
impl Columns for RoomFirst {
    fn written(&self, file: &[u8], result: Option<Vec<u8>>, out: &mut [u8]) -> OutputAnswer {
        match out.len() < file.len() {
            true => OutputAnswer::refused(72, 0),
            false => Papers.written(file, result, out),
        }
    }
}

pub struct RefusalHasLength;
impl Columns for RefusalHasLength {
    fn written(&self, file: &[u8], result: Option<Vec<u8>>, out: &mut [u8]) -> OutputAnswer {
        match Papers.written(file, result, out) {
            refused if refused.number == 72 => OutputAnswer { length: file.len() as u64, ..refused },
            answer => answer,
        }
    }
}

pub struct WideRefused;
impl Columns for WideRefused {
    fn is_readable(&self, case: &[u8]) -> bool {
        readable(case).is_ok_and(|case| case.tolerance <= WIDEST_TOLERANCE)
    }
}
