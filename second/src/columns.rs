//! Columns for the archive, request S-10: a case's orders column by column, and the way back.

use crate::files::Case;
use crate::judgement::{readable, with_good_header};
use crate::limits::*;
use crate::{OutputAnswer, Papers};

pub trait Columns: Sized {
    /// The byte of an order's row for each column: all zones, then sides, then each quantity byte and each price
    /// byte, in file order.
    fn columns(&self) -> [usize; ORDER_BYTES] {
        [0, 1, 2, 3, 4, 5, 6, 7, 8, 9]
    }

    fn orders_at(&self, case: &Case) -> usize {
        case.order_at(0)
    }

    /// The rows of this many orders as columns.
    fn in_columns(&self, rows: &[u8], orders: usize) -> Vec<u8> {
        let column = |byte: usize| (0..orders).map(move |order| rows[order * ORDER_BYTES + byte]);
        self.columns().into_iter().flat_map(column).collect()
    }

    /// The columns of this many orders as rows.
    fn in_rows(&self, columns: &[u8], orders: usize) -> Vec<u8> {
        let mut rows = vec![0; columns.len()];
        for (column, byte) in self.columns().into_iter().enumerate() {
            for order in 0..orders {
                rows[order * ORDER_BYTES + byte] = columns[column * orders + order];
            }
        }
        rows
    }

    /// Columned files carry the mark LTK.
    fn mark(&self) -> &'static [u8; 3] {
        b"LTK"
    }

    fn has_mark(&self, file: &[u8]) -> bool {
        file.starts_with(b"LTK")
    }

    fn is_readable(&self, case: &[u8]) -> bool {
        readable(case).is_ok()
    }

    /// A readable case as a columned file; none: 71. Header, branches and links keep their places.
    fn columned(&self, bytes: &[u8]) -> Option<Vec<u8>> {
        if !self.is_readable(bytes) {
            return None;
        }
        let case = with_good_header(bytes).ok()?;
        let file = with_orders(bytes, self.orders_at(&case), &case, |rows| self.in_columns(rows, case.orders));
        Some(with_mark(self.mark(), &file))
    }

    /// The case that a columned file restores to; none, which is 71, if the mark is not LTK or no readable case
    /// results.
    fn restored(&self, file: &[u8]) -> Option<Vec<u8>> {
        if !self.has_mark(file) || file.len() < CASE_HEADER {
            return None;
        }
        let bytes = with_mark(b"LTC", file);
        // The counts are the case's, and tell where its columns begin.
        let case = with_good_header(&bytes).ok().filter(|case| case.demanded() == file.len())?;
        let restored = with_orders(&bytes, self.orders_at(&case), &case, |columns| self.in_rows(columns, case.orders));
        self.is_readable(&restored).then_some(restored)
    }

    /// 71 where no file results, 72 where the output is shorter than the file, in that order.
    fn written(&self, file: &[u8], result: Option<Vec<u8>>, out: &mut [u8]) -> OutputAnswer {
        let Some(result) = result else {
            return OutputAnswer::refused(71, 0);
        };
        if out.len() < file.len() {
            return OutputAnswer::refused(72, 0);
        }
        out[..result.len()].copy_from_slice(&result);
        OutputAnswer::written(result.len())
    }

    fn case_columned(&self, case: &[u8], out: &mut [u8]) -> OutputAnswer {
        self.written(case, self.columned(case), out)
    }

    fn case_restored(&self, file: &[u8], out: &mut [u8]) -> OutputAnswer {
        self.written(file, self.restored(file), out)
    }
}

/// A file with another mark.
pub fn with_mark(mark: &[u8; 3], file: &[u8]) -> Vec<u8> {
    [mark, &file[3..]].concat()
}

/// A file with its order part, which begins here, rearranged; all else stays.
fn with_orders(file: &[u8], start: usize, case: &Case, rearranged: impl Fn(&[u8]) -> Vec<u8>) -> Vec<u8> {
    let (before, rest) = file.split_at(start);
    let (orders, past) = rest.split_at(case.orders * ORDER_BYTES);
    [before, &rearranged(orders), past].concat()
}

/// Writes a readable case in columns, and answers with its length.
pub fn case_columned(case: &[u8], out: &mut [u8]) -> OutputAnswer {
    Papers.case_columned(case, out)
}

/// Writes the case that a columned file restores to, and answers with its length.
pub fn case_restored(file: &[u8], out: &mut [u8]) -> OutputAnswer {
    Papers.case_restored(file, out)
}
