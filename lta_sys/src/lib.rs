//! The proved judge's library through its C interface: the declarations of include/lta_judgement.h, and for each
//! entry a safe function over slices. In each of these `null` passes a null pointer for every empty slice, as a C
//! host may.

/// struct lta_order.
#[derive(Clone, Copy, Debug)]
#[repr(C)]
pub struct Order {
    pub zone: u8,
    pub side: u8,
    pub quantity: u32,
    pub price: i32,
}

/// struct lta_surplus.
#[derive(Clone, Copy, Debug)]
#[repr(C)]
pub struct Surplus {
    pub number: u32,
    pub index: u32,
    pub sum: i64,
}

/// struct lta_written.
#[derive(Clone, Copy, Debug)]
#[repr(C)]
pub struct Written {
    pub number: u32,
    pub index: u64,
    pub length: u64,
}

/// struct lta_carried.
#[derive(Clone, Copy, Debug)]
#[repr(C)]
pub struct Carried {
    pub number: u32,
    pub index: u32,
    pub intuitive: u32,
    pub total: i64,
}

/// struct lta_served.
#[derive(Clone, Copy, Debug)]
#[repr(C)]
pub struct Served {
    pub number: u32,
    pub index: u32,
    pub area: u32,
    pub hour: u32,
}

/// LTA_QUEUE_SIZE.
pub const QUEUE_BYTES: usize = 101;

/// An entry over two lists of one kind, pairs and a scratch.
type CarriedEntry<T> =
    unsafe extern "C" fn(*const T, usize, *const T, usize, *const u8, usize, *mut i64, usize) -> Carried;

extern "C" {
    fn lta_version() -> u32;
    fn lta_judge(
        case_bytes: *const u8,
        case_len: usize,
        proposal: *const u8,
        proposal_len: usize,
        report: *mut u8,
        report_len: usize,
    ) -> u64;
    fn lta_judge_families(
        case_bytes: *const u8,
        case_len: usize,
        proposal: *const u8,
        proposal_len: usize,
        families: *const u8,
        families_len: usize,
        report: *mut u8,
        report_len: usize,
    ) -> u64;
    fn lta_book_surplus(
        orders: *const Order,
        order_count: usize,
        zone_prices: *const i64,
        price_count: usize,
    ) -> Surplus;
    fn lta_desk_lines(input: *const u8, input_len: usize, out: *mut u8, out_len: usize) -> Written;
    fn lta_sheet_branches(sheet: *const u8, sheet_len: usize, zones: usize, out: *mut u8, out_len: usize) -> Written;
    fn lta_dump_proposal(
        case_bytes: *const u8,
        case_len: usize,
        dump: *const u8,
        dump_len: usize,
        out: *mut u8,
        out_len: usize,
    ) -> Written;
    fn lta_case_columned(case_bytes: *const u8, case_len: usize, out: *mut u8, out_len: usize) -> Written;
    fn lta_case_restored(columned: *const u8, columned_len: usize, out: *mut u8, out_len: usize) -> Written;
    fn lta_shortfalls(
        case_bytes: *const u8,
        case_len: usize,
        proposal: *const u8,
        proposal_len: usize,
        out: *mut i64,
        out_count: usize,
    ) -> Written;
    fn lta_intuitive(
        net_exports: *const i64,
        net_count: usize,
        zone_prices: *const i64,
        price_count: usize,
        pairs: *const u8,
        pairs_len: usize,
        scratch: *mut i64,
        scratch_count: usize,
    ) -> Carried;
    fn lta_intuitive_small(
        net_exports: *const i64,
        net_count: usize,
        zone_prices: *const i64,
        price_count: usize,
        pairs: *const u8,
        pairs_len: usize,
        scratch: *mut i64,
        scratch_count: usize,
    ) -> Carried;
    fn lta_hour_intuitive(
        case_bytes: *const u8,
        case_len: usize,
        proposal: *const u8,
        proposal_len: usize,
        pairs: *const u8,
        pairs_len: usize,
        scratch: *mut i64,
        scratch_count: usize,
    ) -> Carried;
    fn lta_hour_intuitive_small(
        case_bytes: *const u8,
        case_len: usize,
        proposal: *const u8,
        proposal_len: usize,
        pairs: *const u8,
        pairs_len: usize,
        scratch: *mut i64,
        scratch_count: usize,
    ) -> Carried;
    fn lta_queue_post(queue: *mut u8, area: u32, hour: u32) -> u32;
    fn lta_queue_serve(queue: *mut u8) -> Served;
}

fn start<T>(list: &[T], null: bool) -> *const T {
    match list {
        [] if null => std::ptr::null(),
        _ => list.as_ptr(),
    }
}

fn start_mut<T>(list: &mut [T], null: bool) -> *mut T {
    match list {
        [] if null => std::ptr::null_mut(),
        _ => list.as_mut_ptr(),
    }
}

// Each call below is safe: every pointer comes with the length of its own slice.

/// LTA_VERSION_NUMBER of the library's own header.
pub fn version() -> u32 {
    unsafe { lta_version() }
}

/// Number + 256 * index.
pub fn judge(case: &[u8], proposal: &[u8], report: &mut [u8], null: bool) -> u64 {
    unsafe {
        lta_judge(
            start(case, null),
            case.len(),
            start(proposal, null),
            proposal.len(),
            start_mut(report, null),
            report.len(),
        )
    }
}

/// Number + 256 * index.
pub fn judge_families(case: &[u8], proposal: &[u8], list: &[u8], report: &mut [u8], null: bool) -> u64 {
    unsafe {
        lta_judge_families(
            start(case, null),
            case.len(),
            start(proposal, null),
            proposal.len(),
            start(list, null),
            list.len(),
            start_mut(report, null),
            report.len(),
        )
    }
}

pub fn book_surplus(orders: &[Order], prices: &[i64], null: bool) -> Surplus {
    unsafe { lta_book_surplus(start(orders, null), orders.len(), start(prices, null), prices.len()) }
}

pub fn desk_lines(input: &[u8], out: &mut [u8], null: bool) -> Written {
    unsafe { lta_desk_lines(start(input, null), input.len(), start_mut(out, null), out.len()) }
}

pub fn sheet_branches(sheet: &[u8], zones: usize, out: &mut [u8], null: bool) -> Written {
    unsafe { lta_sheet_branches(start(sheet, null), sheet.len(), zones, start_mut(out, null), out.len()) }
}

pub fn dump_proposal(case: &[u8], dump: &[u8], out: &mut [u8], null: bool) -> Written {
    unsafe {
        lta_dump_proposal(start(case, null), case.len(), start(dump, null), dump.len(), start_mut(out, null), out.len())
    }
}

pub fn case_columned(case: &[u8], out: &mut [u8], null: bool) -> Written {
    unsafe { lta_case_columned(start(case, null), case.len(), start_mut(out, null), out.len()) }
}

pub fn case_restored(file: &[u8], out: &mut [u8], null: bool) -> Written {
    unsafe { lta_case_restored(start(file, null), file.len(), start_mut(out, null), out.len()) }
}

pub fn shortfalls(case: &[u8], proposal: &[u8], out: &mut [i64], null: bool) -> Written {
    unsafe {
        lta_shortfalls(
            start(case, null),
            case.len(),
            start(proposal, null),
            proposal.len(),
            start_mut(out, null),
            out.len(),
        )
    }
}

fn carried<T>(
    entry: CarriedEntry<T>,
    first: &[T],
    second: &[T],
    pairs: &[u8],
    scratch: &mut [i64],
    null: bool,
) -> Carried {
    unsafe {
        entry(
            start(first, null),
            first.len(),
            start(second, null),
            second.len(),
            start(pairs, null),
            pairs.len(),
            start_mut(scratch, null),
            scratch.len(),
        )
    }
}

pub fn intuitive(net_exports: &[i64], prices: &[i64], pairs: &[u8], scratch: &mut [i64], null: bool) -> Carried {
    carried(lta_intuitive, net_exports, prices, pairs, scratch, null)
}

pub fn intuitive_small(net_exports: &[i64], prices: &[i64], pairs: &[u8], scratch: &mut [i64], null: bool) -> Carried {
    carried(lta_intuitive_small, net_exports, prices, pairs, scratch, null)
}

pub fn hour_intuitive(case: &[u8], proposal: &[u8], pairs: &[u8], scratch: &mut [i64], null: bool) -> Carried {
    carried(lta_hour_intuitive, case, proposal, pairs, scratch, null)
}

pub fn hour_intuitive_small(case: &[u8], proposal: &[u8], pairs: &[u8], scratch: &mut [i64], null: bool) -> Carried {
    carried(lta_hour_intuitive_small, case, proposal, pairs, scratch, null)
}

pub fn queue_post(queue: &mut [u8; QUEUE_BYTES], area: u32, hour: u32) -> u32 {
    unsafe { lta_queue_post(queue.as_mut_ptr(), area, hour) }
}

pub fn queue_serve(queue: &mut [u8; QUEUE_BYTES]) -> Served {
    unsafe { lta_queue_serve(queue.as_mut_ptr()) }
}
