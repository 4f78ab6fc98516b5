//! The promises about the shortfalls of an accepted hour, checked with the library's own report and with both
//! totals computed here. No shortfall is negative, and their sum is at most 100,000 times the gap. What is left is
//! the larger total's lead, weighed by the two shares. At gap zero each is zero.

use second_judge::limits::ONE;

/// What a good stream of hours must contain, counted.
pub const MET: [&str; 20] = [
    "gap zero",
    "gap above zero",
    "no link, gap above zero",
    "largest: an order",
    "largest: a branch",
    "largest: a link",
    "gap, and no shortfall: the lead alone",
    "gap, and no lead, with links",
    "lead with hundred-thousandths",
    "link with hundred-thousandths",
    "flow against its spread",
    "order accepted at a loss",
    "order in the money, not filled",
    "negative margin falls short",
    "gap at the tolerance",
    "gap above 99 euros",
    "version 2, a link not all contracted",
    "nothing to write",
    "1,280 numbers",
    "sum above the gap in microcents",
];

/// What an hour answered 0 must keep, and what it counts for.
pub struct Answered {
    pub fault: Option<String>,
    pub met: [bool; MET.len()],
}

/// The numbers of two accepted files, read again independently.
pub struct Files<'a> {
    pub case: &'a [u8],
    pub proposal: &'a [u8],
    pub report: &'a [u8],
}

impl Files<'_> {
    pub fn word(file: &[u8], at: usize) -> i128 {
        u32::from_le_bytes(file[at..at + 4].try_into().expect("four bytes")).into()
    }

    pub fn signed(file: &[u8], at: usize) -> i128 {
        i32::from_le_bytes(file[at..at + 4].try_into().expect("four bytes")).into()
    }

    /// Zones, branches, links, orders.
    pub fn counts(&self) -> [usize; 4] {
        let orders = u16::from_le_bytes([self.case[8], self.case[9]]);
        let [zones, branches, links] = [5, 6, 7].map(|at| usize::from(self.case[at]));
        [zones, branches, links, orders.into()]
    }

    pub fn two(&self) -> bool {
        self.case[3] == 2
    }

    pub fn share(&self) -> i128 {
        Files::word(self.proposal, 5)
    }

    /// A total of the report, or from 5 on a zone price.
    pub fn reported(&self, n: usize) -> i128 {
        let at = 8 + 8 * n;
        i64::from_le_bytes(self.report[at..at + 8].try_into().expect("eight bytes")).into()
    }

    pub fn price(&self, zone: u8) -> i128 {
        self.reported(5 + usize::from(zone))
    }

    /// Margin and shadow price.
    pub fn branch(&self, b: usize) -> (i128, i128) {
        let [zones, _, links, orders] = self.counts();
        (Files::signed(self.case, 14 + b * (4 + 4 * zones)), Files::word(self.proposal, 13 + 4 * (orders + links + b)))
    }

    pub fn link_at(&self, l: usize) -> usize {
        let [zones, branches, _, _] = self.counts();
        14 + branches * (4 + 4 * zones) + l * if self.two() { 10 } else { 6 }
    }

    /// Capacity, contracted, flow and spread.
    pub fn link(&self, l: usize) -> [i128; 4] {
        let (at, orders) = (self.link_at(l), self.counts()[3]);
        let contracted = at + if self.two() { 6 } else { 2 };
        [
            Files::word(self.case, at + 2),
            Files::word(self.case, contracted),
            Files::word(self.proposal, 13 + 4 * (orders + l)),
            self.price(self.case[at + 1]) - self.price(self.case[at]),
        ]
    }

    /// What a tenth of the order gains at its zone's price, its quantity and its volume.
    pub fn order(&self, o: usize) -> [i128; 3] {
        let at = self.link_at(self.counts()[2]) + 10 * o;
        let above = ONE * Files::signed(self.case, at + 6) - self.price(self.case[at]);
        [
            if self.case[at + 1] == 0 { above } else { -above },
            Files::word(self.case, at + 2),
            Files::word(self.proposal, 13 + 4 * o),
        ]
    }

    /// All promises about an answer with these numbers.
    pub fn held(&self, out: &[i64]) -> Answered {
        let [_, branches, links, orders] = self.counts();
        let amounts: Vec<i128> =
            out.chunks_exact(2).map(|pair| ONE * i128::from(pair[0]) + i128::from(pair[1])).collect();
        let gap = ONE * self.reported(2);
        let tolerance = ONE * 1_000_000 * Files::word(self.case, 10);
        let sum: i128 = amounts.iter().sum();
        let share = self.share();
        let branch_total: i128 =
            (0..branches).map(|b| self.branch(b)).map(|(margin, shadow)| ONE * margin * shadow).sum();
        let link_total: i128 =
            (0..links).map(|l| self.link(l)).map(|[capacity, _, _, spread]| capacity * spread.max(0)).sum();
        let larger = match links {
            0 => branch_total,
            _ => branch_total.max(link_total),
        };
        let lead = (ONE - share) * (larger - branch_total) + share * (larger - link_total);
        let lead = if links == 0 { 0 } else { lead };
        let (of_orders, others) = amounts.split_at(orders);
        let (of_branches, of_links) = others.split_at(branches);

        let mut fault = None;
        let mut promise = |held: bool, words: &dyn Fn() -> String| {
            if !held && fault.is_none() {
                fault = Some(words());
            }
        };
        for (n, pair) in out.chunks_exact(2).enumerate() {
            promise(pair[0] >= 0, &|| format!("shortfall {n} is {}", pair[0]));
            promise((0..100_000).contains(&pair[1]), &|| format!("shortfall {n} has {} hundred-thousandths", pair[1]));
            promise(n >= orders + branches || pair[1] == 0, &|| {
                format!("an order or branch, {n}, has a part of a microcent")
            });
        }
        promise(sum <= gap, &|| format!("sum {sum} above the gap {gap}"));
        promise(gap - sum == lead, &|| format!("{} is left, and the lead is {lead}", gap - sum));
        promise(gap != 0 || amounts.iter().all(|&amount| amount == 0), &|| {
            "gap zero, and something falls short".into()
        });

        let most = |list: &[i128]| list.iter().copied().max().unwrap_or(0);
        let largest = most(&amounts);
        let kind = |list: &[i128]| largest > 0 && most(list) == largest;
        let short = |n: usize| amounts[n] > 0;
        let met = [
            gap == 0,
            gap > 0,
            gap > 0 && links == 0,
            kind(of_orders),
            kind(of_branches),
            kind(of_links),
            gap > 0 && sum == 0,
            gap > 0 && lead == 0 && links > 0,
            lead % ONE != 0,
            of_links.iter().any(|amount| amount % ONE != 0),
            (0..links).any(|l| {
                let [_, _, flow, spread] = self.link(l);
                flow > 0 && spread < 0
            }),
            (0..orders).any(|o| {
                let [gain, _, volume] = self.order(o);
                gain < 0 && volume > 0
            }),
            (0..orders).any(|o| {
                let [gain, quantity, volume] = self.order(o);
                gain > 0 && volume < quantity
            }),
            (0..branches).any(|b| self.branch(b).0 < 0 && short(orders + b)),
            gap > 0 && gap == tolerance,
            gap > ONE * 9_900_000_000,
            self.two() && (0..links).any(|l| self.link(l)[1] < self.link(l)[0]),
            out.is_empty(),
            out.len() == 1_280,
            // The claim without the factor 100,000.
            sum > gap / ONE,
        ];
        Answered { fault, met }
    }
}
