//! Hours as values, their bytes, and the hours that the paper names with their outcomes.

use second_judge::limits::{BUYS, SELLS};
use second_judge::Row;

#[derive(Clone, Debug)]
pub struct Branch {
    pub ram: i32,
    pub ptdfs: Vec<i32>,
}

#[derive(Clone, Debug)]
pub struct Link {
    pub from: u8,
    pub to: u8,
    pub capacity: u32,
    /// Written in version 2 only.
    pub contracted: u32,
}

/// S-4: a case of version 2 has a contracted volume in each link.
#[derive(Clone, Copy, Debug, Default, PartialEq, Eq)]
pub enum Version {
    #[default]
    One = 1,
    Two = 2,
}

/// A case and a proposal for it.
#[derive(Clone, Debug, Default)]
pub struct Hour {
    pub version: Version,
    pub zones: u8,
    pub tolerance: u32,
    pub branches: Vec<Branch>,
    pub links: Vec<Link>,
    pub orders: Vec<Row>,
    pub share: u32,
    pub system_price: i32,
    pub volumes: Vec<u32>,
    pub flows: Vec<u32>,
    pub shadow_prices: Vec<u32>,
}

impl Hour {
    pub fn link_bytes(&self) -> usize {
        match self.version {
            Version::One => 6,
            Version::Two => 10,
        }
    }

    pub fn case(&self) -> Vec<u8> {
        let mut out = Vec::with_capacity(
            14 + self.branches.len() * (4 + 4 * usize::from(self.zones))
                + self.link_bytes() * self.links.len()
                + 10 * self.orders.len(),
        );
        out.extend(b"LTC");
        out.extend((self.version as u16).to_le_bytes());
        out.extend([self.zones, self.branches.len() as u8, self.links.len() as u8]);
        out.extend((self.orders.len() as u16).to_le_bytes());
        out.extend(self.tolerance.to_le_bytes());
        for branch in &self.branches {
            out.extend(branch.ram.to_le_bytes());
            branch.ptdfs.iter().for_each(|ptdf| out.extend(ptdf.to_le_bytes()));
        }
        for link in &self.links {
            out.extend([link.from, link.to]);
            out.extend(link.capacity.to_le_bytes());
            if self.version == Version::Two {
                out.extend(link.contracted.to_le_bytes());
            }
        }
        for order in &self.orders {
            out.extend([order.zone, order.side]);
            out.extend(order.quantity.to_le_bytes());
            out.extend(order.price.to_le_bytes());
        }
        out
    }

    pub fn proposal(&self) -> Vec<u8> {
        let numbers = [&self.volumes, &self.flows, &self.shadow_prices];
        let mut out = Vec::with_capacity(13 + 4 * numbers.iter().map(|n| n.len()).sum::<usize>());
        out.extend(b"LTP");
        out.extend(1u16.to_le_bytes());
        out.extend(self.share.to_le_bytes());
        out.extend(self.system_price.to_le_bytes());
        for number in numbers.into_iter().flatten() {
            out.extend(number.to_le_bytes());
        }
        out
    }
}

/// The three-zone hour, P1.
pub fn three_zone_hour() -> Hour {
    let order = |zone, side, quantity, price| Row { zone, side, quantity, price };
    Hour {
        version: Version::One,
        zones: 3,
        tolerance: 0,
        branches: vec![
            Branch { ram: 2_500, ptdfs: vec![0, 75_000, 50_000] },
            Branch { ram: 15_000, ptdfs: vec![-100_000, 0, 0] },
        ],
        links: vec![Link { from: 0, to: 1, capacity: 4_000, contracted: 4_000 }],
        orders: vec![
            order(0, SELLS, 4_000, 1_000),
            order(0, SELLS, 6_000, 2_000),
            order(1, BUYS, 1_000, 7_000),
            order(1, BUYS, 9_000, 6_000),
            order(2, BUYS, 10_000, 5_000),
        ],
        share: 87_500,
        system_price: 2_250,
        volumes: vec![4_000, 1_375, 1_000, 0, 4_375],
        flows: vec![3_500],
        shadow_prices: vec![5_500, 250],
    }
}

/// Microcents.
pub const EURO: i64 = 100_000_000;

/// Totals the paper names, in microcents.
#[derive(Clone, Copy, Debug, Default)]
pub struct Totals {
    pub welfare: Option<i64>,
    pub bound: Option<i64>,
    pub gap: Option<i64>,
    pub rent: Option<i64>,
    pub owed: Option<i64>,
}

impl Totals {
    /// In the order of the report.
    pub fn in_order(&self) -> [Option<i64>; 5] {
        [self.welfare, self.bound, self.gap, self.rent, self.owed]
    }
}

/// An hour that the paper names, with what the paper says of it.
pub struct Stored {
    pub name: &'static str,
    pub case: Vec<u8>,
    pub proposal: Vec<u8>,
    pub number: u32,
    pub index: u32,
    pub totals: Totals,
    /// Zone prices in grains, where the paper names them.
    pub prices: Vec<i64>,
}

/// S-4: the three-zone hour with 2,500 of its link's 4,000 contracted.
pub fn contracted_hour() -> Hour {
    let mut hour = three_zone_hour();
    hour.version = Version::Two;
    hour.links[0].contracted = 2_500;
    hour
}

/// S-6: no link, and a margin of -1,000 tenths that makes the second zone import as much: what A sells at 50 euros
/// B buys at 40. The branch earns -1,000 euros.
pub fn forced_hour() -> Hour {
    let order = |zone, side, price| Row { zone, side, quantity: 1_000, price };
    Hour {
        zones: 2,
        branches: vec![Branch { ram: -1_000, ptdfs: vec![0, -100_000] }],
        orders: vec![order(0, SELLS, 5_000), order(1, BUYS, 4_000)],
        system_price: 5_000,
        volumes: vec![1_000, 1_000],
        shadow_prices: vec![1_000],
        ..Hour::default()
    }
}

/// P1 to P12, the hours that are run only, and those of the requests.
pub fn stored() -> Vec<Stored> {
    let mut list = Vec::new();
    let mut bytes = |name, case, proposal, number, index| {
        let (totals, prices) = (Totals::default(), Vec::new());
        list.push(Stored { name, case, proposal, number, index, totals, prices });
    };
    let mut hour = |name, number, index, hour: &Hour| {
        bytes(name, hour.case(), hour.proposal(), number, index);
    };

    let p1 = three_zone_hour();
    hour("P1", 0, 0, &p1);

    let p2 = Hour {
        links: vec![],
        share: 0,
        system_price: 2_000,
        volumes: vec![4_000, 500, 1_000, 0, 3_500],
        flows: vec![],
        shadow_prices: vec![6_000, 0],
        ..p1.clone()
    };
    hour("P2", 0, 0, &p2);

    let p3 = Hour { links: p1.links.clone(), flows: vec![0], ..p2.clone() };
    hour("P3", 26, 0, &p3);
    hour("P3, tolerance 299,999", 15, 0, &Hour { tolerance: 299_999, ..p3.clone() });
    hour("P4", 15, 0, &Hour { tolerance: 300_000, ..p3.clone() });

    hour("P5", 21, 1, &Hour { volumes: vec![4_000, 6_001, 1_000, 0, 4_375], ..p1.clone() });
    hour("P6", 22, 0, &Hour { volumes: vec![4_000, 1_375, 1_000, 0, 4_376], ..p1.clone() });
    hour("P7", 23, 0, &Hour { flows: vec![3_501], ..p1.clone() });
    hour("P8", 23, 0, &Hour { share: 87_499, ..p1.clone() });
    hour("P9", 24, 0, &Hour { share: 87_501, ..p1.clone() });

    let p10 = Hour { zones: 1, system_price: 400_000, ..Hour::default() };
    hour("P10", 0, 0, &p10);
    hour("P11", 25, 0, &Hour { system_price: 400_001, ..p10 });

    let p12 = Hour {
        zones: 1,
        branches: vec![Branch { ram: -1, ptdfs: vec![0] }],
        share: 100_000,
        shadow_prices: vec![1_000_000],
        ..Hour::default()
    };
    hour("P12", 27, 0, &p12);
    hour("P12, share 0", 24, 0, &Hour { share: 0, ..p12 });

    hour("shadow price 1,000,001", 14, 37, &Hour { shadow_prices: vec![1_000_001, 250], ..p1.clone() });
    hour("P1, 2,500 of 4,000 contracted", 0, 0, &contracted_hour());
    let mut all = contracted_hour();
    all.links[0].contracted = 4_000;
    hour("P1, all contracted", 0, 0, &all);
    all.links[0].contracted = 4_001;
    hour("P1, 4,001 of 4,000 contracted", 7, 52, &all);
    let forced = forced_hour();
    hour("no link, negative branch total", 0, 0, &forced);
    hour("no link, a share of 1", 27, 0, &Hour { share: 1, ..forced.clone() });
    hour("no link, a share, out of balance", 22, 0, &Hour { share: 1, volumes: vec![1_000, 999], ..forced });
    bytes("empty input", vec![], vec![], 1, 0);
    let mut long = p1.proposal();
    long.push(0);
    bytes("proposal one byte too long", p1.case(), long, 12, 0);
    let mut short = p1.proposal();
    short.pop();
    bytes("proposal one byte too short", p1.case(), short, 12, 0);

    for stored in &mut list {
        match stored.name {
            "P1" | "P1, all contracted" | "P1, 2,500 of 4,000 contracted" => {
                // 2,500 tenths at a spread of 43.75 euros.
                let owed = match stored.name {
                    "P1, 2,500 of 4,000 contracted" => 10_937 * EURO + EURO / 2,
                    _ => 17_500 * EURO,
                };
                stored.totals = Totals {
                    welfare: Some(22_125 * EURO),
                    bound: Some(22_125 * EURO),
                    gap: Some(0),
                    rent: Some(17_500 * EURO),
                    owed: Some(owed),
                };
                stored.prices = vec![200_000_000, 637_500_000, 500_000_000];
            }
            "P2" => {
                stored.totals.welfare = Some(19_500 * EURO);
                stored.totals.rent = Some(15_000 * EURO);
                stored.totals.owed = Some(0);
            }
            "no link, negative branch total" => {
                stored.totals = Totals {
                    welfare: Some(-1_000 * EURO),
                    bound: Some(-1_000 * EURO),
                    gap: Some(0),
                    rent: Some(-1_000 * EURO),
                    owed: Some(0),
                };
                stored.prices = vec![500_000_000, 400_000_000];
            }
            "P3" => {
                stored.totals.gap = Some(3_000 * EURO);
                stored.totals.owed = Some(18_000 * EURO);
            }
            _ => {}
        }
    }
    list
}
