//! Wrong builds of S-3, and of S-13 with the smaller scratch.

use second_judge::files::Hour;
use second_judge::intuitive::{causes, Cause, Exchange, Graph};
use second_judge::limits::*;
use second_judge::{CarriedAnswer, IntuitiveHours, Papers, ScratchSize};

/// An entry over net positions and prices, or over a case and a proposal.
pub type Carry<T> = fn(ScratchSize, &[T], &[T], &[u8], &mut [i64]) -> CarriedAnswer;

/// The two entries of a build.
#[derive(Clone, Copy)]
pub struct Entries {
    pub intuitive: Carry<i64>,
    pub hour_intuitive: Carry<u8>,
}

macro_rules! entries {
    ($build:ident) => {
        Entries {
            intuitive: |size, net, prices, pairs, scratch| $build.intuitive(size, net, prices, pairs, scratch),
            hour_intuitive: |size, case, proposal, pairs, scratch| {
                $build.hour_intuitive(size, case, proposal, pairs, scratch)
            },
        }
    };
}

/// Every wrong build of S-3, with its name.
pub static BUILDS: [(Entries, &str); 15] = [
    (entries!(FirstPriceAbove), "counted: first price above"),
    (entries!(EqualPricesLeftOut), EQUAL_PRICES),
    (entries!(EveryPair), "every pair counted"),
    (entries!(PairsBothWays), "pairs carry both ways"),
    (entries!(NoWayBack), NO_WAY_BACK),
    (entries!(ImportsForANo), "all imports as a no's total"),
    (entries!(YesToAll), "sham: yes to every hour"),
    (entries!(NotTurned), "net positions not turned"),
    (entries!(ScratchNotCleared), "scratch not cleared"),
    (entries!(ScratchClearedPast), "scratch cleared past 324"),
    (entries!(SumBeforeRanges), "82: sum before the ranges"),
    (entries!(ZoneByZone), "82 and 83 zone by zone"),
    (entries!(PairTooMany), "65th pair let through"),
    (entries!(LoneByteDropped), "lone last byte dropped"),
    (entries!(GapAnswered), "26 answered as accepted"),
];

/// Those of S-13.
pub static SMALL_BUILDS: [(Entries, &str); 6] = [
    (entries!(NumberTooFew), "95 numbers let through"),
    (entries!(WideZeros), "the wide scratch's zeros written"),
    (entries!(WideRoom), "85 under 324 numbers"),
    (entries!(ImportUsedKept), "import used not given back"),
    (entries!(ScratchNotCleared), "scratch not cleared"),
    (entries!(ScratchClearedPast), "scratch cleared past 96"),
];

/// Two builds that classify an input: an equal price decides it, or a way back does.
pub const EQUAL_PRICES: &str = "equal prices not counted";
pub const NO_WAY_BACK: &str = "no flow back along a used pair";

pub struct FirstPriceAbove;
impl IntuitiveHours for FirstPriceAbove {
    fn counts(&self, first: i64, second: i64) -> bool {
        first > second
    }
}

pub struct EqualPricesLeftOut;
impl IntuitiveHours for EqualPricesLeftOut {
    fn counts(&self, first: i64, second: i64) -> bool {
        first < second
    }
}

pub struct EveryPair;
impl IntuitiveHours for EveryPair {
    fn counts(&self, _first: i64, _second: i64) -> bool {
        true
    }
}

pub struct PairsBothWays;
impl IntuitiveHours for PairsBothWays {
    fn graph(&self, given: &Exchange) -> Graph {
        let counted = Papers.graph(given);
        let mut graph = counted.clone();
        for (from, to) in (0..given.zones()).flat_map(|from| (0..given.zones()).map(move |to| (from, to))) {
            if counted.leads_to(from, to) {
                graph.leads[to] |= 1 << from;
            }
        }
        graph
    }
}

/// Exports go along counted pairs to the first import that has room, and are never sent elsewhere afterwards.
pub struct NoWayBack;
impl IntuitiveHours for NoWayBack {
    fn most_carried(&self, graph: &Graph) -> i128 {
        let mut open = graph.net.clone();
        let mut total = 0;
        for from in 0..graph.zones() {
            let reached = reached(graph, from);
            for to in (0..graph.zones()).filter(|to| reached >> to & 1 == 1) {
                if open[from] > 0 && open[to] < 0 {
                    let amount = open[from].min(-open[to]);
                    open[from] -= amount;
                    open[to] += amount;
                    total += amount;
                }
            }
        }
        total
    }
}

/// All zones that counted pairs lead to from this one, directly or not.
fn reached(graph: &Graph, from: usize) -> u32 {
    let mut reached = 1 << from;
    loop {
        let in_set = (0..graph.zones()).filter(|z| reached >> z & 1 == 1);
        let further = in_set.fold(reached, |all, z| all | graph.leads[z]);
        if further == reached {
            return reached;
        }
        reached = further;
    }
}

pub struct ImportsForANo;
impl IntuitiveHours for ImportsForANo {
    fn answer(&self, graph: &Graph) -> (bool, i128) {
        (self.most_carried(graph) == graph.exports(), graph.exports())
    }
}

pub struct YesToAll;
impl IntuitiveHours for YesToAll {
    fn answer(&self, graph: &Graph) -> (bool, i128) {
        (true, self.most_carried(graph))
    }
}

pub struct NotTurned;
impl IntuitiveHours for NotTurned {
    fn net_exports(&self, hour: &Hour) -> Vec<i64> {
        Papers.net_exports(hour).iter().map(|net| -net).collect()
    }
}

pub struct ScratchNotCleared;
impl IntuitiveHours for ScratchNotCleared {
    fn leave(&self, _given: &Exchange, _graph: &Graph, _scratch: &mut [i64]) {}
}

pub struct ScratchClearedPast;
impl IntuitiveHours for ScratchClearedPast {
    fn leave(&self, given: &Exchange, _graph: &Graph, scratch: &mut [i64]) {
        let cleared = (given.size.numbers() + 1).min(scratch.len());
        scratch[..cleared].fill(0);
    }
}

pub struct SumBeforeRanges;
impl IntuitiveHours for SumBeforeRanges {
    fn causes(&self) -> [(u32, Cause<Self>); 6] {
        let mut causes = causes::<Self>();
        causes.swap(1, 2);
        causes
    }
}

pub struct ZoneByZone;
impl IntuitiveHours for ZoneByZone {
    fn refusal(&self, given: &Exchange) -> Option<(u32, usize)> {
        let positions = self.position_is_outside(given);
        match (self.zones_are_wrong(given), positions, self.price_is_outside(given)) {
            (None, positions, Some(zone)) if positions.is_none_or(|position| zone < position) => Some((83, zone)),
            _ => Papers.refusal(given),
        }
    }
}

pub struct PairTooMany;
impl IntuitiveHours for PairTooMany {
    fn pair_is_wrong(&self, given: &Exchange) -> Option<usize> {
        (0..given.pair_count()).find(|&n| !self.pair_is_good(given, n) || n > MOST_PAIRS)
    }
}

pub struct LoneByteDropped;
impl IntuitiveHours for LoneByteDropped {
    fn pair_is_wrong(&self, given: &Exchange) -> Option<usize> {
        let pairs = &given.pairs[..given.pairs.len() / 2 * 2];
        Papers.pair_is_wrong(&Exchange { pairs, ..*given })
    }
}

pub struct GapAnswered;
impl IntuitiveHours for GapAnswered {
    fn is_answered(&self, number: u32) -> bool {
        number == 0 || number == 26
    }
}

// The smaller scratch.

pub struct NumberTooFew;
impl IntuitiveHours for NumberTooFew {
    fn scratch_is_short(&self, given: &Exchange) -> Option<usize> {
        (given.room + 1 < given.size.numbers()).then_some(0)
    }
    fn leave(&self, given: &Exchange, _graph: &Graph, scratch: &mut [i64]) {
        let cleared = given.size.numbers().min(scratch.len());
        scratch[..cleared].fill(0);
    }
}

pub struct WideZeros;
impl IntuitiveHours for WideZeros {
    fn leave(&self, _given: &Exchange, _graph: &Graph, scratch: &mut [i64]) {
        let cleared = SCRATCH.min(scratch.len());
        scratch[..cleared].fill(0);
    }
}

pub struct WideRoom;
impl IntuitiveHours for WideRoom {
    fn scratch_is_short(&self, given: &Exchange) -> Option<usize> {
        (given.room < SCRATCH).then_some(0)
    }
}

/// What each zone imports stays in the scratch.
pub struct ImportUsedKept;
impl IntuitiveHours for ImportUsedKept {
    fn leave(&self, given: &Exchange, graph: &Graph, scratch: &mut [i64]) {
        Papers.leave(given, graph, scratch);
        let flows = graph.flows();
        for zone in 0..graph.zones() {
            scratch[MOST_PAIRS + MOST_ZONES + zone] = (-graph.net_of(&flows, zone)).max(0) as i64;
        }
    }
}
