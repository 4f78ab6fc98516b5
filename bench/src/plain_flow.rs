//! S-3's question as plain Rust would answer it, for the benchmark, with every cause: Edmonds and Karp's shortest
//! augmenting paths, and Dinic's layers, over a matrix of the residual capacities.

use second_judge::CarriedAnswer;

const MOST_ZONES: usize = 16;
const NODES: usize = MOST_ZONES + 2;
const MOST_PAIRS: usize = 64;
const MOST_EXPORT: i64 = 51_200_000;
const SCRATCH: usize = 324;
const LOWEST: i64 = -50_000 * 100_000;
const HIGHEST: i64 = 400_000 * 100_000;
/// More than any flow.
const UNLIMITED: i64 = 1 << 40;

type Left = [[i64; NODES]; NODES];

/// Source and sink come after the zones.
struct Network {
    left: Left,
    zones: usize,
}

impl Network {
    fn source(&self) -> usize {
        self.zones
    }

    fn sink(&self) -> usize {
        self.zones + 1
    }

    fn nodes(&self) -> usize {
        self.zones + 2
    }
}

/// The most that can be carried, and how many paths it took.
type MaxFlow = fn(&mut Network) -> (i64, usize);

fn answer(
    net: &[i64],
    prices: &[i64],
    pairs: &[u8],
    scratch: &mut [i64],
    max_flow: MaxFlow,
) -> Result<(CarriedAnswer, usize), (u32, usize)> {
    let zones = net.len();
    if zones == 0 || zones > MOST_ZONES || prices.len() != zones {
        return Err((81, 0));
    }
    if let Some(z) = net.iter().position(|one| !(-MOST_EXPORT..=MOST_EXPORT).contains(one)) {
        return Err((82, z));
    }
    if net.iter().sum::<i64>() != 0 {
        return Err((82, 0));
    }
    if let Some(z) = prices.iter().position(|price| !(LOWEST..=HIGHEST).contains(price)) {
        return Err((83, z));
    }
    let mut network = Network { left: [[0; NODES]; NODES], zones };
    let mut seen = [0u16; MOST_ZONES];
    for (n, pair) in pairs.chunks(2).enumerate() {
        let &[from, to] = pair else {
            return Err((84, n));
        };
        let (from, to) = (usize::from(from), usize::from(to));
        if from >= zones || to >= zones || from == to || n >= MOST_PAIRS || seen[from] >> to & 1 == 1 {
            return Err((84, n));
        }
        seen[from] |= 1 << to;
        if prices[from] <= prices[to] {
            network.left[from][to] = UNLIMITED;
        }
    }
    if scratch.len() < SCRATCH {
        return Err((85, 0));
    }
    let (source, sink) = (network.source(), network.sink());
    let mut exports = 0;
    for (z, &position) in net.iter().enumerate() {
        if position > 0 {
            network.left[source][z] = position;
            exports += position;
        } else {
            network.left[z][sink] = -position;
        }
    }
    let (total, paths) = max_flow(&mut network);
    scratch[..SCRATCH].fill(0);
    let answer = CarriedAnswer { number: 0, index: 0, intuitive: (total == exports).into(), total };
    Ok((answer, paths))
}

fn edmonds_karp(network: &mut Network) -> (i64, usize) {
    let (source, sink, nodes) = (network.source(), network.sink(), network.nodes());
    let left = &mut network.left;
    let (mut total, mut paths) = (0, 0);
    loop {
        let mut before = [usize::MAX; NODES];
        before[source] = source;
        let (mut queue, mut head, mut tail) = ([0; NODES], 0, 1);
        queue[0] = source;
        while head < tail && before[sink] == usize::MAX {
            let node = queue[head];
            head += 1;
            for next in 0..nodes {
                if before[next] == usize::MAX && left[node][next] > 0 {
                    before[next] = node;
                    queue[tail] = next;
                    tail += 1;
                }
            }
        }
        if before[sink] == usize::MAX {
            return (total, paths);
        }
        let mut amount = i64::MAX;
        let mut node = sink;
        while node != source {
            amount = amount.min(left[before[node]][node]);
            node = before[node];
        }
        node = sink;
        while node != source {
            left[before[node]][node] -= amount;
            left[node][before[node]] += amount;
            node = before[node];
        }
        total += amount;
        paths += 1;
    }
}

fn dinic(network: &mut Network) -> (i64, usize) {
    let (source, sink, nodes) = (network.source(), network.sink(), network.nodes());
    let (mut total, mut paths) = (0, 0);
    loop {
        let mut layer = [usize::MAX; NODES];
        layer[source] = 0;
        let (mut queue, mut head, mut tail) = ([0; NODES], 0, 1);
        queue[0] = source;
        while head < tail {
            let node = queue[head];
            head += 1;
            for next in 0..nodes {
                if layer[next] == usize::MAX && network.left[node][next] > 0 {
                    layer[next] = layer[node] + 1;
                    queue[tail] = next;
                    tail += 1;
                }
            }
        }
        if layer[sink] == usize::MAX {
            return (total, paths);
        }
        let mut first = [0; NODES];
        loop {
            let amount = push(network, &layer, &mut first, source, i64::MAX);
            if amount == 0 {
                break;
            }
            total += amount;
            paths += 1;
        }
    }
}

fn push(network: &mut Network, layer: &[usize; NODES], first: &mut [usize; NODES], node: usize, most: i64) -> i64 {
    if node == network.sink() {
        return most;
    }
    while first[node] < network.nodes() {
        let next = first[node];
        let open = network.left[node][next];
        if open > 0 && layer[next] == layer[node] + 1 {
            let amount = push(network, layer, first, next, most.min(open));
            if amount > 0 {
                network.left[node][next] -= amount;
                network.left[next][node] += amount;
                return amount;
            }
        }
        first[node] += 1;
    }
    0
}

fn answered(answer: Result<(CarriedAnswer, usize), (u32, usize)>) -> (CarriedAnswer, usize) {
    answer.unwrap_or_else(|(number, index)| {
        let refusal = CarriedAnswer { number, index: index as u32, intuitive: 0, total: 0 };
        (refusal, 0)
    })
}

/// By Edmonds and Karp; also gives the number of paths.
pub fn by_edmonds_karp(net: &[i64], prices: &[i64], pairs: &[u8], scratch: &mut [i64]) -> (CarriedAnswer, usize) {
    answered(answer(net, prices, pairs, scratch, edmonds_karp))
}

/// By Dinic.
pub fn by_dinic(net: &[i64], prices: &[i64], pairs: &[u8], scratch: &mut [i64]) -> (CarriedAnswer, usize) {
    answered(answer(net, prices, pairs, scratch, dinic))
}
