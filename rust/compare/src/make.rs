// Making cases from seeds.
use crate::case::{Ask, Batch, Case, Edit, Entry};
use reckon::rules::{self, Tree, Usable, NODES, NONE, UNREACHED};
use std::collections::HashSet;

// Splitmix: the same numbers from the same seed, everywhere.
pub struct Dice(u64);

impl Dice {
    pub fn new(seed: u64) -> Dice {
        Dice(seed)
    }
    pub fn next(&mut self) -> u64 {
        self.0 = self.0.wrapping_add(0x9E37_79B9_7F4A_7C15);
        let mut z = self.0;
        z = (z ^ (z >> 30)).wrapping_mul(0xBF58_476D_1CE4_E5B9);
        z = (z ^ (z >> 27)).wrapping_mul(0x94D0_49BB_1331_11EB);
        z ^ (z >> 31)
    }
    // Below n, which isn't 0.
    pub fn below(&mut self, n: usize) -> usize {
        (self.next() % n as u64) as usize
    }
    // From least to most, both included.
    pub fn from(&mut self, least: usize, most: usize) -> usize {
        least + self.below(most - least + 1)
    }
    pub fn one_in(&mut self, n: usize) -> bool {
        self.below(n) == 0
    }
    pub fn pick<T: Copy>(&mut self, of: &[T]) -> T {
        of[self.below(of.len())]
    }
}

// How costs are drawn: many ties, the ends of the range, anything, many down, all alike.
#[derive(Clone, Copy)]
pub struct Prices(usize);

impl Prices {
    pub fn any(dice: &mut Dice) -> Prices {
        Prices(dice.below(7))
    }
    pub fn draw(self, dice: &mut Dice) -> u16 {
        match self.0 {
            0 => dice.from(1, 3) as u16,
            1 => dice.pick(&[0, 1, 65_534, 65_535]),
            2 => dice.from(1, 65_535) as u16,
            3 => dice.from(0, 5).saturating_sub(1) as u16,
            4 => dice.pick(&[1, 1, 1, 2, 0]),
            5 => dice.pick(&[65_535, 65_535, 65_534, 0]),
            _ => dice.from(1, 20) as u16,
        }
    }
}

// A network's node count, and the start and end of each link, in any order.
struct Pairs {
    nodes: usize,
    all: Vec<(usize, usize)>,
}

impl Pairs {
    fn of(nodes: usize) -> Pairs {
        Pairs { nodes, all: Vec::new() }
    }

    fn one(&mut self, a: usize, b: usize) {
        self.all.push((a, b));
    }

    fn both(&mut self, a: usize, b: usize) {
        self.one(a, b);
        self.one(b, a);
    }

    // So many links between any nodes.
    fn any(mut self, count: usize, dice: &mut Dice) -> Pairs {
        for _ in 0..count {
            self.one(dice.below(self.nodes), dice.below(self.nodes));
        }
        self
    }

    // Gives its link back to each link that has none, or to one in so many.
    fn backed(&mut self, one_in: usize, dice: &mut Dice) {
        let there: HashSet<(usize, usize)> = self.all.iter().copied().collect();
        let lacking = |pair: &(usize, usize)| !there.contains(&(pair.1, pair.0));
        let lacking: Vec<(usize, usize)> = self.all.iter().copied().filter(lacking).collect();
        lacking.into_iter().filter(|_| dice.one_in(one_in)).for_each(|(a, b)| self.one(b, a));
    }

    // How many of the links are one-way: in half of the networks none, in the others some, on purpose. At times links stand
    // several times, so that any of several is a link back.
    fn one_way_or_both(mut self, dice: &mut Dice) -> Pairs {
        match dice.below(8) {
            0..=3 => self.backed(1, dice),
            4 => self.backed(2, dice),
            5 => {
                self.backed(1, dice);
                self.all.retain(|_| !dice.one_in(5));
            }
            6 => {
                self.backed(1, dice);
                let again: Vec<(usize, usize)> = self.all.iter().copied().filter(|_| dice.one_in(3)).collect();
                self.all.extend(again);
            }
            _ => {}
        }
        self
    }
}

pub const SHAPES: [&str; 8] = ["small", "grid", "chain", "star", "dense", "parallel", "ring", "large"];

fn pairs(shape: usize, dice: &mut Dice) -> Pairs {
    match SHAPES[shape] {
        "small" => {
            let n = dice.from(1, 8);
            let count = if n > 1 { dice.below(3 * n) } else { 0 };
            Pairs::of(n).any(count, dice)
        }
        "grid" => grid(dice.from(1, 16), dice.from(1, 16)),
        "chain" => chain(dice),
        "star" => {
            let mut pairs = Pairs::of(dice.from(2, NODES));
            (1..pairs.nodes).for_each(|v| pairs.both(0, v));
            pairs
        }
        "dense" => {
            let mut pairs = Pairs::of(dice.from(2, 60));
            let n = pairs.nodes;
            (0..n * n).for_each(|v| pairs.one(v / n, v % n));
            pairs
        }
        "parallel" => {
            let n = dice.from(2, 5);
            Pairs::of(n).any(dice.from(1, 60), dice)
        }
        "ring" => ring(dice),
        _ => {
            let n = dice.from(100, NODES);
            let most = dice.pick(&[2_048, 4_096]);
            Pairs::of(n).any(dice.from(n, most), dice)
        }
    }
}

fn grid(wide: usize, high: usize) -> Pairs {
    let mut pairs = Pairs::of(wide * high);
    for v in 0..wide * high {
        if v % wide + 1 < wide {
            pairs.both(v, v + 1);
        }
        if v + wide < wide * high {
            pairs.both(v, v + wide);
        }
    }
    pairs
}

fn chain(dice: &mut Dice) -> Pairs {
    let mut pairs = Pairs::of(if dice.one_in(3) { NODES } else { dice.from(2, NODES) });
    let way = dice.below(3);
    for v in 1..pairs.nodes {
        match way {
            0 => pairs.one(v - 1, v),
            1 => pairs.one(v, v - 1),
            _ => pairs.both(v - 1, v),
        }
    }
    pairs
}

fn ring(dice: &mut Dice) -> Pairs {
    let mut pairs = Pairs::of(dice.from(3, 60));
    for v in 0..pairs.nodes {
        pairs.both(v, (v + 1) % pairs.nodes);
        if dice.one_in(6) {
            pairs.one(v, dice.below(pairs.nodes));
        }
    }
    pairs
}

// A network of a shape, with no edits, batches or asks yet. Nodes are renamed at random, so that the root and the order
// of links may be anything. In one network of three some links are down, whatever the prices: links, links back, and some
// of several links back.
pub fn network(dice: &mut Dice, shape: usize, prices: Prices) -> Case {
    let Pairs { nodes, all: mut pairs } = pairs(shape, dice).one_way_or_both(dice);
    let mut names: Vec<usize> = (0..nodes).collect();
    if dice.one_in(2) {
        shuffle(dice, &mut names);
    }
    pairs.retain(|(a, b)| a != b);
    shuffle(dice, &mut pairs);
    pairs.truncate(4_096);
    let mut pairs: Vec<(usize, usize)> = pairs.into_iter().map(|(a, b)| (names[a], names[b])).collect();
    pairs.sort_by_key(|pair| pair.0);
    let some_down = dice.one_in(3);
    Case {
        nodes,
        root: dice.below(nodes),
        starts: pairs.iter().map(|pair| pair.0 as u16).collect(),
        ends: pairs.iter().map(|pair| pair.1 as u16).collect(),
        costs: pairs.iter().map(|_| if some_down && dice.one_in(6) { 0 } else { prices.draw(dice) }).collect(),
        ..Case::default()
    }
}

pub fn shuffle<T>(dice: &mut Dice, list: &mut [T]) {
    for i in (1..list.len()).rev() {
        list.swap(i, dice.below(i + 1));
    }
}

// Puts links back of the first link given before it: all of them, or one, or one in its place.
pub fn with_links_back(dice: &mut Dice, case: &Case, links: &mut Vec<u16>) {
    let Some(first) = links.first().map(|link| *link as usize) else { return };
    let leads_back =
        |k: &u16| case.starts[*k as usize] == case.ends[first] && case.ends[*k as usize] == case.starts[first];
    let mut back: Vec<u16> = (0..case.starts.len() as u16).filter(leads_back).collect();
    shuffle(dice, &mut back);
    match dice.below(3) {
        0 => back.truncate(1),
        1 if !back.is_empty() => {
            back.truncate(1);
            links.remove(0);
        }
        _ => {}
    }
    links.retain(|link| !back.contains(link));
    links.splice(0..0, back);
}

// A batch of different links: often one row, at times none or as many as there may be. Every other batch starts with
// favoured links. Every other has rows for the links back of one.
fn batch(dice: &mut Dice, case: &Case, prices: Prices, favoured: &[u16]) -> Batch {
    let links = case.starts.len();
    let most = links.min(256);
    let rows = match dice.below(10) {
        0 => 0,
        1..=4 => 1,
        5..=7 => dice.from(1, 5),
        8 => dice.from(0, most),
        _ => dice.from(most / 2, most),
    };
    let mut all: Vec<u16> = (0..links as u16).collect();
    shuffle(dice, &mut all);
    if dice.one_in(2) {
        all.sort_by_key(|link| !favoured.contains(link));
    }
    all.truncate(rows);
    if dice.one_in(2) {
        with_links_back(dice, case, &mut all);
        all.truncate(most);
    }
    let costs = all
        .iter()
        .map(|link| match dice.below(8) {
            0 => case.costs[*link as usize],
            1 => case.costs[*link as usize].saturating_add(1),
            2 => case.costs[*link as usize].saturating_sub(1),
            3 => 0,
            _ => prices.draw(dice),
        })
        .collect();
    Batch { links: all, costs, list: dice.pick(&[case.nodes, case.nodes, 256, 300]) }
}

pub fn ask(dice: &mut Dice, case: &Case) -> Ask {
    Ask { node: dice.below(case.nodes), list: dice.pick(&[256, 256, 300, case.nodes, case.nodes - 1, 1, 0]) }
}

// A run of batches from a fresh build, and paths at its end.
pub fn run(seed: u64, shape: usize, batches: usize, asks: usize) -> Case {
    let mut dice = Dice::new(seed);
    let prices = Prices::any(&mut dice);
    let mut case = network(&mut dice, shape, prices);
    let fresh = rules::build(&case.table()).1;
    let favoured: Vec<u16> = fresh.parent.into_iter().filter(|link| *link != NONE).collect();
    for _ in 0..batches {
        let batch = batch(&mut dice, &case, prices, &favoured);
        case.batches.push(batch);
    }
    for _ in 0..asks {
        let ask = ask(&mut dice, &case);
        case.asks.push(ask);
    }
    case
}

// The same from another tree that fits: each node takes any of its tight links.
pub fn from_another(seed: u64, shape: usize, batches: usize) -> Case {
    let mut case = run(seed, shape, batches, 3);
    let mut dice = Dice::new(!seed);
    let t = case.table();
    let (usable, fresh) = (Usable::of(&t), rules::build(&t).1);
    let mut tree = fresh.clone();
    for k in 0..t.starts.len() {
        let end = t.ends[k] as usize;
        if end != t.root && usable.tight(&fresh.dist, k) && dice.one_in(2) {
            tree.parent[end] = k as u16;
        }
    }
    for node in (0..t.nodes).filter(|v| tree.parent[*v] != NONE) {
        let mut link = tree.parent[node];
        while t.starts[link as usize] as usize != t.root {
            link = tree.parent[t.starts[link as usize] as usize];
        }
        tree.first[node] = link;
    }
    case.edits = (0..t.nodes).flat_map(|v| row_edits(&tree, v)).collect();
    case
}

fn row_edits(tree: &Tree, node: usize) -> [Edit; 3] {
    [
        Edit { node, entry: Entry::Dist, value: tree.dist[node] },
        Edit { node, entry: Entry::Parent, value: tree.parent[node] as u32 },
        Edit { node, entry: Entry::First, value: tree.first[node] as u32 },
    ]
}

// What one entry may be damaged to: its neighbours, the ends of its width, the mark and its neighbours, and what makes a
// 32-bit sum over a link wrap to a distance that stands in the tree.
pub fn damages(dice: &mut Dice, case: &Case, tree: &Tree, node: usize, entry: Entry) -> Vec<u32> {
    let links = case.starts.len();
    if entry != Entry::Dist {
        let now = if entry == Entry::Parent { tree.parent[node] } else { tree.first[node] };
        let some = dice.below(links.max(1)) as u16;
        return [now.wrapping_add(1), now.wrapping_sub(1), 0, some, links as u16, NONE].map(u32::from).to_vec();
    }
    let now = tree.dist[node];
    let mut values =
        vec![now.wrapping_add(1), now.wrapping_sub(1), 0, UNREACHED, UNREACHED - 1, UNREACHED + 1, u32::MAX, 1 << 31];
    if links > 0 {
        let link = dice.below(links);
        values.push(tree.dist[case.ends[link] as usize].wrapping_sub(case.costs[link] as u32));
        values.push(tree.dist[case.starts[link] as usize].wrapping_add(case.costs[link] as u32));
    }
    values
}

// A few entries damaged, at times those that hang together over a link.
pub fn damaged(seed: u64, shape: usize) -> Case {
    let mut case = run(seed, shape, 1, 1);
    let mut dice = Dice::new(!seed);
    let (_, tree) = rules::build(&case.table());
    let links = case.starts.len();
    for _ in 0..dice.from(1, 4) {
        let node = if dice.one_in(8) { dice.below(NODES) } else { dice.below(case.nodes) };
        let entry = dice.pick(&[Entry::Dist, Entry::Dist, Entry::Parent, Entry::First]);
        let values = damages(&mut dice, &case, &tree, node, entry);
        let value = dice.pick(&values);
        case.edits.push(Edit { node, entry, value });
        if links > 0 && dice.one_in(2) {
            // A forged pair that is tight in 32 bits.
            let link = dice.below(links);
            let (start, end) = (case.starts[link] as usize, case.ends[link] as usize);
            let from = dice.pick(&[u32::MAX, u32::MAX - 1, UNREACHED - 1, UNREACHED, UNREACHED + 1, tree.dist[start]]);
            case.edits.push(Edit { node: start, entry: Entry::Dist, value: from });
            let sum = from.wrapping_add(case.costs[link] as u32);
            case.edits.push(Edit { node: end, entry: Entry::Dist, value: sum });
            case.edits.push(Edit { node: end, entry: Entry::Parent, value: link as u32 });
        }
    }
    case
}

// A case with faults of several kinds at once, so that the order of the numbers is tried too.
pub fn malformed(seed: u64) -> Case {
    let mut dice = Dice::new(!seed);
    let shape = dice.pick(&[0, 0, 0, 3, 5, 6]);
    let mut case = run(seed, shape, 1, 1);
    case.asks[0].list = 256;
    for _ in 0..dice.from(1, 3) {
        match dice.below(20) {
            fault @ 0..=7 => wrong_columns(&mut dice, &mut case, fault),
            fault @ 8..=12 => wrong_links(&mut dice, &mut case, fault),
            13 => {
                let node = dice.below(NODES);
                case.edits.push(Edit { node, entry: Entry::Dist, value: dice.below(1 << 25) as u32 });
            }
            fault @ 14..=17 => wrong_batch(&mut dice, &mut case, fault),
            fault => wrong_ask(&mut dice, &mut case, fault),
        }
    }
    case
}

// Some link, where there are any.
fn some_link(dice: &mut Dice, case: &Case) -> usize {
    dice.below(case.starts.len().max(1))
}

fn wrong_columns(dice: &mut Dice, case: &mut Case, fault: usize) {
    let some = some_link(dice, case);
    match fault {
        0 => case.nodes = dice.pick(&[0, 257, 258, 65_536, 65_537, 1 << 32, usize::MAX]),
        1 => case.root = dice.pick(&[case.nodes, case.nodes.wrapping_add(1), 256, 65_536, 1 << 32, usize::MAX]),
        2 => case.nodes = dice.from(1, 256),
        3 => case.starts.push(dice.below(9) as u16),
        4 => case.ends.push(dice.below(9) as u16),
        5 => case.costs.push(dice.below(9) as u16),
        6 => case.costs.truncate(some),
        _ => case.ends.truncate(some),
    }
}

fn wrong_links(dice: &mut Dice, case: &mut Case, fault: usize) {
    let (links, some) = (case.starts.len(), some_link(dice, case));
    let odd = [case.nodes, case.nodes.wrapping_add(1), 255, 256, 257, 65_535];
    if links == 0 {
        return;
    }
    match fault {
        8 => case.starts[some] = dice.pick(&odd) as u16,
        9 if some < case.ends.len() => case.ends[some] = dice.pick(&odd) as u16,
        10 if some < case.ends.len() => case.ends[some] = case.starts[some],
        11 => case.starts[some] = dice.below(9) as u16,
        _ => case.starts.swap(0, links - 1),
    }
}

fn wrong_batch(dice: &mut Dice, case: &mut Case, fault: usize) {
    let (links, some) = (case.starts.len(), some_link(dice, case));
    let batch = &mut case.batches[0];
    match fault {
        14 => {
            let rows = dice.pick(&[255, 256, 257, 300, 70_000]);
            batch.links = (0..rows).map(|row| (row % links.max(1)) as u16).collect();
            batch.costs = vec![5; rows + dice.below(2)];
        }
        15 => {
            let place = dice.from(0, batch.links.len());
            let link = dice.pick(&[links as u16, 4_095, 4_096, 65_535, some as u16]);
            batch.links.insert(place, link);
            batch.costs.push(5);
        }
        16 => {
            let place = dice.from(0, batch.links.len());
            batch.links.extend_from_within(..place);
            batch.costs.extend(vec![0; place]);
        }
        _ => batch.list = case.nodes.wrapping_sub(1).min(300),
    }
}

fn wrong_ask(dice: &mut Dice, case: &mut Case, fault: usize) {
    match fault {
        18 => case.asks[0].node = dice.pick(&[case.nodes, 255, 256, 65_536, 1 << 32, usize::MAX]),
        19 if dice.one_in(2) => case.asks[0].list = 0,
        _ => {
            case.costs.iter_mut().for_each(|cost| *cost = 0);
            case.asks[0].node = dice.below(case.nodes.clamp(1, 300));
        }
    }
}
