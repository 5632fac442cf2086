// Products that take a wrong turn. The comparison has to find each of them, or it would not be worth much.
use crate::case::{differs, Case};
use crate::make;
use crate::product::{rows_mut, Answer, Archive, Product};
use crate::shrink;
use reckon::rules::{Table, Told, Tree, Usable, NODES, NONE, UNREACHED};
use routes::ffi::{Batch, RowsMut};

// The right product, but for one job.
struct Wrong {
    name: &'static str,
    turn: Turn,
}

#[derive(Clone, Copy)]
enum Turn {
    JudgeLinks(fn(&Table) -> Told),
    JudgeTree(fn(&Table, &Tree) -> Told),
    Update(fn(&mut Update) -> Answer),
    Path(fn(&Table, &Tree, usize, &mut [u16]) -> Answer),
}

static TURNS: [Wrong; 22] = [
    Wrong { name: "rebuilds from nothing", turn: Turn::Update(rebuilds) },
    Wrong { name: "raises, then lowers", turn: Turn::Update(raises_then_lowers) },
    Wrong { name: "tells a link by its end nodes", turn: Turn::Update(tells_by_ends) },
    Wrong { name: "lists only nodes whose distance moved", turn: Turn::Update(lists_moved) },
    Wrong { name: "hands its tree back", turn: Turn::Update(hands_back) },
    Wrong { name: "takes the first row alone", turn: Turn::Update(first_row_alone) },
    Wrong { name: "makes up the count", turn: Turn::Update(makes_up_the_count) },
    Wrong { name: "refuses every time", turn: Turn::Update(refuses) },
    Wrong { name: "writes costs though it refuses", turn: Turn::Update(writes_though_refused) },
    Wrong { name: "writes behind the list's count", turn: Turn::Update(writes_behind_count) },
    Wrong { name: "gives 9 before 8", turn: Turn::Update(nine_before_eight) },
    Wrong { name: "tells the row before as the earlier one", turn: Turn::Update(row_before) },
    Wrong { name: "tells a second value with 8", turn: Turn::Update(second_with_eight) },
    Wrong { name: "misses that a link back went down", turn: Turn::Update(misses_down) },
    Wrong { name: "misses that a link back came up", turn: Turn::Update(misses_up) },
    Wrong { name: "takes a one-way link", turn: Turn::JudgeTree(takes_one_way) },
    Wrong { name: "takes a link back that is down", turn: Turn::JudgeTree(takes_one_down) },
    Wrong { name: "takes any link that leaves the end", turn: Turn::JudgeTree(takes_any_leaving) },
    Wrong { name: "takes any link that enters the start", turn: Turn::JudgeTree(takes_any_entering) },
    Wrong { name: "sums in 32 bits", turn: Turn::JudgeTree(sums_in_32_bits) },
    Wrong { name: "gives 5 before 4", turn: Turn::JudgeLinks(five_before_four) },
    Wrong { name: "tells a path from the asked node upward", turn: Turn::Path(upward) },
];

impl Product for Wrong {
    fn judge_links(&self, t: &Table) -> Told {
        match self.turn {
            Turn::JudgeLinks(turn) => turn(t),
            _ => Archive.judge_links(t),
        }
    }

    fn judge_tree(&self, t: &Table, tree: &Tree) -> Told {
        match self.turn {
            Turn::JudgeTree(turn) => turn(t, tree),
            _ => Archive.judge_tree(t, tree),
        }
    }

    fn build(&self, t: &Table, tree: RowsMut) -> Told {
        Archive.build(t, tree)
    }

    fn update(&self, t: &Table, costs: &mut [u16], batch: Batch, tree: RowsMut, list: &mut [u16]) -> Answer {
        let Turn::Update(turn) = self.turn else { return Archive.update(t, costs, batch, tree, list) };
        let old = Tree { dist: *tree.dist, parent: *tree.parent, first: *tree.first };
        let mut update = Update { t, costs, batch, tree: old.clone(), old, list };
        let answer = turn(&mut update);
        (*tree.dist, *tree.parent, *tree.first) = (update.tree.dist, update.tree.parent, update.tree.first);
        answer
    }

    fn path(&self, t: &Table, tree: &Tree, asked: usize, list: &mut [u16]) -> Answer {
        match self.turn {
            Turn::Path(turn) => turn(t, tree, asked, list),
            _ => Archive.path(t, tree, asked, list),
        }
    }
}

// ---- updates

struct Update<'a> {
    // With the costs as they were.
    t: &'a Table<'a>,
    costs: &'a mut [u16],
    batch: Batch<'a>,
    old: Tree,
    tree: Tree,
    list: &'a mut [u16],
}

fn same_row(a: &Tree, b: &Tree, v: usize) -> bool {
    (a.dist[v], a.parent[v], a.first[v]) == (b.dist[v], b.parent[v], b.first[v])
}

impl Update<'_> {
    fn rows(&self) -> usize {
        self.batch.links.len().min(self.batch.costs.len())
    }

    fn right(&mut self) -> Answer {
        Archive.update(self.t, self.costs, self.batch, rows_mut(&mut self.tree), self.list)
    }

    // The right answer and tree, and the list as it was lent; then something else, where nothing is refused.
    fn then(&mut self, turn: impl FnOnce(&mut Self) -> Answer) -> Answer {
        let mut list = self.list.to_vec();
        let told = Archive.update(self.t, self.costs, self.batch, rows_mut(&mut self.tree), &mut list);
        if told.0 != 0 {
            return told;
        }
        turn(self)
    }

    // Lists the nodes that pass the test, and counts them.
    fn listing(&mut self, test: impl Fn(&Tree, &Tree, usize) -> bool) -> Answer {
        let nodes: Vec<u16> = (0..NODES).filter(|v| test(&self.old, &self.tree, *v)).map(|v| v as u16).collect();
        self.list[..nodes.len()].copy_from_slice(&nodes);
        (0, [0, 0], nodes.len())
    }

    fn listing_changed(&mut self) -> Answer {
        self.listing(|old, new, v| !same_row(old, new, v))
    }
}

fn rebuilds(u: &mut Update) -> Answer {
    u.then(|u| {
        Archive.build(&Table { costs: u.costs, ..*u.t }, rows_mut(&mut u.tree));
        u.listing_changed()
    })
}

fn raises_then_lowers(u: &mut Update) -> Answer {
    let (before, Batch { links, costs }) = (u.costs.to_vec(), u.batch);
    u.then(|u| {
        u.costs.copy_from_slice(&before);
        u.tree = u.old.clone();
        let raises = |row: &usize| costs[*row] == 0 || costs[*row] > before[links[*row] as usize];
        for up in [true, false] {
            let some: Vec<usize> = (0..u.rows()).filter(|row| raises(row) == up).collect();
            let pick = |of: &[u16]| some.iter().map(|row| of[*row]).collect::<Vec<u16>>();
            let batch = Batch { links: &pick(links), costs: &pick(costs) };
            let standing = u.costs.to_vec();
            let t = Table { costs: &standing, ..*u.t };
            Archive.update(&t, u.costs, batch, rows_mut(&mut u.tree), &mut u.list.to_vec());
        }
        u.listing_changed()
    })
}

fn tells_by_ends(u: &mut Update) -> Answer {
    u.then(|u| {
        let Table { starts, ends, .. } = *u.t;
        for parent in u.tree.parent.iter_mut().filter(|parent| **parent != NONE) {
            let link = *parent as usize;
            let like = |k: &usize| starts[*k] == starts[link] && ends[*k] == ends[link];
            *parent = (0..starts.len()).find(like).unwrap_or(link) as u16;
        }
        u.listing_changed()
    })
}

fn lists_moved(u: &mut Update) -> Answer {
    u.then(|u| u.listing(|old, new, v| old.dist[v] != new.dist[v]))
}

fn hands_back(u: &mut Update) -> Answer {
    u.then(|u| {
        u.tree = u.old.clone();
        u.listing_changed()
    })
}

fn first_row_alone(u: &mut Update) -> Answer {
    let first = u.rows().min(1);
    let batch = Batch { links: &u.batch.links[..first], costs: &u.batch.costs[..first] };
    Archive.update(u.t, u.costs, batch, rows_mut(&mut u.tree), u.list)
}

fn makes_up_the_count(u: &mut Update) -> Answer {
    match u.right() {
        (0, ..) => (0, [0, 0], 1),
        refused => refused,
    }
}

fn refuses(u: &mut Update) -> Answer {
    match u.right() {
        (0, ..) => (6, [0, 0], 0),
        refused => refused,
    }
}

fn writes_though_refused(u: &mut Update) -> Answer {
    let told = u.right();
    if told.0 != 0 && u.rows() > 0 {
        if let Some(cost) = u.costs.get_mut(u.batch.links[0] as usize) {
            *cost = u.batch.costs[0];
        }
    }
    told
}

fn writes_behind_count(u: &mut Update) -> Answer {
    let told = u.right();
    if told.0 == 0 && told.2 < u.list.len() {
        u.list[told.2] = 0;
    }
    told
}

fn nine_before_eight(u: &mut Update) -> Answer {
    let (told, links) = (u.right(), u.batch.links);
    match (0..u.rows()).find(|row| links[..*row].contains(&links[*row])) {
        Some(row) if told.0 == 8 => (9, [row as u16, first_naming(links, links[row]) as u16], 0),
        _ => told,
    }
}

fn first_naming(links: &[u16], link: u16) -> usize {
    links.iter().position(|named| *named == link).unwrap_or(0)
}

fn row_before(u: &mut Update) -> Answer {
    match u.right() {
        (9, [row, _], count) => (9, [row, row - 1], count),
        told => told,
    }
}

fn second_with_eight(u: &mut Update) -> Answer {
    match u.right() {
        (8, [row, _], count) => (8, [row, row], count),
        told => told,
    }
}

// Its rows only take down links that nothing hangs on: so nothing is asked.
fn misses_down(u: &mut Update) -> Answer {
    let Batch { links, costs } = u.batch;
    u.then(|u| {
        let unused = |row: usize| costs[row] == 0 && !u.old.parent.contains(&links[row]);
        if (0..u.rows()).all(unused) {
            u.tree = u.old.clone();
        }
        u.listing_changed()
    })
}

// Its rows only bring up links that leave unreached nodes: so nothing is offered.
fn misses_up(u: &mut Update) -> Answer {
    let Batch { links, costs } = u.batch;
    let starts = u.t.starts;
    u.then(|u| {
        let offers_none = |row: usize| costs[row] != 0 && u.old.dist[starts[links[row] as usize] as usize] == UNREACHED;
        if (0..u.rows()).all(offers_none) {
            u.tree = u.old.clone();
        }
        u.listing_changed()
    })
}

// ---- the other jobs

fn five_before_four(t: &Table) -> Told {
    let told = Archive.judge_links(t);
    match (1..t.starts.len()).find(|k| t.starts[*k] < t.starts[*k - 1]) {
        Some(k) if told.0 == 4 => (5, [k as u16, 0]),
        _ => told,
    }
}

// A tree judged by other sums, or by another meaning of usable.
struct Judging<'a> {
    t: &'a Table<'a>,
    usable: &'a dyn Fn(usize) -> bool,
    sum: fn(u32, u16) -> u64,
}

impl Judging<'_> {
    fn judge(&self, tree: &Tree) -> Told {
        match Archive.judge_links(self.t) {
            (0, _) => (0..NODES).find(|v| self.breaks(tree, *v)).map_or((0, [0, 0]), |v| (6, [v as u16, 0])),
            told => told,
        }
    }

    // Whether a node breaks a rule.
    fn breaks(&self, tree: &Tree, v: usize) -> bool {
        let Judging { t, usable, sum } = self;
        let start = |k: usize| t.starts[k] as usize;
        let offer = |k: usize| sum(tree.dist[start(k)], t.costs[k]);
        let enters = |k: usize| t.ends[k] as usize == v && usable(k) && tree.dist[start(k)] != UNREACHED;
        let (d, p, f) = (tree.dist[v], tree.parent[v] as usize, tree.first[v]);
        let empty = (d, tree.parent[v], f) == (UNREACHED, NONE, NONE);
        if v == t.root {
            return (d, tree.parent[v], f) != (0, NONE, NONE);
        }
        if v >= t.nodes {
            return !empty;
        }
        if d == UNREACHED {
            return !empty || (0..t.starts.len()).any(enters);
        }
        let hangs = p < t.starts.len() && enters(p) && offer(p) == d as u64;
        !hangs
            || f != if start(p) == t.root { p as u16 } else { tree.first[start(p)] }
            || (0..t.starts.len()).any(|k| enters(k) && offer(k) < d as u64)
    }
}

fn sums_in_32_bits(t: &Table, tree: &Tree) -> Told {
    if Archive.judge_links(t).0 != 0 {
        return Archive.judge_tree(t, tree);
    }
    let usable = Usable::of(t);
    let sum = |distance: u32, cost: u16| distance.wrapping_add(cost as u32) as u64;
    Judging { t, usable: &|k| usable.has(k), sum }.judge(tree)
}

// A link that is up is usable where some link passes the test as its link back.
fn with_link_back(t: &Table, tree: &Tree, is_back: fn(&Table, usize, usize) -> bool) -> Told {
    let usable = |k: usize| t.costs[k] != 0 && (0..t.starts.len()).any(|back| is_back(t, k, back));
    let sum = |distance: u32, cost: u16| distance as u64 + cost as u64;
    Judging { t, usable: &usable, sum }.judge(tree)
}

fn takes_one_way(t: &Table, tree: &Tree) -> Told {
    with_link_back(t, tree, |_, _, _| true)
}

fn takes_one_down(t: &Table, tree: &Tree) -> Told {
    with_link_back(t, tree, |t, k, back| t.starts[back] == t.ends[k] && t.ends[back] == t.starts[k])
}

fn takes_any_leaving(t: &Table, tree: &Tree) -> Told {
    with_link_back(t, tree, |t, k, back| t.starts[back] == t.ends[k] && t.costs[back] != 0)
}

fn takes_any_entering(t: &Table, tree: &Tree) -> Told {
    with_link_back(t, tree, |t, k, back| t.ends[back] == t.starts[k] && t.costs[back] != 0)
}

fn upward(t: &Table, tree: &Tree, asked: usize, list: &mut [u16]) -> Answer {
    let told = Archive.path(t, tree, asked, list);
    list[..told.2].reverse();
    told
}

// The product that takes this turn.
pub fn named(name: &str) -> &'static dyn Product {
    TURNS.iter().find(|wrong| wrong.name == name).expect("a turn of this name")
}

// ---- finding them

// A case that tells the product from what is reckoned, among a few thousand.
fn found(product: &dyn Product) -> Option<(u64, Case)> {
    (0..4_000u64).find_map(|seed| {
        let case = match seed % 5 {
            0 => make::run(seed, 0, 8, 4),
            1 => make::run(seed, 5, 8, 4),
            2 => make::damaged(seed, 0),
            3 => make::malformed(seed),
            _ => make::from_another(seed, 0, 4),
        };
        differs(product, &case).is_some().then_some((seed, case))
    })
}

pub fn all_found() {
    println!("\nwrong turns, each found by the comparison");
    for wrong in &TURNS {
        let Some((seed, case)) = found(wrong) else {
            println!("NOT FOUND: a product that {}", wrong.name);
            std::process::exit(1);
        };
        let (case, _) = shrink::smallest(|case| differs(wrong, case), &case);
        let rows = case.batches.iter().map(|batch| batch.links.len()).sum::<usize>();
        println!("{:<44} seed {seed:>4}: {} nodes, {} links, {rows} rows", wrong.name, case.nodes, case.starts.len());
    }
}
