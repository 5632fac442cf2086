// What the made runs have to do with links back. A comparison that never met such a thing would be worth little, so each has
// to come up.
use crate::case::{Batch, Case};
use crate::make;
use reckon::rules::{self, Table, Tree, Usable, NONE};

#[derive(Default)]
struct Seen {
    // Networks whose links that are up all have a link back that is up, and those with some that don't.
    both_ways: usize,
    one_way: usize,
    // Usable links of which some links back are down.
    some_down: usize,
    // Batches with a row for a link and one for its link back.
    both_rows: usize,
    // Nodes that lose their parent link, or take one, whose own cost is the same before and after.
    lost: usize,
    taken: usize,
}

fn leads_back(t: &Table, link: usize, other: usize) -> bool {
    t.starts[other] == t.ends[link] && t.ends[other] == t.starts[link]
}

impl Seen {
    fn network(&mut self, t: &Table) {
        let usable = Usable::of(t);
        let links = 0..t.starts.len();
        match links.clone().any(|k| t.costs[k] != 0 && !usable.has(k)) {
            true => self.one_way += 1,
            false => self.both_ways += 1,
        }
        let lacks_one = |k: &usize| links.clone().any(|other| leads_back(t, *k, other) && t.costs[other] == 0);
        self.some_down += links.clone().filter(|k| usable.has(*k)).filter(lacks_one).count();
    }

    fn batch(&mut self, t: &Table, batch: &Batch) {
        let names_back = |link: &u16| batch.links.iter().any(|other| leads_back(t, *link as usize, *other as usize));
        self.both_rows += usize::from(batch.links.iter().any(names_back));
    }

    // The nodes whose parent link in the tree was up and as dear under the other costs, and only there not usable.
    fn for_links_back(tree: &Tree, t: &Table, other: &Table) -> usize {
        let usable = Usable::of(other);
        let parents = tree.parent.iter().filter(|link| **link != NONE).map(|link| *link as usize);
        parents.filter(|link| t.costs[*link] == other.costs[*link] && !usable.has(*link)).count()
    }

    fn run(&mut self, case: &Case) {
        self.network(&case.table());
        let (mut tree, mut costs) = (rules::build(&case.table()).1, case.costs.clone());
        for batch in &case.batches {
            let before = Table { costs: &costs, ..case.table() };
            self.batch(&before, batch);
            let rows: Vec<(u16, u16)> = batch.links.iter().copied().zip(batch.costs.iter().copied()).collect();
            let next = rules::update(&before, &tree, &rows, batch.list);
            let after = Table { costs: &next.costs, ..case.table() };
            self.lost += Seen::for_links_back(&tree, &before, &after);
            self.taken += Seen::for_links_back(&next.tree, &after, &before);
            (tree, costs) = (next.tree, next.costs);
        }
    }
}

pub fn came_up(from: u64) {
    let mut seen = Seen::default();
    for seed in from..from + 2_000 {
        seen.run(&make::run(seed, [0, 5, 6, 1][seed as usize % 4], 8, 0));
    }
    let Seen { both_ways, one_way, some_down, both_rows, lost, taken } = seen;
    println!("\nlinks back, in 2,000 made runs");
    println!("{both_ways:>6} networks without one-way links, {one_way} with some; {some_down} usable links with some links back down");
    println!("{both_rows:>6} batches with rows for a link and a link back of it");
    println!("{lost:>6} nodes that lost a parent link for its link back, {taken} that took one for it");
    let all = [both_ways, one_way, some_down, both_rows, lost, taken];
    assert!(all.iter().all(|count| *count > 100), "some of this hardly came up");
}
