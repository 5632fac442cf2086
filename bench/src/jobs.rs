// The jobs on made networks: the product and the plain programs in turn, over the same inputs. Whatever is measured is set
// against the faster of the two plain programs.
use crate::given::{Given, BATCHES};
use crate::peers::{Guest, Peer};
use crate::rounds::{runner, Heat, Runner};
use crate::row::{Column, Row};
use bench::made::{self, Shape};
use bench::plain::Plain;
use bench::product::{self, Columns};
use routes::{Change, Network, Tree, NODES, UNREACHED};
use std::hint::black_box;

const NETWORKS: u64 = 8;

// Who runs in each heat, first of all the plain programs.
const SIMPLE: usize = 0;
const PACKED: usize = 1;
const PLAINS: [usize; 2] = [SIMPLE, PACKED];
// Over a network alone.
const FRESH: [(usize, &str); 7] = [
    (SIMPLE, "plain rebuild, simple"),
    (PACKED, "plain rebuild, packed"),
    (BUILD, "fresh build"),
    (3, "fresh build, safe Rust"),
    (4, "judging the table alone"),
    (JUDGING, "judging table and tree alone"),
    (6, "path to the deepest node"),
];
const BUILD: usize = 2;
// What no update can do without.
const JUDGING: usize = 5;
// Over a network and a batch.
const UPDATE: usize = 2;
const SAFE_UPDATE: usize = 3;

fn fresh_heat(given: &Given) -> Heat<'_> {
    let (net, tree, deepest) = (&given.net, &given.tree, given.deepest());
    let plain = |which: usize| runner((), |_| (), move |_| given.plains[which].rebuild(black_box(net)));
    Heat::new(vec![
        plain(SIMPLE),
        plain(PACKED),
        runner(Tree::empty(), |_| (), |tree| product::build(black_box(net), tree)),
        runner((), |_| (), |_| Tree::build(black_box(net))),
        runner((), |_| (), |_| product::judge_links(black_box(net))),
        runner((), |_| (), |_| product::judge_tree(black_box(net), black_box(tree))),
        runner([0; NODES], |_| (), move |list| product::path(net, tree, deepest, list)),
    ])
}

fn update_heat<'a>(given: &'a Given, batch: &'a [Change]) -> Heat<'a> {
    type Memory = (Network, Tree, [u16; NODES]);
    // The network and the tree as they were before the batch, and a list.
    let ready = |(net, tree, _): &mut Memory| {
        net.costs.copy_from_slice(&given.net.costs);
        tree.clone_from(&given.tree);
    };
    let memory = || (given.net.clone(), given.tree.clone(), [0; NODES]);
    let plain = |which: usize| -> Runner<'a> {
        runner(memory(), ready, move |(net, tree, _)| given.plains[which].update(net, tree, batch))
    };
    let columns = Columns::of(batch);
    Heat::new(vec![
        plain(SIMPLE),
        plain(PACKED),
        runner(memory(), ready, move |(net, tree, list)| product::update(net, tree, &columns, list)),
        runner(memory(), ready, move |(net, tree, _)| tree.update(net, batch)),
    ])
}

fn faster(times: [f64; 2]) -> f64 {
    times[0].min(times[1])
}

// The worst that the search for a link back can meet: so many links, and those back down.
const WORST: [&str; 3] =
    ["fresh build, links back down", "judging table and tree, links back down", "one link raised, links back down"];

fn worst_heat(net: &Network) -> Heat<'_> {
    let mut built = Tree::empty();
    product::build(net, &mut built);
    assert!(built.distances[net.nodes - 1] == UNREACHED, "a link without a link back was taken");
    for plain in [Plain::Simple, Plain::packed(net)] {
        assert!(plain.rebuild(net) == built, "a fresh build differs from a plain rebuild");
    }
    let (tree, columns) = (built.clone(), Columns::of(&[Change { link: 0, cost: 9 }]));
    let memory = (net.clone(), built.clone(), [0; NODES]);
    let ready = move |(changed, tree, _): &mut (Network, Tree, [u16; NODES])| {
        changed.costs.copy_from_slice(&net.costs);
        tree.clone_from(&built);
    };
    Heat::new(vec![
        runner(Tree::empty(), |_| (), |tree| product::build(black_box(net), tree)),
        runner((), |_| (), move |_| product::judge_tree(black_box(net), black_box(&tree))),
        runner(memory, ready, move |(net, tree, list)| product::update(net, tree, &columns, list)),
    ])
}

// All heats over one network.
struct Course<'a> {
    fresh: Heat<'a>,
    updates: Vec<Vec<Heat<'a>>>,
}

impl<'a> Course<'a> {
    fn over(given: &'a Given) -> Course<'a> {
        let heats = |batches: &'a Vec<Vec<Change>>| batches.iter().map(|batch| update_heat(given, batch)).collect();
        Course { fresh: fresh_heat(given), updates: given.batches.iter().map(heats).collect() }
    }

    fn heats(&mut self) -> Vec<&mut Heat<'a>> {
        std::iter::once(&mut self.fresh).chain(self.updates.iter_mut().flatten()).collect()
    }

    // The nanoseconds of one who runs over the network alone.
    fn fresh(&self, who: usize) -> f64 {
        self.fresh.best[who] as f64
    }

    // The faster plain rebuild's.
    fn rebuild(&self) -> f64 {
        faster(PLAINS.map(|plain| self.fresh(plain)))
    }

    // The mean over the batches of one kind: the faster plain program's, and that of who is measured.
    fn update(&self, kind: usize, who: usize) -> (f64, f64) {
        let heats = &self.updates[kind];
        let mean = |who: usize| heats.iter().map(|heat| heat.best[who] as f64).sum::<f64>() / heats.len() as f64;
        (faster(PLAINS.map(mean)), mean(who))
    }
}

fn rows(courses: &[Course]) -> Vec<Row> {
    let row = |name: String, times: &dyn Fn(&Course) -> (f64, f64)| Row::of(name, courses.iter().map(times));
    let mut rows = Vec::new();
    for (who, name) in FRESH {
        rows.push(row(name.to_string(), &|one| (one.rebuild(), one.fresh(who))));
    }
    for (kind, (_, _, name)) in BATCHES.iter().enumerate() {
        rows.push(row(name.to_string(), &|one| one.update(kind, UPDATE)));
        rows.push(row(format!("{name}, safe Rust"), &|one| one.update(kind, SAFE_UPDATE)));
        rows.push(row(format!("{name}, less judging"), &|one| {
            let (plain, product) = one.update(kind, UPDATE);
            (plain, product - one.fresh(JUDGING))
        }));
    }
    rows
}

// From heat to heat the network is another, so that nothing is measured right after its like.
fn one_round(courses: &mut [Course], round: usize) {
    let mut heats: Vec<_> = courses.iter_mut().map(Course::heats).collect();
    for place in 0..heats[0].len() {
        heats.iter_mut().for_each(|of_network| of_network[place].turn(round));
    }
}

/// Measures all jobs on networks of one shape and size, and the peers beside them.
pub fn measure(heading: &'static str, shape: Shape, links: usize, peers: &[Peer], rounds: usize) -> Column {
    let given: Vec<Given> = (1..=NETWORKS).map(|seed| Given::made(shape, links, seed)).collect();
    let mut courses: Vec<Course> = given.iter().map(Course::over).collect();
    let mut guests: Vec<_> = peers.iter().map(|peer| peer.over(&given)).collect();
    let worst = made::links_back_down(links);
    let mut worst: Vec<Heat> = worst.iter().map(worst_heat).collect();
    for round in 0..rounds {
        let (before, after) = guests.split_at_mut(round % (peers.len() + 1));
        before.iter_mut().for_each(Guest::turn);
        one_round(&mut courses, round);
        worst.iter_mut().for_each(|heat| heat.turn(round));
        after.iter_mut().for_each(Guest::turn);
    }
    let mut rows = rows(&courses);
    for (who, name) in WORST.iter().enumerate() {
        let time = worst.iter().map(|heat| heat.best[who]).max().expect("there are two") as f64;
        rows.push(Row::of(*name, courses.iter().map(|one| (one.fresh(BUILD), time))));
    }
    for guest in guests {
        let rebuilds = courses.iter().map(Course::rebuild);
        rows.extend(guest.rows(rebuilds.collect()));
    }
    Column { heading, rows }
}
