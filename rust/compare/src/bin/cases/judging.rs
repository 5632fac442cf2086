// Judging: a line for each case, with what the case is, the refusal's number and the two values that it carries.
use crate::pier::{chain, net, p1_with, pier, with_rows, Row, COSTS, ENDS, STARTS};
use routes::ffi::Reply;
use routes::{lent, Network, Tree, NO_LINK, UNREACHED};

const TOP: u32 = u32::MAX;

fn say(name: &str, reply: Reply) {
    println!("{name} {} {} {}", reply.number, reply.values[0], reply.values[1]);
}

fn table(name: &str, table: Network) {
    say(name, lent::judge_links(&table));
}

// A tree of the pier network: P1's, with other rows.
fn at_pier(name: &str, rows: &[Row]) {
    say(name, lent::judge_tree(&pier(), &p1_with(rows)));
}

// Each entry damaged by itself.
fn damaged_distances() {
    at_pier("pier", &[]);
    at_pier("root at 1", &[(0, 1, NO_LINK, NO_LINK)]);
    at_pier("root unreached", &[(0, UNREACHED, NO_LINK, NO_LINK)]);
    at_pier("node 1 nearer", &[(1, 3, 0, 0)]);
    at_pier("node 1 farther", &[(1, 5, 0, 0)]);
    at_pier("node 2 nearer", &[(2, 5, 3, 0)]);
    at_pier("node 2 farther", &[(2, 7, 3, 0)]);
    at_pier("node 3 nearer", &[(3, 6, 6, 0)]);
    at_pier("node 3 farther", &[(3, 8, 6, 0)]);
    at_pier("node 3 unreached with links", &[(3, UNREACHED, 6, 0)]);
    at_pier("node 3 unreached without", &[(3, UNREACHED, NO_LINK, NO_LINK)]);
    at_pier("node 4 reached", &[(4, 8, NO_LINK, NO_LINK)]);
    at_pier("node 255 reached", &[(255, 0, NO_LINK, NO_LINK)]);
}

fn damaged_links() {
    at_pier("root with a parent", &[(0, 0, 2, NO_LINK)]);
    at_pier("root with a first", &[(0, 0, NO_LINK, 0)]);
    at_pier("node 1 by link 5", &[(1, 4, 5, 0)]);
    at_pier("node 1 without a parent", &[(1, 4, NO_LINK, 0)]);
    at_pier("node 2 by link 1", &[(2, 6, 1, 0)]);
    at_pier("node 2 by link 8", &[(2, 6, 8, 0)]);
    at_pier("node 3 by link 3", &[(3, 7, 3, 0)]);
    at_pier("node 1 first 1", &[(1, 4, 0, 1)]);
    at_pier("node 2 first 3", &[(2, 6, 3, 3)]);
    at_pier("node 3 first 6", &[(3, 7, 6, 6)]);
    at_pier("node 3 without a first", &[(3, 7, 6, NO_LINK)]);
    at_pier("node 4 with a parent", &[(4, UNREACHED, 6, NO_LINK)]);
    at_pier("node 200 with a first", &[(200, UNREACHED, NO_LINK, 0)]);
}

// Distances at the top of their width: a sum that wrapped would pass for a small one.
fn forged() {
    at_pier("node 1 at the top", &[(1, TOP, 0, 0)]);
    at_pier("node 2 at the top", &[(2, TOP, 3, 0)]);
    at_pier("node 3 at the top", &[(3, TOP, 6, 0)]);
    at_pier("node 2 wraps to node 3", &[(2, TOP, 3, 0), (3, 0, 6, 0)]);
    at_pier("node 2 one less", &[(2, TOP - 1, 3, 0), (3, TOP, 6, 0)]);
    at_pier("node 2 below the mark", &[(2, UNREACHED - 1, 3, 0), (3, UNREACHED, 6, 0)]);
    at_pier("node 3 at the mark plus 1", &[(3, UNREACHED + 1, 6, 0)]);
}

// Node 1 is bare and entered from node 2 alone. Whatever the forged distance of node 2, node 2 counts as reached, so
// node 1 breaks a rule, and it is the smaller.
fn entered(name: &str, distance: u32) {
    let table = Network::with_pairs(3, 0, [(0, 2, 7, 7), (2, 1, 2, 2)]);
    let tree = with_rows(Tree::empty(), &[(0, 0, NO_LINK, NO_LINK), (2, distance, 0, 0)]);
    say(name, lent::judge_tree(&table, &tree));
}

// Two links from 0 to 1 at one cost, then one at another; the tree may hang on either of the first two.
fn parallel(name: &str, distance: u32, by: u16) {
    let table = Network::with_links(2, 0, [(0, 1, 5), (0, 1, 5), (0, 1, 6), (1, 0, 9)]);
    let tree = with_rows(Tree::empty(), &[(0, 0, NO_LINK, NO_LINK), (1, distance, by, by)]);
    say(name, lent::judge_tree(&table, &tree));
}

// Link 6 leads to node 3, and link 7 is its link back.
fn one_way() {
    let lost = p1_with(&[(3, UNREACHED, NO_LINK, NO_LINK)]);
    let costing = |link: usize, cost: u16| {
        let mut table = pier();
        table.costs[link] = cost;
        table
    };
    say("node 3 without its link back", lent::judge_tree(&costing(7, 0), &p1_with(&[])));
    say("node 3 unreached for that", lent::judge_tree(&costing(7, 0), &lost));
    say("node 3's link back dear", lent::judge_tree(&costing(7, 65_535), &p1_with(&[])));
    say("node 3 by a link that is down", lent::judge_tree(&costing(6, 0), &p1_with(&[])));
    say("node 3 unreached, its own link up", lent::judge_tree(&costing(6, 0), &lost));
}

// Links 0 and 1 lead from 0 to 1, links 2 and 3 back: any of these will do.
fn links_back(name: &str, costs: &[u16]) {
    let table = net(2, 0, &[0, 0, 1, 1], &[1, 1, 0, 0], costs);
    for (reached, row) in [("reached", (1, 5, 0, 0)), ("unreached", (1, UNREACHED, NO_LINK, NO_LINK))] {
        let tree = with_rows(Tree::empty(), &[(0, 0, NO_LINK, NO_LINK), row]);
        say(&format!("{name}, {reached}"), lent::judge_tree(&table, &tree));
    }
}

// A ring of one-way links has no link back: what comes round over others is none.
fn round_trip() {
    let ring = net(3, 0, &[0, 1, 2], &[1, 2, 0], &[1, 1, 1]);
    let alone = with_rows(Tree::empty(), &[(0, 0, NO_LINK, NO_LINK)]);
    let followed = with_rows(alone.clone(), &[(1, 1, 0, 0), (2, 2, 1, 0)]);
    say("a ring of one-way links, followed", lent::judge_tree(&ring, &followed));
    say("a ring of one-way links, left alone", lent::judge_tree(&ring, &alone));
}

fn sizes() {
    table("0 nodes", net(0, 0, &[], &[], &[]));
    table("1 node", net(1, 0, &[], &[], &[]));
    table("256 nodes", net(256, 255, &[], &[], &[]));
    table("257 nodes", net(257, 0, &[], &[], &[]));
    table("as many nodes as a word holds", net(usize::MAX, 0, &[], &[], &[]));
    table("root at the count", net(4, 4, &STARTS, &ENDS, &COSTS));
    table("unequal ends", net(4, 0, &STARTS, &[], &COSTS));
    table("unequal costs", net(4, 0, &STARTS, &ENDS, &[]));
    table("4096 links", net(2, 0, &[0; 4096], &[1; 4096], &[7; 4096]));
    table("4097 links", net(2, 0, &[0; 4097], &[1; 4097], &[7; 4097]));
    table("20000 starts", net(2, 0, &[0; 20_000], &[1; 4097], &[7; 4097]));
}

fn wrong_links() {
    table("a start too high", net(2, 0, &[0, 2], &[1, 0], &[1, 1]));
    table("an end too high", net(2, 0, &[0, 1], &[1, 2], &[1, 1]));
    table("a link to itself", net(2, 0, &[0, 1], &[1, 1], &[0, 0]));
    table("a start that falls", net(3, 0, &[0, 2, 1, 0], &[1, 1, 0, 2], &[1, 1, 1, 1]));
    table("equal starts", net(3, 0, &[1, 1, 1], &[0, 2, 0], &[1, 1, 1]));
    table("costs of any value", net(2, 1, &[0, 0, 1], &[1, 1, 0], &[0, 65_535, 1]));
}

// Of several the smallest number is told.
fn several() {
    table("1 before 2 and 3", net(0, 9, &[0, 1], &[1], &[1]));
    table("1 before 4", net(300, 0, &[0, 400], &[1, 1], &[1, 1]));
    table("2 before 3", net(2, 2, &[0, 1], &[1], &[1]));
    table("3 before 4", net(2, 0, &[0, 7], &[1, 1], &[1]));
    table("4 behind 5", net(3, 0, &[2, 1, 0, 0], &[0, 0, 1, 3], &[1, 1, 1, 1]));
    table("4 and 5 at one link", net(3, 0, &[2, 1], &[0, 1], &[1, 1]));
    let unfit = p1_with(&[(1, 9, 9, 9)]);
    say("5 before 6", lent::judge_tree(&net(3, 0, &[2, 1], &[0, 0], &[1, 1]), &unfit));
    say("1 before 6", lent::judge_tree(&net(0, 0, &[2, 1], &[0, 0], &[1, 1]), &unfit));
    say("3 before 6", lent::judge_tree(&net(3, 0, &[2, 1], &[0, 0], &[1]), &unfit));
}

// The chain, its last node at `last`.
fn chain_to(last: u32) {
    let mut tree = with_rows(Tree::empty(), &[(0, 0, NO_LINK, NO_LINK)]);
    for node in 1..256 {
        tree = with_rows(tree, &[(node, node as u32 * 65_535, 2 * node as u16 - 2, 0)]);
    }
    say(&format!("chain to {last}"), lent::judge_tree(&chain(), &with_rows(tree, &[(255, last, 508, 0)])));
}

pub fn run() {
    damaged_distances();
    damaged_links();
    forged();
    entered("entered from the top", TOP);
    entered("entered from below the mark", UNREACHED - 1);
    entered("entered from the mark", UNREACHED);
    entered("entered rightly", 7);
    parallel("by the first of two", 5, 0);
    parallel("by the second of two", 5, 1);
    parallel("by the dearer third", 6, 2);
    one_way();
    links_back("both links back up", &[5, 6, 5, 6]);
    links_back("the first link back down", &[5, 6, 0, 6]);
    links_back("the second link back down", &[5, 6, 5, 0]);
    links_back("both links back down", &[5, 6, 0, 0]);
    round_trip();
    sizes();
    wrong_links();
    several();
    [16_711_425, 16_711_426, 16_776_961].into_iter().for_each(chain_to);
}
