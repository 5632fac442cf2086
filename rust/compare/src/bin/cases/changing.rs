// Building, updating and asking for paths: a line for each call, with what the call is, the refusal's number, the two values
// that it carries, for an update and a path the count, and then all that the call may write: the rows of the tree that
// aren't empty (node:distance,parent,first), the cost column and the list, lent part and all.
use crate::pier::{chain, net, p1_with, pier, with_rows, COSTS, ENDS, STARTS};
use routes::ffi::{Batch, Reply};
use routes::{lent, Network, Tree, NODES, NO_LINK, UNREACHED};

// ---- how a line is laid out

// What stands in a list before it is lent: no node and no link of the cases.
const LIST: [u16; 6] = [7001, 7002, 7003, 7004, 7005, 7006];
const LONG_LIST: [u16; 300] = [7000; 300];

// What stands in a tree before it is built: no entry is one that a build could leave.
const UNSET: Tree = Tree { distances: [u32::MAX; NODES], parents: [60_000; NODES], firsts: [60_000; NODES] };

fn said_link(link: u16) -> String {
    if link == NO_LINK {
        "-".to_string()
    } else {
        link.to_string()
    }
}

fn said_row(tree: &Tree, node: usize) -> String {
    let (parent, first) = (said_link(tree.parents[node]), said_link(tree.firsts[node]));
    format!(" {node}:{},{parent},{first}", tree.distances[node])
}

// One number for many, in which each and its place have a part.
fn folded(numbers: impl IntoIterator<Item = u32>) -> String {
    let fold = |sum: u64, number: u32| (sum * 31 + number as u64) % 1_000_003;
    format!(" {}", numbers.into_iter().fold(0, fold))
}

// A case says its columns and rows whole, or, where they are long, one row whole and all else folded.
#[derive(Clone, Copy)]
enum Saying {
    Whole,
    Folded { shown: usize },
}

impl Saying {
    fn rows(self, tree: &Tree) -> String {
        let row = |v: usize| (tree.distances[v], tree.parents[v], tree.firsts[v]);
        match self {
            Saying::Whole => {
                let told = (0..NODES).filter(|v| row(*v) != (UNREACHED, NO_LINK, NO_LINK));
                told.map(|node| said_row(tree, node)).collect()
            }
            Saying::Folded { shown } => {
                let all = (0..NODES).map(row).flat_map(|row| [row.0, row.1.into(), row.2.into()]);
                said_row(tree, shown) + &folded(all)
            }
        }
    }

    fn column(self, column: &[u16]) -> String {
        match self {
            Saying::Whole => column.iter().map(|entry| format!(" {entry}")).collect(),
            Saying::Folded { .. } => folded(column.iter().map(|entry| u32::from(*entry))),
        }
    }

    fn list(self) -> Vec<u16> {
        match self {
            Saying::Whole => LIST.to_vec(),
            Saying::Folded { .. } => LONG_LIST.to_vec(),
        }
    }
}

fn judged(reply: Reply) -> String {
    format!(" {} {} {}", reply.number, reply.values[0], reply.values[1])
}

fn counted(reply: Reply) -> String {
    format!("{} {}", judged(reply), reply.count)
}

fn line(name: &str, parts: &[String]) {
    println!("{name}:{}", parts.join(" |"));
}

// ---- the calls

// A network with the costs that stand, the tree that stands, and the jobs, each of which says its line.
#[derive(Clone)]
struct Run {
    net: Network,
    tree: Tree,
    saying: Saying,
}

impl Run {
    fn on(net: Network) -> Run {
        Run { net, tree: Tree::empty(), saying: Saying::Whole }
    }

    fn long(net: Network, shown: usize) -> Run {
        Run { saying: Saying::Folded { shown }, ..Run::on(net) }
    }

    // From another tree than the one that stands.
    fn with(&self, tree: &Tree) -> Run {
        Run { tree: tree.clone(), ..self.clone() }
    }

    fn say_build(&self, name: &str) -> Tree {
        let mut tree = UNSET;
        let reply = lent::build(&self.net, &mut tree);
        line(name, &[judged(reply), self.saying.rows(&tree)]);
        tree
    }

    // A fresh tree takes the place of the one that stands.
    fn fresh(mut self, name: &str) -> Run {
        self.tree = self.say_build(name);
        self
    }

    // Lends the first `room` places of the list.
    fn step(&mut self, name: &str, links: &[u16], costs: &[u16], room: usize) {
        let mut list = self.saying.list();
        let reply = lent::update(&mut self.net, &mut self.tree, Batch { links, costs }, &mut list[..room]);
        let (rows, column) = (self.saying.rows(&self.tree), self.saying.column(&self.net.costs));
        line(name, &[counted(reply), rows, column, self.saying.column(&list)]);
    }

    fn ask(&self, name: &str, node: usize, room: usize) {
        let mut list = LIST;
        let reply = lent::path(&self.net, &self.tree, node, &mut list[..room]);
        line(name, &[counted(reply), Saying::Whole.column(&list)]);
    }

    // For the chain's last node: its last link, the place behind it, and the whole list folded.
    fn long_ask(&self, name: &str, room: usize) {
        let mut list = LONG_LIST;
        let reply = lent::path(&self.net, &self.tree, 255, &mut list[..room]);
        line(name, &[counted(reply), Saying::Whole.column(&list[254..256]), self.saying.column(&list)]);
    }
}

fn at_p1() -> Run {
    Run::on(pier()).with(&p1_with(&[]))
}

fn from_p1(name: &str, links: &[u16], costs: &[u16], room: usize) {
    at_p1().step(name, links, costs, room);
}

// ---- the pier network

fn pier_cases() {
    let mut run = Run::on(pier()).fresh("P1");
    run.step("P2", &[3, 0], &[5, 2], 4);
    run.say_build("P3");
    run.step("P4", &[3], &[6], 4);
    run.step("P5", &[3], &[5], 4);
    from_p1("P6", &[1], &[6], 4);
    from_p1("P7", &[1], &[5], 4);
    from_p1("P8", &[0], &[0], 4);
    from_p1("P9", &[6], &[0], 4);
    from_p1("P10", &[7], &[0], 4);
    from_p1("P11", &[3, 0, 3], &[5, 2, 6], 4);
}

fn lone_node() {
    let mut run = Run::on(net(1, 0, &[], &[], &[])).fresh("P12");
    run.ask("P12 path", 0, 0);
    run.step("P12 empty batch", &[], &[], 1);
    run.step("P12 no room", &[], &[], 0);
    run.step("P12 no such link", &[0], &[1], 1);
}

// Rows that change no route, in a list with places to spare.
fn quiet_batches() {
    from_p1("empty batch", &[], &[], 6);
    from_p1("one unchanged cost", &[3], &[2], 6);
    from_p1("all costs unchanged", &[7, 6, 5, 4, 3, 2, 1, 0], &[1, 1, 2, 7, 2, 4, 7, 4], 6);
    from_p1("into the root cheaper", &[2, 4], &[1, 1], 6);
    from_p1("into the root dear", &[4, 2], &[65_535, 65_535], 6);
}

// The root's links go and come back; nodes 2 and 3 hold on to each other when both are cut off.
fn apart_and_together() {
    let mut run = at_p1();
    run.step("apart", &[1, 0], &[0, 0], 4);
    run.step("apart still", &[3, 6], &[9, 9], 4);
    run.step("together", &[0, 1], &[4, 7], 4);
    run.step("as before", &[3, 6], &[2, 1], 4);
    run.step("a pair cut off", &[1, 3], &[0, 0], 4);
    run.step("the pair by link 1", &[1], &[7], 4);
    run.step("and link 3 again", &[3], &[3], 4);
    run.step("all down", &[0, 1, 2, 3, 4, 5, 6, 7], &[0; 8], 4);
    run.step("all up", &[0, 1, 2, 3, 4, 5, 6, 7], &[65_535; 8], 4);
}

// ---- other networks

// Links 0 and 1 both lead from 0 to 1, and links 2 and 3 both from 1 to 2; node 1 comes to hang on the second of two
// equal links. A link back leaves each node behind its other links.
fn parallel() {
    let (starts, ends) = ([0, 0, 1, 1, 1, 2, 2, 3], [1, 1, 2, 2, 0, 3, 1, 2]);
    let mut run = Run::on(net(4, 0, &starts, &ends, &[6, 5, 1, 1, 1, 1, 1, 1])).fresh("parallel");
    run.step("the first as cheap", &[0], &[5], 6);
    run.say_build("built then");
    run.step("the first raised", &[0], &[9], 6);
    run.step("the first as cheap again", &[0], &[5], 6);
    run.step("the second raised", &[1], &[6], 6);
    run.step("the first of the other two raised", &[2], &[2], 6);
    run.step("the other two change places", &[3, 2], &[4, 3], 6);
    run.step("the other two down", &[2, 3], &[0, 0], 6);
    run.step("the second of them up", &[3], &[8], 6);
    run.step("the first of them as cheap", &[2], &[8], 6);
}

// Three ways to node 4, over 1, 2 and 3, all at one cost.
fn fork() {
    let (starts, ends) = ([0, 0, 0, 1, 1, 2, 2, 3, 3, 4, 4, 4], [1, 2, 3, 4, 0, 4, 0, 4, 0, 1, 2, 3]);
    let mut run = Run::on(net(5, 0, &starts, &ends, &[2; 12])).fresh("fork");
    run.step("link 3 raised", &[3], &[3], 5);
    run.step("link 3 back", &[3], &[2], 5);
    run.step("link 1 cheaper, link 5 as much dearer", &[1, 5], &[1, 3], 5);
    run.step("link 2 cheaper", &[2], &[1], 5);
    run.step("link 0 cheaper too and link 5 again", &[5, 0], &[2, 1], 5);
}

// Dear links in a row: their sum is past the width of a cost.
fn dear() {
    let (starts, ends) = ([0, 0, 1, 1, 2, 2], [1, 2, 2, 0, 1, 0]);
    let mut run = Run::on(net(3, 0, &starts, &ends, &[65_535, 65_535, 65_535, 1, 1, 1])).fresh("dear");
    run.step("link 1 down", &[1], &[0], 3);
    run.step("link 1 for link 0", &[0, 1], &[0, 65_535], 3);
    run.step("link 4 dear", &[4], &[65_535], 3);
}

fn root_3() {
    let mut run = Run::on(Network { root: 3, ..pier() }).fresh("root 3");
    run.ask("root 3, path to 0", 0, 3);
    run.ask("root 3, path to 3", 3, 0);
    run.step("into root 3 dear", &[6], &[9], 6);
    run.step("link 2 as dear as link 4", &[2], &[5], 6);
    run.step("link 2 dearer", &[2], &[6], 6);
    run.ask("path to 0 by link 4", 0, 3);
    run.step("into root 3 down", &[6], &[0], 6);
    run.step("into root 3 up", &[6], &[1], 6);
    run.step("out of root 3 down", &[7], &[0], 6);
    run.ask("root 3, 0 unreached", 0, 6);
    run.net.root = 0;
    run.step("another root than the tree's", &[3], &[5], 4);
}

// ---- links back

// Link 6 leads to node 3, and link 7 is its link back: each goes and comes, alone and with the other.
fn link_back() {
    let mut run = at_p1();
    run.step("link 7 down", &[7], &[0], 4);
    run.step("link 7 down already", &[7], &[0], 4);
    run.step("link 6 dearer without it", &[6], &[3], 4);
    run.step("link 7 up and dear", &[7], &[65_535], 4);
    run.step("link 6 down, link 7 left", &[6], &[0], 4);
    run.step("link 7 down too", &[7], &[0], 4);
    run.step("link 6 up alone", &[6], &[1], 4);
    run.step("link 6 down for link 7", &[6, 7], &[0, 1], 4);
    run.step("link 6 up beside it", &[6], &[1], 4);
    run.step("both down", &[7, 6], &[0, 0], 4);
    run.step("both up", &[6, 7], &[1, 1], 4);
}

// Links that no route takes, and that the routes need all the same.
fn off_the_tree() {
    from_p1("into the root down", &[4, 2], &[0, 0], 6);
    from_p1("link 2 down", &[2], &[0], 6);
    from_p1("link 5 down", &[5], &[0], 6);
    from_p1("link 5 down, link 1 cheaper", &[5, 1], &[0, 3], 6);
    from_p1("link 5 down, link 3 cheaper", &[5, 3], &[0, 1], 6);
    let mut run = at_p1();
    run.step("link 0 down", &[0], &[0], 6);
    run.step("link 3 down, which link 5 needs", &[3], &[0], 6);
    run.step("link 0 up", &[0], &[4], 6);
    run.step("link 3 up and dear", &[3], &[9], 6);
    run.step("link 2 down, so link 5 again", &[2], &[0], 6);
}

// Links 0 and 1 lead from 0 to 1, and links 2, 3 and 4 back: any of these will do.
fn links_back() {
    let mut run = Run::on(net(2, 0, &[0, 0, 1, 1, 1], &[1, 1, 0, 0, 0], &[4, 6, 9, 0, 1])).fresh("links back");
    run.step("the dear one down", &[2], &[0], 2);
    run.step("another for the last", &[3, 4], &[8, 0], 2);
    run.step("none left", &[3], &[0], 2);
    run.step("the links cheaper", &[0, 1], &[1, 1], 2);
    run.step("all of them up", &[4, 2, 3], &[1, 1, 1], 2);
    run.step("link 0 down, link 4 down", &[0, 4], &[0, 0], 2);
    run.step("none left, link 0 up", &[0, 2, 3], &[1, 0, 0], 2);
    run.step("one of them, link 0 down", &[0, 3], &[0, 65_535], 2);
}

fn round_trip() {
    let mut run = Run::on(net(3, 0, &[0, 1, 2], &[1, 2, 0], &[1; 3])).fresh("a ring of one-way links");
    run.step("each link cheaper or dearer", &[0, 1, 2], &[2, 3, 4], 3);
    run.ask("no path round it", 2, 6);
}

// ---- refused

// 8 and 9 go row by row, and come before 12.
fn wrong_rows() {
    from_p1("no such link", &[3, 8], &[5, 5], 6);
    from_p1("no link at all", &[65_535], &[5], 6);
    from_p1("a link again", &[3, 3], &[5, 5], 6);
    from_p1("8 before 9", &[3, 8, 3], &[5, 5, 6], 6);
    from_p1("9 before 8", &[3, 3, 8], &[5, 6, 5], 6);
    from_p1("no such link twice", &[8, 8], &[5, 6], 6);
    from_p1("a list too short", &[3, 0], &[5, 2], 3);
    from_p1("too short for no changes", &[], &[], 3);
    from_p1("a list long enough", &[3, 0], &[5, 2], 4);
    from_p1("a list with places to spare", &[3, 0], &[5, 2], 5);
    from_p1("8 before 12", &[9], &[5], 0);
    from_p1("9 before 12", &[1, 1], &[5, 5], 3);
}

// P1's tree and a table, to each of the jobs; every refusal is told where something else is wrong too.
fn with_table(name: &str, nodes: usize, root: usize, starts: &[u16], ends: &[u16]) {
    let run = Run::on(net(nodes, root, starts, ends, &COSTS)).fresh(name);
    let (p1, unfit) = (p1_with(&[]), p1_with(&[(1, 9, 9, 9)]));
    run.with(&p1).step(name, &[3], &[5], 6);
    run.with(&unfit).step(name, &[3, 3], &[5, 5], 0);
    run.with(&p1).ask(name, 3, 6);
    run.with(&unfit).ask(name, 300, 0);
}

fn wrong_sizes() {
    with_table("0 nodes", 0, 0, &STARTS, &ENDS);
    with_table("257 nodes", 257, 0, &STARTS, &ENDS);
    with_table("root at the count", 4, 4, &STARTS, &ENDS);
    with_table("a start too few", 4, 0, &[0; 7], &ENDS);
    with_table("an end too few", 4, 0, &STARTS, &[0; 7]);
    with_table("a cost too many", 4, 0, &[0; 7], &[0; 7]);
    with_table("3 nodes only", 3, 0, &STARTS, &ENDS);
}

fn wrong_links() {
    let falling = [0, 0, 1, 0, 2, 2, 2, 3];
    let to_itself = [1, 2, 0, 2, 2, 1, 3, 2];
    with_table("a start too high", 4, 0, &[0, 0, 1, 1, 2, 2, 2, 4], &ENDS);
    with_table("a start that falls", 4, 0, &falling, &ENDS);
    with_table("an end too high", 4, 0, &STARTS, &[1, 2, 4, 2, 0, 1, 3, 2]);
    with_table("a link to itself", 4, 0, &STARTS, &to_itself);
    with_table("4 behind 5", 4, 0, &falling, &to_itself);
}

// A tree, to an update and a path; 6 is told where something else is wrong too.
fn with_tree(name: &str, tree: Tree) {
    let run = at_p1().with(&tree);
    run.clone().step(name, &[3], &[5], 6);
    run.clone().step(name, &[8], &[5], 0);
    run.ask(name, 3, 6);
    run.ask(name, 4, 0);
}

fn wrong_trees() {
    with_tree("an empty tree", Tree::empty());
    with_tree("P2's tree", p1_with(&[(1, 2, 0, 0), (2, 7, 3, 0), (3, 8, 6, 0)]));
    with_tree("node 2 nearer", p1_with(&[(2, 5, 3, 0)]));
    with_tree("node 3 with another first", p1_with(&[(3, 7, 6, 1)]));
    with_tree("node 255 reached", p1_with(&[(255, 8, NO_LINK, NO_LINK)]));
    with_tree("node 2 at the top", p1_with(&[(2, u32::MAX, 3, 0), (3, 0, 6, 0)]));
}

// ---- paths

fn paths() {
    let run = at_p1();
    run.ask("path to the root", 0, 6);
    run.ask("path to the root, no list", 0, 0);
    run.ask("path to 1", 1, 6);
    run.ask("path to 2", 2, 6);
    run.ask("path to 3", 3, 6);
    run.ask("just long enough for 1", 1, 1);
    run.ask("too short for 1", 1, 0);
    run.ask("just long enough for 3", 3, 3);
    run.ask("too short for 3", 3, 2);
    run.ask("asked at the count", 4, 6);
    run.ask("asked past all rows", 256, 6);
    run.ask("asked as far as a word goes", usize::MAX, 6);
    run.ask("10 before 12", 4, 0);
}

fn unreached() {
    let mut run = at_p1();
    run.step("link 6 down", &[6], &[0], 4);
    run.ask("path to 3", 3, 6);
    run.ask("11 before 12", 3, 0);
    run.ask("path to 2 still", 2, 6);
}

// ---- long batches, tables and paths

// So many links from 0 to 1, and one back.
fn beside(links: usize) -> Network {
    Network::with_links(2, 0, std::iter::repeat((0, 1, 7)).take(links).chain([(1, 0, 7)]))
}

// A row for each of the first links, but row 255 names the link `other`.
fn rows(count: u16, other: u16) -> Vec<u16> {
    (0..count).map(|row| if row == 255 { other } else { row }).collect()
}

fn many_rows() {
    let mut run = Run::long(beside(300), 1).fresh("300 links and one back");
    let unfit = with_rows(run.tree.clone(), &[(1, 8, 0, 0)]);
    run.step("257 rows", &rows(257, 255), &[9; 257], 2);
    run.with(&unfit).step("6 before 7", &rows(257, 255), &[9; 257], 2);
    run.step("7 before 9 and 12", &rows(257, 0), &[9; 257], 1);
    run.step("256 rows", &rows(256, 255), &[9; 256], 2);
    run.step("8 in row 255", &rows(256, 301), &[9; 256], 2);
    run.step("9 in row 255", &rows(256, 0), &[9; 256], 2);
    run.step("link 299 named", &rows(256, 299), &[5; 256], 2);
    run.step("the one back down", &[300], &[0], 2);
}

fn too_many_links() {
    let run = Run::long(beside(4096), 1).fresh("4097 links");
    let mut run = run.with(&with_rows(Tree::empty(), &[(0, 0, NO_LINK, NO_LINK), (1, 7, 0, 0)]));
    run.step("4097 links", &[0], &[8], 2);
    run.ask("4097 links", 1, 6);
}

fn along_chain() {
    let mut run = Run::long(chain(), 255).fresh("chain");
    run.long_ask("chain's path", 255);
    run.long_ask("a list too short for it", 254);
    run.step("link 0 to 1", &[0], &[1], 256);
    run.step("link 0 dear", &[0], &[65_535], 256);
    run.step("link 0 down", &[0], &[0], 256);
    run.step("link 0 up", &[0], &[65_535], 256);
    run.step("the chain's middle without a link back", &[255], &[0], 256);
}

pub fn run() {
    pier_cases();
    lone_node();
    quiet_batches();
    apart_and_together();
    parallel();
    fork();
    dear();
    root_3();
    link_back();
    off_the_tree();
    links_back();
    round_trip();
    wrong_rows();
    wrong_sizes();
    wrong_links();
    wrong_trees();
    paths();
    unreached();
    many_rows();
    too_many_links();
    along_chain();
}
