// What the jobs are measured on: made networks with made batches, on which the product and both plain programs first have
// to agree.
use bench::made::{self, Dice, Kind, Shape};
use bench::plain::Plain;
use bench::product::{self, Columns};
use routes::{Change, Network, Tree, NODES, UNREACHED};

// Each kind of batch, how many of it each network gets, and what it is called.
pub const BATCHES: [(Kind, usize, &str); 3] = [
    (Kind::Raised, 16, "one tree link raised"),
    (Kind::Lowered, 16, "one tree link lowered"),
    (Kind::Mixed, 4, "32 mixed rows"),
];

// A network, the tree that the plain programs make of it, and batches of each kind.
pub struct Given {
    pub net: Network,
    pub plains: [Plain; 2],
    pub tree: Tree,
    pub batches: Vec<Vec<Vec<Change>>>,
}

impl Given {
    pub fn made(shape: Shape, links: usize, seed: u64) -> Given {
        let net = made::network(shape, links, seed);
        let plains = [Plain::Simple, Plain::packed(&net)];
        let tree = plains[0].rebuild(&net);
        let mut dice = Dice::new(100 + seed);
        let batches = BATCHES
            .iter()
            .map(|&(kind, count, _)| (0..count).map(|_| made::batch(kind, &net, &tree, &mut dice)).collect())
            .collect();
        let given = Given { net, plains, tree, batches };
        given.agree();
        given
    }

    pub fn deepest(&self) -> usize {
        let mut list = [0; NODES];
        let reached = (0..NODES).filter(|&node| self.tree.distances[node] != UNREACHED);
        reached.max_by_key(|&node| product::path(&self.net, &self.tree, node, &mut list)).expect("the root is reached")
    }

    fn agree(&self) {
        let mut tree = Tree::empty();
        product::build(&self.net, &mut tree);
        for plain in &self.plains {
            assert!(tree == plain.rebuild(&self.net), "a fresh build differs from a plain rebuild");
        }
        self.batches.iter().flatten().for_each(|batch| self.agree_on(batch));
    }

    fn agree_on(&self, batch: &[Change]) {
        let (mut net, mut tree, mut list) = (self.net.clone(), self.tree.clone(), [0; NODES]);
        let count = product::update(&mut net, &mut tree, &Columns::of(batch), &mut list);
        for plain in &self.plains {
            let (mut plain_net, mut plain_tree) = (self.net.clone(), self.tree.clone());
            let plain_list = plain.update(&mut plain_net, &mut plain_tree, batch);
            assert!(net == plain_net && tree == plain_tree, "an update differs from a plain program's");
            assert_eq!(list[..count], plain_list[..], "the changed nodes differ");
        }
    }
}
