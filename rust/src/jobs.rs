// The jobs as methods of what they work on. What a job writes is the caller's, and a list is handed back.
use crate::ffi::Batch;
use crate::{lent, Change, Network, Refusal, Tree, NODES, ROWS};

impl Network {
    /// Judges the table of links: refusals 1 to 5.
    pub fn judge(&self) -> Result<(), Refusal> {
        lent::judge_links(self).refusal()
    }
}

impl Tree {
    /// A fresh tree: every reached node but the root takes its tight link of smallest number. Refusals 1 to 5.
    ///
    /// ```
    /// use routes::{Network, Refusal, Tree};
    ///
    /// let tree = Tree::build(&Network::with_pairs(3, 0, [(0, 1, 4, 4), (0, 1, 4, 4)]))?;
    /// assert_eq!((tree.distance(1), tree.parent(1), tree.first(1)), (Some(4), Some(0), Some(0)));
    /// assert_eq!(tree.distance(2), None);
    /// assert_eq!(Tree::build(&Network::with_links(0, 0, [])), Err(Refusal::WrongNodeCount));
    /// # Ok::<(), Refusal>(())
    /// ```
    pub fn build(net: &Network) -> Result<Tree, Refusal> {
        let mut tree = Tree::empty();
        lent::build(net, &mut tree).refusal()?;
        Ok(tree)
    }

    /// Whether the tree fits the network: refusals 1 to 6.
    ///
    /// ```
    /// use routes::{Network, Refusal, Tree};
    ///
    /// let net = Network::with_pairs(2, 0, [(0, 1, 4, 4)]);
    /// let mut tree = Tree::build(&net)?;
    /// assert_eq!(tree.judge(&net), Ok(()));
    /// tree.distances[1] = 3;
    /// assert_eq!(tree.judge(&net), Err(Refusal::TreeUnfit { node: 1 }));
    /// # Ok::<(), Refusal>(())
    /// ```
    pub fn judge(&self, net: &Network) -> Result<(), Refusal> {
        lent::judge_tree(net, self).refusal()
    }

    /// Writes a batch's costs into the network, brings the tree up to them, and hands back the changed nodes, in rising
    /// order. All rows take effect together. A node whose parent link is still tight keeps it. Refusals 1 to 9, which
    /// leave the network and the tree as they were. What is handed back is all that is allocated.
    ///
    /// ```
    /// use routes::{Change, Network, Refusal, Tree};
    ///
    /// let mut net = Network::with_links(2, 0, [(0, 1, 4), (0, 1, 6), (1, 0, 5)]);
    /// let mut tree = Tree::build(&net)?;
    /// assert_eq!(tree.update(&mut net, &[Change { link: 0, cost: 0 }])?, [1]);
    /// assert_eq!(tree.parent(1), Some(1));
    ///
    /// // Link 2 is the one link back: without it no link to node 1 is usable.
    /// assert_eq!(tree.update(&mut net, &[Change { link: 2, cost: 0 }])?, [1]);
    /// assert_eq!(tree.distance(1), None);
    ///
    /// let twice = [Change { link: 1, cost: 2 }, Change { link: 1, cost: 3 }];
    /// assert_eq!(tree.update(&mut net, &twice), Err(Refusal::RowNamesLinkAgain { row: 1, earlier: 0 }));
    /// assert_eq!(net.costs, [0, 6, 0]);
    /// # Ok::<(), Refusal>(())
    /// ```
    pub fn update(&mut self, net: &mut Network, batch: &[Change]) -> Result<Vec<u16>, Refusal> {
        // As columns. One row over the limit is enough to tell that there are too many.
        let (mut links, mut costs) = ([0; ROWS + 1], [0; ROWS + 1]);
        let rows = batch.len().min(ROWS + 1);
        for (place, row) in batch[..rows].iter().enumerate() {
            (links[place], costs[place]) = (row.link, row.cost);
        }
        let mut list = [0; NODES];
        let told = lent::update(net, self, Batch { links: &links[..rows], costs: &costs[..rows] }, &mut list);
        told.refusal()?;
        Ok(list[..told.count].to_vec())
    }

    /// The links from the root to a node, in travel order. Refusals 1 to 6, 10 and 11. What is handed back is all that is
    /// allocated.
    ///
    /// ```
    /// use routes::{Network, Refusal, Tree};
    ///
    /// let net = Network::with_pairs(4, 0, [(0, 1, 4, 4), (1, 2, 2, 2)]);
    /// let tree = Tree::build(&net)?;
    /// assert_eq!(tree.path(&net, 2)?, [0, 2]);
    /// assert_eq!(tree.path(&net, 0)?, []);
    /// assert_eq!(tree.path(&net, 3), Err(Refusal::AskedUnreached));
    /// assert_eq!(tree.path(&net, 4), Err(Refusal::AskedNoNode));
    /// # Ok::<(), Refusal>(())
    /// ```
    pub fn path(&self, net: &Network, node: usize) -> Result<Vec<u16>, Refusal> {
        let mut list = [0; NODES];
        let told = lent::path(net, self, node, &mut list);
        told.refusal()?;
        Ok(list[..told.count].to_vec())
    }
}
