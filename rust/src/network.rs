/// A node count, a root and the links, which stand in three columns; a link's number is its place. Any numbers may stand
/// in it: every job judges it.
///
/// Each direction is a link of its own, and a route takes a link only where the far end can answer: a link is usable when
/// its cost isn't 0 and some link from its end to its start has a cost that isn't 0.
///
/// ```
/// use routes::{Network, Refusal, Tree};
///
/// let one_way = Network::with_links(2, 0, [(0, 1, 7)]);
/// assert_eq!(Tree::build(&one_way)?.distance(1), None);
/// let both_ways = Network::with_pairs(2, 0, [(0, 1, 7, 9)]);
/// assert_eq!(Tree::build(&both_ways)?.distance(1), Some(7));
///
/// assert_eq!(Network::with_links(2, 0, [(0, 1, 7), (1, 0, 7)]).judge(), Ok(()));
/// assert_eq!(Network::with_links(2, 2, [(0, 1, 7)]).judge(), Err(Refusal::WrongRoot));
/// assert_eq!(Network::with_links(2, 0, [(1, 0, 7), (0, 1, 7)]).judge(), Err(Refusal::WrongOrder { link: 1 }));
/// # Ok::<(), Refusal>(())
/// ```
#[derive(Debug, Clone, PartialEq, Eq)]
pub struct Network {
    /// How many nodes there are; they are numbered from 0.
    pub nodes: usize,
    /// Where all routes begin.
    pub root: usize,
    /// The node that each link leaves. It never falls from one link to the next.
    pub starts: Vec<u16>,
    /// The node that each link enters.
    pub ends: Vec<u16>,
    /// What each link costs; a link of cost 0 is down.
    pub costs: Vec<u16>,
}

/// A row of a batch: a link, and what it costs from now on.
#[derive(Debug, Clone, Copy, PartialEq, Eq)]
pub struct Change {
    /// The link's number.
    pub link: u16,
    /// Its new cost; 0 takes it down.
    pub cost: u16,
}

impl Network {
    /// A network of the links given, each by its start, its end and its cost, in the order in which they are given: that
    /// has to be a rising order of the starts, and [`Network::judge`] tells where it isn't.
    pub fn with_links(nodes: usize, root: usize, links: impl IntoIterator<Item = (u16, u16, u16)>) -> Network {
        let mut net = Network { nodes, root, starts: Vec::new(), ends: Vec::new(), costs: Vec::new() };
        for (start, end, cost) in links {
            net.starts.push(start);
            net.ends.push(end);
            net.costs.push(cost);
        }
        net
    }

    /// A network of links both ways: of each pair of nodes the link from the first to the second, by its cost, and the link
    /// back, by its own. The links are put in rising order of their starts, those of one start in the order of their pairs;
    /// so the links of a pair get numbers that [`Network::links_between`] tells.
    ///
    /// ```
    /// use routes::Network;
    ///
    /// let net = Network::with_pairs(3, 0, [(0, 1, 4, 6), (0, 2, 7, 7), (1, 2, 2, 3)]);
    /// let links = [(0, 1, 4), (0, 2, 7), (1, 0, 6), (1, 2, 2), (2, 0, 7), (2, 1, 3)];
    /// assert_eq!(net, Network::with_links(3, 0, links));
    /// ```
    pub fn with_pairs(nodes: usize, root: usize, pairs: impl IntoIterator<Item = (u16, u16, u16, u16)>) -> Network {
        let both = |(a, b, there, back)| [(a, b, there), (b, a, back)];
        let mut links: Vec<(u16, u16, u16)> = pairs.into_iter().flat_map(both).collect();
        links.sort_by_key(|link| link.0);
        Network::with_links(nodes, root, links)
    }

    /// The numbers of the links from one node to another, which may be several or none.
    ///
    /// ```
    /// use routes::Network;
    ///
    /// let net = Network::with_pairs(3, 0, [(0, 1, 4, 6), (0, 1, 5, 5), (1, 2, 2, 3)]);
    /// assert_eq!(net.links_between(1, 0).collect::<Vec<u16>>(), [2, 3]);
    /// assert_eq!(net.links_between(0, 2).next(), None);
    /// ```
    pub fn links_between(&self, start: u16, end: u16) -> impl Iterator<Item = u16> + '_ {
        let links = self.starts.iter().zip(&self.ends).zip(0..);
        links.filter(move |(ends, _)| *ends == (&start, &end)).map(|(_, link)| link)
    }
}
