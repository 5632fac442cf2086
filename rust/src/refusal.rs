use std::fmt;

/// Why a call was refused. A refused call has changed nothing.
///
/// ```
/// use routes::{Network, Refusal};
///
/// let net = Network::with_links(3, 0, [(0, 1, 5), (1, 1, 5)]);
/// let refusal = net.judge().unwrap_err();
/// assert_eq!(refusal, Refusal::WrongEnds { link: 1 });
/// assert_eq!((refusal.number(), refusal.value()), (4, 1));
/// assert_eq!(refusal.to_string(), "link 1 starts or ends at no node, or leads from a node to itself");
/// ```
#[derive(Debug, Clone, Copy, PartialEq, Eq, Hash)]
#[non_exhaustive]
pub enum Refusal {
    /// 1: the node count is 0 or over 256.
    WrongNodeCount,
    /// 2: the root isn't below the node count.
    WrongRoot,
    /// 3: the columns are of unequal length, or there are over 4,096 links.
    WrongColumns,
    /// 4: a link's start or end isn't below the node count, or they are the same.
    WrongEnds {
        /// The first such link.
        link: u16,
    },
    /// 5: a link's start is below the one before it.
    WrongOrder {
        /// The first such link.
        link: u16,
    },
    /// 6: the tree doesn't fit the network.
    TreeUnfit {
        /// The smallest node that breaks a rule.
        node: u16,
    },
    /// 7: the batch has over 256 rows.
    TooManyRows,
    /// 8: a row names no link of the table.
    RowNamesNoLink {
        /// The first bad row.
        row: u16,
    },
    /// 9: a row names a link of an earlier row.
    RowNamesLinkAgain {
        /// The first bad row.
        row: u16,
        /// The earliest row with the same link.
        earlier: u16,
    },
    /// 10: the asked node isn't below the node count.
    AskedNoNode,
    /// 11: the asked node is unreached.
    AskedUnreached,
    /// 12: the lent list is too short. It doesn't arise where a list is handed back instead of lent.
    ListTooShort,
    /// A number that this crate has no name for. No job of the archive that it was written with gives one.
    Unnamed {
        /// The number.
        number: u16,
        /// The values beside it.
        values: [u16; 2],
    },
}

impl Refusal {
    /// The refusal's number.
    pub fn number(self) -> u16 {
        match self {
            Refusal::WrongNodeCount => 1,
            Refusal::WrongRoot => 2,
            Refusal::WrongColumns => 3,
            Refusal::WrongEnds { .. } => 4,
            Refusal::WrongOrder { .. } => 5,
            Refusal::TreeUnfit { .. } => 6,
            Refusal::TooManyRows => 7,
            Refusal::RowNamesNoLink { .. } => 8,
            Refusal::RowNamesLinkAgain { .. } => 9,
            Refusal::AskedNoNode => 10,
            Refusal::AskedUnreached => 11,
            Refusal::ListTooShort => 12,
            Refusal::Unnamed { number, .. } => number,
        }
    }

    /// The link, node or row that the refusal carries, and 0 where it carries none.
    pub fn value(self) -> u16 {
        match self {
            Refusal::WrongEnds { link } | Refusal::WrongOrder { link } => link,
            Refusal::TreeUnfit { node } => node,
            Refusal::RowNamesNoLink { row } | Refusal::RowNamesLinkAgain { row, .. } => row,
            Refusal::Unnamed { values, .. } => values[0],
            _ => 0,
        }
    }

    /// The earlier row that refusal 9 carries beside its own, and 0 with every other.
    ///
    /// ```
    /// use routes::Refusal;
    ///
    /// let refusal = Refusal::RowNamesLinkAgain { row: 2, earlier: 0 };
    /// assert_eq!((refusal.number(), refusal.value(), refusal.second()), (9, 2, 0));
    /// assert_eq!(refusal.to_string(), "row 2 names the link that row 0 names");
    /// ```
    pub fn second(self) -> u16 {
        match self {
            Refusal::RowNamesLinkAgain { earlier, .. } => earlier,
            Refusal::Unnamed { values, .. } => values[1],
            _ => 0,
        }
    }

    /// The refusal that a number and the two values beside it mean: none for 0, which is acceptance.
    ///
    /// ```
    /// use routes::Refusal;
    ///
    /// assert_eq!(Refusal::told(0, [0, 0]), None);
    /// assert_eq!(Refusal::told(8, [3, 0]), Some(Refusal::RowNamesNoLink { row: 3 }));
    /// assert_eq!(Refusal::told(999, [7, 0]).map(|refusal| (refusal.number(), refusal.value())), Some((999, 7)));
    /// ```
    pub fn told(number: u16, values: [u16; 2]) -> Option<Refusal> {
        let [value, second] = values;
        Some(match number {
            0 => return None,
            1 => Refusal::WrongNodeCount,
            2 => Refusal::WrongRoot,
            3 => Refusal::WrongColumns,
            4 => Refusal::WrongEnds { link: value },
            5 => Refusal::WrongOrder { link: value },
            6 => Refusal::TreeUnfit { node: value },
            7 => Refusal::TooManyRows,
            8 => Refusal::RowNamesNoLink { row: value },
            9 => Refusal::RowNamesLinkAgain { row: value, earlier: second },
            10 => Refusal::AskedNoNode,
            11 => Refusal::AskedUnreached,
            12 => Refusal::ListTooShort,
            _ => Refusal::Unnamed { number, values },
        })
    }
}

impl fmt::Display for Refusal {
    fn fmt(&self, f: &mut fmt::Formatter<'_>) -> fmt::Result {
        match self {
            Refusal::WrongNodeCount => write!(f, "the node count is 0 or over 256"),
            Refusal::WrongRoot => write!(f, "the root isn't below the node count"),
            Refusal::WrongColumns => write!(f, "the columns are of unequal length, or there are over 4,096 links"),
            Refusal::WrongEnds { link } => {
                write!(f, "link {link} starts or ends at no node, or leads from a node to itself")
            }
            Refusal::WrongOrder { link } => write!(f, "link {link} has a start below that of the link before it"),
            Refusal::TreeUnfit { node } => {
                write!(f, "the tree doesn't fit the network: node {node} is the first that breaks a rule")
            }
            Refusal::TooManyRows => write!(f, "the batch has over 256 rows"),
            Refusal::RowNamesNoLink { row } => write!(f, "row {row} names no link of the network"),
            Refusal::RowNamesLinkAgain { row, earlier } => {
                write!(f, "row {row} names the link that row {earlier} names")
            }
            Refusal::AskedNoNode => write!(f, "the asked node isn't below the node count"),
            Refusal::AskedUnreached => write!(f, "the asked node is unreached"),
            Refusal::ListTooShort => write!(f, "the lent list is too short"),
            Refusal::Unnamed { number, values: [value, second] } => {
                write!(f, "refusal {number}, which carries {value} and {second}")
            }
        }
    }
}

impl std::error::Error for Refusal {}
