// Links both ways: their order, their numbers, and that routes need them.
use routes::{Change, Network, Refusal, Tree};

fn between(net: &Network, start: u16, end: u16) -> Vec<u16> {
    net.links_between(start, end).collect()
}

#[test]
fn the_pier_network_has_its_numbers() {
    let pairs = Network::with_pairs(4, 0, [(0, 1, 4, 4), (0, 2, 7, 7), (1, 2, 2, 2), (2, 3, 1, 1)]);
    let links = [(0, 1, 4), (0, 2, 7), (1, 0, 4), (1, 2, 2), (2, 0, 7), (2, 1, 2), (2, 3, 1), (3, 2, 1)];
    assert_eq!(pairs, Network::with_links(4, 0, links));
}

// However the pairs are given, the starts never fall, and each pair has its two links.
#[test]
fn pairs_in_any_order() {
    let pairs = (0..2_000u32).map(|k| {
        let (a, b) = (k * 7_919 % 256, k * 104_729 % 255);
        (a as u16, if b < a { b } else { b + 1 } as u16, 1 + k as u16, 2_001 + k as u16)
    });
    let net = Network::with_pairs(256, 3, pairs.clone());
    assert_eq!((net.judge(), net.starts.len()), (Ok(()), 4_000));
    for (a, b, there, back) in pairs {
        let costs = |start, end| between(&net, start, end).into_iter().map(|link| net.costs[link as usize]);
        assert!(costs(a, b).any(|cost| cost == there) && costs(b, a).any(|cost| cost == back));
    }
}

#[test]
fn parallel_pairs_keep_their_order() {
    let net = Network::with_pairs(2, 0, [(0, 1, 5, 6), (1, 0, 7, 8), (0, 1, 9, 10)]);
    assert_eq!((net.starts.as_slice(), net.costs.as_slice()), (&[0, 0, 0, 1, 1, 1][..], &[5, 8, 9, 6, 7, 10][..]));
    assert_eq!((between(&net, 0, 1), between(&net, 1, 0)), (vec![0, 1, 2], vec![3, 4, 5]));
    assert_eq!((between(&net, 1, 1), between(&net, 7, 0)), (vec![], vec![]));
}

#[test]
fn wrong_pairs_are_judged_as_links_are() {
    assert_eq!(Network::with_pairs(2, 0, [(1, 1, 5, 5)]).judge(), Err(Refusal::WrongEnds { link: 0 }));
    assert_eq!(Network::with_pairs(2, 0, [(0, 1, 5, 5), (1, 2, 5, 5)]).judge(), Err(Refusal::WrongEnds { link: 2 }));
    let many = |pairs: u16| Network::with_pairs(2, 0, (0..pairs).map(|_| (0, 1, 5, 5)));
    assert_eq!((many(2_048).judge(), many(2_049).judge()), (Ok(()), Err(Refusal::WrongColumns)));
    assert_eq!(Network::with_pairs(1, 0, []).judge(), Ok(()));
}

// A link goes down and comes up with its link back, whatever that costs, and any of several will do.
#[test]
fn a_route_needs_a_link_back() {
    let mut net = Network::with_pairs(2, 0, [(0, 1, 5, 0)]);
    let mut tree = Tree::build(&net).unwrap();
    let mut step = |link, cost| {
        let changed = tree.update(&mut net, &[Change { link, cost }]).unwrap();
        (changed, tree.distance(1))
    };
    assert_eq!(step(1, 65_535), (vec![1], Some(5)));
    assert_eq!(step(1, 1), (vec![], Some(5)));
    assert_eq!(step(1, 0), (vec![1], None));
    assert_eq!(step(0, 4), (vec![], None));

    let mut net = Network::with_links(2, 0, [(0, 1, 5), (1, 0, 6), (1, 0, 7)]);
    let mut tree = Tree::build(&net).unwrap();
    assert_eq!(tree.update(&mut net, &[Change { link: 1, cost: 0 }]), Ok(vec![]));
    assert_eq!(tree.update(&mut net, &[Change { link: 2, cost: 0 }]), Ok(vec![1]));
}
