// The pier network: a fresh tree, two batches, a path, a link back that goes down, and a refusal.
//
//     make example
use routes::{Change, Network, Refusal, Tree};

fn show(what: &str, tree: &Tree) {
    println!("{what}");
    for node in 0..4 {
        let link = |l: Option<u16>| l.map_or("-".to_string(), |l| l.to_string());
        let distance = tree.distance(node).map_or("-".to_string(), |d| d.to_string());
        println!(
            "  node {node}: distance {distance}, parent {}, first {}",
            link(tree.parent(node)),
            link(tree.first(node))
        );
    }
}

fn main() -> Result<(), Refusal> {
    // Pairs of nodes, each with what it costs there and back; the links are numbered in the order of their starts.
    let mut net = Network::with_pairs(4, 0, [(0, 1, 4, 4), (0, 2, 7, 7), (1, 2, 2, 2), (2, 3, 1, 1)]);
    let mut tree = Tree::build(&net)?;
    show("fresh", &tree);
    let moved = tree.update(&mut net, &[Change { link: 3, cost: 5 }, Change { link: 0, cost: 2 }])?;
    show(&format!("link 3 to 5 with link 0 to 2: changed {moved:?}"), &tree);
    let moved = tree.update(&mut net, &[Change { link: 3, cost: 6 }])?;
    show(&format!("link 3 to 6: changed {moved:?}"), &tree);
    println!("the path to node 3: links {:?}", tree.path(&net, 3)?);
    let back: Vec<u16> = net.links_between(3, 2).collect();
    let moved = tree.update(&mut net, &[Change { link: back[0], cost: 0 }])?;
    show(&format!("the link back from 3 to 2 down, links {back:?}: changed {moved:?}"), &tree);
    let refusal = tree.update(&mut net, &[Change { link: 8, cost: 1 }]).unwrap_err();
    println!("refusal {}: {refusal}", refusal.number());
    Ok(())
}
