// The smallest case found that still fails: parts are left out, and numbers made small, as long as it fails.
use crate::case::{Case, Entry};
use std::time::{Duration, Instant};

// Leaves out links, and renames the others where rows and edits name them.
fn without_links(case: &Case, from: usize, count: usize) -> Case {
    let mut small = case.clone();
    for column in [&mut small.starts, &mut small.ends, &mut small.costs] {
        let least = from.min(column.len());
        let most = (from + count).min(column.len());
        column.drain(least..most);
    }
    let gone = |link: usize| (from..from + count).contains(&link);
    let renamed = |link: usize| if link >= from + count && link < case.starts.len() { link - count } else { link };
    for batch in &mut small.batches {
        for row in (0..batch.links.len().min(batch.costs.len())).rev() {
            let link = batch.links[row] as usize;
            if gone(link) {
                batch.links.remove(row);
                batch.costs.remove(row);
            } else {
                batch.links[row] = renamed(link) as u16;
            }
        }
    }
    for edit in small.edits.iter_mut().filter(|edit| edit.entry != Entry::Dist) {
        edit.value = renamed(edit.value as usize) as u32;
    }
    small
}

// Leaves out a node with its links, and renames those above it.
fn without_node(case: &Case, node: usize) -> Case {
    let mut small = case.clone();
    for link in (0..case.starts.len().min(case.ends.len())).rev() {
        if case.starts[link] as usize == node || case.ends[link] as usize == node {
            small = without_links(&small, link, 1);
        }
    }
    let renamed = |other: usize| if other > node { other - 1 } else { other };
    for end in small.starts.iter_mut().chain(&mut small.ends) {
        *end = renamed(*end as usize) as u16;
    }
    small.edits.retain(|edit| edit.node != node);
    small.edits.iter_mut().for_each(|edit| edit.node = renamed(edit.node));
    small.asks.iter_mut().for_each(|ask| ask.node = renamed(ask.node));
    Case { nodes: case.nodes - 1, root: renamed(case.root), ..small }
}

// Each part of a list that may be left out: halves, quarters, down to single places.
fn parts(len: usize) -> impl Iterator<Item = (usize, usize)> {
    let sizes = std::iter::successors(Some(len.max(1)), |size| (*size > 1).then(|| size.div_ceil(2)));
    sizes.flat_map(move |size| (0..len).step_by(size).map(move |from| (from, size.min(len - from))))
}

type Step = Box<dyn Fn(&Case) -> Case>;

// A step that makes one thing smaller.
fn step(change: impl Fn(&mut Case) + 'static) -> Step {
    Box::new(move |case| {
        let mut small = case.clone();
        change(&mut small);
        small
    })
}

// Parts of what is done with the table.
fn less_done(case: &Case) -> Vec<Step> {
    let mut steps = Vec::new();
    steps.extend(
        parts(case.batches.len()).map(|(at, count)| step(move |case| drop(case.batches.drain(at..at + count)))),
    );
    steps.extend(parts(case.asks.len()).map(|(at, count)| step(move |case| drop(case.asks.drain(at..at + count)))));
    steps.extend(parts(case.edits.len()).map(|(at, count)| step(move |case| drop(case.edits.drain(at..at + count)))));
    steps
}

fn fewer_rows(case: &Case) -> Vec<Step> {
    let mut steps = Vec::new();
    for (b, batch) in case.batches.iter().enumerate() {
        for (from, count) in parts(batch.links.len().min(batch.costs.len())) {
            steps.push(step(move |case| {
                case.batches[b].links.drain(from..from + count);
                case.batches[b].costs.drain(from..from + count);
            }));
        }
    }
    steps
}

fn fewer_nodes(case: &Case) -> Vec<Step> {
    let counts = [case.nodes / 2, case.nodes.wrapping_sub(1)];
    let counts = counts.into_iter().filter(|nodes| (1..case.nodes).contains(nodes));
    let mut steps: Vec<Step> = counts.map(|nodes| step(move |case| case.nodes = nodes)).collect();
    for node in (0..case.nodes.min(256)).filter(|node| *node != case.root) {
        steps.push(Box::new(move |case| without_node(case, node)));
    }
    steps
}

// Everything that may be left out or made smaller, the large parts first.
fn smaller(case: &Case) -> Vec<Step> {
    let mut steps = less_done(case);
    for (from, count) in parts(case.starts.len()) {
        steps.push(Box::new(move |case| without_links(case, from, count)));
    }
    steps.extend(fewer_rows(case));
    steps.extend(fewer_nodes(case));
    let dear = (0..case.costs.len()).filter(|link| case.costs[*link] > 1);
    steps.extend(dear.map(|link| step(move |case| case.costs[link] /= 2)));
    steps
}

pub fn smallest(fails: impl Fn(&Case) -> Option<String>, case: &Case) -> (Case, String) {
    let until = Instant::now() + Duration::from_secs(15);
    let mut best = (case.clone(), fails(case).expect("it fails"));
    'again: loop {
        for step in smaller(&best.0) {
            if Instant::now() > until {
                return best;
            }
            let small = step(&best.0);
            if let Some(why) = fails(&small) {
                best = (small, why);
                continue 'again;
            }
        }
        return best;
    }
}
