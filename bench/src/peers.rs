// Other libraries' Dijkstra, each in a program of its own (peers/): it reads the networks from a file, and for each line
// that it is sent it goes over all of them twice and tells, for each, the shorter time on a graph that stands already,
// the shorter one with the graph made from the columns, and the sum of the distances found.
use crate::given::Given;
use crate::row::Row;
use routes::UNREACHED;
use std::fmt::Write as _;
use std::io::{BufRead, BufReader, Write as _};
use std::path::{Path, PathBuf};
use std::process::{Child, ChildStdin, ChildStdout, Command, Stdio};

pub struct Peer {
    name: &'static str,
    program: PathBuf,
    networks: PathBuf,
}

/// The peers that are built.
pub fn built(folder: &Path) -> Vec<Peer> {
    ["Boost", "LEMON", "petgraph"]
        .into_iter()
        .map(|name| Peer { name, program: folder.join(name.to_lowercase()), networks: folder.join("networks") })
        .filter(|peer| peer.program.exists())
        .collect()
}

// For each network a line of its node count, root and link count, then a line for each link.
fn written(given: &[Given]) -> String {
    let mut text = String::new();
    for Given { net, .. } in given {
        writeln!(text, "{} {} {}", net.nodes, net.root, net.starts.len()).expect("a string takes all");
        for ((start, end), cost) in net.starts.iter().zip(&net.ends).zip(&net.costs) {
            writeln!(text, "{start} {end} {cost}").expect("a string takes all");
        }
    }
    text
}

fn sum_of_distances(given: &Given) -> u64 {
    given.tree.distances.iter().filter(|&&distance| distance != UNREACHED).map(|&distance| distance as u64).sum()
}

pub struct Guest {
    name: &'static str,
    child: Child,
    ask: ChildStdin,
    told: BufReader<ChildStdout>,
    sums: Vec<u64>,
    // For each network the best time on a standing graph, and with the graph made.
    best: Vec<[u64; 2]>,
}

impl Peer {
    pub fn over(&self, given: &[Given]) -> Guest {
        std::fs::write(&self.networks, written(given)).expect("the folder of the peers takes a file");
        let mut child = Command::new(&self.program)
            .arg(&self.networks)
            .stdin(Stdio::piped())
            .stdout(Stdio::piped())
            .spawn()
            .expect("a peer starts");
        let ask = child.stdin.take().expect("it was asked for");
        let told = BufReader::new(child.stdout.take().expect("it was asked for"));
        let sums = given.iter().map(sum_of_distances).collect();
        let mut guest = Guest { name: self.name, child, ask, told, sums, best: vec![[u64::MAX; 2]; given.len()] };
        guest.turn();
        guest
    }
}

impl Guest {
    pub fn turn(&mut self) {
        writeln!(self.ask).expect("the peer listens");
        let mut line = String::new();
        self.told.read_line(&mut line).expect("the peer answers");
        let numbers: Vec<u64> = line.split_whitespace().map(|word| word.parse().expect("a number")).collect();
        assert_eq!(numbers.len(), 3 * self.best.len(), "{} tells three numbers for each network", self.name);
        for ((three, best), sum) in numbers.chunks(3).zip(&mut self.best).zip(&self.sums) {
            assert_eq!(three[2], *sum, "{} finds other distances", self.name);
            *best = [best[0].min(three[0]), best[1].min(three[1])];
        }
    }

    /// Its two rows, against the faster plain rebuild's times.
    pub fn rows(mut self, rebuilds: Vec<f64>) -> Vec<Row> {
        drop(self.ask);
        self.child.wait().expect("the peer ends with its input");
        let row = |name: String, which: usize| {
            Row::of(name, rebuilds.iter().zip(&self.best).map(|(&rebuild, best)| (rebuild, best[which] as f64)))
        };
        vec![row(format!("{}, graph standing", self.name), 0), row(format!("{}, graph made", self.name), 1)]
    }
}
