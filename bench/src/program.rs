// The program `routes` against the plain ones: all as processes, in turn, over the same bytes. What counts is the time that
// a process had a processor, as Linux tells it. What it takes for an empty stream is taken off.
use crate::row::Row;
use bench::day;
use bench::made::{self, Shape};
use std::fs::{read_to_string, File};
use std::io::Read;
use std::path::{Path, PathBuf};
use std::process::{Command, Stdio};

const STREAMS: u64 = 3;

pub const NAME: &str = "`routes` on a day's stream";

pub struct Programs {
    pub routes: PathBuf,
    pub plain: PathBuf,
    pub folder: PathBuf,
}

// The nanoseconds that a process had a processor. They stand once it has ended, until someone waits for it.
fn time_of(process: u32) -> f64 {
    let has_ended = || {
        let state = read_to_string(format!("/proc/{process}/stat")).expect("Linux tells of a process");
        state.rsplit_once(") ").is_some_and(|(_, state)| state.starts_with('Z'))
    };
    while !has_ended() {
        std::thread::yield_now();
    }
    let times = read_to_string(format!("/proc/{process}/schedstat")).expect("Linux tells of a process");
    times.split_whitespace().next().and_then(|time| time.parse().ok()).expect("a number")
}

// A program, and the words that it is started with.
type Called<'a> = (&'a Path, &'a [&'a str]);

// What a program prints for a stream, and its time.
fn run((program, words): Called, stream: &Path) -> (Vec<u8>, f64) {
    let input = File::open(stream).expect("the stream was written");
    let mut child = Command::new(program)
        .args(words)
        .stdin(input)
        .stdout(Stdio::piped())
        .stderr(Stdio::null())
        .spawn()
        .expect("the program starts");
    let mut printed = Vec::new();
    child.stdout.take().expect("it was asked for").read_to_end(&mut printed).expect("the program's lines can be read");
    let time = time_of(child.id());
    child.wait().expect("the program has ended");
    (printed, time)
}

impl Programs {
    // The two plain ones, then `routes`.
    fn called(&self) -> [Called<'_>; 3] {
        [(&self.plain, &["simple"]), (&self.plain, &["packed"]), (&self.routes, &[])]
    }

    fn write(&self, name: &str, bytes: &[u8]) -> PathBuf {
        std::fs::create_dir_all(&self.folder).expect("a folder for the bench can be made");
        let path = self.folder.join(name);
        std::fs::write(&path, bytes).expect("the bench's folder takes a file");
        path
    }

    // The best times over a stream, less those over an empty one: the faster plain program's, and that of `routes`. Who
    // begins moves on from round to round.
    fn times(&self, bytes: &[u8], rounds: usize) -> (f64, f64) {
        let streams = [self.write("empty", &[]), self.write("day", bytes)];
        let programs = self.called();
        let [simple, packed, product] = programs.map(|program| run(program, &streams[1]).0);
        assert!(product == simple && product == packed, "`routes` prints other lines than the plain programs");
        assert!(!product.is_empty(), "a day's stream prints lines");
        let mut best = [[f64::MAX; 2]; 3];
        for round in 0..rounds {
            for place in 0..programs.len() {
                let who = (place + round) % programs.len();
                for (stream, best) in streams.iter().zip(&mut best[who]) {
                    *best = best.min(run(programs[who], stream).1);
                }
            }
        }
        let [simple, packed, product] = best.map(|[empty, full]| full - empty);
        (simple.min(packed), product)
    }

    /// The row of the program.
    pub fn measure(&self, shape: Shape, links: usize, rounds: usize) -> Row {
        let stream = |seed| day::stream(&made::network(shape, links, seed), 1_000 + seed);
        Row::of(NAME, (1..=STREAMS).map(|seed| self.times(&stream(seed), rounds)))
    }
}
