// Compares what the program `routes` prints with what must be printed, byte for byte, stream by stream.
use crate::shorten::smallest;
use crate::{astray, reader, stated, streams};
use front::program::{Compiled, Program};
use reckon::stream::lines;
use records::{to_bytes, to_text};
use std::ops::Range;
use std::path::{Path, PathBuf};
use std::sync::atomic::{AtomicUsize, Ordering};
use std::sync::Mutex;
use std::time::{Duration, Instant};

const THREADS: usize = 2;

// The first line that isn't what is due.
fn difference(program: &dyn Program, stream: &[u8]) -> String {
    let (got, due) = (program.run(stream), lines(stream));
    let (got, due): (Vec<&str>, Vec<&str>) = (got.split('\n').collect(), due.split('\n').collect());
    let at = (0..got.len().max(due.len())).find(|at| got.get(*at) != due.get(*at)).unwrap_or(0);
    let said = |lines: &[&str]| lines.get(at).map_or("nothing".to_string(), |line| format!("{line:?}"));
    format!("line {} is {}, due is {}", at + 1, said(&got), said(&due))
}

// Streams by number, each with its name: those of a list, or made from seeds.
type Maker<'a> = &'a (dyn Fn(usize) -> (String, Vec<u8>) + Sync);

// How many streams end with each refusal, and at 0 those that end with none.
type Endings = [usize; 25];

fn ending(printed: &str) -> usize {
    let last = printed.lines().last().unwrap_or("");
    last.strip_prefix("R ")
        .and_then(|rest| rest.split(' ').next())
        .map_or(0, |number| number.parse().expect("a number"))
}

#[derive(Default)]
struct Listening {
    endings: Endings,
    streams: usize,
}

impl Listening {
    // Compares so many streams on all threads. On a difference it tells the smallest stream found and ends the program.
    fn family(&mut self, program: &dyn Program, name: &str, many: usize, make: Maker) {
        let began = Instant::now();
        let next = AtomicUsize::new(0);
        let first = AtomicUsize::new(usize::MAX);
        let endings = Mutex::new(&mut self.endings);
        let work = || loop {
            let at = next.fetch_add(1, Ordering::Relaxed);
            if at >= many || first.load(Ordering::Relaxed) != usize::MAX {
                return;
            }
            let stream = make(at).1;
            let due = lines(&stream);
            endings.lock().expect("no thread has failed")[ending(&due)] += 1;
            if program.run(&stream) != due {
                first.fetch_min(at, Ordering::Relaxed);
            }
        };
        std::thread::scope(|threads| (0..THREADS).for_each(|_| drop(threads.spawn(work))));
        if first.load(Ordering::Relaxed) != usize::MAX {
            let (which, stream) = make(first.load(Ordering::Relaxed));
            tell(program, name, &which, &stream);
        }
        self.streams += many;
        println!("{name:<44} {many:>8} streams {:>21.1} s", began.elapsed().as_secs_f32());
    }

    fn listed(&mut self, program: &dyn Program, name: &str, list: Vec<(String, Vec<u8>)>) {
        self.family(program, name, list.len(), &|at| list[at].clone());
    }

    fn seeded(&mut self, program: &dyn Program, name: &str, seeds: Range<u64>, make: fn(u64) -> Vec<u8>) {
        let many = (seeds.end - seeds.start) as usize;
        self.family(program, name, many, &|at| {
            let seed = seeds.start + at as u64;
            (format!("seed {seed}"), make(seed))
        });
    }
}

fn tell(program: &dyn Program, name: &str, which: &str, stream: &[u8]) -> ! {
    let small = smallest(program, stream, Duration::from_secs(15));
    let text = to_text(&small);
    assert!(to_bytes(text.as_bytes()).as_ref() == Ok(&small), "the text stands for other bytes");
    println!("DIFFERS in {name}, {which}: {}", difference(program, &small));
    println!("the smallest stream found, {} bytes, as the converter's text:\n{text}", small.len());
    std::process::exit(1);
}

// The stored streams: what is reckoned must be what stands in their .out, and the program must print it too.
fn stored() -> Vec<(String, Vec<u8>)> {
    let folder = Path::new(env!("CARGO_MANIFEST_DIR")).join("../../tests/streams");
    let files = std::fs::read_dir(&folder).unwrap_or_else(|why| panic!("{}: {why}", folder.display()));
    let mut all = Vec::new();
    for file in files.map(|file| file.expect("a file").path()) {
        if file.extension().is_some_and(|extension| extension == "txt") {
            let read = |file: &Path| std::fs::read(file).unwrap_or_else(|why| panic!("{}: {why}", file.display()));
            let stream = to_bytes(&read(&file)).unwrap_or_else(|wrong| panic!("{}: {wrong}", file.display()));
            let due = read(&file.with_extension("out"));
            assert!(lines(&stream).as_bytes() == due, "{}: its .out isn't what is reckoned", file.display());
            all.push((file.display().to_string(), stream));
        }
    }
    assert!(!all.is_empty(), "{} has no stream", folder.display());
    all.sort();
    all
}

// The one that `make program` proves and builds, or another that the variable ROUTES names.
fn compiled() -> Compiled {
    let own = Path::new(env!("CARGO_MANIFEST_DIR")).join("../../target/bin/routes");
    let file = std::env::var_os("ROUTES").map_or(own, PathBuf::from);
    if !file.exists() {
        println!("{} isn't there: `make program` proves and writes target/bin/routes", file.display());
        std::process::exit(1);
    }
    Compiled::at(&file)
}

pub fn compare(from: u64) {
    let began = Instant::now();
    let program = compiled();
    let mut l = Listening::default();
    l.listed(&program, "the stored streams", stored());
    l.listed(&program, "streams whose lines are stated", stated::streams());
    l.listed(&program, "each refusal at each record", streams::refusals());
    l.listed(&program, "each kind byte", streams::kinds());
    l.listed(&program, "cut at every byte", streams::cuts());
    l.listed(&program, "streams at the sizes' ends", streams::sizes());
    l.listed(&program, "lines far longer than the records", streams::long_lines());
    l.listed(&program.in_pieces(1), "handed over byte by byte", streams::cuts());
    l.listed(&program.in_pieces(1_000), "handed over in pieces of 1,000 bytes", streams::sizes());
    l.seeded(&program, "whole streams", from..from + 3_000, |seed| streams::bytes(&streams::whole(seed)));
    l.seeded(&program, "whole records, some wrong", from..from + 3_000, |seed| streams::bytes(&streams::faulty(seed)));
    l.seeded(&program, "bytes damaged", from..from + 3_000, streams::damaged);
    l.seeded(&program, "cut short", from..from + 2_000, streams::cut);
    l.seeded(&program, "records and bytes of any kind", from..from + 3_000, streams::noise);
    reader::compare(from);
    let numbers = [0, 1, 2, 3, 4, 5, 7, 8, 9, 10, 21, 22, 23, 24];
    println!("\nrefused with     {}", numbers.map(|number| format!("{number:>7}")).concat());
    println!("streams          {}", numbers.map(|number| format!("{:>7}", l.endings[number])).concat());
    assert!(numbers.iter().all(|number| l.endings[*number] > 0), "some refusal never came up");
    reader::all_found();
    astray::all_found();
    println!("{} streams compared in {:.1} s: 0 differ", l.streams, began.elapsed().as_secs_f32());
}
