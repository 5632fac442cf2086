// Measuring in turn. What is to be compared stands in one heat: the runners over one input. At each round every heat has
// its turn, and in it each runner once; who begins moves on from round to round. So whatever else the machine does falls
// on all alike, and no runner learns one input by heart. Of a runner's times in all rounds the shortest counts.
use std::hint::black_box;
use std::time::Instant;

// Runs once, and tells its nanoseconds.
pub type Runner<'a> = Box<dyn FnMut() -> u64 + 'a>;

/// A runner that readies its memory before the clock runs, and drops what it made after.
pub fn runner<'a, M: 'a, R>(mut memory: M, ready: impl Fn(&mut M) + 'a, go: impl Fn(&mut M) -> R + 'a) -> Runner<'a> {
    Box::new(move || {
        ready(&mut memory);
        let began = Instant::now();
        let made = black_box(go(black_box(&mut memory)));
        let time = began.elapsed().as_nanos() as u64;
        drop(made);
        time
    })
}

pub struct Heat<'a> {
    runners: Vec<Runner<'a>>,
    pub best: Vec<u64>,
}

impl<'a> Heat<'a> {
    pub fn new(runners: Vec<Runner<'a>>) -> Heat<'a> {
        let best = vec![u64::MAX; runners.len()];
        Heat { runners, best }
    }

    pub fn turn(&mut self, round: usize) {
        let count = self.runners.len();
        for place in 0..count {
            let who = (place + round) % count;
            self.best[who] = self.best[who].min((self.runners[who])());
        }
    }
}
