// The room on the stack, as the program of `make room` tells it: a line for each job, its name and three numbers, what it
// writes on the chain and on the dense network, and what it reserves.
use std::path::Path;
use std::process::Command;

pub struct Room {
    pub job: String,
    pub bytes: [u32; 3],
}

impl Room {
    pub fn most(&self) -> u32 {
        self.bytes[0].max(self.bytes[1]).max(self.bytes[2])
    }
}

fn read(line: &str) -> Room {
    let words: Vec<&str> = line.split_whitespace().collect();
    let (job, numbers) = words.split_at(words.len() - 3);
    let bytes = [0, 1, 2].map(|place| numbers[place].parse().expect("a number of bytes"));
    Room { job: job.join(" "), bytes }
}

pub fn measure(program: &Path) -> Vec<Room> {
    let told = Command::new(program).output().expect("the program of `make room` was built before");
    assert!(told.status.success(), "{}", String::from_utf8_lossy(&told.stderr));
    let lines = String::from_utf8(told.stdout).expect("it prints text");
    // The first line is a heading.
    lines.lines().skip(1).map(read).collect()
}
