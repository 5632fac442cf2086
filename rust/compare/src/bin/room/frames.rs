// How much of the stack each function reserves, read off the disassembly of the archive: at every instruction how far the
// stack pointer stands below where it stood at the function's entry, the 128 bytes below it that a leaf may use without
// moving it, and what the functions that it calls reserve from there on. `memcpy` and `memset`, which aren't in the archive,
// count as nothing.
//
// What it can't follow ends the program with a word about it, so that no number is too small: a call through a pointer, a
// function that calls itself by way of others, a stack pointer that is moved by a number found at run time.
use std::collections::HashMap;
use std::path::Path;
use std::process::Command;

struct Instruction {
    place: u64,
    name: String,
    operands: String,
    // The symbol that a relocation puts in.
    symbol: Option<String>,
}

#[derive(Default)]
struct Function {
    // The deepest place of its own, and each call: how deep it is made, with the return address, and whom it calls.
    own: i64,
    calls: Vec<(i64, String)>,
}

pub struct Frames(HashMap<String, Function>);

const RETURN_ADDRESS: i64 = 8;

impl Frames {
    pub fn of(archive: &Path) -> Frames {
        let told = Command::new("objdump").args(["-dr", "--no-show-raw-insn"]).arg(archive).output();
        let told = told.expect("objdump, of binutils, is installed");
        assert!(told.status.success(), "objdump can't read {}", archive.display());
        let text = String::from_utf8(told.stdout).expect("objdump prints text");
        Frames(functions(&text).into_iter().map(|(name, code)| (name.clone(), walked(&name, &code))).collect())
    }

    // What a call of it takes, with the return address, at most.
    pub fn reserved(&self, function: &str) -> i64 {
        assert!(self.0.contains_key(function), "the archive has no {function}");
        RETURN_ADDRESS + self.below(function, 0)
    }

    fn below(&self, function: &str, level: usize) -> i64 {
        assert!(level <= self.0.len(), "{function} calls itself, so its stack has no end that can be read off");
        let Some(Function { own, calls }) = self.0.get(function) else {
            assert!(matches!(function, "memcpy" | "memset"), "{function} is called and isn't in the archive");
            return 0;
        };
        let called = calls.iter().map(|(depth, callee)| depth + self.below(callee, level + 1));
        called.chain([*own]).max().expect("its own is there")
    }
}

// Each function's name and instructions.
fn functions(text: &str) -> Vec<(String, Vec<Instruction>)> {
    let mut all: Vec<(String, Vec<Instruction>)> = Vec::new();
    for line in text.lines() {
        if let Some((_, name)) = line.strip_suffix(">:").and_then(|line| line.split_once(" <")) {
            all.push((name.to_string(), Vec::new()));
        } else if let Some((_, code)) = all.last_mut() {
            read_line(line, code);
        }
    }
    all
}

fn read_line(line: &str, code: &mut Vec<Instruction>) {
    let Some((place, rest)) = line.split_once(":\t").or_else(|| line.split_once(": ")) else { return };
    if let Some((_, symbol)) = rest.split_once('\t').filter(|_| rest.starts_with("R_X86_64_")) {
        let symbol = symbol.rsplit_once("-0x").map_or(symbol, |(symbol, _)| symbol);
        let symbol = symbol.strip_prefix(".text.").unwrap_or(symbol);
        code.last_mut().expect("a relocation follows its instruction").symbol = Some(symbol.to_string());
        return;
    }
    let (name, operands) = rest.trim().split_once(' ').unwrap_or((rest.trim(), ""));
    let place = u64::from_str_radix(place.trim(), 16).expect("an instruction has a place");
    code.push(Instruction { place, name: name.to_string(), operands: operands.trim().to_string(), symbol: None });
}

// A number as `$0x18` or `-0x18` writes it.
fn number(word: &str) -> Option<i64> {
    let word = word.strip_prefix('$').unwrap_or(word);
    let (sign, digits) = word.strip_prefix('-').map_or((1, word), |digits| (-1, digits));
    Some(sign * i64::from_str_radix(digits.strip_prefix("0x")?, 16).ok()?)
}

// How an instruction moves the depth; none where that can't be told.
fn moved(code: &Instruction) -> Option<i64> {
    let to_pointer = code.operands.strip_suffix(",%rsp");
    match (code.name.as_str(), to_pointer) {
        ("push", _) => Some(8),
        ("pop", None) => Some(-8),
        ("sub", Some(by)) => number(by),
        ("add", Some(by)) => Some(-number(by)?),
        ("lea", Some(from)) => Some(-number(from.strip_suffix("(%rsp)")?)?),
        ("cmp" | "test", _) | (_, None) => Some(0),
        _ => None,
    }
}

// How far below the stack pointer it reaches without moving it.
fn beneath(code: &Instruction) -> i64 {
    let displaced = code.operands.split("(%rsp").next().filter(|before| before.len() < code.operands.len());
    let word = displaced.and_then(|before| before.rsplit([',', ' ']).next());
    word.and_then(number).map_or(0, |displacement| (-displacement).max(0))
}

// Where a jump leads, if it stays in the function: `2f3 <name+0x2f3>`.
fn target(code: &Instruction) -> Option<u64> {
    u64::from_str_radix(code.operands.split(' ').next()?, 16).ok()
}

struct Walk<'a> {
    name: &'a str,
    code: &'a [Instruction],
    depths: Vec<Option<i64>>,
    // Where a jump through a table leads isn't told: the depth at which it is made holds where nothing else leads to.
    through_table: Option<i64>,
    found: Function,
}

fn walked(name: &str, code: &[Instruction]) -> Function {
    let mut walk = Walk { name, code, depths: vec![None; code.len()], through_table: None, found: Function::default() };
    walk.from(0, 0);
    // Nothing leads to what only fills up to the next place that is aligned.
    let fills = |code: &Instruction| ["nop", "nopw", "nopl", "cs", "data16", "xchg", "int3"].contains(&&*code.name);
    while let Some(next) = (0..code.len()).find(|at| walk.depths[*at].is_none() && !fills(&code[*at])) {
        let depth = walk.through_table.unwrap_or_else(|| panic!("{name}: nothing leads to {:x}", code[next].place));
        walk.from(next, depth);
    }
    walk.found
}

impl Walk<'_> {
    // Follows the code from an instruction on, and each jump.
    fn from(&mut self, at: usize, depth: i64) {
        let mut waiting = vec![(at, depth)];
        while let Some((at, depth)) = waiting.pop() {
            if let Some(before) = self.depths[at] {
                assert_eq!(before, depth, "{}: two depths at {:x}", self.name, self.code[at].place);
                continue;
            }
            self.depths[at] = Some(depth);
            self.step(at, depth, &mut waiting);
        }
    }

    fn step(&mut self, at: usize, depth: i64, waiting: &mut Vec<(usize, i64)>) {
        let code = &self.code[at];
        let say = |what: &str| format!("{}: {what} at {:x}: {} {}", self.name, code.place, code.name, code.operands);
        let next = depth + moved(code).unwrap_or_else(|| panic!("{}", say("the stack pointer is moved")));
        self.found.own = self.found.own.max(next).max(depth + beneath(code));
        if code.name == "call" {
            let callee = code.symbol.clone().unwrap_or_else(|| panic!("{}", say("nobody knows whom it calls")));
            self.found.calls.push((depth + RETURN_ADDRESS, callee));
        }
        if code.name.starts_with('j') {
            match (&code.symbol, target(code)) {
                // The last thing that it does is to call.
                (Some(callee), _) => self.found.calls.push((depth, callee.clone())),
                (None, Some(place)) => waiting.push((self.at(place), depth)),
                (None, None) => {
                    let same = self.through_table.replace(depth).unwrap_or(depth) == depth;
                    assert!(same, "{}", say("two depths at jumps through a table"));
                }
            }
        }
        if !matches!(code.name.as_str(), "jmp" | "ret" | "ud2" | "hlt") {
            waiting.push((at + 1, next));
        }
    }

    fn at(&self, place: u64) -> usize {
        self.code.iter().position(|code| code.place == place).expect("a jump leads to an instruction")
    }
}
