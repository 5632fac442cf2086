// The cases: every call goes to the product's C functions, and its line has all that the call answers and may write.
//
//     make cases
//
// tests/ has what must be printed, and works it out from the scope's own words, by another calculation in another
// language: `cases judging` is compared with tests/judging.py, `cases changing` with tests/changing.py.
#![forbid(unsafe_code)]

mod changing;
mod judging;
mod pier;

fn main() {
    let words: Vec<String> = std::env::args().skip(1).collect();
    match words.iter().map(String::as_str).collect::<Vec<_>>()[..] {
        ["judging"] => judging::run(),
        ["changing"] => changing::run(),
        _ => {
            eprintln!("usage: cases judging, or cases changing");
            std::process::exit(2);
        }
    }
}
