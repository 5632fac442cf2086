// What `./run` calls, with a stream's file and the program `routes`:
//
//     front look FILE            is it a stream, as text or as bytes?
//     front run FILE PROGRAM     the stream through the program; a refusal is told in words
//     front check FILE PROGRAM   what the program prints, compared with the independent calculation
//
// Exit status 0: all is well. 1: a refusal or a difference, told on standard error. 2: the file is no stream, told with its
// line, or the call is wrong.
#![forbid(unsafe_code)]

use front::check::check;
use front::input::Input;
use front::program::{Compiled, Program};
use front::words::Refusal;
use std::io::Write;
use std::path::Path;
use std::process::ExitCode;

// What ends it: the status, and what is said on standard error.
type Ending = (u8, String);

fn refused_in_words(printed: &str, input: &Input) -> Result<(), Ending> {
    Refusal::ending(printed).map_or(Ok(()), |refusal| Err((1, refusal.told(input))))
}

fn say(text: &str) -> Result<(), Ending> {
    let mut out = std::io::stdout().lock();
    let written = out.write_all(text.as_bytes()).and_then(|()| out.flush());
    written.map_err(|why| (1, format!("standard output: {why}")))
}

fn run(input: &Input, program: &Path) -> Result<(), Ending> {
    let ended = Compiled::at(program).ended(&input.bytes);
    say(&ended.printed)?;
    if let Some(why) = ended.failure {
        return Err((1, format!("{}: {why}", program.display())));
    }
    refused_in_words(&ended.printed, input)
}

fn compare(input: &Input, program: &Path) -> Result<(), Ending> {
    let program = Compiled::at(program);
    let agreed = check(&program, input).map_err(|difference| (1, difference))?;
    say(&format!("{agreed}\n"))?;
    refused_in_words(&program.run(&input.bytes), input)
}

fn called(words: &[&str]) -> Result<(), Ending> {
    let read = |name: &str| Input::read(name).map_err(|wrong| (2, wrong));
    match words {
        ["look", file] => read(file).map(drop),
        ["run", file, program] => run(&read(file)?, Path::new(program)),
        ["check", file, program] => compare(&read(file)?, Path::new(program)),
        _ => Err((2, "usage: front look FILE, or front run|check FILE PROGRAM".to_string())),
    }
}

fn main() -> ExitCode {
    let words: Vec<String> = std::env::args().skip(1).collect();
    match called(&words.iter().map(String::as_str).collect::<Vec<_>>()) {
        Ok(()) => ExitCode::SUCCESS,
        Err((status, why)) => {
            eprintln!("{why}");
            ExitCode::from(status)
        }
    }
}
