// Turns a record stream from text to bytes, and back.
//
//     records <pier.txt >pier.stream
//     records --text <pier.stream
//
// The library beside it says what the text looks like. A text that is no stream is told on standard error, with its
// line, and nothing is written. The exit status is 0 if all was written, 1 if not, and 2 if it was called wrongly.
use std::io::{self, Read, Write};
use std::process::ExitCode;

const USAGE: &str = "usage: records <TEXT >STREAM, or records --text <STREAM >TEXT";

#[derive(Clone, Copy)]
enum Way {
    ToBytes,
    ToText,
}

fn turned(way: Way, input: &[u8]) -> Result<Vec<u8>, String> {
    match way {
        Way::ToBytes => records::to_bytes(input).map_err(|wrong| wrong.to_string()),
        Way::ToText => Ok(records::to_text(input).into_bytes()),
    }
}

// What is written isn't there before it is flushed.
fn write(output: &[u8]) -> io::Result<()> {
    let mut out = io::stdout().lock();
    out.write_all(output)?;
    out.flush()
}

fn run(way: Way) -> Result<(), String> {
    let mut input = Vec::new();
    io::stdin().read_to_end(&mut input).map_err(|why| format!("standard input: {why}"))?;
    write(&turned(way, &input)?).map_err(|why| format!("standard output: {why}"))
}

fn said(told: Result<(), String>) -> ExitCode {
    match told {
        Ok(()) => ExitCode::SUCCESS,
        Err(why) => {
            eprintln!("records: {why}");
            ExitCode::FAILURE
        }
    }
}

fn main() -> ExitCode {
    let words: Vec<String> = std::env::args().skip(1).collect();
    match words.iter().map(String::as_str).collect::<Vec<_>>()[..] {
        [] => said(run(Way::ToBytes)),
        ["--text"] => said(run(Way::ToText)),
        ["--help" | "-h"] => said(write(format!("{USAGE}\n").as_bytes()).map_err(|why| why.to_string())),
        _ => {
            eprintln!("{USAGE}");
            ExitCode::from(2)
        }
    }
}
