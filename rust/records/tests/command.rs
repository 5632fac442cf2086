// The command: text to bytes, bytes to text, and what it says of a text that is no stream.
use std::io::Write;
use std::process::{Command, Output, Stdio};

const USAGE: &str = "usage: records <TEXT >STREAM, or records --text <STREAM >TEXT\n";

fn run(words: &[&str], input: &[u8]) -> Output {
    run_to(words, input, Stdio::piped())
}

fn run_to(words: &[&str], input: &[u8], output: Stdio) -> Output {
    let mut child = Command::new(env!("CARGO_BIN_EXE_records"))
        .args(words)
        .stdin(Stdio::piped())
        .stdout(output)
        .stderr(Stdio::piped())
        .spawn()
        .unwrap();
    // It may have ended without reading, which closes the pipe.
    let _ = child.stdin.take().unwrap().write_all(input);
    child.wait_with_output().unwrap()
}

#[test]
fn to_bytes_and_back() {
    let made = run(&[], b"network 2 root 1 # two nodes\n\nask 0\n");
    assert!(made.status.success());
    assert_eq!(made.stdout, [1, 0, 2, 0, 1, 5, 0, 0]);
    let told = run(&["--text"], &made.stdout);
    assert!(told.status.success());
    assert_eq!(told.stdout, b"network 2 root 1\nask 0\n");
}

#[test]
fn a_wrong_line_is_told_and_nothing_is_written() {
    let ended = run(&[], b"ask 0\nlink 0 1\n");
    assert_eq!(ended.status.code(), Some(1));
    assert_eq!(ended.stdout, b"");
    assert_eq!(ended.stderr, b"records: line 2: `link` takes start, end and cost: 2 numbers given\n");
}

#[test]
fn other_words_are_refused() {
    for words in [&["--texts"][..], &["--text", "--text"], &["pier.txt"]] {
        let ended = run(words, b"");
        assert_eq!((ended.status.code(), ended.stdout.len()), (Some(2), 0));
        assert_eq!(ended.stderr, USAGE.as_bytes());
    }
}

#[test]
fn help_is_no_failure() {
    for word in ["--help", "-h"] {
        let ended = run(&[word], b"");
        assert_eq!((ended.status.code(), ended.stderr.len()), (Some(0), 0));
        assert_eq!(ended.stdout, USAGE.as_bytes());
    }
}

// /dev/full takes nothing: a short output, which stays in a buffer till the end, must fail as a long one does.
#[test]
fn what_can_t_be_written_is_told() {
    for (words, input) in [(&[][..], b"apply\n".to_vec()), (&[], b"apply\n".repeat(10_000)), (&["--text"], vec![4])] {
        let full = std::fs::OpenOptions::new().write(true).open("/dev/full").unwrap();
        let ended = run_to(words, &input, full.into());
        assert_eq!(ended.status.code(), Some(1));
        let told = String::from_utf8(ended.stderr).unwrap();
        assert!(told.starts_with("records: standard output: "), "{told}");
    }
}
