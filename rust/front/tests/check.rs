// The check finds a program that prints something else, in a line or only in some node's row, and counts what it compared.
use front::check::{check, Agreed};
use front::input::Input;
use front::program::Program;
use reckon::stream::lines;

struct Printing<F>(F);

impl<F: Fn(&[u8]) -> String + Sync> Program for Printing<F> {
    fn run(&self, stream: &[u8]) -> String {
        (self.0)(stream)
    }
}

fn input(text: &str) -> Input {
    Input::of("my.txt", text.as_bytes().to_vec()).unwrap()
}

fn agreed(text: &str) -> Agreed {
    check(&Printing(lines), &input(text)).unwrap()
}

fn differing(text: &str, printing: impl Fn(&[u8]) -> String + Sync) -> String {
    check(&Printing(printing), &input(text)).unwrap_err()
}

// A chain of 256 nodes, links both ways, and so many batches that each change its first link.
fn chain(batches: usize) -> String {
    let links: String = (1..256).map(|end| format!("link {} {end} 7 both 7\n", end - 1)).collect();
    let rows: String = (0..batches).map(|at| format!("change 0 {}\napply\n", at + 1)).collect();
    format!("network 256 root 0\n{links}{rows}")
}

#[test]
fn every_row_is_asked_for() {
    assert_eq!(agreed(&chain(12)).to_string(), "12 batches, 3,328 rows: none differ");
    assert_eq!(agreed("network 1 root 0\napply\n").to_string(), "1 batch, 2 rows: none differ");
    assert_eq!(agreed("network 1 root 0").to_string(), "0 batches, 1 row: none differ");
}

#[test]
fn what_is_refused_is_compared_up_to_there() {
    assert_eq!(agreed(""), Agreed::default());
    assert_eq!(agreed("network 0 root 0"), Agreed::default());
    assert_eq!(agreed("network 2 root 0\nlink 0 1 5\nlink 0 5 5"), Agreed::default());
    assert_eq!(agreed("network 2 root 0\nlink 0 1 5\napply\nask 7\napply"), Agreed { batches: 1, rows: 4, unasked: 0 });
    assert_eq!(agreed("network 2 root 0\nlink 0 1 5\nbytes 09"), Agreed { batches: 0, rows: 2, unasked: 0 });
    assert_eq!(agreed(&format!("network 2 root 0\n{}", "apply\n".repeat(40_000))), Agreed::default());
}

// In a stream that is full to the last bytes the rows are asked for one at a time, and at last not at all.
#[test]
fn a_full_stream() {
    let links = "link 0 1 5\n".repeat(4_095) + "link 1 0 5\n";
    let batch = |rows: u16| (0..rows).map(|link| format!("change {link} 9\n")).collect::<String>() + "apply\n";
    // Behind the last of these batches 7 bytes are left, and two rows can be asked for at once.
    let text = format!("network 2 root 0\n{links}{}{}", batch(256).repeat(3), batch(48));
    assert_eq!(input(&text).bytes.len(), 32_768 - 7);
    assert_eq!(agreed(&text), Agreed { batches: 4, rows: 10, unasked: 0 });
    // Behind the next applies 6, 5, 4, 3, 2, 1 and none: an ASK takes 3.
    let full = agreed(&(text + &"apply\n".repeat(7)));
    assert_eq!(full, Agreed { batches: 11, rows: 18, unasked: 6 });
    assert_eq!(full.to_string(), "11 batches, 18 rows: none differ (6 more can't be asked for: the stream is full)");
}

#[test]
fn another_line() {
    let text = "network 2 root 0\nlink 0 1 5 both 5\n\nask 1\nchange 0 9\napply\n";
    let due = "my.txt:4: ask 1: routes prints `N 1 6 0 0`, due is `N 1 5 0 0`";
    assert_eq!(differing(text, |stream| lines(stream).replace("N 1 5", "N 1 6")), due);
    let due = "my.txt:6: apply: routes prints nothing, due is `A 1 1`";
    assert_eq!(differing(text, |stream| lines(stream).replace("A 1 1\n", "")), due);
    let due = "my.txt: routes prints `A 0` behind its last line";
    assert_eq!(differing(text, |stream| lines(stream) + "A 0\n"), due);
}

// The stream asks for no row, so that its own lines are as they should be.
#[test]
fn another_row() {
    let text = "network 2 root 0\nlink 0 1 5 both 7\nchange 0 9\napply\n";
    let due = "my.txt:2: link 0 1 5 both 7: routes prints `N 1 6 0 0`, due is `N 1 5 0 0`";
    assert_eq!(differing(text, |stream| lines(stream).replace("N 1 5", "N 1 6")), due);
    let due = "my.txt:4: apply: routes prints `N 1 9 0 -`, due is `N 1 9 0 0`";
    assert_eq!(differing(text, |stream| lines(stream).replace("N 1 9 0 0", "N 1 9 0 -")), due);
    let shown =
        |stream: &[u8]| if lines(stream).contains('N') { lines(stream).replace("A 1 1", "A 0") } else { lines(stream) };
    let due = "my.txt:4: apply: asked for every row then, routes prints other lines before";
    assert_eq!(differing(text, shown), due);
}

// A program for which a link needs no link back, so that a link back that goes down changes nothing.
#[test]
fn a_link_without_its_link_back() {
    let text = "network 2 root 0\nlink 0 1 5 both 7\nchange 1 0\napply\n";
    let due = "my.txt:4: apply: routes prints `A 0`, due is `A 1 1`";
    assert_eq!(differing(text, |stream| lines(stream).replace("A 1 1", "A 0")), due);
    let due = "my.txt:4: apply: routes prints `N 1 5 0 0`, due is `N 1 16777215 - -`";
    assert_eq!(differing(text, |stream| lines(stream).replace("N 1 16777215 - -", "N 1 5 0 0")), due);
}
