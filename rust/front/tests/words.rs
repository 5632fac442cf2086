// What is said of each refusal, at the user's own line. The lines that the program prints are those of the independent
// calculation here: the program itself is compared with it elsewhere.
use front::input::Input;
use front::words::Refusal;
use reckon::stream::lines;

const PIER: &str = "network 4 root 0\nlink 0 1 4\nlink 0 2 7\nlink 1 2 2\n";

fn input(text: &str) -> Input {
    Input::of("my.txt", text.as_bytes().to_vec()).unwrap()
}

fn told_of(input: &Input) -> String {
    Refusal::ending(&lines(&input.bytes)).expect("it is refused").told(input)
}

fn told(text: &str) -> String {
    told_of(&input(text))
}

fn behind_pier(text: &str) -> String {
    told(&format!("{PIER}{text}"))
}

#[test]
fn at_network() {
    assert_eq!(told("network 0 root 0"), "my.txt:1: network 0 root 0: a network has 1 to 256 nodes (refusal 1)");
    assert_eq!(
        told("\n network 257  root 0 # too many"),
        "my.txt:2: network 257  root 0: a network has 1 to 256 nodes (refusal 1)"
    );
    let due = "my.txt:1: network 4 root 4: there is no node 4: the nodes are 0 to 3 (refusal 2)";
    assert_eq!(told("network 4 root 4"), due);
    assert_eq!(
        told("network 1 root 1"),
        "my.txt:1: network 1 root 1: there is no node 1: the one node is 0 (refusal 2)"
    );
}

// Both links of a pair are told by their one line.
#[test]
fn at_a_pair_of_links() {
    let pairs = |last: &str| told(&format!("network 3 root 0\nlink 0 1 4 both 4\n{last}\n"));
    let due = "my.txt:3: link 1 7 5 both 5: there is no node 7: the nodes are 0 to 2 (refusal 4)";
    assert_eq!(pairs("link 1 7 5 both 5"), due);
    let due = "my.txt:3: link 1 1 5 both 5: a link leads to another node than its start (refusal 4)";
    assert_eq!(pairs("link 1 1 5 both 5"), due);
    let due = "my.txt:5: link 0 1 5 both 5: links stand right behind `network`, before any other record (refusal 23)";
    assert_eq!(pairs("link 1 2 5 both 5\nask 2\nlink 0 1 5 both 5"), due);
    let due = "my.txt:4: change 4 5: there is no link 4: the links are 0 to 3 (refusal 8)";
    assert_eq!(pairs("link 1 2 5 both 5\nchange 4 5"), due);
}

#[test]
fn at_link() {
    let many = format!("network 2 root 0\n{}", "link 0 1 5\n".repeat(4_097));
    let due = "my.txt:4098: link 0 1 5: a network has at most 4,096 links, and this is one more (refusal 3)";
    assert_eq!(told(&many), due);
    assert_eq!(behind_pier("link 1 9 5"), "my.txt:5: link 1 9 5: there is no node 9: the nodes are 0 to 3 (refusal 4)");
    assert_eq!(behind_pier("link 8 9 5"), "my.txt:5: link 8 9 5: there is no node 8: the nodes are 0 to 3 (refusal 4)");
    assert_eq!(
        behind_pier("link 1 1 5"),
        "my.txt:5: link 1 1 5: a link leads to another node than its start (refusal 4)"
    );
    let due = "my.txt:6: link 0 3 5: its start is below that of the link before it, on line 4 (refusal 5)";
    assert_eq!(behind_pier("\nlink 0 3 5"), due);
}

#[test]
fn at_change() {
    let rows: String = (0..257).map(|link| format!("change {link} 5\n")).collect();
    let many = format!("network 2 root 0\n{}{rows}", "link 0 1 5\n".repeat(300));
    let due = "my.txt:558: change 256 5: a batch has at most 256 rows, and this is one more (refusal 7)";
    assert_eq!(told(&many), due);
    assert_eq!(behind_pier("change 3 5"), "my.txt:5: change 3 5: there is no link 3: the links are 0 to 2 (refusal 8)");
    let alone = "my.txt:2: change 0 5: there is no link 0: the network has none (refusal 8)";
    assert_eq!(told("network 1 root 0\nchange 0 5"), alone);
    let due = "my.txt:7: change 2 6: this link has a row already, on line 5 (refusal 9)";
    assert_eq!(behind_pier("change 2 5\nchange 1 5\nchange 2 6\nchange 2 7"), due);
    let due = "my.txt:9: change 2 6: this link has a row already, on line 7 (refusal 9)";
    assert_eq!(behind_pier("change 2 5\napply\nchange 2 5\nask 0\nchange 2 6"), due);
}

// The program may come to tell the earlier row's place itself.
#[test]
fn the_earlier_row_as_it_is_told() {
    let input = input(&format!("{PIER}change 2 5\nchange 2 6\n"));
    let refusal = Refusal::ending("A 0\nR 9 31 26\n").unwrap();
    assert_eq!(refusal, Refusal { number: 9, place: 31, earlier: Some(26) });
    assert_eq!(refusal.told(&input), "my.txt:6: change 2 6: this link has a row already, on line 5 (refusal 9)");
}

#[test]
fn at_ask() {
    assert_eq!(behind_pier("ask 4"), "my.txt:5: ask 4: there is no node 4: the nodes are 0 to 3 (refusal 10)");
}

#[test]
fn at_bytes() {
    assert_eq!(behind_pier("bytes 09"), "my.txt:5: bytes 09: no record has the kind 9 (refusal 21)");
    assert_eq!(behind_pier("bytes 04 04 ff"), "my.txt:5: bytes 04 04 ff: no record has the kind 255 (refusal 21)");
    assert_eq!(behind_pier("bytes 05 00"), "my.txt:5: bytes 05 00: the stream ends within this record (refusal 22)");
}

#[test]
fn out_of_order() {
    let due = "my.txt: the stream has no records; the first has to be `network` (refusal 23)";
    assert_eq!(told(""), due);
    assert_eq!(told("# nothing\n\n"), due);
    assert_eq!(told("ask 0"), "my.txt:1: ask 0: the first record has to be `network` (refusal 23)");
    let due = "my.txt:1: link 0 1 5: links stand right behind `network`, before any other record (refusal 23)";
    assert_eq!(told("link 0 1 5"), due);
    let due = "my.txt:6: link 2 3 1: links stand right behind `network`, before any other record (refusal 23)";
    assert_eq!(behind_pier("ask 0\nlink 2 3 1"), due);
    assert_eq!(
        behind_pier("network 4 root 0"),
        "my.txt:5: network 4 root 0: only the first record is `network` (refusal 23)"
    );
}

#[test]
fn too_long() {
    let due = "my.txt: the stream has 32769 bytes, and 32768 are the most (refusal 24)";
    assert_eq!(behind_pier(&"apply\n".repeat(32_769 - 26)), due);
}

#[test]
fn in_a_file_of_bytes() {
    let mut bytes = input(&format!("{PIER}change 2 5\nchange 2 6\n")).bytes;
    let file = |bytes: &[u8]| Input::of("my.stream", bytes.to_vec()).unwrap();
    let due = "my.stream: byte 31: change 2 6: this link has a row already, at byte 26 (refusal 9)";
    assert_eq!(told_of(&file(&bytes)), due);
    bytes.truncate(30);
    assert_eq!(
        told_of(&file(&bytes)),
        "my.stream: byte 26: bytes 03 00 02 00: the stream ends within this record (refusal 22)"
    );
}

#[test]
fn what_is_no_stream() {
    let wrong = |text: &[u8]| Input::of("my.txt", text.to_vec()).err();
    let due = "my.txt:2: `lnik` is none of network, link, change, apply, ask and bytes";
    assert_eq!(wrong(b"network 4 root 0\nlnik 0 1 4\n").as_deref(), Some(due));
    assert_eq!(
        wrong(b"network 4\tnodes\r\n").as_deref(),
        Some("my.txt:1: `network` takes a node count and a root, as in `network 4 root 0`")
    );
    assert_eq!(wrong(&[1, 0, 4, 0, 0]), None);
    assert_eq!(wrong(&[0xff, 0xfe]), None);
}

#[test]
fn no_refusal() {
    assert_eq!(Refusal::ending(""), None);
    assert_eq!(Refusal::ending("N 2 6 3 0\nA 0\n"), None);
}
