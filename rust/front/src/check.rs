//! The daily check: what `routes` prints for a stream is what the independent calculation says, line by line; and so is every
//! node's row after the fresh build and after each batch. For these the program is asked: it gets the records up to there,
//! without the stream's own ASKs, and an ASK for each node.
use crate::input::Input;
use crate::program::Program;
use reckon::stream::{read, said, Record, Run, MOST_BYTES};

/// What was compared, and nothing differs.
#[derive(Debug, Default, PartialEq)]
pub struct Agreed {
    pub batches: usize,
    pub rows: usize,
    // Rows that there was no room to ask for, in a stream that is full to the last byte.
    pub unasked: usize,
}

impl std::fmt::Display for Agreed {
    fn fmt(&self, f: &mut std::fmt::Formatter<'_>) -> std::fmt::Result {
        let batches = if self.batches == 1 { "batch" } else { "batches" };
        let rows = if self.rows == 1 { "row" } else { "rows" };
        write!(f, "{} {batches}, {} {rows}: none differ", with_commas(self.batches), with_commas(self.rows))?;
        match self.unasked {
            0 => Ok(()),
            some => write!(f, " ({} more can't be asked for: the stream is full)", with_commas(some)),
        }
    }
}

fn with_commas(number: usize) -> String {
    match number {
        0..=999 => number.to_string(),
        _ => format!("{},{:03}", with_commas(number / 1_000), number % 1_000),
    }
}

/// Compares all of it, or tells the first difference in words.
pub fn check(program: &dyn Program, input: &Input) -> Result<Agreed, String> {
    compare_lines(program, input)?;
    if input.bytes.len() > MOST_BYTES {
        return Ok(Agreed::default());
    }
    let (run, lines, agreed) = (Run::default(), String::new(), Agreed::default());
    let mut asking = Asking { program, input, run, table: None, records: Vec::new(), lines, agreed };
    asking.every_row()?;
    Ok(asking.agreed)
}

fn differs(input: &Input, place: usize, printed: Option<&str>, due: &str) -> String {
    let printed = printed.map_or("nothing".to_string(), |line| format!("`{}`", line.trim_end()));
    format!("{}: routes prints {printed}, due is `{}`", input.at(place), due.trim_end())
}

fn compare_lines(program: &dyn Program, input: &Input) -> Result<(), String> {
    let printed = program.run(&input.bytes);
    let mut lines = printed.split_inclusive('\n');
    for due in said(&input.bytes) {
        let line = lines.next();
        if line != Some(&due.line) {
            return Err(differs(input, due.place, line, &due.line));
        }
    }
    match lines.next() {
        Some(line) => Err(format!("{}: routes prints `{}` behind its last line", input.name, line.trim_end())),
        None => Ok(()),
    }
}

struct Asking<'a> {
    program: &'a dyn Program,
    input: &'a Input,
    run: Run,
    // The last record of NETWORK and LINKs, till the fresh rows are asked for.
    table: Option<usize>,
    // The records so far but for the ASKs, and the lines that they print.
    records: Vec<u8>,
    lines: String,
    agreed: Agreed,
}

impl Asking<'_> {
    // Goes through the records, up to the first that is refused.
    fn every_row(&mut self) -> Result<(), String> {
        let (bytes, mut place) = (&self.input.bytes, 0);
        while let Some((record, next)) = bytes.get(place).and_then(|_| read(bytes, place).ok()) {
            let of_table = matches!(record, Record::Network { .. } | Record::Link { .. });
            if !of_table {
                self.fresh_rows()?;
            }
            let Ok(line) = self.run.take(record) else { return Ok(()) };
            if !matches!(record, Record::Ask { .. }) {
                self.records.extend(&bytes[place..next]);
                self.lines.extend(line);
            }
            if of_table {
                self.table = Some(place);
            }
            if record == Record::Apply {
                self.agreed.batches += 1;
                self.rows(place)?;
            }
            place = next;
        }
        self.fresh_rows()
    }

    fn fresh_rows(&mut self) -> Result<(), String> {
        self.table.take().map_or(Ok(()), |place| self.rows(place))
    }

    // Every node's row as it stands now, behind the record at a place: as many at once as the stream has room for.
    fn rows(&mut self, place: usize) -> Result<(), String> {
        let due = self.run.rows();
        let room = (MOST_BYTES - self.records.len()) / 3;
        if room == 0 {
            self.agreed.unasked += due.len();
            return Ok(());
        }
        for (some, from) in due.chunks(room).zip((0..).step_by(room)) {
            self.some_rows(place, from, some)?;
        }
        self.agreed.rows += due.len();
        Ok(())
    }

    // The rows of the nodes from one on.
    fn some_rows(&self, place: usize, from: usize, due: &[String]) -> Result<(), String> {
        let nodes = from as u16..(from + due.len()) as u16;
        let asks = nodes.flat_map(|node| Record::Ask { node }.bytes());
        let stream: Vec<u8> = self.records.iter().copied().chain(asks).collect();
        let printed = self.program.run(&stream);
        let Some(rows) = printed.strip_prefix(self.lines.as_str()) else {
            let at = self.input.at(place);
            return Err(format!("{at}: asked for every row then, routes prints other lines before"));
        };
        let mut rows = rows.split_inclusive('\n');
        for due in due {
            let row = rows.next();
            if row != Some(due) {
                return Err(differs(self.input, place, row, due));
            }
        }
        rows.next().map_or(Ok(()), |more| Err(differs(self.input, place, Some(more), "nothing more")))
    }
}
