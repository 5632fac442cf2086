//! A stream in a file, as text or as bytes, and the words for a place in it.
use records::Line;

/// What stands in a file.
pub struct Input {
    /// The file's name, as it was given.
    pub name: String,
    /// The stream's bytes.
    pub bytes: Vec<u8>,
    // The lines that it was written as; none if the file holds the bytes themselves.
    text: Option<records::Stream>,
}

// A text has no control characters but for tabs and the ends of lines. A stream of bytes begins with one: its first kind.
fn is_text(file: &[u8]) -> bool {
    let plain = |character: char| !character.is_control() || matches!(character, '\t' | '\n' | '\r');
    std::str::from_utf8(file).is_ok_and(|text| text.chars().all(plain))
}

impl Input {
    /// The stream of that file, or what is wrong with it, with the line.
    pub fn of(name: &str, file: Vec<u8>) -> Result<Input, String> {
        if !is_text(&file) {
            return Ok(Input { name: name.to_string(), bytes: file, text: None });
        }
        let text = records::Stream::of_text(&file).map_err(|wrong| format!("{name}:{}: {}", wrong.line, wrong.what))?;
        Ok(Input { name: name.to_string(), bytes: text.bytes.clone(), text: Some(text) })
    }

    /// Reads a file.
    pub fn read(name: &str) -> Result<Input, String> {
        let file = std::fs::read(name).map_err(|why| format!("{name}: {why}"))?;
        Input::of(name, file)
    }

    fn line_at(&self, place: usize) -> Option<&Line> {
        self.text.as_ref()?.line_at(place)
    }

    /// The record at a place, with where it stands before it: `my.txt:12: change 3 6`, `my.stream: byte 84: change 3 6`. At
    /// the stream's end the file alone.
    pub fn at(&self, place: usize) -> String {
        let name = &self.name;
        match self.line_at(place) {
            Some(line) => format!("{name}:{}: {}", line.number, line.said),
            None if place < self.bytes.len() => {
                let text = records::to_text(&self.bytes[place..]);
                format!("{name}: byte {place}: {}", text.lines().next().unwrap_or(""))
            }
            None => name.to_string(),
        }
    }

    /// Where another record stands: `on line 9`, `at byte 70`.
    pub fn by(&self, place: usize) -> String {
        match self.line_at(place) {
            Some(line) => format!("on line {}", line.number),
            None => format!("at byte {place}"),
        }
    }
}
