//! The page: line number, the sheet's line, its answer and the words beside them, in columns; at most 100 wide, and of
//! printable characters only.

const WIDTH: usize = 100;
const LINE: usize = 22;
const ANSWER: usize = 7;
/// Where the words begin: behind the number (4), the line and the answer, with two spaces before each.
const WORDS: usize = 4 + 2 + LINE + 2 + ANSWER + 2;
/// A space at which a row is never broken.
pub const TIE: char = '\u{a0}';
/// Of a long line or answer so much is shown.
const LONGEST: usize = 40;

pub struct Page {
    text: String,
}

impl Page {
    pub fn new() -> Page {
        Page { text: String::new() }
    }

    pub fn text(self) -> String {
        self.text
    }

    pub fn heading(&mut self) {
        self.put(&beside("line", "sheet", "answer"), WORDS, "in words");
    }

    /// Words in the last column. A line or an answer too long for its column gets a row of its own, above them.
    pub fn row(&mut self, number: usize, line: &[u8], answer: &[u8], words: &[String]) {
        let (line, answer) = (safe(line), safe(answer));
        let mut front = beside(&number.to_string(), &line, &answer);
        if line.len() > LINE || answer.len() > ANSWER {
            self.put(&front, 0, "");
            front.clear();
        }
        for paragraph in words {
            self.put(&front, WORDS, paragraph);
            front.clear();
        }
    }

    /// An empty line, if there is anything above and it does not end in one.
    pub fn gap(&mut self) {
        if !self.text.is_empty() && !self.text.ends_with("\n\n") {
            self.text.push('\n');
        }
    }

    /// Words that belong to no line, with a gap above them.
    pub fn note(&mut self, words: &[String]) {
        self.gap();
        for paragraph in words {
            self.put("", 0, paragraph);
        }
    }

    /// A paragraph from column `at` on, its first row behind `front`. Items, which begin with a dash, hang.
    fn put(&mut self, front: &str, at: usize, paragraph: &str) {
        let hang = if paragraph.starts_with("- ") { at + 2 } else { at };
        let mut row = format!("{front:at$}");
        let mut fresh = true;
        for word in paragraph.split(' ') {
            if !fresh && row.chars().count() + 1 + word.chars().count() > WIDTH {
                self.end(&row);
                row = " ".repeat(hang);
                fresh = true;
            }
            if !fresh {
                row.push(' ');
            }
            row.push_str(word);
            fresh = false;
        }
        self.end(&row);
    }

    fn end(&mut self, row: &str) {
        self.text.push_str(&row.trim_end().replace(TIE, " "));
        self.text.push('\n');
    }
}

fn beside(number: &str, line: &str, answer: &str) -> String {
    format!("{number:>4}  {line:LINE$}  {answer:ANSWER$}  ")
}

/// Bytes that do not print are written as escapes, and what is long is cut.
fn safe(bytes: &[u8]) -> String {
    // An escape has up to four characters, so more bytes than this cannot be needed.
    let shown: String = bytes
        .iter()
        .take(LONGEST + 1)
        .map(|byte| match byte {
            b'\\' => "\\".to_string(),
            byte => byte.escape_ascii().to_string().replace("\\'", "'").replace("\\\"", "\""),
        })
        .collect();
    if shown.len() <= LONGEST {
        return shown;
    }
    format!("{}...", &shown[..LONGEST - 3])
}

#[cfg(test)]
mod tests {
    use super::*;

    #[test]
    fn words_stand_in_their_column() {
        let mut page = Page::new();
        page.row(7, b"open", b"ok 0", &["one two".repeat(20).replace("onetwo", "one two"), "- item ".repeat(12)]);
        let text = page.text();
        let rows: Vec<&str> = text.lines().collect();
        assert!(rows[0].starts_with("   7  open                    ok 0     one"));
        assert!(rows.iter().all(|row| row.len() <= WIDTH));
        assert!(rows[1..].iter().all(|row| row.starts_with(&" ".repeat(WORDS))));
        assert!(rows.last().unwrap().starts_with(&" ".repeat(WORDS + 2)));
    }

    #[test]
    fn a_long_line_gets_a_row_of_its_own() {
        let mut page = Page::new();
        page.row(1, &[b'x'; 5000], b"no 51", &["words".to_string()]);
        let text = page.text();
        let rows: Vec<&str> = text.lines().collect();
        assert_eq!(rows.len(), 2);
        assert!(rows[0].contains("xxx...  no 51"));
        assert_eq!(rows[1], format!("{}words", " ".repeat(WORDS)));
    }

    #[test]
    fn any_byte_prints() {
        let all: Vec<u8> = (0..=255).collect();
        for piece in all.chunks(8) {
            assert!(safe(piece).bytes().all(|byte| (b' '..=b'~').contains(&byte)));
        }
        assert_eq!(safe(b"say \"it's\" \\ \x00\xff"), "say \"it's\" \\ \\x00\\xff");
        assert_eq!(safe(&[0; 100]).len(), LONGEST);
    }
}
