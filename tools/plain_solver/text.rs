//! The text of a game as lines of its sections, without comments. Texts that are taken as they stand are set apart.

/// A fault of a text: its line, and its code and name.
#[derive(Debug, PartialEq)]
pub struct Fault {
    pub line: usize,
    pub said: &'static str,
}

/// A fault in a line.
pub fn fault<T>(line: usize, said: &'static str) -> Result<T, Fault> {
    Err(Fault { line, said })
}

/// A line that is there, without its comments.
pub struct Line {
    pub number: usize,
    pub text: String,
    /// The rest of the line after `title` or `message`, where it is taken as it stands.
    pub rest: Option<String>,
}

/// The parts of a text, in the order in which they come.
#[derive(Clone, Copy, PartialEq, Eq, PartialOrd, Ord)]
pub enum Section {
    Prelude,
    Objects,
    Legend,
    Sounds,
    Layers,
    Rules,
    Wins,
    Levels,
}

const HEADERS: [(&str, Section); 7] = [
    ("objects", Section::Objects),
    ("legend", Section::Legend),
    ("sounds", Section::Sounds),
    ("collisionlayers", Section::Layers),
    ("rules", Section::Rules),
    ("winconditions", Section::Wins),
    ("levels", Section::Levels),
];

const MOST_BYTES: usize = 1_048_576;

/// The lines of each section, and the line of its header.
pub struct Text {
    sections: Vec<Vec<Line>>,
    headers: [Option<usize>; 8],
}

impl Text {
    pub fn lines(&self, section: Section) -> &[Line] {
        &self.sections[section as usize]
    }

    /// The line of the header of a section that is there.
    pub fn header(&self, section: Section) -> usize {
        self.headers[section as usize].unwrap_or(1)
    }
}

/// Whether a character is a blank.
pub fn is_blank(character: char) -> bool {
    matches!(character, ' ' | '\t' | '\r')
}

/// The words of a text that blanks part.
pub fn words(text: &str) -> Vec<&str> {
    text.split(is_blank).filter(|word| !word.is_empty()).collect()
}

/// A name with the letters A to Z folded.
pub fn folded(word: &str) -> String {
    word.to_ascii_lowercase()
}

/// What is read, line by line.
struct Reader {
    text: Text,
    section: Section,
    /// How many comments are open.
    depth: usize,
}

/// Cuts a text into the lines of its sections.
pub fn read_text(bytes: &[u8]) -> Result<Text, Fault> {
    if bytes.len() > MOST_BYTES {
        return fault(1, "TX2 TooLong");
    }
    let text = match std::str::from_utf8(bytes) {
        Ok(text) => text.strip_prefix('\u{feff}').unwrap_or(text),
        Err(error) => {
            let before = &bytes[..error.valid_up_to()];
            return fault(1 + before.iter().filter(|byte| **byte == b'\n').count(), "TX1 NotUtf8");
        }
    };
    let text = text.strip_suffix('\n').unwrap_or(text);
    let mut reader = Reader {
        text: Text { sections: (0..8).map(|_| Vec::new()).collect(), headers: [None; 8] },
        section: Section::Prelude,
        depth: 0,
    };
    let mut last = 0;
    for (at, line) in text.split('\n').enumerate() {
        last = at + 1;
        reader.read_line(last, line)?;
    }
    for section in [Section::Objects, Section::Layers, Section::Levels] {
        if reader.text.headers[section as usize].is_none() {
            return fault(last, "GM2 NoSection");
        }
    }
    Ok(reader.text)
}

impl Reader {
    /// Reads a line, unless it is as if it weren't written.
    fn read_line(&mut self, number: usize, raw: &str) -> Result<(), Fault> {
        let raw: Vec<char> = raw.chars().collect();
        let was_open = self.depth > 0;
        let (text, rest) = self.without_comments(&raw);
        let has_comment = was_open || raw.contains(&'(');
        let mut own = text.chars().filter(|character| !is_blank(*character)).peekable();
        let is_empty = own.peek().is_none();
        if (is_empty && has_comment) || (!is_empty && own.all(|character| character == '=')) {
            return Ok(());
        }
        if rest.is_none()
            && let Some(section) = header_of(&text)
        {
            return self.begin(number, section);
        }
        self.check_prelude(number, &text)?;
        self.text.sections[self.section as usize].push(Line { number, text, rest });
        Ok(())
    }

    fn begin(&mut self, number: usize, section: Section) -> Result<(), Fault> {
        if section <= self.section {
            return fault(number, "GM1 SectionOrder");
        }
        self.section = section;
        self.text.headers[section as usize] = Some(number);
        Ok(())
    }

    /// Whether a line of the prelude has a fault.
    fn check_prelude(&self, number: usize, text: &str) -> Result<(), Fault> {
        if self.section != Section::Prelude {
            return Ok(());
        }
        let words = words(text);
        match words.first().map(|word| folded(word)).as_deref() {
            Some("realtime_interval") => fault(number, "GM3 Realtime"),
            Some("flickscreen") if words.get(1).and_then(|word| room_size(word)).is_none() => {
                fault(number, "GM6 BadFlickscreen")
            }
            _ => Ok(()),
        }
    }

    /// The line with blanks in place of comments, and the rest of it where that is taken as it stands.
    fn without_comments(&mut self, raw: &[char]) -> (String, Option<String>) {
        let mut text = String::new();
        for (at, &character) in raw.iter().enumerate() {
            if self.depth == 0
                && let Some(length) = self.taken_word(&text, &raw[at..])
            {
                return (text + &raw[at..at + length].iter().collect::<String>(), self.taken(&raw[at + length..]));
            }
            match character {
                '(' => self.depth += 1,
                ')' if self.depth > 0 => {
                    self.depth -= 1;
                    text.push(' ');
                    continue;
                }
                _ => {}
            }
            text.push(if self.depth > 0 { ' ' } else { character });
        }
        (text, None)
    }

    /// The rest of a line as it stands, without the blanks at its ends. A title ends where a comment begins.
    fn taken(&mut self, rest: &[char]) -> Option<String> {
        let mut end = rest.len();
        if self.section == Section::Prelude {
            end = rest.iter().position(|character| *character == '(').unwrap_or(end);
            self.without_comments(&rest[end..]);
        }
        let rest: String = rest[..end].iter().collect();
        Some(rest.trim_matches(is_blank).to_string())
    }

    /// The length of the word that comes next, if what stands behind it is taken as it stands.
    fn taken_word(&self, before: &str, raw: &[char]) -> Option<usize> {
        let begins_line = || before.chars().all(is_blank);
        match self.section {
            Section::Prelude => ["title", "author", "homepage"]
                .into_iter()
                .find(|word| begins(raw, word) && begins_line() && ends_word(&raw[word.len()..]))
                .map(str::len),
            Section::Levels => (begins(raw, "message") && begins_line() && ends_word(&raw[7..])).then_some(7),
            Section::Rules => (begins(raw, "message") && ends_token(&raw[7..]) && is_after_arrow(before)).then_some(7),
            _ => None,
        }
    }
}

/// The section whose header a line is.
fn header_of(text: &str) -> Option<Section> {
    let words = words(text);
    let [word] = words[..] else {
        return None;
    };
    let word = folded(word);
    HEADERS.iter().find(|(header, _)| *header == word).map(|(_, section)| *section)
}

fn begins(raw: &[char], word: &str) -> bool {
    raw.len() >= word.len() && word.chars().zip(raw).all(|(letter, own)| own.to_ascii_lowercase() == letter)
}

fn ends_word(raw: &[char]) -> bool {
    raw.first().is_none_or(|character| is_blank(*character) || *character == '(')
}

fn ends_token(raw: &[char]) -> bool {
    ends_word(raw) || matches!(raw[0], '[' | ']' | '|') || raw.starts_with(&['-', '>'])
}

/// Whether a word of a rule can begin here, behind an arrow.
fn is_after_arrow(before: &str) -> bool {
    let tokens = tokens(before);
    let begins = match tokens.last() {
        Some(&last) if before.ends_with(last) => is_sign(last),
        _ => true,
    };
    begins && tokens.contains(&"->")
}

/// Whether a token of a rule needs no blank behind it.
fn is_sign(token: &str) -> bool {
    matches!(token, "[" | "]" | "|" | "->" | ">" | "<" | "^")
}

/// The tokens of a line of RULES.
pub fn tokens(text: &str) -> Vec<&str> {
    let mut tokens = Vec::new();
    for mut word in words(text) {
        while !word.is_empty() {
            let length = token_length(word);
            tokens.push(&word[..length]);
            word = &word[length..];
        }
    }
    tokens
}

/// How many bytes the first token of a word has.
fn token_length(word: &str) -> usize {
    if word.starts_with("->") {
        return 2;
    }
    if word.starts_with(['[', ']', '|', '>', '<', '^']) {
        return 1;
    }
    let end = word.find(['[', ']', '|']).unwrap_or(word.len());
    word[..end].find("->").unwrap_or(end)
}

/// The columns and rows of a room, as `10x8`.
pub fn room_size(word: &str) -> Option<(usize, usize)> {
    let (columns, rows) = word.split_once(['x', 'X'])?;
    let number = |digits: &str| {
        let is_number = (1..=3).contains(&digits.len()) && digits.bytes().all(|digit| digit.is_ascii_digit());
        is_number.then(|| digits.parse().ok()).flatten().filter(|number| (1..=256).contains(number))
    };
    Some((number(columns)?, number(rows)?))
}
