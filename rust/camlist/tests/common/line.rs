//! Text that is read line by line, and a line from its front to its end.

use reference::words::WordSize;

pub struct Lines<'a> {
    rest: &'a str,
}

impl<'a> Lines<'a> {
    pub fn of(text: &'a str) -> Lines<'a> {
        Lines { rest: text }
    }

    pub fn next_is(&self, words: &str) -> bool {
        self.rest.starts_with(words)
    }

    /// The next line behind some words, with which it has to begin.
    pub fn take(&mut self, words: &str) -> Line<'a> {
        let (whole, rest) = self.rest.split_once('\n').expect("a line more");
        self.rest = rest;
        let mut line = Line { whole, rest: whole };
        line.skip(words);
        line
    }

    pub fn end(self) {
        assert_eq!(self.rest, "", "lines behind the last");
    }
}

pub struct Line<'a> {
    whole: &'a str,
    rest: &'a str,
}

impl Line<'_> {
    pub fn starts_with(&self, words: &str) -> bool {
        self.rest.starts_with(words)
    }

    pub fn is_at_end(&self) -> bool {
        self.rest.is_empty()
    }

    pub fn skips(&mut self, words: &str) -> bool {
        let rest = self.rest.strip_prefix(words);
        self.rest = rest.unwrap_or(self.rest);
        rest.is_some()
    }

    pub fn skip(&mut self, words: &str) {
        let has_words = self.skips(words);
        assert!(
            has_words,
            "{}: no `{words}` before `{}`",
            self.whole, self.rest
        );
    }

    /// What the first words that stand here mean.
    pub fn choose<T: Copy>(&mut self, choices: &[(&str, T)]) -> T {
        let found = choices.iter().find(|(words, _)| self.skips(words));
        found
            .unwrap_or_else(|| panic!("{}: `{}`", self.whole, self.rest))
            .1
    }

    /// The characters of one kind that stand here.
    fn run_of(&mut self, is_meant: fn(char) -> bool) -> &str {
        let end = self.rest.find(|c| !is_meant(c)).unwrap_or(self.rest.len());
        let (run, rest) = self.rest.split_at(end);
        self.rest = rest;
        run
    }

    /// A decimal number without zeros before it.
    pub fn number(&mut self) -> u64 {
        let digits = self.run_of(|c| c.is_ascii_digit()).to_string();
        let number: u64 = digits.parse().unwrap_or_else(|_| panic!("{}", self.whole));
        assert_eq!(number.to_string(), digits, "{}", self.whole);
        number
    }

    /// A number at the right end of a column, or one that is wider.
    pub fn column(&mut self, width: usize) -> u64 {
        let blanks = self.run_of(|c| c == ' ').len();
        let number = self.number();
        let digits = number.to_string().len();
        assert_eq!(blanks + digits, width.max(digits), "{}", self.whole);
        number
    }

    /// A number of one thing or of several.
    pub fn plural(&mut self, one: &str, several: &str) -> u64 {
        let number = self.number();
        self.skip(if number == 1 { one } else { several });
        number
    }

    /// So many hexadecimal digits in upper case.
    pub fn hexadecimal(&mut self, digits: usize) -> u32 {
        let (number, rest) = self.rest.split_at(digits);
        self.rest = rest;
        let is_digit = |c: char| c.is_ascii_digit() || ('A'..='F').contains(&c);
        assert!(number.chars().all(is_digit), "{}", self.whole);
        u32::from_str_radix(number, 16).expect("digits")
    }

    /// A word, whose size is seen from its digits.
    pub fn word(&mut self) -> (WordSize, u32) {
        let (size, digits) = match self.rest.find('h') {
            Some(4) => (WordSize::Bits16, 4),
            Some(6) => (WordSize::Bits24, 6),
            _ => panic!("{}: `{}`", self.whole, self.rest),
        };
        let word = self.hexadecimal(digits);
        self.skip("h");
        (size, word)
    }

    /// Bytes, each behind a blank.
    pub fn bytes(&mut self) -> Vec<u8> {
        let mut bytes = Vec::new();
        while self.rest.len() >= 3 && !self.rest.starts_with(" ..") {
            self.skip(" ");
            bytes.push(self.hexadecimal(2) as u8);
        }
        bytes
    }

    /// Bytes up to the line's end; none has a word of its own.
    pub fn bytes_or_none(mut self) -> Vec<u8> {
        if self.skips(" none") {
            self.end();
            return Vec::new();
        }
        let bytes = self.bytes();
        assert!(!bytes.is_empty(), "{}", self.whole);
        self.end();
        bytes
    }

    pub fn rest(self) -> String {
        self.rest.to_string()
    }

    pub fn end(self) {
        assert_eq!(self.rest, "", "{}", self.whole);
    }
}
