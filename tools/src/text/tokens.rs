//! A text as tokens: a parenthesis, a brace, a location from its `@` on, or a word (a number and an op are words too).

use super::BadText;

/// How much of a long token a message shows.
const SHOWN: usize = 40;

/// A token and its line. The end of the text is a token without characters.
#[derive(Clone, Copy)]
pub struct Token<'a> {
    pub line: usize,
    pub text: &'a str,
}

impl Token<'_> {
    /// Whether the text ends here.
    pub fn is_end(&self) -> bool {
        self.text.is_empty()
    }

    /// An error at this token.
    pub fn bad(&self, message: String) -> BadText {
        BadText { line: self.line, message }
    }

    /// The error that something else is due here.
    pub fn expected(&self, what: &str) -> BadText {
        self.bad(format!("expected {what}, found {}", self.shown()))
    }

    /// The token as a message shows it, on one line and not too long.
    pub fn shown(&self) -> String {
        if self.is_end() {
            return "the end of the text".to_string();
        }
        let start: String = self.text.chars().take(SHOWN).collect();
        let dots = if start.len() < self.text.len() { ".." } else { "" };
        format!("{start:?}{dots}")
    }
}

/// The tokens still to come.
#[derive(Clone, Copy)]
pub struct Tokens<'a> {
    rest: &'a str,
    line: usize,
}

impl<'a> Tokens<'a> {
    /// All tokens of a text.
    pub fn new(text: &'a str) -> Self {
        Tokens { rest: text, line: 1 }
    }

    /// The next token, which is then behind.
    pub fn take(&mut self) -> Token<'a> {
        self.skip();
        let text = self.advance(token_length(self.rest));
        Token { line: self.line, text }
    }

    /// The next token, which is still to come.
    pub fn peek(&self) -> Token<'a> {
        let mut copy = *self;
        copy.take()
    }

    /// The location directly behind the token just taken, if there is one.
    pub fn take_location(&mut self) -> Option<Token<'a>> {
        self.rest.starts_with('@').then(|| self.take())
    }

    /// Goes over white space and comments.
    fn skip(&mut self) {
        loop {
            let blank = length_until(self.rest, |c| !c.is_ascii_whitespace());
            let lines = self.advance(blank).matches('\n').count();
            self.line += lines;
            if !self.rest.starts_with('#') {
                return;
            }
            self.advance(length_until(self.rest, |c| c == '\n'));
        }
    }

    /// Goes over so many bytes and gives them.
    fn advance(&mut self, length: usize) -> &'a str {
        let (front, rest) = self.rest.split_at(length);
        self.rest = rest;
        front
    }
}

/// How many bytes stand before the first such character, or in all.
fn length_until(text: &str, stop: fn(char) -> bool) -> usize {
    text.find(stop).unwrap_or(text.len())
}

/// The length of the token at the start of a text.
fn token_length(text: &str) -> usize {
    match text.chars().next() {
        None => 0,
        Some('(' | ')' | '{' | '}') => 1,
        Some(first) => first.len_utf8() + length_until(&text[first.len_utf8()..], ends_word),
    }
}

/// Whether a character ends a word or a location.
fn ends_word(c: char) -> bool {
    c.is_ascii_whitespace() || "(){}@#".contains(c)
}
