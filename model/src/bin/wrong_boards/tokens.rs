//! The tokens of a source, as far as the model uses the language.

use std::ops::Range;

/// What a token is.
#[derive(Clone, Copy, Debug, PartialEq, Eq)]
pub enum Kind {
    /// A name or a word of the language.
    Name,
    Number,
    /// `b'x'`
    Byte,
    /// A string, a character or a lifetime.
    Text,
    Sign,
}

/// A token and its bytes.
#[derive(Clone, Debug)]
pub struct Token {
    pub kind: Kind,
    pub at: Range<usize>,
}

/// A source with its tokens.
pub struct Source {
    /// The name of its file.
    pub file: String,
    pub text: String,
    pub tokens: Vec<Token>,
    /// The bytes of its comments.
    pub comments: Vec<Range<usize>>,
    /// Of a bracket its partner, of another token the token itself.
    partner: Vec<usize>,
}

/// Signs of more than one character, the longest first.
const SIGNS: [&str; 24] = [
    "..=", "<<=", ">>=", "=>", "->", "::", "==", "!=", "<=", ">=", "&&", "||", "+=", "-=", "*=",
    "/=", "%=", "^=", "&=", "|=", "<<", ">>", "..", "",
];

impl Source {
    /// A source of this file name and text.
    pub fn new(file: &str, text: String) -> Source {
        let (mut tokens, mut comments) = (Vec::new(), Vec::new());
        let mut place = 0;
        while let Some(&byte) = text.as_bytes().get(place) {
            let rest = &text[place..];
            let (kind, length) = match byte {
                byte if byte.is_ascii_whitespace() => (None, 1),
                _ if rest.starts_with("//") => {
                    let length = rest.find('\n').unwrap_or(rest.len());
                    comments.push(place..place + length);
                    (None, length)
                }
                _ => {
                    let (kind, length) = token(rest);
                    (Some(kind), length)
                }
            };
            let at = place..place + length;
            place = at.end;
            tokens.extend(kind.map(|kind| Token { kind, at }));
        }
        let partner = partners(&text, &tokens);
        Source {
            file: file.into(),
            text,
            tokens,
            comments,
            partner,
        }
    }

    /// The text of a token; none behind the last.
    pub fn at(&self, token: usize) -> &str {
        let token = self.tokens.get(token);
        token.map_or("", |token| &self.text[token.at.clone()])
    }

    pub fn is(&self, token: usize, text: &str) -> bool {
        self.at(token) == text
    }

    pub fn is_one_of(&self, token: usize, texts: &[&str]) -> bool {
        texts.contains(&self.at(token))
    }

    pub fn kind(&self, token: usize) -> Option<Kind> {
        self.tokens.get(token).map(|token| token.kind)
    }

    /// Whether it is a name that begins with a small letter, and no word of the language.
    pub fn is_small_name(&self, token: usize) -> bool {
        const WORDS: [&str; 24] = [
            "as", "break", "const", "else", "enum", "false", "fn", "for", "if", "impl", "in",
            "let", "loop", "match", "mod", "move", "mut", "pub", "ref", "return", "self", "true",
            "use", "while",
        ];
        let small = self.at(token).starts_with(|c: char| c.is_ascii_lowercase());
        small && self.kind(token) == Some(Kind::Name) && !self.is_one_of(token, &WORDS)
    }

    /// The other bracket.
    pub fn partner(&self, token: usize) -> usize {
        self.partner.get(token).copied().unwrap_or(token)
    }

    /// The token behind this one, or behind the brackets that it opens.
    pub fn behind(&self, token: usize) -> usize {
        self.partner(token).max(token) + 1
    }

    /// From a token on, brackets passed over: the first of these.
    pub fn find(&self, from: usize, texts: &[&str]) -> usize {
        let mut token = from;
        while token < self.tokens.len() && !self.is_one_of(token, texts) {
            token = self.behind(token);
        }
        token
    }

    /// The bytes of some tokens.
    pub fn bytes(&self, tokens: Range<usize>) -> Range<usize> {
        if tokens.is_empty() {
            let at = self.tokens[tokens.start].at.start;
            return at..at;
        }
        self.tokens[tokens.start].at.start..self.tokens[tokens.end - 1].at.end
    }

    /// Whether a blank stands before and behind a token.
    pub fn apart(&self, token: usize) -> bool {
        let blank = |byte: Option<&u8>| byte.is_none_or(u8::is_ascii_whitespace);
        let at = &self.tokens[token].at;
        let bytes = self.text.as_bytes();
        blank(bytes.get(at.start.wrapping_sub(1))) && blank(bytes.get(at.end))
    }

    /// Whether a token stands just behind the one before it.
    pub fn touches(&self, token: usize) -> bool {
        token > 0 && self.tokens[token - 1].at.end == self.tokens[token].at.start
    }

    /// The line that holds a byte: its number from 1, and its text without blanks around it.
    pub fn line(&self, byte: usize) -> (usize, &str) {
        let before = &self.text[..byte];
        let start = before.rfind('\n').map_or(0, |at| at + 1);
        let line = self.text[start..].lines().next().unwrap_or("");
        (before.matches('\n').count() + 1, line.trim())
    }
}

/// The token at the front of a text: its kind and length.
fn token(rest: &str) -> (Kind, usize) {
    let bytes = rest.as_bytes();
    let name = |byte: u8| byte.is_ascii_alphanumeric() || byte == b'_';
    let while_name = || bytes.iter().take_while(|&&byte| name(byte)).count();
    match bytes {
        [b'b', b'"', ..] => (Kind::Text, 1 + quoted(&bytes[1..])),
        [b'b', b'\'', ..] => (Kind::Byte, 1 + quoted(&bytes[1..])),
        [b'"', ..] | [b'\'', b'\\', ..] | [b'\'', _, b'\'', ..] => (Kind::Text, quoted(bytes)),
        [b'\'', ..] => (
            Kind::Text,
            1 + bytes[1..].iter().take_while(|&&b| name(b)).count(),
        ),
        [byte, ..] if byte.is_ascii_digit() => (Kind::Number, while_name()),
        [byte, ..] if name(*byte) => (Kind::Name, while_name()),
        _ => {
            let sign = SIGNS.iter().find(|sign| rest.starts_with(**sign));
            let one = rest.chars().next().map_or(1, char::len_utf8);
            (Kind::Sign, sign.map_or(0, |sign| sign.len()).max(one))
        }
    }
}

/// The length of what stands between quotes, with them.
fn quoted(bytes: &[u8]) -> usize {
    let mut length = 1;
    while length < bytes.len() && bytes[length] != bytes[0] {
        length += if bytes[length] == b'\\' { 2 } else { 1 };
    }
    length + 1
}

fn partners(text: &str, tokens: &[Token]) -> Vec<usize> {
    let mut partner: Vec<usize> = (0..tokens.len()).collect();
    let mut open = Vec::new();
    for (number, token) in tokens.iter().enumerate() {
        match &text[token.at.clone()] {
            "(" | "[" | "{" => open.push(number),
            ")" | "]" | "}" => {
                if let Some(opened) = open.pop() {
                    partner[opened] = number;
                    partner[number] = opened;
                }
            }
            _ => (),
        }
    }
    partner
}
