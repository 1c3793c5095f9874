//! A plain reader of the same tokens, only for measurements: what a programmer would write without proofs.
use std::collections::HashSet;
use std::io::Read;

#[allow(dead_code)]
enum Token {
    Plain,
    Text(String),
    Tag(String, Vec<(String, String)>),
}

struct Cursor<'a> {
    bytes: &'a [u8],
    at: usize,
}

impl<'a> Cursor<'a> {
    fn run(&mut self, test: impl Fn(u8) -> bool) -> &'a [u8] {
        let from = self.at;
        while self.at < self.bytes.len() && test(self.bytes[self.at]) {
            self.at += 1;
        }
        &self.bytes[from..self.at]
    }

    fn take(&mut self, text: &[u8]) -> Option<()> {
        if self.bytes[self.at..].starts_with(text) {
            self.at += text.len();
            Some(())
        } else {
            None
        }
    }

    fn until(&mut self, text: &[u8]) -> Option<&'a [u8]> {
        let rest = &self.bytes[self.at..];
        let place = rest.windows(text.len()).position(|window| window == text)?;
        self.at += place + text.len();
        Some(&rest[..place])
    }

    fn name(&mut self) -> Option<&'a [u8]> {
        let first = *self.bytes.get(self.at)?;
        if !(first.is_ascii_alphabetic() || first == b'_' || first == b':' || first >= 128) {
            return None;
        }
        Some(self.run(|b| b.is_ascii_alphanumeric() || b"_:-.".contains(&b) || b >= 128))
    }

    fn setting(&mut self) -> Option<(&'a [u8], &'a [u8])> {
        let begin = self.at;
        let found = self.setting_here();
        if found.is_none() {
            self.at = begin;
        }
        found
    }

    fn setting_here(&mut self) -> Option<(&'a [u8], &'a [u8])> {
        if self.run(is_space).is_empty() {
            return None;
        }
        let name = self.name()?;
        self.run(is_space);
        self.take(b"=")?;
        self.run(is_space);
        let quote = *self.bytes.get(self.at)?;
        if quote != b'"' && quote != b'\'' {
            return None;
        }
        self.at += 1;
        let body = self.run(|b| b != b'<' && b != quote);
        self.take(&[quote])?;
        Some((name, body))
    }
}

fn is_space(byte: u8) -> bool {
    matches!(byte, 9 | 10 | 13 | 32)
}

fn is_legal(c: char) -> bool {
    matches!(c, '\t' | '\n' | '\r' | ' '..='\u{D7FF}' | '\u{E000}'..='\u{FFFD}' | '\u{10000}'..)
}

fn value(bytes: &[u8], spaces: bool, references: bool) -> Option<String> {
    let text = std::str::from_utf8(bytes).ok()?;
    let mut out = String::with_capacity(text.len());
    let mut rest = text;
    while let Some(place) = rest.find(|c| {
        c == '\r' || (references && c == '&') || (spaces && (c == '\t' || c == '\n'))
    }) {
        out.push_str(&rest[..place]);
        let special = rest.as_bytes()[place];
        rest = &rest[place + 1..];
        if special == b'&' {
            let end = rest.find(';')?;
            out.push(referenced(&rest[..end])?);
            rest = &rest[end + 1..];
        } else {
            out.push(if spaces { ' ' } else { '\n' });
            if special == b'\r' {
                rest = rest.strip_prefix('\n').unwrap_or(rest);
            }
        }
    }
    out.push_str(rest);
    Some(out)
}

fn referenced(body: &str) -> Option<char> {
    let number = match body {
        "lt" => return Some('<'),
        "gt" => return Some('>'),
        "amp" => return Some('&'),
        "apos" => return Some('\''),
        "quot" => return Some('"'),
        _ => match body.strip_prefix("#x") {
            Some(digits) => u32::from_str_radix(digits, 16).ok()?,
            None => body.strip_prefix('#')?.parse().ok()?,
        },
    };
    char::from_u32(number).filter(|c| is_legal(*c))
}

fn markup(cursor: &mut Cursor) -> Option<Token> {
    if cursor.take(b"!--").is_some() {
        cursor.until(b"--")?;
        cursor.take(b">")?;
        return Some(Token::Plain);
    }
    if cursor.take(b"![CDATA[").is_some() {
        return Some(Token::Text(value(cursor.until(b"]]>")?, false, false)?));
    }
    if cursor.take(b"?").is_some() {
        if cursor.name()? == b"xml" {
            while cursor.setting().is_some() {}
            cursor.run(is_space);
            cursor.take(b"?>")?;
        } else {
            cursor.until(b"?>")?;
        }
        return Some(Token::Plain);
    }
    if cursor.take(b"/").is_some() {
        let name = String::from_utf8(cursor.name()?.to_vec()).ok()?;
        cursor.run(is_space);
        cursor.take(b">")?;
        return Some(Token::Text(name));
    }
    let name = String::from_utf8(cursor.name()?.to_vec()).ok()?;
    let mut attributes = Vec::new();
    let mut seen = HashSet::new();
    while let Some((name, body)) = cursor.setting() {
        if !seen.insert(name) {
            return None;
        }
        attributes.push((String::from_utf8(name.to_vec()).ok()?, value(body, true, true)?));
    }
    cursor.run(is_space);
    if cursor.take(b"/>").is_none() {
        cursor.take(b">")?;
    }
    Some(Token::Tag(name, attributes))
}

fn token(bytes: &[u8], place: usize) -> Option<(Token, usize)> {
    let mut cursor = Cursor { bytes, at: place };
    let token = if cursor.take(b"<").is_some() {
        markup(&mut cursor)?
    } else {
        let run = cursor.run(|b| b != b'<');
        if run.windows(3).any(|window| window == b"]]>") {
            return None;
        }
        Token::Text(value(run, false, true)?)
    };
    let spelling = &bytes[place..cursor.at];
    let legal = std::str::from_utf8(spelling).ok()?.chars().all(is_legal);
    (legal && spelling.len() <= 1 << 20).then_some((token, cursor.at))
}

fn main() {
    let mut bytes = Vec::new();
    std::io::stdin().read_to_end(&mut bytes).unwrap();
    let (mut place, mut tokens) = (0, 0);
    while place < bytes.len() {
        match token(&bytes, place) {
            Some((_, end)) => place = end,
            None => return println!("bad token at {place}"),
        }
        tokens += 1;
    }
    println!("{tokens} tokens");
}
