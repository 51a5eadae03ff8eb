//! The canonical table text: tokens parted by one space. See README.md.

/// A request that cannot be carried out.
pub enum Bad {
    /// Not of the form that README.md names.
    Form(&'static str),
    /// Well formed, but the Rust has no such value (text not UTF-8, date out of range).
    Value,
}

/// Takes the tokens of a request one after the other.
pub struct Tokens<'a>(pub std::slice::Split<'a, u8, fn(&u8) -> bool>);

pub fn tokens(line: &[u8]) -> Tokens<'_> {
    Tokens(line.split(|&b| b == b' '))
}

impl<'a> Tokens<'a> {
    pub fn next(&mut self) -> Result<&'a [u8], Bad> {
        self.0.next().ok_or(Bad::Form("a token is missing"))
    }

    pub fn end(&mut self) -> Result<(), Bad> {
        match self.0.next() {
            None => Ok(()),
            Some(_) => Err(Bad::Form("too many tokens")),
        }
    }

    pub fn number(&mut self) -> Result<usize, Bad> {
        number(self.next()?)
    }

    pub fn bytes(&mut self) -> Result<Vec<u8>, Bad> {
        unhex(self.next()?)
    }

    pub fn text(&mut self) -> Result<String, Bad> {
        String::from_utf8(self.bytes()?).map_err(|_| Bad::Value)
    }

    /// Applies `take` unless the token is `-`.
    pub fn maybe<T>(&mut self, take: fn(&mut Self) -> Result<T, Bad>) -> Result<Option<T>, Bad> {
        if self.0.clone().next() == Some(b"-") {
            self.0.next();
            return Ok(None);
        }
        take(self).map(Some)
    }

    /// A count, then `take` as often.
    pub fn many<T>(&mut self, take: fn(&mut Self) -> Result<T, Bad>) -> Result<Vec<T>, Bad> {
        let count = self.number()?;
        (0..count).map(|_| take(self)).collect()
    }
}

pub fn number(token: &[u8]) -> Result<usize, Bad> {
    let text = std::str::from_utf8(token).map_err(|_| Bad::Form("not a number"))?;
    text.parse().map_err(|_| Bad::Form("not a number"))
}

fn unhex(token: &[u8]) -> Result<Vec<u8>, Bad> {
    let digit = |b: u8| (b as char).to_digit(16).ok_or(Bad::Form("not a hex digit"));
    match token {
        [b'x', pairs @ ..] if pairs.len() % 2 == 0 => pairs
            .chunks_exact(2)
            .map(|pair| Ok((digit(pair[0])? * 16 + digit(pair[1])?) as u8))
            .collect(),
        _ => Err(Bad::Form("not x and hex")),
    }
}

/// Appends a space and a token.
pub trait Put {
    fn put(&mut self, token: impl std::fmt::Display);
    fn put_text(&mut self, text: &[u8]);
    fn put_maybe(&mut self, text: Option<&str>);
}

impl Put for String {
    fn put(&mut self, token: impl std::fmt::Display) {
        use std::fmt::Write;
        write!(self, " {}", token).unwrap();
    }

    fn put_text(&mut self, text: &[u8]) {
        const DIGITS: &[u8; 16] = b"0123456789abcdef";
        self.push_str(" x");
        for b in text {
            self.push(DIGITS[(b >> 4) as usize] as char);
            self.push(DIGITS[(b & 15) as usize] as char);
        }
    }

    fn put_maybe(&mut self, text: Option<&str>) {
        match text {
            Some(text) => self.put_text(text.as_bytes()),
            None => self.push_str(" -"),
        }
    }
}
