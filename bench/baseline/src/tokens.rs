//! The tokens of a policy's text, read one ahead.

use crate::names::{NameId, Names};
use crate::policy::{is_name, PolicyFault, GREATEST};

pub type Read<T> = Result<T, PolicyFault>;

/// How many rules deep a bracket, `size` or `not` may stand.
const DEPTH: usize = 32;

#[derive(Clone, Copy, PartialEq)]
pub enum Token {
    Word,
    Number(i64),
    Text,
    Sign(&'static str),
    End,
}

/// The signs, the longer ones first.
const SIGNS: [&str; 20] =
    ["..", "!=", "<=", ">=", ":", ";", ",", ".", "=", "<", ">", "+", "-", "*", "{", "}", "(", ")", "[", "]"];

pub struct Tokens<'a> {
    bytes: &'a [u8],
    /// Where the token begins, and where it ends.
    start: usize,
    end: usize,
    pub token: Token,
    depth: usize,
    pub names: &'a mut Names,
}

impl<'a> Tokens<'a> {
    pub fn new(bytes: &'a [u8], names: &'a mut Names) -> Read<Tokens<'a>> {
        let mut tokens = Tokens { bytes, start: 0, end: 0, token: Token::End, depth: 0, names };
        tokens.advance()?;
        Ok(tokens)
    }

    pub fn unexpected<T>(&self) -> Read<T> {
        Err(PolicyFault::Unexpected(self.start))
    }

    pub fn too_many<T>(&self) -> Read<T> {
        Err(PolicyFault::TooMany(self.start))
    }

    /// Goes to the next token.
    pub fn advance(&mut self) -> Read<()> {
        let behind_number = matches!(self.token, Token::Number(_)).then_some(self.end);
        self.start = self.skip_blanks();
        let Some(first) = self.bytes.get(self.start) else {
            self.token = Token::End;
            self.end = self.start;
            return Ok(());
        };
        match first {
            b'a'..=b'z' if behind_number == Some(self.start) => self.unexpected(),
            b'a'..=b'z' => self.read_word(),
            b'0'..=b'9' => self.read_number(),
            b'"' => self.read_text(),
            _ => self.read_sign(),
        }
    }

    fn skip_blanks(&self) -> usize {
        let mut at = self.end;
        while let Some(byte) = self.bytes.get(at) {
            match byte {
                b' ' | b'\t' | b'\n' => at += 1,
                b'#' => at += self.length_from(at, |byte| byte != b'\n'),
                _ => break,
            }
        }
        at
    }

    fn length_from(&self, at: usize, goes_on: impl Fn(u8) -> bool) -> usize {
        self.bytes[at..].iter().take_while(|byte| goes_on(**byte)).count()
    }

    fn read_word(&mut self) -> Read<()> {
        let len = self.length_from(self.start, |it| it.is_ascii_lowercase() || it.is_ascii_digit() || it == b'_');
        if len > 32 {
            return Err(PolicyFault::TooLong(self.start));
        }
        self.end = self.start + len;
        self.token = Token::Word;
        Ok(())
    }

    fn read_number(&mut self) -> Read<()> {
        let len = self.length_from(self.start, |byte| byte.is_ascii_digit());
        let digits = &self.bytes[self.start..self.start + len];
        let number = digits.iter().fold(0, |sum, digit| (sum * 10 + i64::from(digit - b'0')).min(GREATEST + 1));
        if number > GREATEST {
            return Err(PolicyFault::TooLong(self.start));
        }
        if len > 1 && digits[0] == b'0' {
            return self.unexpected();
        }
        self.end = self.start + len;
        self.token = Token::Number(number);
        Ok(())
    }

    fn read_text(&mut self) -> Read<()> {
        let rest = &self.bytes[self.start + 1..];
        let len = rest.iter().take(65).take_while(|it| (0x20..=0x7e).contains(*it) && **it != b'"').count();
        if len == 65 {
            return Err(PolicyFault::TooLong(self.start));
        }
        let end = self.start + 1 + len;
        match rest.get(len) {
            None => Err(PolicyFault::Unexpected(end)),
            Some(b'"') => {
                self.end = end + 1;
                self.token = Token::Text;
                Ok(())
            }
            Some(_) => Err(PolicyFault::UnknownByte(end)),
        }
    }

    fn read_sign(&mut self) -> Read<()> {
        let rest = &self.bytes[self.start..];
        let Some(sign) = SIGNS.iter().find(|sign| rest.starts_with(sign.as_bytes())) else {
            return Err(PolicyFault::UnknownByte(self.start));
        };
        self.end = self.start + sign.len();
        self.token = Token::Sign(sign);
        Ok(())
    }

    pub fn is_word(&self, word: &str) -> bool {
        self.token == Token::Word && &self.bytes[self.start..self.end] == word.as_bytes()
    }

    pub fn is_sign(&self, sign: &str) -> bool {
        self.token == Token::Sign(sign_of(sign))
    }

    /// Goes on where the token is this word, and tells whether it was.
    pub fn take_word(&mut self, word: &str) -> Read<bool> {
        let is_there = self.is_word(word);
        if is_there {
            self.advance()?;
        }
        Ok(is_there)
    }

    /// Goes on where the token is one of these words, and gives its number among them.
    pub fn take_one_of(&mut self, words: &[&str]) -> Read<usize> {
        match words.iter().position(|word| self.is_word(word)) {
            Some(number) => self.advance().map(|()| number),
            None => self.unexpected(),
        }
    }

    pub fn take_sign(&mut self, sign: &str) -> Read<()> {
        if self.is_sign(sign) {
            self.advance()
        } else {
            self.unexpected()
        }
    }

    pub fn take_name(&mut self) -> Read<NameId> {
        if self.token != Token::Word {
            return self.unexpected();
        }
        let name = self.names.intern(&self.bytes[self.start..self.end]);
        self.advance()?;
        Ok(name)
    }

    pub fn take_number(&mut self) -> Read<i64> {
        let Token::Number(number) = self.token else { return self.unexpected() };
        self.advance()?;
        Ok(number)
    }

    pub fn take_int(&mut self) -> Read<i64> {
        if self.is_sign("-") {
            self.advance()?;
            Ok(-self.take_number()?)
        } else {
            self.take_number()
        }
    }

    /// The bytes between the quotes, where the token is a text.
    pub fn text(&self) -> Option<&'a [u8]> {
        (self.token == Token::Text).then(|| &self.bytes[self.start + 1..self.end - 1])
    }

    /// A name in quotes.
    pub fn take_name_text(&mut self) -> Read<NameId> {
        match self.text() {
            Some(text) if is_name(text) => {
                let name = self.names.intern(text);
                self.advance()?;
                Ok(name)
            }
            _ => self.unexpected(),
        }
    }

    /// Goes one rule deeper, behind the token that opens it.
    pub fn open(&mut self) -> Read<()> {
        if self.depth == DEPTH {
            return Err(PolicyFault::TooDeep(self.start));
        }
        self.depth += 1;
        self.advance()
    }

    /// Leaves a rule, behind the sign that closes it.
    pub fn close(&mut self, sign: &str) -> Read<()> {
        if !self.is_sign(sign) {
            return self.unexpected();
        }
        self.leave();
        self.advance()
    }

    /// Leaves a rule that nothing closes.
    pub fn leave(&mut self) {
        self.depth -= 1;
    }
}

fn sign_of(sign: &str) -> &'static str {
    SIGNS.iter().find(|known| **known == sign).copied().unwrap_or("")
}
