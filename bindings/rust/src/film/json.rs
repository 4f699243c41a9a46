//! A reader of JSON texts (RFC 8259) that goes through a text once and keeps nothing: ffprobe's output of a long film has a hundred million bytes.

/// What was read, or the byte at which the text can't be read.
pub(super) type Read<T> = Result<T, usize>;

/// Arrays and objects one inside the other, at most, in a value that is skipped.
const MOST_DEPTH: usize = 64;

pub(super) struct Reader<'t> {
    text: &'t [u8],
    at: usize,
}

impl<'t> Reader<'t> {
    /// A text, with or without a byte order mark.
    pub fn new(text: &'t [u8]) -> Reader<'t> {
        let at = if text.starts_with(b"\xEF\xBB\xBF") { 3 } else { 0 };
        Reader { text, at }
    }

    fn space(&mut self) {
        while self.text.get(self.at).is_some_and(|b| b" \t\r\n".contains(b)) {
            self.at += 1;
        }
    }

    fn next(&mut self) -> Option<u8> {
        self.space();
        self.text.get(self.at).copied()
    }

    fn eat(&mut self, byte: u8) -> bool {
        let found = self.next() == Some(byte);
        self.at += usize::from(found);
        found
    }

    fn need(&mut self, byte: u8) -> Read<()> {
        if self.eat(byte) {
            Ok(())
        } else {
            Err(self.at)
        }
    }

    /// The end of the text.
    pub fn end(&mut self) -> Read<()> {
        match self.next() {
            None => Ok(()),
            Some(_) => Err(self.at),
        }
    }

    /// An object; each member's value is to be read by `each`, which is told its name.
    pub fn object(&mut self, each: &mut dyn FnMut(&mut Reader<'t>, &'t [u8]) -> Read<()>) -> Read<()> {
        self.need(b'{')?;
        if self.eat(b'}') {
            return Ok(());
        }
        loop {
            let name = self.string()?;
            self.need(b':')?;
            each(self, name)?;
            if !self.eat(b',') {
                return self.need(b'}');
            }
        }
    }

    /// An array; each value is to be read by `each`.
    pub fn array(&mut self, each: &mut dyn FnMut(&mut Reader<'t>) -> Read<()>) -> Read<()> {
        self.need(b'[')?;
        if self.eat(b']') {
            return Ok(());
        }
        loop {
            each(self)?;
            if !self.eat(b',') {
                return self.need(b']');
            }
        }
    }

    /// A string as it stands between its quotes, escapes and all.
    pub fn string(&mut self) -> Read<&'t [u8]> {
        self.need(b'"')?;
        let start = self.at;
        loop {
            match self.text.get(self.at) {
                Some(b'"') => break,
                Some(b'\\') if self.at + 1 < self.text.len() => self.at += 2,
                Some(byte) if *byte >= 0x20 && *byte != b'\\' => self.at += 1,
                _ => return Err(self.at),
            }
        }
        self.at += 1;
        Ok(&self.text[start..self.at - 1])
    }

    /// The letters of a number or a name such as `null`.
    fn word(&mut self) -> Read<&'t [u8]> {
        self.space();
        let start = self.at;
        while self.text.get(self.at).is_some_and(|b| b.is_ascii_alphanumeric() || b"+-.".contains(b)) {
            self.at += 1;
        }
        if self.at == start {
            return Err(start);
        }
        Ok(&self.text[start..self.at])
    }

    /// A whole number, as a number or as a string; nothing for `null` or a string of another sort, such as `N/A`.
    pub fn integer(&mut self) -> Read<Option<i64>> {
        let digits = |word: &[u8]| std::str::from_utf8(word).ok().and_then(|w| w.parse().ok());
        if self.next() == Some(b'"') {
            return Ok(digits(self.string()?));
        }
        let at = self.at;
        match self.word()? {
            b"null" => Ok(None),
            word => digits(word).map(Some).ok_or(at),
        }
    }

    /// Any value.
    pub fn skip(&mut self) -> Read<()> {
        self.skip_to(MOST_DEPTH)
    }

    fn skip_to(&mut self, depth: usize) -> Read<()> {
        let inside = depth.checked_sub(1).ok_or(self.at);
        match self.next() {
            Some(b'{') => inside.and_then(|d| self.object(&mut |r, _| r.skip_to(d))),
            Some(b'[') => inside.and_then(|d| self.array(&mut |r| r.skip_to(d))),
            Some(b'"') => self.string().map(|_| ()),
            _ => self.word().map(|_| ()),
        }
    }
}

#[cfg(test)]
mod tests {
    use super::*;

    fn skipped(text: &[u8]) -> Read<()> {
        let mut reader = Reader::new(text);
        reader.skip()?;
        reader.end()
    }

    #[test]
    fn values() {
        for text in ["{}", " [ ] ", "[1,-2.5e3,\"a\\\"b\",null,true,{\"a\":[{}]}]", "\u{feff}7"] {
            assert_eq!(skipped(text.as_bytes()), Ok(()), "{text}");
        }
        for (text, at) in [("", 0), ("{", 1), ("[1 2]", 3), ("{\"a\" 1}", 5), ("\"a", 2), ("\"\\", 1), ("1 2", 2), ("[,]", 1), ("{1:2}", 1), ("\"\n\"", 1)] {
            assert_eq!(skipped(text.as_bytes()), Err(at), "{text}");
        }
    }

    #[test]
    fn depth() {
        let nested = |n: usize| [vec![b'['; n], vec![b']'; n]].concat();
        assert_eq!(skipped(&nested(MOST_DEPTH)), Ok(()));
        assert_eq!(skipped(&nested(MOST_DEPTH + 1)), Err(MOST_DEPTH));
        assert!(skipped(&nested(1_000_000)).is_err());
    }

    #[test]
    fn integers() {
        let of = |text: &str| Reader::new(text.as_bytes()).integer();
        assert_eq!(of("-9223372036854775808"), Ok(Some(i64::MIN)));
        assert_eq!(of("\"12\""), Ok(Some(12)));
        assert_eq!(of("\"N/A\""), Ok(None));
        assert_eq!(of("null"), Ok(None));
        assert_eq!(of("9223372036854775808"), Err(0));
        assert_eq!(of(" 1.5"), Err(1));
    }
}
