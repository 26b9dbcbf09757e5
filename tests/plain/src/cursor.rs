//! A cursor over one line of JSON. Every method answers none where something else stands there. It takes keys in any
//! order and white space, but no escapes, since no legal text needs one.

/// Puts what was read of a key into its place, and answers the bit of the key.
pub fn put<T>(place: &mut T, found: Option<T>, key: u32) -> Option<u32> {
    *place = found?;
    Some(key)
}

/// A line, and how much of it was read.
pub struct Cursor<'a> {
    line: &'a [u8],
    at: usize,
}

impl<'a> Cursor<'a> {
    pub fn new(line: &'a [u8]) -> Cursor<'a> {
        Cursor { line, at: 0 }
    }

    #[inline]
    fn pass_space(&mut self) {
        while let Some(b' ' | b'\t' | b'\r' | b'\n') = self.line.get(self.at) {
            self.at += 1;
        }
    }

    /// Passes this byte.
    #[inline]
    pub fn pass(&mut self, byte: u8) -> Option<()> {
        self.pass_space();
        if self.line.get(self.at) != Some(&byte) {
            return None;
        }
        self.at += 1;
        Some(())
    }

    /// The byte that comes next, or 0 at the end.
    #[inline]
    pub fn peek(&mut self) -> u8 {
        self.pass_space();
        *self.line.get(self.at).unwrap_or(&0)
    }

    /// Whether the line ends here.
    pub fn is_at_end(&mut self) -> bool {
        self.pass_space();
        self.at == self.line.len()
    }

    #[inline]
    pub fn number(&mut self) -> Option<u64> {
        self.pass_space();
        let from = self.at;
        let mut number: u64 = 0;
        while let Some(digit @ b'0'..=b'9') = self.line.get(self.at) {
            number = number.checked_mul(10)?;
            number = number.checked_add(u64::from(digit - b'0'))?;
            self.at += 1;
        }
        let has_zero_before = self.line.get(from) == Some(&b'0') && self.at > from + 1;
        let goes_on = matches!(self.line.get(self.at), Some(b'.' | b'e' | b'E'));
        if self.at == from || has_zero_before || goes_on {
            return None;
        }
        Some(number)
    }

    #[inline]
    pub fn number_32(&mut self) -> Option<u32> {
        u32::try_from(self.number()?).ok()
    }

    #[inline]
    pub fn number_8(&mut self) -> Option<u8> {
        u8::try_from(self.number()?).ok()
    }

    #[inline]
    pub fn text(&mut self) -> Option<&'a [u8]> {
        self.pass(b'"')?;
        let from = self.at;
        loop {
            match *self.line.get(self.at)? {
                b'"' => break,
                b'\\' | 0..=31 => return None,
                _ => self.at += 1,
            }
        }
        self.at += 1;
        Some(&self.line[from..self.at - 1])
    }

    #[inline]
    fn word(&mut self, word: &[u8]) -> Option<()> {
        if !self.line[self.at..].starts_with(word) {
            return None;
        }
        self.at += word.len();
        Some(())
    }

    pub fn truth(&mut self) -> Option<bool> {
        match self.peek() {
            b't' => self.word(b"true").map(|()| true),
            _ => self.word(b"false").map(|()| false),
        }
    }

    /// What `read` reads, or none where null stands there.
    #[inline]
    pub fn optional<T>(&mut self, read: impl Fn(&mut Self) -> Option<T>) -> Option<Option<T>> {
        if self.peek() == b'n' {
            return self.word(b"null").map(|()| None);
        }
        read(self).map(Some)
    }

    #[inline]
    pub fn comma(&mut self) -> Option<()> {
        self.pass(b',')
    }

    /// Passes a comma, and then what `read` reads.
    #[inline]
    pub fn then<T>(&mut self, read: impl FnOnce(&mut Self) -> Option<T>) -> Option<T> {
        self.comma()?;
        read(self)
    }

    /// What `read` reads between brackets.
    #[inline]
    pub fn bracketed<T>(&mut self, read: impl FnOnce(&mut Self) -> Option<T>) -> Option<T> {
        self.pass(b'[')?;
        let found = read(self)?;
        self.pass(b']')?;
        Some(found)
    }

    /// An object: `read` reads the value of each key.
    #[inline]
    pub fn object(
        &mut self,
        mut read: impl FnMut(&mut Self, &'a [u8]) -> Option<()>,
    ) -> Option<()> {
        self.pass(b'{')?;
        if self.peek() == b'}' {
            return self.pass(b'}');
        }
        loop {
            let key = self.text()?;
            self.pass(b':')?;
            read(self, key)?;
            if self.peek() == b'}' {
                return self.pass(b'}');
            }
            self.comma()?;
        }
    }

    /// A list: `read` reads each member.
    #[inline]
    pub fn list(&mut self, mut read: impl FnMut(&mut Self) -> Option<()>) -> Option<()> {
        self.pass(b'[')?;
        if self.peek() == b']' {
            return self.pass(b']');
        }
        loop {
            read(self)?;
            if self.peek() == b']' {
                return self.pass(b']');
            }
            self.comma()?;
        }
    }
}
