//! Transcripts that are read whole, and that are judged piece by piece.

use crate::judge::{blank_entry, Judge, Line, Reader, Verdict};
use crate::types::{Entry, Header};
use std::io::{self, Read};

/// How many bytes are read at once.
const PIECE: usize = 262_144;

/// The header and the entries of a text; none where a line is refused, or the text has no line.
pub fn read_transcript(text: &[u8]) -> Option<(Header, Vec<Entry>)> {
    let mut reader = Reader::default();
    let (mut header, mut entries) = (None, Vec::new());
    for line in text.split_inclusive(|byte| *byte == b'\n') {
        let mut entry = blank_entry();
        match reader.next(line.strip_suffix(b"\n")?, &mut entry)? {
            Line::Header(found) => header = Some(found),
            Line::Entry => entries.push(entry),
            Line::Word => {}
        }
    }
    Some((header?, entries))
}

/// Reads and judges a transcript piece by piece. Its memory doesn't grow with the text.
struct Checker {
    reader: Reader,
    judge: Option<Judge>,
    entry: Entry,
    lines: u64,
}

impl Checker {
    fn new() -> Checker {
        Checker {
            reader: Reader::default(),
            judge: None,
            entry: blank_entry(),
            lines: 0,
        }
    }

    /// Reads the next line. None where it is refused.
    fn line(&mut self, line: &[u8]) -> Option<()> {
        self.lines += 1;
        match (self.reader.next(line, &mut self.entry)?, &mut self.judge) {
            (Line::Header(header), judge) => *judge = Some(Judge::new(&header)),
            (Line::Entry, Some(judge)) => judge.feed(&self.entry),
            _ => {}
        }
        Some(())
    }

    /// Reads the lines that end in these bytes, and answers how many bytes they have. None where one is refused.
    fn lines(&mut self, bytes: &[u8]) -> Option<usize> {
        let mut read = 0;
        while let Some(length) = bytes[read..].iter().position(|byte| *byte == b'\n') {
            self.line(&bytes[read..read + length])?;
            read += length + 1;
        }
        Some(read)
    }

    fn verdict(&self) -> Verdict {
        match &self.judge {
            Some(judge) => judge.verdict(),
            None => Verdict::Legal(0),
        }
    }
}

/// The verdict on a text.
pub fn check(text: &mut impl Read) -> io::Result<Verdict> {
    let mut checker = Checker::new();
    // A line that is too long isn't kept whole.
    let mut room = vec![0; 2 * PIECE];
    let mut filled = 0;
    loop {
        let count = text.read(&mut room[filled..])?;
        if count == 0 {
            break;
        }
        let end = filled + count;
        let Some(read) = checker.lines(&room[..end]) else {
            return Ok(Verdict::Refused(checker.lines));
        };
        room.copy_within(read..end, 0);
        filled = end - read;
        if filled > PIECE {
            break;
        }
    }
    if filled > 0 {
        return Ok(Verdict::Refused(checker.lines + 1));
    }
    Ok(checker.verdict())
}
