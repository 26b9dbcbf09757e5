//! Reads headers and word lines of transcripts. None where a line has no such form.

use crate::cursor::{put, Cursor};
use crate::rules::{Known, CANCEL_RULES};
use crate::types::{Header, LAST_MAJOR};

/// The most locks, seats and cancel slots that there are.
const MOST: u32 = 64;

const MOST_ROUTINES: u32 = 256;

const MOST_DISPATCHES: usize = 256;

const MOST_DRIVERS: usize = 64;

fn cancel_rule(line: &mut Cursor) -> Option<u8> {
    let name = line.text()?;
    let place = CANCEL_RULES.iter().position(|it| it.as_bytes() == name)?;
    Some(place as u8)
}

/// A list of so many counts.
fn counts<const COUNT: usize>(line: &mut Cursor) -> Option<[u32; COUNT]> {
    let mut found = [0; COUNT];
    let mut place = 0;
    line.list(|line| {
        *found.get_mut(place)? = line.number_32()?;
        place += 1;
        Some(())
    })?;
    (place == COUNT).then_some(found)
}

fn dispatch(line: &mut Cursor) -> Option<Known> {
    let [watch, change, keeper, keep_on_error, free, cancels] = counts(line)?;
    let completions = [watch, change, keeper, keep_on_error, free];
    Some(Known {
        completions,
        cancels,
    })
}

/// A driver: its majors rise.
fn driver(line: &mut Cursor) -> Option<Vec<(u8, u32)>> {
    let mut pairs: Vec<(u8, u32)> = Vec::new();
    line.list(|line| {
        let pair = line.bracketed(|line| {
            let major = line.number_8()?;
            Some((major, line.then(Cursor::number_32)?))
        })?;
        let rises = pairs.last().map_or(true, |it| it.0 < pair.0);
        if !rises || pair.0 > LAST_MAJOR {
            return None;
        }
        pairs.push(pair);
        Some(())
    })?;
    Some(pairs)
}

/// The members of a list, each as `read` reads it.
fn members<'a, T>(
    line: &mut Cursor<'a>,
    read: impl Fn(&mut Cursor<'a>) -> Option<T>,
) -> Option<Vec<T>> {
    let mut found = Vec::new();
    line.list(|line| {
        found.push(read(line)?);
        Some(())
    })?;
    Some(found)
}

/// Whether the header's tables agree, and pass no limit.
fn is_header(header: &Header) -> bool {
    let of_dispatch = |known: &Known| {
        let pairs = known.completions.iter().zip(&header.completions);
        pairs.into_iter().all(|(some, all)| some <= all)
            && known.cancels as usize <= header.cancels.len()
    };
    let mut pairs = header.drivers.iter().flatten();
    (1..=MOST).contains(&header.locks)
        && (1..=MOST).contains(&header.seats)
        && header.slots.map_or(true, |it| it <= MOST)
        && header.completions.iter().all(|it| *it <= MOST_ROUTINES)
        && header.cancels.len() <= MOST_ROUTINES as usize
        && header.dispatches.len() <= MOST_DISPATCHES
        && header.drivers.len() <= MOST_DRIVERS
        && header.dispatches.iter().all(of_dispatch)
        && pairs.all(|it| (it.1 as usize) < header.dispatches.len())
}

/// The header of a line.
pub fn read_header(text: &[u8]) -> Option<Header> {
    let mut line = Cursor::new(text);
    let mut header = Header::default();
    let (mut keys, mut form) = (0, 0);
    line.object(|line, key| {
        keys |= match key {
            b"cancels" => put(&mut header.cancels, members(line, cancel_rule), 1),
            b"completions" => put(&mut header.completions, counts(line), 2),
            b"dispatches" => put(&mut header.dispatches, members(line, dispatch), 4),
            b"drivers" => put(&mut header.drivers, members(line, driver), 8),
            b"form" => put(&mut form, line.number(), 16),
            b"locks" => put(&mut header.locks, line.number_32(), 32),
            b"seats" => put(&mut header.seats, line.number_32(), 64),
            b"slots" => put(&mut header.slots, line.number_32().map(Some), 128),
            _ => None,
        }?;
        Some(())
    })?;
    let has_all = matches!((form, keys), (1, 127) | (2, 255));
    (line.is_at_end() && has_all && is_header(&header)).then_some(header)
}

/// Whether a word line may have this text as its reply.
fn is_reply(text: &[u8], is_form_2: bool) -> bool {
    let both: [&[u8]; 6] = [
        b"ok",
        b"seat_full",
        b"not_held",
        b"already_removing",
        b"no_lock",
        b"yes",
    ];
    let of_slots: [&[u8]; 7] = [
        b"standing",
        b"lost",
        b"nothing",
        b"used",
        b"not_standing",
        b"no_slot",
        b"no_token",
    ];
    both.contains(&text) || (is_form_2 && of_slots.contains(&text))
}

fn word_reply(line: &mut Cursor, is_form_2: bool) -> Option<()> {
    if line.peek() == b'"' {
        return is_reply(line.text()?, is_form_2).then_some(());
    }
    let mut keys = 0;
    line.object(|line, key| {
        keys |= 1;
        match key {
            b"status" => matches!(line.number_32()?, 0 | 0xC000_0056).then_some(()),
            b"busy" => line.number().map(|_| ()),
            b"taken" if is_form_2 => line.number().map(|_| ()),
            _ => None,
        }
    })?;
    (keys == 1).then_some(())
}

/// The keys of word lines, each a bit.
const DO: u32 = 1;
const LOCK: u32 = 1 << 1;
const REPLY: u32 = 1 << 2;
const SEAT: u32 = 1 << 3;
const SLOT: u32 = 1 << 4;
const STEP: u32 = 1 << 5;
const TAG: u32 = 1 << 6;
const TO: u32 = 1 << 7;

/// A seat that the header has.
fn seat(line: &mut Cursor, header: &Header) -> Option<u32> {
    line.number_32().filter(|it| *it < header.seats)
}

/// Reads a word line of a transcript with this header, of which nothing is kept.
pub fn read_word(text: &[u8], header: &Header) -> Option<()> {
    let mut line = Cursor::new(text);
    let is_form_2 = header.slots.is_some();
    let (mut keys, mut does) = (0, &b""[..]);
    line.object(|line, key| {
        keys |= match key {
            b"do" => put(&mut does, line.text(), DO),
            b"lock" => line.number_32().map(|_| LOCK),
            b"reply" => word_reply(line, is_form_2).map(|()| REPLY),
            b"seat" => seat(line, header).map(|_| SEAT),
            b"slot" => line.number_32().map(|_| SLOT),
            b"step" => line.number_32().map(|_| STEP),
            b"tag" => line.number_32().map(|_| TAG),
            b"to" => seat(line, header).map(|_| TO),
            _ => None,
        }?;
        Some(())
    })?;
    let wanted = match does {
        b"acquire" | b"release" | b"begin_remove" => LOCK | TAG,
        b"drained" => LOCK,
        b"hand" if is_form_2 => LOCK | TAG | TO,
        b"publish" | b"withdraw" | b"request" | b"finish_taken" if is_form_2 => SLOT,
        _ => return None,
    };
    (line.is_at_end() && keys == wanted | DO | REPLY | SEAT | STEP).then_some(())
}
