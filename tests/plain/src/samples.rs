//! Transcripts of sessions and their texts: written, read and judged.

use crate::done::Done;
use crate::judge::{Judge, Verdict};
use crate::texts::{check, read_transcript};
use crate::types::{Entry, Header};
use crate::works::{do_work, Batch, By, Work};
use crate::writer::write_transcript;
use std::time::{Duration, Instant};

/// How many devices stand in the stack that packets are sent through.
const DEVICES: u32 = 4;

/// How many calls come first: four devices are created, three attached, and a packet is allocated.
const FIRST_CALLS: u32 = 8;

/// What is done with a transcript or its text.
#[derive(Clone, Copy)]
pub enum Task {
    /// The transcript is written.
    Write,
    /// The text is read as a transcript.
    Read,
    /// The transcript is judged.
    Judge,
    /// The text is read and judged.
    Check,
}

/// A transcript and its text.
pub struct Sample {
    pub header: Header,
    pub entries: Vec<Entry>,
    pub text: Vec<u8>,
}

/// The work of sending so many packets through so many devices, each so often.
pub fn sends(devices: u32, packets: u32, batches: u32, by: By) -> Work {
    Work {
        devices,
        packets,
        locations: devices as u8,
        batch: Batch::Sent,
        batches,
        by,
    }
}

/// The transcript of a work in one session, and its text.
pub fn sample_of(work: &Work) -> Sample {
    let transcript = do_work(work).transcript;
    let (header, entries) = transcript.expect("the work is recorded");
    let text = write_transcript(&header, &entries, 0);
    Sample {
        header,
        entries,
        text,
    }
}

/// A transcript of so many entries: a packet is sent through four devices again and again, with the three calls before
/// each send that make it ready.
pub fn record_sample(entries: u32) -> Sample {
    let batches = (entries - FIRST_CALLS) / 4;
    let sample = sample_of(&sends(DEVICES, 1, batches, By::Seats(1)));
    assert!(sample.entries.len() == entries as usize);
    sample
}

/// Does a task, and answers how long it took. To drop what came of it is not in the time.
fn time(task: Task, sample: &Sample) -> Duration {
    let (entries, text) = (&sample.entries, &sample.text);
    let start = Instant::now();
    match task {
        Task::Write => {
            let written = write_transcript(&sample.header, entries, text.len());
            let taken = start.elapsed();
            assert!(written == *text);
            taken
        }
        Task::Read => {
            let read = read_transcript(text);
            let taken = start.elapsed();
            assert!(read.is_some_and(|it| it.1.len() == entries.len()));
            taken
        }
        Task::Judge => {
            let mut judge = Judge::new(&sample.header);
            entries.iter().for_each(|it| judge.feed(it));
            assert!(judge.verdict() == Verdict::Legal(entries.len() as u64));
            start.elapsed()
        }
        Task::Check => {
            let verdict = check(&mut text.as_slice()).expect("a text in memory can be read");
            assert!(verdict == Verdict::Legal(entries.len() as u64));
            start.elapsed()
        }
    }
}

/// Times a task.
pub fn perform(task: Task, sample: &Sample) -> Done {
    Done {
        count: sample.entries.len() as u32,
        bytes: sample.text.len() as u64,
        taken: time(task, sample),
    }
}
