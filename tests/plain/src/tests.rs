//! What says that this is the same manager: the repository's examples, byte by byte and verdict by verdict.

use crate::asking::Store;
use crate::judge::{Judge, Verdict};
use crate::locks::{Refused, RemoveLock, RemoveSeat};
use crate::orders::{explore, Act};
use crate::session::open;
use crate::slots::{self, Outcome, Token};
use crate::status::SUCCESS;
use crate::texts::{check, read_transcript};
use crate::types::*;
use crate::works::By;
use crate::writer::write_transcript;
use std::fs;
use std::path::PathBuf;
use std::sync::atomic::Ordering::SeqCst;

const EXAMPLES: &str = concat!(env!("CARGO_MANIFEST_DIR"), "/../../examples");

/// The transcript that `irpx demo` prints.
const DEMO: &str =
    include_str!("../../../examples/sending/one_device_finishes_one_packet.transcript");

/// All transcripts among the examples.
fn transcripts() -> Vec<PathBuf> {
    let folders = fs::read_dir(EXAMPLES).expect("the examples are there");
    let folders = folders.map(|it| it.expect("the folder is read").path());
    let files = folders.filter(|it| it.is_dir()).flat_map(|folder| {
        let files = fs::read_dir(folder).expect("the folder is read");
        files.map(|it| it.expect("the folder is read").path())
    });
    let found: Vec<_> = files
        .filter(|it| it.extension().is_some_and(|it| it == "transcript"))
        .collect();
    assert!(found.len() > 100);
    found
}

fn verdict_on(text: &[u8]) -> Verdict {
    check(&mut &*text).expect("a text in memory can be read")
}

/// The number behind these words of a text.
fn number_behind(text: &str, words: &str) -> Option<u64> {
    let rest = text.strip_prefix(words)?;
    let digits = rest.split(|it: char| !it.is_ascii_digit()).next()?;
    digits.parse().ok()
}

/// The verdict on an example: by what `irp_view why` is expected to say; else it is legal.
fn expected(path: &PathBuf, text: &str) -> Verdict {
    let entries = text.matches("\"n\":").count() as u64;
    let Ok(said) = fs::read_to_string(path.with_extension("expected")) else {
        return Verdict::Legal(entries);
    };
    let illegal = number_behind(&said, "entry ").map(Verdict::Illegal);
    let refused = number_behind(&said, "irp: transcript refused: line ").map(Verdict::Refused);
    illegal.or(refused).unwrap_or(Verdict::Legal(entries))
}

#[test]
fn examples_have_their_verdicts() {
    for path in transcripts() {
        let is_run = path.with_extension("script").exists();
        if !is_run && !path.with_extension("expected").exists() {
            continue;
        }
        let text = fs::read_to_string(&path).expect("the example is read");
        let wanted = expected(&path, &text);
        assert_eq!(verdict_on(text.as_bytes()), wanted, "{}", path.display());
    }
}

#[test]
fn what_was_read_is_written_again() {
    for path in transcripts() {
        let text = fs::read(&path).expect("the example is read");
        if let Some((header, entries)) = read_transcript(&text) {
            let written = write_transcript(&header, &entries, 0);
            let behind = text.strip_prefix(written.as_slice());
            let behind = behind.unwrap_or_else(|| panic!("{}", path.display()));
            assert!(behind.is_empty() || behind.starts_with(b"{\"do\""));
        }
    }
}

#[test]
fn demo_is_the_same_bytes() {
    let mut store = Store::default();
    let dispatch = store.add_dispatch(Box::new(|_| Plan::Finish {
        status: SUCCESS,
        information: 5,
    }));
    store.add_driver(&[(3, dispatch)]);
    let (session, mut seats) = open(store, 1, None);
    let (party, irp) = (Party::Originator, IrpRef { slot: 0, use_no: 1 });
    let fill = Call::SetNext {
        party,
        irp,
        major: 3,
        word: 7,
    };
    let (driver, lock, target) = (0, 0, 0);
    for call in [
        Call::CreateDevice { driver, lock },
        Call::Allocate { size: 1 },
        fill,
        Call::CallDriver { party, irp, target },
    ] {
        assert!(session.call(&mut seats[0], call, |_| false).is_some());
    }
    let (header, entries) = session.close(&seats).expect("the seats are the session's");
    let written = write_transcript(&header, &entries, 0);
    assert_eq!(String::from_utf8(written).expect("ASCII"), DEMO);
}

#[test]
fn each_beginning_of_the_demo_has_its_verdict() {
    for length in 1..DEMO.len() {
        let text = &DEMO.as_bytes()[..length];
        let lines = text.iter().filter(|it| **it == b'\n').count() as u64;
        let wanted = match text.ends_with(b"\n") {
            true => Verdict::Legal(lines - 1),
            false => Verdict::Refused(lines + 1),
        };
        assert_eq!(verdict_on(text), wanted, "the first {length} bytes");
    }
    assert_eq!(verdict_on(b""), Verdict::Legal(0));
    assert_eq!(verdict_on(b"x\n"), Verdict::Refused(1));
}

#[test]
fn changed_demos_have_their_verdicts() {
    let asked = concat!(
        "{\"dispatch\":0,\"plan\":[\"finish\",0,5],",
        "\"shown\":[0,0,1,3,1,7,0,0,false,false,0,false]}"
    );
    let changes: [(&str, &str, Verdict); 6] = [
        ("{\"status\":0}", "{\"status\":259}", Verdict::Illegal(3)),
        ("\"n\":1", "\"n\":7", Verdict::Illegal(1)),
        ("{\"irp\":[0,1]}", "{\"irp\":[0,2]}", Verdict::Illegal(1)),
        ("1,3,1,7", "1,3,1,8", Verdict::Illegal(3)),
        ("\"size\":1", "\"size\":17", Verdict::Illegal(1)),
        (asked, "", Verdict::Illegal(3)),
    ];
    for (from, to, wanted) in changes {
        let text = DEMO.replacen(from, to, 1);
        assert_eq!(verdict_on(text.as_bytes()), wanted, "{to} for {from}");
    }
    // Any slot that isn't live may be a new packet's.
    for slot in ["5", "4095", "4096", "4294967295"] {
        let text = DEMO.replace("[0,1]", &format!("[{slot},1]"));
        let text = text.replace("[0,0,1,3", &format!("[0,{slot},1,3"));
        assert_eq!(verdict_on(text.as_bytes()), Verdict::Legal(4));
    }
}

#[test]
fn histories_of_four_seats_are_legal() {
    let work = crate::table::rounds(4000, By::Seats(4));
    let transcript = crate::works::do_work(&work).transcript;
    let (header, mut entries) = transcript.expect("the work is recorded");
    let judged = |entries: &[Entry]| {
        let mut judge = Judge::new(&header);
        entries.iter().for_each(|it| judge.feed(it));
        judge.verdict()
    };
    assert_eq!(entries.len(), 4000);
    assert_eq!(judged(&entries), Verdict::Legal(4000));
    let text = write_transcript(&header, &entries, 0);
    assert_eq!(verdict_on(&text), Verdict::Legal(4000));
    entries[100].reply = Reply::Refused(Refusal::BadMajor);
    assert_eq!(judged(&entries), Verdict::Illegal(100));
    let text = write_transcript(&header, &entries, 0);
    assert_eq!(verdict_on(&text), Verdict::Illegal(100));
}

#[test]
fn every_order_at_a_lock_is_counted() {
    let pair = [Act::Acquire(0), Act::Release(0)];
    let ends = explore(2, &pair);
    assert_eq!((ends.orders, ends.outcomes, ends.most_held), (6, 1, 0));
    // Either seat removes first, in two steps. Where the other one has acquired before, the two acquires stand in
    // either order, and so do the giving back and the refused removal: 4 orders, and a reference is left. Else its
    // acquire is refused in two steps, its removal in one, and the giving back stands in one of 4 places among these.
    let removal = [Act::Acquire(0), Act::BeginRemove(0)];
    let ends = explore(2, &removal);
    assert_eq!((ends.orders, ends.outcomes, ends.most_held), (16, 4, 1));
}

#[test]
fn a_lock_refuses_once_removal_has_begun() {
    let locks = [RemoveLock::new()];
    let mut seat = RemoveSeat::default();
    assert_eq!(seat.acquire(&locks, 1, 0), Err(Refused::NoLock));
    for tag in 0..64 {
        assert_eq!(seat.acquire(&locks, 0, tag), Ok(()));
    }
    assert_eq!(seat.acquire(&locks, 0, 64), Err(Refused::SeatFull));
    assert_eq!(seat.release(&locks, 0, 64), Err(Refused::NotHeld));
    assert_eq!(seat.release(&locks, 0, 63), Ok(()));
    locks[0].0.fetch_or(1, SeqCst);
    let refused = seat.acquire(&locks, 0, 63);
    assert_eq!(refused, Err(Refused::Removing(0xC000_0056)));
    assert_eq!(locks[0].0.load(SeqCst), 2 * 63 + 1);
}

#[test]
fn one_party_takes_a_published_use() {
    let (slots, mut owners) = slots::open(3);
    let irp = IrpRef { slot: 0, use_no: 7 };
    let taken = || Outcome::Taken(Token(7));
    assert_eq!(slots.publish(&mut owners[0], irp), Outcome::Standing);
    assert_eq!(slots.withdraw(&mut owners[0]), taken());
    assert_eq!(slots.request(0), Outcome::Nothing);
    assert_eq!(slots.publish(&mut owners[0], irp), Outcome::Used);
    assert_eq!(slots.publish(&mut owners[1], irp), Outcome::Standing);
    assert_eq!(slots.request(1), taken());
    assert_eq!(slots.withdraw(&mut owners[1]), Outcome::Lost);
    assert_eq!(slots.withdraw(&mut owners[1]), Outcome::NotStanding);
    assert_eq!(slots.request(2), Outcome::Nothing);
    assert_eq!(slots.publish(&mut owners[2], irp), taken());
    assert_eq!(slots.request(3), Outcome::NoSlot);
}
