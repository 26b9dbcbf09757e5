//! Reads the lines of transcripts: entries. None where a line has no such form.

use crate::cursor::{put, Cursor};
use crate::rules::{RoutineId, Setting, RULES};
use crate::types::*;

/// The fields of a call, as far as they stand there; those that don't are zeros. Each key has a bit.
#[derive(Default)]
struct Fields<'a> {
    does: &'a [u8],
    keys: u32,
    party: Option<Party>,
    irp: Option<IrpRef>,
    setting: Option<Setting>,
    cancel: Option<u32>,
    lock: Option<u32>,
    device: u32,
    driver: u32,
    /// The device that `to`, `lower` or `target` names.
    other: u32,
    status: u32,
    size: u8,
    major: u8,
    word: u64,
    information: u64,
    token: u64,
    is_drained: bool,
}

const DO: u32 = 1;
const BY: u32 = 1 << 1;
const IRP: u32 = 1 << 2;
const STATUS: u32 = 1 << 3;
const INFORMATION: u32 = 1 << 4;
const TARGET: u32 = 1 << 5;
const SIZE: u32 = 1 << 6;
const MAJOR: u32 = 1 << 7;
const WORD: u32 = 1 << 8;
const SET: u32 = 1 << 9;
const CANCEL: u32 = 1 << 10;
const DEVICE: u32 = 1 << 11;
const DRIVER: u32 = 1 << 12;
const LOCK: u32 = 1 << 13;
const TO: u32 = 1 << 14;
const LOWER: u32 = 1 << 15;
const DRAINED: u32 = 1 << 16;
const TOKEN: u32 = 1 << 17;

fn irp(line: &mut Cursor) -> Option<IrpRef> {
    line.bracketed(|line| {
        let slot = line.number_32()?;
        let use_no = line.then(Cursor::number)?;
        Some(IrpRef { slot, use_no })
    })
}

fn routine(line: &mut Cursor) -> Option<RoutineId> {
    let name = line.text()?;
    let (_, rule) = RULES.iter().find(|it| it.0.as_bytes() == name)?;
    let no = line.then(Cursor::number_32)?;
    Some(RoutineId { rule: *rule, no })
}

fn setting(line: &mut Cursor) -> Option<Setting> {
    line.bracketed(|line| {
        let routine = routine(line)?;
        let context = line.then(Cursor::number)?;
        let flags = line.then(Cursor::text)?;
        let mut rest = flags;
        let mut has = |letter: &[u8]| match rest.strip_prefix(letter) {
            Some(behind) => {
                rest = behind;
                true
            }
            None => false,
        };
        let (on_success, on_error, on_cancel) = (has(b"s"), has(b"e"), has(b"c"));
        rest.is_empty().then_some(Setting {
            routine,
            context,
            on_success,
            on_error,
            on_cancel,
        })
    })
}

fn shown(line: &mut Cursor) -> Option<Shown> {
    line.bracketed(|line| {
        let device = line.optional(Cursor::number_32)?;
        let slot = line.then(Cursor::number_32)?;
        let use_no = line.then(Cursor::number)?;
        Some(Shown {
            device,
            irp: IrpRef { slot, use_no },
            major: line.then(Cursor::number_8)?,
            location: u8::try_from(line.then(Cursor::number_32)?).unwrap_or(u8::MAX),
            word: line.then(Cursor::number)?,
            status: line.then(Cursor::number_32)?,
            information: line.then(Cursor::number)?,
            pending_returned: line.then(Cursor::truth)?,
            cancel: line.then(Cursor::truth)?,
            context: line.then(Cursor::number)?,
            has_lower: line.then(Cursor::truth)?,
        })
    })
}

fn plan(line: &mut Cursor, is_form_2: bool) -> Option<Plan> {
    line.bracketed(|line| {
        Some(match line.text()? {
            b"finish" => Plan::Finish {
                status: line.then(Cursor::number_32)?,
                information: line.then(Cursor::number)?,
            },
            b"hold" => Plan::Hold {
                cancel: line.then(|line| line.optional(Cursor::number_32))?,
            },
            b"hold_slot" if is_form_2 => Plan::HoldSlot,
            b"skip" => Plan::Skip,
            b"forward" => Plan::Forward {
                set: line.then(|line| line.optional(setting))?,
            },
            b"forward_pend" => Plan::ForwardPend {
                set: line.then(|line| line.optional(setting))?,
            },
            _ => return None,
        })
    })
}

/// What a completion routine or a cancel routine answered.
enum Answered {
    Completion(Answer),
    Cancel(CancelAnswer),
}

fn replacement(line: &mut Cursor) -> Option<Replacement> {
    line.bracketed(|line| {
        let status = line.number_32()?;
        let information = line.then(Cursor::number)?;
        Some(Replacement {
            status,
            information,
        })
    })
}

fn answered(line: &mut Cursor) -> Option<Answered> {
    line.bracketed(|line| {
        let name = line.text()?;
        Some(match name {
            b"finish" => Answered::Cancel(CancelAnswer::Finish {
                information: line.then(Cursor::number)?,
            }),
            b"leave" => Answered::Cancel(CancelAnswer::Leave),
            b"continue" | b"keep" => Answered::Completion(Answer {
                keep: name == b"keep",
                mark: line.then(Cursor::truth)?,
                replacement: line.then(|line| line.optional(replacement))?,
            }),
            _ => return None,
        })
    })
}

fn asked(line: &mut Cursor, is_form_2: bool) -> Option<Asked> {
    let (mut dispatch, mut completion, mut cancel) = (None, None, None);
    let (mut planned, mut answer, mut seen) = (None, None, None);
    line.object(|line, key| {
        match key {
            b"dispatch" => dispatch = Some(line.number_32()?),
            b"plan" => planned = Some(plan(line, is_form_2)?),
            b"shown" => seen = Some(shown(line)?),
            b"cancel" => cancel = Some(line.number_32()?),
            b"completion" => completion = Some(line.bracketed(routine)?),
            b"answer" => answer = Some(answered(line)?),
            _ => return None,
        }
        Some(())
    })?;
    let shown = seen?;
    Some(match (dispatch, completion, cancel, planned, answer) {
        (Some(id), None, None, Some(plan), None) => Asked::Dispatch { id, shown, plan },
        (None, Some(id), None, None, Some(Answered::Completion(answer))) => {
            Asked::Completion { id, shown, answer }
        }
        (None, None, Some(id), None, Some(Answered::Cancel(answer))) => {
            Asked::Cancel { id, shown, answer }
        }
        _ => return None,
    })
}

fn party(line: &mut Cursor) -> Option<Party> {
    if line.peek() == b'"' {
        return (line.text()? == b"o").then_some(Party::Originator);
    }
    line.number_32().map(Party::Device)
}

impl<'a> Fields<'a> {
    fn read(&mut self, line: &mut Cursor<'a>, key: &[u8]) -> Option<()> {
        self.keys |= match key {
            b"do" => put(&mut self.does, line.text(), DO),
            b"by" => put(&mut self.party, party(line).map(Some), BY),
            b"irp" => put(&mut self.irp, irp(line).map(Some), IRP),
            b"status" => put(&mut self.status, line.number_32(), STATUS),
            b"information" => put(&mut self.information, line.number(), INFORMATION),
            b"target" => put(&mut self.other, line.number_32(), TARGET),
            b"size" => put(&mut self.size, line.number_8(), SIZE),
            b"major" => put(&mut self.major, line.number_8(), MAJOR),
            b"word" => put(&mut self.word, line.number(), WORD),
            b"set" => put(&mut self.setting, setting(line).map(Some), SET),
            b"cancel" => put(&mut self.cancel, line.optional(Cursor::number_32), CANCEL),
            b"device" => put(&mut self.device, line.number_32(), DEVICE),
            b"driver" => put(&mut self.driver, line.number_32(), DRIVER),
            b"lock" => put(&mut self.lock, line.optional(Cursor::number_32), LOCK),
            b"to" => put(&mut self.other, line.number_32(), TO),
            b"lower" => put(&mut self.other, line.number_32(), LOWER),
            b"drained" => put(&mut self.is_drained, line.truth(), DRAINED),
            b"token" => put(&mut self.token, line.number(), TOKEN),
            _ => None,
        }?;
        Some(())
    }

    /// The call, and the keys that it has beside `do`.
    fn call(&self, is_form_2: bool) -> Option<(Call, u32)> {
        let (device, size) = (self.device, self.size);
        Some(match self.does {
            b"create_device" => {
                let (driver, lock) = (self.driver, self.lock?);
                (Call::CreateDevice { driver, lock }, DRIVER | LOCK)
            }
            b"attach" => (
                Call::Attach {
                    device,
                    to: self.other,
                },
                DEVICE | TO,
            ),
            b"detach" => (Call::Detach { lower: self.other }, LOWER),
            b"delete" => (Call::Delete { device }, DEVICE | DRAINED | LOCK),
            b"allocate" => (Call::Allocate { size }, SIZE),
            _ => self.call_on(self.irp?, is_form_2)?,
        })
    }

    /// The same of a call that names a packet.
    fn call_on(&self, irp: IrpRef, is_form_2: bool) -> Option<(Call, u32)> {
        let (status, information) = (self.status, self.information);
        Some(match self.does {
            b"free" => (Call::Free { irp }, IRP),
            b"reuse" => (Call::Reuse { irp, status }, IRP | STATUS),
            b"finish_taken" if is_form_2 => (
                Call::FinishTaken {
                    irp,
                    token: self.token,
                    status,
                    information,
                },
                IRP | STATUS | INFORMATION | TOKEN,
            ),
            b"cancel" => (Call::Cancel { irp }, IRP),
            b"look" => (Call::Look { irp }, IRP),
            _ => {
                let (call, keys) = self.call_by(irp, self.party?)?;
                (call, keys | IRP | BY)
            }
        })
    }

    /// The same of a call that names a party, too; its keys without `irp` and `by`.
    fn call_by(&self, irp: IrpRef, party: Party) -> Option<(Call, u32)> {
        let (major, word, target, cancel) = (self.major, self.word, self.other, self.cancel);
        let fill = Call::SetNext {
            party,
            irp,
            major,
            word,
        };
        Some(match self.does {
            b"set_next" => (fill, MAJOR | WORD),
            b"copy_to_next" => (Call::CopyToNext { party, irp }, 0),
            b"skip" => (Call::Skip { party, irp }, 0),
            b"set_routine" => {
                let setting = self.setting?;
                let call = Call::SetRoutine {
                    party,
                    irp,
                    setting,
                };
                (call, SET)
            }
            b"mark_pending" => (Call::MarkPending { party, irp }, 0),
            b"call_driver" => (Call::CallDriver { party, irp, target }, TARGET),
            b"complete" => (self.complete(irp, party), STATUS | INFORMATION),
            b"set_cancel_routine" => (Call::SetCancelRoutine { party, irp, cancel }, CANCEL),
            _ => return None,
        })
    }

    fn complete(&self, irp: IrpRef, party: Party) -> Call {
        Call::Complete {
            party,
            irp,
            status: self.status,
            information: self.information,
        }
    }
}

/// A call, with the lock of a Delete and whether it was known to be drained.
fn call(line: &mut Cursor, is_form_2: bool) -> Option<(Call, Option<u32>, bool)> {
    let mut fields = Fields::default();
    line.object(|line, key| fields.read(line, key))?;
    let (call, keys) = fields.call(is_form_2)?;
    if fields.keys != keys | DO {
        return None;
    }
    Some(match call {
        Call::Delete { .. } => (call, fields.lock, fields.is_drained),
        _ => (call, None, false),
    })
}

fn seen(line: &mut Cursor) -> Option<Seen> {
    line.bracketed(|line| {
        let owner = match line.peek() {
            b'"' => match line.text()? {
                b"o" => Owner::Originator,
                b"ended" => Owner::Ended,
                _ => return None,
            },
            _ => Owner::Device(line.number_32()?),
        };
        Some(Seen {
            owner,
            current: u8::try_from(line.then(Cursor::number_32)?).unwrap_or(u8::MAX),
            status: line.then(Cursor::number_32)?,
            information: line.then(Cursor::number)?,
            cancel: line.then(Cursor::truth)?,
            cancel_routine: line.then(|line| line.optional(Cursor::number_32))?,
            pending_returned: line.then(Cursor::truth)?,
            marked: line.then(Cursor::truth)?,
        })
    })
}

fn reply(line: &mut Cursor) -> Option<Reply> {
    if line.peek() == b'"' {
        return (line.text()? == b"done").then_some(Reply::Done);
    }
    let mut found = None;
    line.object(|line, key| {
        if found.is_some() {
            return None;
        }
        found = Some(match key {
            b"device" => Reply::Device(line.number_32()?),
            b"irp" => Reply::Irp(irp(line)?),
            b"status" => Reply::Status(line.number_32()?),
            b"previous" => Reply::Previous(line.optional(Cursor::number_32)?),
            b"cancelled" => Reply::Cancelled(line.truth()?),
            b"refused" => Reply::Refused(Refusal::named(line.text()?)?),
            b"seen" => Reply::Seen(seen(line)?),
            _ => return None,
        });
        Some(())
    })?;
    found
}

/// Reads an entry's line into the entry, whose room for questions is used again. Where the line has no such form, the
/// entry is any.
pub fn read_entry(text: &[u8], is_form_2: bool, entry: &mut Entry) -> Option<()> {
    let mut line = Cursor::new(text);
    let mut questions = std::mem::take(&mut entry.asked);
    questions.clear();
    let (mut called, mut number, mut replied) = (None, None, None);
    let (mut seat, mut has_asked) = (None, false);
    line.object(|line, key| {
        match key {
            b"asked" => {
                has_asked = true;
                line.list(|line| {
                    questions.push(asked(line, is_form_2)?);
                    Some(())
                })?;
            }
            b"call" => called = Some(call(line, is_form_2)?),
            b"n" => number = Some(line.number()?),
            b"reply" => replied = Some(reply(line)?),
            b"seat" => seat = Some(line.number_32()?),
            _ => return None,
        }
        Some(())
    })?;
    if !has_asked || !line.is_at_end() {
        return None;
    }
    let (call, lock, is_drained) = called?;
    *entry = Entry {
        number: number?,
        seat: seat?,
        call,
        lock,
        is_drained,
        asked: questions,
        reply: replied?,
    };
    Some(())
}
