//! Writes transcripts: a header line, and a line for each entry.

use crate::rules::{Known, RoutineId, Setting, CANCEL_RULES, RULES};
use crate::types::*;

/// A text that grows.
pub struct Writer {
    pub text: Vec<u8>,
}

/// The text of a transcript, with room for so many bytes from the beginning.
pub fn write_transcript(header: &Header, entries: &[Entry], room: usize) -> Vec<u8> {
    let mut writer = Writer {
        text: Vec::with_capacity(room),
    };
    writer.header(header);
    for entry in entries {
        writer.entry(entry);
    }
    writer.text
}

impl Writer {
    fn put(&mut self, text: &str) -> &mut Writer {
        self.text.extend_from_slice(text.as_bytes());
        self
    }

    fn number(&mut self, number: u64) -> &mut Writer {
        let mut digits = [0; 20];
        let mut first = digits.len();
        let mut rest = number;
        loop {
            first -= 1;
            digits[first] = b'0' + (rest % 10) as u8;
            rest /= 10;
            if rest == 0 {
                break;
            }
        }
        self.text.extend_from_slice(&digits[first..]);
        self
    }

    fn number_of(&mut self, number: impl Into<u64>) -> &mut Writer {
        self.number(number.into())
    }

    fn truth(&mut self, truth: bool) -> &mut Writer {
        self.put(if truth { "true" } else { "false" })
    }

    fn optional(&mut self, number: Option<u32>) -> &mut Writer {
        match number {
            Some(number) => self.number_of(number),
            None => self.put("null"),
        }
    }

    fn list<T>(&mut self, items: &[T], mut put: impl FnMut(&mut Writer, &T)) -> &mut Writer {
        self.put("[");
        for (place, item) in items.iter().enumerate() {
            if place > 0 {
                self.put(",");
            }
            put(self, item);
        }
        self.put("]")
    }

    fn irp(&mut self, irp: IrpRef) -> &mut Writer {
        self.put("[").number_of(irp.slot).put(",");
        self.number(irp.use_no).put("]")
    }

    fn party(&mut self, party: Party) -> &mut Writer {
        match party {
            Party::Originator => self.put("\"o\""),
            Party::Device(device) => self.number_of(device),
        }
    }

    fn routine(&mut self, routine: RoutineId) -> &mut Writer {
        let name = RULES[routine.rule as usize].0;
        self.put("[\"").put(name).put("\",").number_of(routine.no)
    }

    fn setting(&mut self, setting: &Setting) -> &mut Writer {
        self.routine(setting.routine).put(",");
        self.number(setting.context).put(",\"");
        self.put(if setting.on_success { "s" } else { "" });
        self.put(if setting.on_error { "e" } else { "" });
        self.put(if setting.on_cancel { "c" } else { "" });
        self.put("\"]")
    }

    fn optional_setting(&mut self, setting: &Option<Setting>) -> &mut Writer {
        match setting {
            Some(setting) => self.setting(setting),
            None => self.put("null"),
        }
    }

    fn pair(&mut self, status: u32, information: u64) -> &mut Writer {
        self.number_of(status).put(",").number(information)
    }

    fn shown(&mut self, shown: &Shown) -> &mut Writer {
        self.put("\"shown\":[").optional(shown.device).put(",");
        self.number_of(shown.irp.slot).put(",");
        self.number(shown.irp.use_no).put(",");
        self.number_of(shown.major).put(",");
        self.number_of(shown.location).put(",");
        self.number(shown.word).put(",");
        self.pair(shown.status, shown.information).put(",");
        self.truth(shown.pending_returned).put(",");
        self.truth(shown.cancel).put(",");
        self.number(shown.context).put(",");
        self.truth(shown.has_lower).put("]}")
    }

    fn plan(&mut self, plan: &Plan) -> &mut Writer {
        match plan {
            Plan::Finish {
                status,
                information,
            } => self.put("[\"finish\",").pair(*status, *information),
            Plan::Hold { cancel } => self.put("[\"hold\",").optional(*cancel),
            Plan::HoldSlot => self.put("[\"hold_slot\""),
            Plan::Skip => self.put("[\"skip\""),
            Plan::Forward { set } => self.put("[\"forward\",").optional_setting(set),
            Plan::ForwardPend { set } => self.put("[\"forward_pend\",").optional_setting(set),
        };
        self.put("]")
    }

    fn answer(&mut self, answer: &Answer) -> &mut Writer {
        self.put(if answer.keep {
            "[\"keep\","
        } else {
            "[\"continue\","
        });
        self.truth(answer.mark).put(",");
        match answer.replacement {
            Some(given) => {
                self.put("[").pair(given.status, given.information);
                self.put("]")
            }
            None => self.put("null"),
        };
        self.put("]")
    }

    fn asked(&mut self, asked: &Asked) {
        match asked {
            Asked::Dispatch { id, shown, plan } => {
                self.put("{\"dispatch\":").number_of(*id);
                self.put(",\"plan\":").plan(plan);
                self.put(",").shown(shown);
            }
            Asked::Completion { id, shown, answer } => {
                self.put("{\"answer\":").answer(answer);
                self.put(",\"completion\":").routine(*id);
                self.put("],").shown(shown);
            }
            Asked::Cancel { id, shown, answer } => {
                match answer {
                    CancelAnswer::Finish { information } => {
                        self.put("{\"answer\":[\"finish\",").number(*information)
                    }
                    CancelAnswer::Leave => self.put("{\"answer\":[\"leave\""),
                };
                self.put("],\"cancel\":").number_of(*id);
                self.put(",").shown(shown);
            }
        }
    }

    /// A call's key `do`, and the packet that it names.
    fn does(&mut self, name: &str, irp: IrpRef) -> &mut Writer {
        self.put("\"do\":\"").put(name).put("\",\"irp\":").irp(irp)
    }

    /// The same of a party.
    fn does_by(&mut self, party: Party, name: &str, irp: IrpRef) -> &mut Writer {
        self.put("\"by\":").party(party).put(",").does(name, irp)
    }

    /// The keys of a call of a party.
    fn call_by(&mut self, call: &Call) -> &mut Writer {
        match *call {
            Call::SetNext {
                party,
                irp,
                major,
                word,
            } => {
                self.does_by(party, "set_next", irp).put(",\"major\":");
                self.number_of(major).put(",\"word\":").number(word)
            }
            Call::CopyToNext { party, irp } => self.does_by(party, "copy_to_next", irp),
            Call::Skip { party, irp } => self.does_by(party, "skip", irp),
            Call::SetRoutine {
                party,
                irp,
                setting,
            } => {
                self.does_by(party, "set_routine", irp).put(",\"set\":");
                self.setting(&setting)
            }
            Call::MarkPending { party, irp } => self.does_by(party, "mark_pending", irp),
            Call::CallDriver { party, irp, target } => {
                self.does_by(party, "call_driver", irp);
                self.put(",\"target\":").number_of(target)
            }
            _ => unreachable!("no party makes another call"),
        }
    }

    /// The keys of a call without a party that names a packet.
    fn call_on(&mut self, call: &Call) -> &mut Writer {
        match *call {
            Call::Free { irp } => self.does("free", irp),
            Call::Reuse { irp, status } => self
                .does("reuse", irp)
                .put(",\"status\":")
                .number_of(status),
            Call::FinishTaken {
                irp,
                token,
                status,
                information,
            } => {
                self.put("\"do\":\"finish_taken\",\"information\":");
                self.number(information).put(",\"irp\":").irp(irp);
                self.put(",\"status\":").number_of(status);
                self.put(",\"token\":").number(token)
            }
            Call::Cancel { irp } => self.does("cancel", irp),
            Call::Look { irp } => self.does("look", irp),
            _ => self.call_in_order(call),
        }
    }

    /// The keys of a call of a party, of which one stands before `do` or between `do` and `irp`.
    fn call_in_order(&mut self, call: &Call) -> &mut Writer {
        match *call {
            Call::SetCancelRoutine { party, irp, cancel } => {
                self.put("\"by\":").party(party);
                self.put(",\"cancel\":").optional(cancel).put(",");
                self.does("set_cancel_routine", irp)
            }
            Call::Complete {
                party,
                irp,
                status,
                information,
            } => {
                self.put("\"by\":").party(party);
                self.put(",\"do\":\"complete\",\"information\":");
                self.number(information).put(",\"irp\":").irp(irp);
                self.put(",\"status\":").number_of(status)
            }
            _ => self.call_by(call),
        }
    }

    fn call(&mut self, entry: &Entry) -> &mut Writer {
        self.put("{");
        match entry.call {
            Call::CreateDevice { driver, lock } => {
                self.put("\"do\":\"create_device\",\"driver\":")
                    .number_of(driver);
                self.put(",\"lock\":").number_of(lock)
            }
            Call::Attach { device, to } => {
                self.put("\"device\":").number_of(device);
                self.put(",\"do\":\"attach\",\"to\":").number_of(to)
            }
            Call::Detach { lower } => self.put("\"do\":\"detach\",\"lower\":").number_of(lower),
            Call::Delete { device } => {
                self.put("\"device\":").number_of(device);
                self.put(",\"do\":\"delete\",\"drained\":");
                self.truth(entry.is_drained).put(",\"lock\":");
                self.optional(entry.lock)
            }
            Call::Allocate { size } => self.put("\"do\":\"allocate\",\"size\":").number_of(size),
            _ => self.call_on(&entry.call),
        };
        self.put("}")
    }

    fn seen(&mut self, seen: &Seen) -> &mut Writer {
        self.put("{\"seen\":[");
        match seen.owner {
            Owner::Originator => self.put("\"o\""),
            Owner::Device(device) => self.number_of(device),
            Owner::Ended => self.put("\"ended\""),
        };
        self.put(",").number_of(seen.current).put(",");
        self.pair(seen.status, seen.information).put(",");
        self.truth(seen.cancel).put(",");
        self.optional(seen.cancel_routine).put(",");
        self.truth(seen.pending_returned).put(",");
        self.truth(seen.marked).put("]}")
    }

    fn reply(&mut self, reply: &Reply) -> &mut Writer {
        match reply {
            Reply::Done => return self.put("\"done\""),
            Reply::Device(device) => self.put("{\"device\":").number_of(*device),
            Reply::Irp(irp) => self.put("{\"irp\":").irp(*irp),
            Reply::Status(status) => self.put("{\"status\":").number_of(*status),
            Reply::Previous(cancel) => self.put("{\"previous\":").optional(*cancel),
            Reply::Cancelled(truth) => self.put("{\"cancelled\":").truth(*truth),
            Reply::Refused(refusal) => {
                let name = refusal.name();
                self.put("{\"refused\":\"").put(name).put("\"")
            }
            Reply::Seen(seen) => return self.seen(seen),
        };
        self.put("}")
    }

    /// The line of an entry, with its newline.
    pub fn entry(&mut self, entry: &Entry) {
        self.put("{\"asked\":");
        self.list(&entry.asked, |writer, asked| writer.asked(asked));
        self.put(",\"call\":").call(entry);
        self.put(",\"n\":").number(entry.number);
        self.put(",\"reply\":").reply(&entry.reply);
        self.put(",\"seat\":").number_of(entry.seat).put("}\n");
    }

    fn counts(&mut self, known: &Known) {
        let [watch, change, keeper, keep_on_error, free] = known.completions;
        let counts = [watch, change, keeper, keep_on_error, free, known.cancels];
        self.list(&counts, |writer, count| {
            writer.number_of(*count);
        });
    }

    fn driver(&mut self, pairs: &[(u8, u32)]) {
        self.list(pairs, |writer, (major, dispatch)| {
            writer.put("[").number_of(*major).put(",");
            writer.number_of(*dispatch).put("]");
        });
    }

    /// The line of a header, with its newline.
    pub fn header(&mut self, header: &Header) {
        self.put("{\"cancels\":");
        self.list(&header.cancels, |writer, rule| {
            writer.put("\"").put(CANCEL_RULES[*rule as usize]).put("\"");
        });
        self.put(",\"completions\":");
        self.list(&header.completions, |writer, count| {
            writer.number_of(*count);
        });
        self.put(",\"dispatches\":");
        self.list(&header.dispatches, |writer, known| writer.counts(known));
        self.put(",\"drivers\":");
        self.list(&header.drivers, |writer, pairs| writer.driver(pairs));
        let form = if header.slots.is_some() { "2" } else { "1" };
        self.put(",\"form\":").put(form);
        self.put(",\"locks\":").number_of(header.locks);
        self.put(",\"seats\":").number_of(header.seats);
        if let Some(slots) = header.slots {
            self.put(",\"slots\":").number_of(slots);
        }
        self.put("}\n");
    }
}
