//! Why the layer refused an event, told from the state that the event found.

use script::{Event, Form, Reply};
use tilgurap::{Cqe, Description, Handle, Layer, Opcode, Refusal, SlotState, Tag};

/// Why a list is refused, where it is.
fn list(layer: &Layer, list: &[u64]) -> Option<String> {
    for d in list {
        let wanted = list.iter().filter(|other| *other == d).count() as u64;
        if *d > 63 {
            return Some(format!("description {d} is over 63"));
        }
        if wanted > layer.holds(Description(*d)).outside {
            return Some(format!(
                "the host has too few holds of description {d} to send it"
            ));
        }
    }
    (list.len() > 16).then(|| "more than 16 descriptions are sent along".to_owned())
}

fn unknown_opcode(op: u64) -> Option<String> {
    let unknown = Opcode::new(op).is_none();
    unknown.then(|| format!("opcode {op} does not exist, they are 3 to 34"))
}

/// Why the host cannot use a hold of a description.
fn hold(layer: &Layer, d: u64) -> Option<String> {
    let holds = layer.holds(Description(d));
    if d > 63 {
        Some(format!("description {d} is over 63"))
    } else if holds.all == 0 {
        Some(format!("description {d} is not open"))
    } else if holds.outside == 0 {
        Some(format!("the host has no hold of description {d}"))
    } else {
        None
    }
}

/// What stands at a tag where something else was looked for.
fn standing(layer: &Layer, tag: u64) -> String {
    match layer.slot(Tag(tag)).state {
        SlotState::Vacant => format!("no call or map request has tag {tag}"),
        SlotState::Placeholder => format!("tag {tag} is reserved and not submitted"),
        SlotState::Waiting => format!("the call with tag {tag} waits for its reply"),
        SlotState::Responded => format!("the call with tag {tag} has its reply already"),
        SlotState::Fmap => format!("tag {tag} is a map request"),
    }
}

fn not_this_callers(layer: &Layer, tag: u64, caller: u32) -> String {
    let slot = layer.slot(Tag(tag));
    if slot.state == SlotState::Vacant {
        standing(layer, tag)
    } else if slot.caller.0 != caller {
        format!("tag {tag} is caller {}'s", slot.caller)
    } else if slot.ended {
        format!("caller {caller} has ended")
    } else if slot.returned {
        format!("the call with tag {tag} has returned already")
    } else {
        standing(layer, tag)
    }
}

/// Why the first of these completion entries is refused.
pub fn completion(layer: &Layer, bytes: &[u8]) -> String {
    let Some(bytes) = bytes.first_chunk() else {
        return "there is no whole entry".to_owned();
    };
    let entry = Cqe::from_bytes(bytes);
    let (kind, tag) = (entry.kind(), entry.tag());
    let slot = layer.slot(tag);
    match kind {
        6 | 7 => format!("kind {kind} does not exist"),
        2 => format!("event {tag} does not exist"),
        3 if entry.parse().is_err() => "it has flags that do not exist".to_owned(),
        3 if slot.state == SlotState::Waiting => {
            format!("the call with tag {tag} lists no description")
        }
        1 if layer.handle(Handle(entry.result())).is_none() => {
            format!("the driver's handle {} is empty", entry.result())
        }
        _ => standing(layer, tag.0),
    }
}

/// Why a call of this form reads a reply as an error.
fn front(form: Form, reply: &Reply) -> String {
    let takes = match form {
        Form::Fdwrite => "it takes a word or an error",
        Form::Fdread => "it takes a list of descriptions or an error",
    };
    match reply {
        Reply::Regular { result: Err(_), .. } => "so the driver replied".to_owned(),
        Reply::Regular { result: Ok(_), .. } => takes.to_owned(),
        Reply::Fd(_) | Reply::Many(_) => {
            format!("{takes}; what the reply holds is the host's to drop")
        }
    }
}

/// Why this event was refused with this number.
pub fn refusal(event: &Event, number: u64, layer: &Layer) -> String {
    let told = match (event, number) {
        (Event::Open { d: 0..=63 }, 205) => Some("it is open already".to_owned()),
        (Event::Open { d }, 205) => Some(format!("description {d} is over 63")),
        (Event::Copy { d } | Event::Drop { d }, 205) => hold(layer, *d),
        (Event::Put { d, h }, 205) => hold(layer, *d).or_else(|| match h {
            0..=63 => Some(format!("handle {h} is in use")),
            _ => Some(format!("handle {h} is over 63")),
        }),
        (Event::Submit { op, list: of, .. } | Event::Call { op, list: of, .. }, 205 | 206) => {
            unknown_opcode(*op).or_else(|| list(layer, of))
        }
        (Event::Move { list: of, .. } | Event::Fdwrite { list: of, .. }, 205 | 206) => {
            list(layer, of)
        }
        (Event::Fdread { len, .. }, 22) => Some(format!("its length, {len}, is no multiple of 8")),
        (Event::Front { form, reply }, _) => Some(front(*form, reply)),
        (Event::Wake { killed, .. }, 205) => {
            Some(format!("killed is {killed}, it has to be 0 or 1"))
        }
        (Event::Submit { tag, c, .. } | Event::Wake { tag, c, .. }, 201) => {
            Some(not_this_callers(layer, *tag, *c))
        }
        (Event::Wake { tag, .. }, 77) => Some(standing(layer, *tag)),
        (Event::Generic(_), 22) => Some("it takes one or two files".to_owned()),
        (Event::Stdfs(payload), 22) if payload.meta.len() < 3 => {
            Some("it takes three words of metadata".to_owned())
        }
        (Event::Stdfs(_), 22) => Some("it takes one or two files".to_owned()),
        (Event::Read { .. }, 22) => {
            Some("the queue is empty, and a whole entry has 64 bytes".to_owned())
        }
        (Event::Read { .. }, 11) => Some("the queue is empty".to_owned()),
        (Event::Write { .. }, 204) => {
            Some("54 words have to be lent for the effects of each whole entry".to_owned())
        }
        (Event::Write { bytes, .. }, _) => Some(completion(layer, bytes)),
        (Event::Move { meta, .. } | Event::Obtain { meta }, 22 | 2) => {
            let verb = u64::from(matches!(event, Event::Move { .. }));
            match meta[..] {
                [found, tag] if found == verb => Some(standing(layer, tag)),
                _ => Some(format!(
                    "its metadata have to be two words, {verb} and the tag"
                )),
            }
        }
        (
            Event::Supply {
                offset,
                base,
                count,
                ..
            },
            22,
        ) if offset % 4096 != 0 || base % 4096 != 0 || *count != 1 => {
            Some("it takes one page, with offset and base on a page's border".to_owned())
        }
        (Event::Supply { tag, .. }, 22 | 77) => Some(standing(layer, *tag)),
        (Event::Supply { .. }, 3) => {
            Some("the caller has ended; the slot is vacant again".to_owned())
        }
        _ => None,
    };
    told.unwrap_or_else(|| {
        let meaning = Refusal::from_number(number).map(Refusal::meaning);
        meaning.unwrap_or("an unknown refusal").to_owned()
    })
}
